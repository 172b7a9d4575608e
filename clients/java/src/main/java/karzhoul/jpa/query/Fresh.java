package karzhoul.jpa.query;

import java.util.IdentityHashMap;
import java.util.Map;
import karzhoul.jpa.query.Tree.Derived;
import karzhoul.jpa.query.Tree.Join;
import karzhoul.jpa.query.Tree.Range;
import karzhoul.jpa.query.Tree.Reference;
import karzhoul.jpa.query.Tree.Select;
import karzhoul.jpa.query.Tree.Source;
import karzhoul.jpa.query.Tree.Value;
import karzhoul.jpa.query.Tree.Variable;

/** Copies a block with variables of its own, so that it can stand in a statement twice. */
final class Fresh extends Rewriting {
    private final Map<Variable, Variable> copies = new IdentityHashMap<>();

    static Select copy(Select select) {
        return new Fresh().select(select);
    }

    /** A copy, with a value that stands behind it and may name its variables. */
    Value value(Value value) {
        if (value instanceof Reference path && copies.containsKey(path.variable())) {
            return new Reference(path.at(), copies.get(path.variable()), path.steps(), path.attribute(),
                    path.isWholeKey());
        }
        return valueWithin(value);
    }

    @Override
    Source source(Source source) {
        Variable copy = new Variable(source.variable().name, source.variable().entity);
        Source within = source instanceof Join ? source : sourceWithin(source);
        copies.put(source.variable(), copy);
        if (source instanceof Join) {
            within = sourceWithin(source);
        }
        if (within instanceof Range of) {
            return new Range(of.at(), of.entity(), of.name(), copy);
        } else if (within instanceof Derived of) {
            return new Derived(of.at(), of.isMember(), of.path(), of.name(), copy);
        }
        Join of = (Join) within;
        return new Join(of.at(), of.isLeft(), of.isFetch(), of.path(), of.name(), copy, of.on());
    }
}
