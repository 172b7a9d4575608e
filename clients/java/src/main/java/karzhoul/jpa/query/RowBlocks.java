package karzhoul.jpa.query;

import java.util.ArrayList;
import java.util.Collections;
import java.util.IdentityHashMap;
import java.util.List;
import java.util.Set;
import karzhoul.jpa.query.Tree.And;
import karzhoul.jpa.query.Tree.Compare;
import karzhoul.jpa.query.Tree.Condition;
import karzhoul.jpa.query.Tree.Derived;
import karzhoul.jpa.query.Tree.Exists;
import karzhoul.jpa.query.Tree.IsEmpty;
import karzhoul.jpa.query.Tree.IsNull;
import karzhoul.jpa.query.Tree.Item;
import karzhoul.jpa.query.Tree.Join;
import karzhoul.jpa.query.Tree.Literal;
import karzhoul.jpa.query.Tree.Member;
import karzhoul.jpa.query.Tree.Outer;
import karzhoul.jpa.query.Tree.Range;
import karzhoul.jpa.query.Tree.Reference;
import karzhoul.jpa.query.Tree.Select;
import karzhoul.jpa.query.Tree.Source;
import karzhoul.jpa.query.Tree.Value;
import karzhoul.jpa.query.Tree.Variable;

/**
 * Makes of a block a question of its own, which the door asks for each row around it: what the block names from outside
 * is a constant then. A collection of a variable from outside, in FROM, is joined from a variable that is the same.
 */
final class RowBlocks extends Rewriting {
    /** A block with the paths from outside that it names. */
    record Block(SelectPlan plan, List<Reference> outside) {}

    private final Set<Variable> own = Collections.newSetFromMap(new IdentityHashMap<>());
    private final List<Reference> outside = new ArrayList<>();

    private RowBlocks() {}

    /**
     * The block as a question.
     *
     * @throws NotKept where it can't be one
     */
    static Block of(Planner planner, Select select, boolean isExists) {
        RowBlocks blocks = new RowBlocks();
        new Rewriting() {
            @Override
            Source source(Source source) {
                blocks.own.add(source.variable());
                return sourceWithin(source);
            }
        }.select(select);
        Select alone = blocks.select(isExists ? withoutItem(select) : select);
        return new Block(planner.select(alone), blocks.outside);
    }

    /** What EXISTS selects need not be read, where it leaves no row out. */
    private static Select withoutItem(Select select) {
        Value item = select.items().get(0).value();
        boolean isVariable = item instanceof Reference path && path.isEntity() && path.steps().isEmpty();
        return !isVariable ? select : new Select(select.at(), false, List.of(new Item(new Literal(item.at(), 1), null)),
                select.sources(), select.where(), select.groups(), select.having(), select.order());
    }

    /** A condition with blocks in the place of tests of collections, which the door can ask. */
    static Condition ofCollections(Condition condition) {
        return new Rewriting() {
            @Override
            Condition condition(Condition part) {
                if (part instanceof IsEmpty of && of.path() instanceof Reference path) {
                    return exists(of.at(), !of.isNot(), path, null);
                } else if (part instanceof Member of && of.path() instanceof Reference path) {
                    Condition found = exists(of.at(), of.isNot(), path, of.value());
                    return !of.isNot() ? found
                            : new And(of.at(), List.of(found, new IsNull(of.at(), true, of.value())));
                }
                return conditionWithin(part);
            }

            @Override
            Select select(Select select) {
                return select;
            }
        }.condition(condition);
    }

    private static Condition exists(int at, boolean isNot, Reference path, Value member) {
        Variable one = new Variable("one", path.entity());
        Reference itself = new Reference(at, one, List.of(), null, false);
        Condition where = member == null ? null : new Compare(at, "=", itself, member);
        return new Exists(at, isNot, new Select(at, false, List.of(new Item(itself, null)),
                List.of(new Derived(at, false, path, one.name, one)), where, List.of(), null, List.of()));
    }

    @Override
    Value value(Value value) {
        if (!(value instanceof Reference path) || own.contains(path.variable())) {
            return valueWithin(value);
        }
        if (path.isCollection()) {
            throw new NotKept(path.at(), "\"" + path + "\" is a collection of a variable from outside; name it in the "
                    + "FROM of the subquery");
        }
        return outer(path);
    }

    private Outer outer(Reference path) {
        for (Reference known : outside) {
            if (known.isSame(path)) {
                return new Outer(path.at(), known);
            }
        }
        outside.add(path);
        return new Outer(path.at(), path);
    }

    @Override
    Select select(Select select) {
        List<Source> sources = new ArrayList<>();
        List<Condition> all = new ArrayList<>();
        for (Source source : select.sources()) {
            if (source instanceof Derived derived && derived.path() instanceof Reference path
                    && !own.contains(path.variable())) {
                joined(derived, path, sources, all);
            } else {
                sources.add(source);
            }
        }
        if (select.where() != null) {
            all.addAll(Planner.conjuncts(select.where()));
        }
        Condition where = all.isEmpty() ? null : all.size() == 1 ? all.get(0) : new And(all.get(0).at(), all);
        return selectWithin(new Select(select.at(), select.isDistinct(), select.items(), sources, where, select.groups(),
                select.having(), select.order()));
    }

    private void joined(Derived derived, Reference path, List<Source> sources, List<Condition> all) {
        Variable same = new Variable(path.variable().name, path.variable().entity);
        own.add(same);
        int at = derived.at();
        sources.add(new Range(at, same.entity.name(), same.name, same));
        sources.add(new Join(at, false, false, new Reference(at, same, path.steps(), null, false), derived.name(),
                derived.variable(), null));
        all.add(new Compare(at, "=", new Reference(at, same, List.of(), null, false),
                new Reference(at, path.variable(), List.of(), null, false)));
    }
}
