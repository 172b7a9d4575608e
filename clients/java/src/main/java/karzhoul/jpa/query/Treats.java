package karzhoul.jpa.query;

import java.util.ArrayList;
import java.util.List;
import karzhoul.jpa.model.EntityModel;
import karzhoul.jpa.query.Tree.And;
import karzhoul.jpa.query.Tree.Compare;
import karzhoul.jpa.query.Tree.Condition;
import karzhoul.jpa.query.Tree.Derived;
import karzhoul.jpa.query.Tree.Downcast;
import karzhoul.jpa.query.Tree.EntityName;
import karzhoul.jpa.query.Tree.Exists;
import karzhoul.jpa.query.Tree.IsNull;
import karzhoul.jpa.query.Tree.Item;
import karzhoul.jpa.query.Tree.Join;
import karzhoul.jpa.query.Tree.Or;
import karzhoul.jpa.query.Tree.Range;
import karzhoul.jpa.query.Tree.Reference;
import karzhoul.jpa.query.Tree.Select;
import karzhoul.jpa.query.Tree.Source;
import karzhoul.jpa.query.Tree.TypeIs;
import karzhoul.jpa.query.Tree.Value;
import karzhoul.jpa.query.Tree.Variable;

/**
 * Downcasts (chapter 4.4.9). A join of TREAT is one along the relation, and a range over the class below that is the
 * same object. A test with a TREAT asks whether there is such an object for which it is true; {@link Negation} has
 * passed before, so that for an object of another class neither the test nor its opposite is. In the other clauses there is
 * none any more: {@link TreatedRanges} has passed.
 */
final class Treats extends Rewriting {
    private final String text;
    private List<Condition> moved = new ArrayList<>();

    Treats(String text) {
        this.text = text;
    }

    /** WHERE of an UPDATE or DELETE. */
    Condition filter(Condition where) {
        return where == null ? null : with(condition(where));
    }

    @Override
    Select select(Select select) {
        List<Condition> outer = moved;
        moved = new ArrayList<>();
        List<Source> sources = new ArrayList<>();
        for (Source source : select.sources()) {
            add(select, source, sources);
        }
        Condition where = conditionOrNull(select.where());
        where = with(where);
        moved = outer;
        return new Select(select.at(), select.isDistinct(), each(select.items(), this::item), sources, where,
                select.groups(), conditionOrNull(select.having()), select.order());
    }

    private Condition with(Condition where) {
        if (moved.isEmpty()) {
            return where;
        }
        List<Condition> all = new ArrayList<>();
        if (where != null) {
            all.addAll(Planner.conjuncts(where));
        }
        all.addAll(moved);
        moved = new ArrayList<>();
        return all.size() == 1 ? all.get(0) : new And(all.get(0).at(), all);
    }

    private static boolean hasDowncast(Condition condition) {
        return Visiting.has(condition, Downcast.class::isInstance);
    }

    // ---- FROM

    private void add(Select select, Source source, List<Source> sources) {
        if (source instanceof Join join) {
            Reference path = (Reference) join.path();
            if (join.variable().entity == path.entity()) {
                if (join.on() != null && join.isLeft() && hasDowncast(join.on())) {
                    throw QueryFault.refusal(text, join.on().at(), "TREAT isn't served in the ON of a LEFT JOIN; join it, as"
                            + " LEFT JOIN TREAT(p.relation AS Entity) v, or ask EXISTS of a variable over the entity");
                }
                sources.add(join.on() != null && hasDowncast(join.on()) ? withoutOn(join) : sourceWithin(join));
            } else if (join.isLeft()) {
                sources.add(left(select, join, path));
            } else {
                treated(new Join(join.at(), false, false, path, join.name(), same(join.variable(), path), null),
                        join.variable(), sources);
                if (join.on() != null) {
                    moved.add(condition(join.on()));
                }
            }
        } else if (source instanceof Derived derived && derived.variable().entity
                != ((Reference) derived.path()).entity()) {
            Reference path = (Reference) derived.path();
            treated(new Derived(derived.at(), derived.isMember(), path, derived.name(), same(derived.variable(), path)),
                    derived.variable(), sources);
        } else {
            sources.add(source);
        }
    }

    private Join withoutOn(Join join) {
        moved.add(condition(join.on()));
        return new Join(join.at(), join.isLeft(), join.isFetch(), join.path(), join.name(), join.variable(), null);
    }

    private static Variable same(Variable variable, Reference path) {
        return new Variable(variable.name, path.entity());
    }

    /** A source, and the variable of the class below that is the same object. */
    private void treated(Source source, Variable below, List<Source> sources) {
        int at = source instanceof Join join ? join.at() : ((Derived) source).at();
        sources.add(source);
        sources.add(new Range(at, below.entity.name(), below.name, below));
        moved.add(new Compare(at, "=", itself(at, below), itself(at, source.variable())));
    }

    private static Reference itself(int at, Variable variable) {
        return new Reference(at, variable, List.of(), null, false);
    }

    /** A LEFT JOIN gives null in the place of what is of another class; what that class alone has can't be asked. */
    private Join left(Select select, Join join, Reference path) {
        Visiting.has(select, value -> {
            if (value instanceof Reference of && of.variable() == join.variable() && !isOf(path.entity(), of)) {
                throw QueryFault.refusal(text, of.at(), "\"" + of + "\" of a LEFT JOIN of TREAT is what "
                        + path.entity().name() + " hasn't, which isn't served; leave LEFT out, or ask EXISTS");
            }
            return false;
        });
        Condition isBelow = new TypeIs(join.at(), false, itself(join.at(), join.variable()),
                below(join.variable().entity, new ArrayList<>()));
        Condition on = join.on() == null ? isBelow : new And(join.at(), List.of(isBelow, condition(join.on())));
        return new Join(join.at(), true, false, path, join.name(), join.variable(), on);
    }

    private static boolean isOf(EntityModel entity, Reference path) {
        if (!path.steps().isEmpty()) {
            return Paths.relation(entity, path.steps().get(0).path()) != null;
        }
        return path.attribute() == null || Paths.attribute(entity, path.attribute().path()) != null;
    }

    private static List<Value> below(EntityModel entity, List<Value> found) {
        if (!entity.isAbstract()) {
            found.add(new EntityName(0, entity));
        }
        entity.subEntities().forEach(sub -> below(sub, found));
        return found;
    }

    // ---- WHERE

    @Override
    Condition condition(Condition condition) {
        boolean isTest = !(condition instanceof And || condition instanceof Or || condition instanceof Exists);
        if (!isTest || !hasOwnDowncast(condition)) {
            return conditionWithin(condition);
        }
        TreatedRanges ranges = new TreatedRanges(this::move);
        Condition asked = conditionWithin(ranges.condition(condition));
        List<Condition> all = new ArrayList<>(ranges.same);
        all.add(asked);
        int at = condition.at();
        Variable first = ranges.sources.get(0).variable();
        return new Exists(at, false, new Select(at, false, List.of(new Item(itself(at, first), null)), ranges.sources,
                new And(at, all), List.of(), null, List.of()));
    }

    /** Whether a TREAT stands in the test itself, and not in a block of it alone. */
    private static boolean hasOwnDowncast(Condition condition) {
        boolean[] isFound = {false};
        new Rewriting() {
            @Override
            Value value(Value value) {
                isFound[0] |= value instanceof Downcast;
                return valueWithin(value);
            }

            @Override
            Select select(Select select) {
                return select;
            }
        }.condition(condition);
        return isFound[0];
    }

    /** What goes into the block leaves a test behind, where a null link on it leaves the row out. */
    private void move(Reference path) {
        if (path.canDrop()) {
            moved.add(new Or(path.at(), List.of(new IsNull(path.at(), false, path), new IsNull(path.at(), true, path))));
        }
    }
}
