package karzhoul.jpa.query;

import java.util.ArrayList;
import java.util.List;
import karzhoul.jpa.query.Tree.And;
import karzhoul.jpa.query.Tree.Arithmetic;
import karzhoul.jpa.query.Tree.ByRows;
import karzhoul.jpa.query.Tree.Call;
import karzhoul.jpa.query.Tree.Case;
import karzhoul.jpa.query.Tree.Condition;
import karzhoul.jpa.query.Tree.Derived;
import karzhoul.jpa.query.Tree.Join;
import karzhoul.jpa.query.Tree.Range;
import karzhoul.jpa.query.Tree.Reference;
import karzhoul.jpa.query.Tree.Select;
import karzhoul.jpa.query.Tree.Source;
import karzhoul.jpa.query.Tree.Value;
import karzhoul.jpa.query.Tree.Variable;

/**
 * Makes of each join one along one relation of one variable, and of IN (path) a join. Steps on the way are inner joins
 * (chapter 4.4.4). The ON of an inner join goes to WHERE where a path of it has several steps, or the door computes in
 * it.
 */
final class Joins extends Rewriting {
    private final String text;
    private boolean isWithin;

    /** Over a statement, or over the condition of one that has no FROM. */
    Joins(String text, boolean isWithin) {
        this.text = text;
        this.isWithin = isWithin;
    }

    @Override
    Select select(Select select) {
        boolean isBlock = isWithin;
        isWithin = true;
        Select found = selectWithin(select);
        isWithin = isBlock;
        List<Source> sources = new ArrayList<>();
        List<Condition> moved = new ArrayList<>();
        List<Variable> own = new ArrayList<>();
        for (Source source : found.sources()) {
            add(source, isBlock, own, sources, moved);
            sources.forEach(one -> own.add(one.variable()));
        }
        Condition where = found.where();
        if (!moved.isEmpty()) {
            if (where != null) {
                moved.add(0, where);
            }
            where = moved.size() == 1 ? moved.get(0) : new And(moved.get(0).at(), moved);
        }
        return new Select(found.at(), found.isDistinct(), found.items(), sources, where, found.groups(), found.having(),
                found.order());
    }

    /** What the door decides is planned by itself, block by block. */
    @Override
    Condition condition(Condition condition) {
        return condition instanceof ByRows ? condition : conditionWithin(condition);
    }

    private void add(Source source, boolean isBlock, List<Variable> own, List<Source> sources, List<Condition> moved) {
        if (source instanceof Range) {
            sources.add(source);
        } else if (source instanceof Derived derived) {
            Reference path = (Reference) derived.path();
            boolean isJoined = !isBlock || own.contains(path.variable());
            Variable from = path.variable();
            for (int step = 0; step < path.steps().size(); step++) {
                boolean isLast = step == path.steps().size() - 1;
                Reference along = along(path, from, step);
                Variable to = isLast ? derived.variable() : between(path, step);
                sources.add(isJoined || step > 0 ? new Join(derived.at(), false, false, along, to.name, to, null)
                        : new Derived(derived.at(), false, along, to.name, to));
                from = to;
            }
        } else {
            join((Join) source, sources, moved);
        }
    }

    private void join(Join join, List<Source> sources, List<Condition> moved) {
        Reference path = (Reference) join.path();
        Variable from = path.variable();
        int last = path.steps().size() - 1;
        for (int step = 0; step < last; step++) {
            Variable to = between(path, step);
            sources.add(new Join(join.at(), false, false, along(path, from, step), to.name, to, null));
            from = to;
        }
        Condition on = join.on();
        boolean isDeep = on != null && Visiting.has(on, value -> value instanceof Reference deep && isDeep(deep));
        if (isDeep || on != null && !join.isLeft() && Visiting.has(on, Joins::isComputedByDoor)) {
            if (join.isLeft()) {
                throw QueryFault.refusal(text, on.at(),
                        "in the ON of a LEFT JOIN a path has one step at most; join what it "
                        + "goes along before, and name that variable");
            }
            moved.add(on);
            on = null;
        }
        sources.add(new Join(join.at(), join.isLeft(), false, along(path, from, last), join.name(), join.variable(),
                on));
    }

    private static boolean isComputedByDoor(Value value) {
        return value instanceof Case || value instanceof Call call && !call.function().isKept()
                || value instanceof Arithmetic arithmetic && arithmetic.sign() == '/';
    }

    private static boolean isDeep(Reference path) {
        return path.steps().size() + (path.attribute() == null ? 0 : 1) > 1;
    }

    private static Variable between(Reference path, int step) {
        return new Variable(path.variable().name, path.steps().get(step).target());
    }

    private static Reference along(Reference path, Variable from, int step) {
        return new Reference(path.at(), from, List.of(path.steps().get(step)), null, false);
    }
}
