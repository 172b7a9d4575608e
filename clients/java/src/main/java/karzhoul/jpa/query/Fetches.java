package karzhoul.jpa.query;

import java.util.ArrayList;
import java.util.List;
import karzhoul.jpa.model.Relation;
import karzhoul.jpa.query.Tree.Join;
import karzhoul.jpa.query.Tree.Reference;
import karzhoul.jpa.query.Tree.Select;
import karzhoul.jpa.query.Tree.Source;
import karzhoul.jpa.query.Tree.Value;
import karzhoul.jpa.query.Tree.Variable;

/**
 * Takes fetch joins out of a SELECT (chapter 4.4.5.3): what they read is read after the rows. The join itself stays
 * where it may leave rows out or give an owner several times, as the standard has it.
 */
final class Fetches {
    /** That the relations are read of the objects of a variable, one after the other. */
    record Fetch(Variable owner, List<Relation> relations, Variable target) {}

    /** The SELECT without fetch joins, and what is read after its rows. */
    record Split(Select select, List<Fetch> fetches) {}

    private Fetches() {}

    static Split of(String text, Select select) {
        List<Fetch> fetches = new ArrayList<>();
        for (Source source : select.sources()) {
            if (source instanceof Join join && join.isFetch()) {
                Reference path = (Reference) join.path();
                if (!isGiven(select, path.variable(), fetches)) {
                    throw QueryFault.at(text, join.at(), "JOIN FETCH reads a relation of what is selected, and \""
                            + path.variable().name + "\" isn't");
                }
                fetches.add(new Fetch(path.variable(), path.steps(), join.variable()));
            }
        }
        return new Split(fetches.isEmpty() ? select : without(select), fetches);
    }

    private static boolean isGiven(Select select, Variable variable, List<Fetch> fetches) {
        return fetches.stream().anyMatch(fetch -> fetch.target() == variable)
                || select.items().stream().anyMatch(item -> isVariable(item.value(), variable));
    }

    /** Whether a value is the variable itself. */
    static boolean isVariable(Value value, Variable variable) {
        return value instanceof Reference path && path.variable() == variable && path.isEntity()
                && path.steps().isEmpty();
    }

    private static Select without(Select select) {
        List<Source> kept = new ArrayList<>(select.sources());
        for (int place = kept.size() - 1; place >= 0; place--) {
            if (kept.get(place) instanceof Join join && join.isFetch()) {
                if (isNeeded(select, kept, join)) {
                    kept.set(place, new Join(join.at(), join.isLeft(), false, join.path(), join.name(), join.variable(),
                            join.on()));
                } else {
                    kept.remove(place);
                }
            }
        }
        return new Select(select.at(), select.isDistinct(), select.items(), kept, select.where(), select.groups(),
                select.having(), select.order());
    }

    /** Whether the rows are others without the join. */
    private static boolean isNeeded(Select select, List<Source> kept, Join join) {
        Reference path = (Reference) join.path();
        boolean isOne = path.steps().stream().noneMatch(Relation::isMany);
        if (!join.isLeft() || path.steps().size() > 1 || !isOne && !select.isDistinct()) {
            return true;
        }
        Select others = new Select(select.at(), false, select.items(), kept.stream().filter(s -> s != join).toList(),
                select.where(), select.groups(), select.having(), select.order());
        return Visiting.has(others, value -> value instanceof Reference p && p.variable() == join.variable());
    }
}
