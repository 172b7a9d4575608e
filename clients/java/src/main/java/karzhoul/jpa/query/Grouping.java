package karzhoul.jpa.query;

import java.util.ArrayList;
import java.util.List;
import karzhoul.jpa.query.Tree.Aggregate;
import karzhoul.jpa.query.Tree.Construct;
import karzhoul.jpa.query.Tree.Item;
import karzhoul.jpa.query.Tree.ItemName;
import karzhoul.jpa.query.Tree.Key;
import karzhoul.jpa.query.Tree.Reference;
import karzhoul.jpa.query.Tree.Select;
import karzhoul.jpa.query.Tree.Value;

/**
 * Groups (chapter 4.8): what may stand outside of aggregates, and the paths that an entity of GROUP BY gives with it.
 */
final class Grouping {
    private final String text;

    Grouping(String text) {
        this.text = text;
    }

    /** Whether the block makes groups. */
    static boolean isGrouped(Select select) {
        return !select.groups().isEmpty() || select.having() != null
                || select.items().stream().anyMatch(item -> hasAggregate(item.value()))
                || select.order().stream().anyMatch(key -> hasAggregate(key.value()));
    }

    /** Whether an aggregate stands in it, outside of blocks. */
    static boolean hasAggregate(Value value) {
        boolean[] isFound = {false};
        new Rewriting() {
            @Override
            Value value(Value part) {
                isFound[0] |= part instanceof Aggregate;
                return valueWithin(part);
            }

            @Override
            Select select(Select block) {
                return block;
            }
        }.value(value);
        return isFound[0];
    }

    /** Refuses a path outside of aggregates that isn't one of GROUP BY's or one step and more from such. */
    void check(Select select) {
        if (isGrouped(select)) {
            for (Reference path : outside(select)) {
                if (!isGiven(select, path)) {
                    throw QueryFault.at(text, path.at(), "\"" + path
                            + "\" stands outside of aggregates, and isn't one of "
                            + "GROUP BY");
                }
            }
        }
    }

    /**
     * The block with those paths in GROUP BY that its entities give with them: the program asks for each, word for
     * word.
     */
    static Select completed(Select select) {
        if (select.groups().isEmpty()) {
            return select;
        }
        List<Value> groups = new ArrayList<>(select.groups());
        for (Reference path : outside(select)) {
            if (groups.stream().noneMatch(group -> ((Reference) group).isSame(path))) {
                groups.add(path);
            }
        }
        return new Select(select.at(), select.isDistinct(), select.items(), select.sources(), select.where(), groups,
                select.having(), select.order());
    }

    private static boolean isGiven(Select select, Reference path) {
        for (Value group : select.groups()) {
            Reference given = (Reference) group;
            if (given.isSame(path) || given.isEntity() && given.variable() == path.variable()
                    && path.steps().size() >= given.steps().size()
                    && path.steps().subList(0, given.steps().size()).equals(given.steps())) {
                return true;
            }
        }
        return false;
    }

    /** The paths outside of aggregates, of the block's own variables. */
    private static List<Reference> outside(Select select) {
        List<Reference> found = new ArrayList<>();
        List<Tree.Variable> own = select.sources().stream().map(Tree.Source::variable).toList();
        Rewriting collect = new Rewriting() {
            @Override
            Value value(Value value) {
                if (value instanceof Reference reference && own.contains(reference.variable())) {
                    found.add(reference);
                }
                return value instanceof Aggregate ? value : valueWithin(value);
            }
        };
        for (Item item : select.items()) {
            if (item.value() instanceof Construct construct) {
                construct.arguments().forEach(argument -> collect.value(argument.value()));
            } else {
                collect.value(item.value());
            }
        }
        collect.conditionOrNull(select.having());
        for (Key key : select.order()) {
            if (!(key.value() instanceof ItemName)) {
                collect.value(key.value());
            }
        }
        return found;
    }
}
