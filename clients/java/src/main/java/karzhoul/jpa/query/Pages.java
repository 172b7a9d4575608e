package karzhoul.jpa.query;

import java.util.ArrayList;
import java.util.List;
import karzhoul.jpa.model.Attribute;
import karzhoul.jpa.model.UnitModel;
import karzhoul.jpa.query.Tree.Construct;
import karzhoul.jpa.query.Tree.Item;
import karzhoul.jpa.query.Tree.Reference;
import karzhoul.jpa.query.Tree.Select;
import karzhoul.jpa.query.Tree.Statement;
import karzhoul.jpa.query.Tree.Value;

/**
 * How the rows of a SELECT are streamed: the keys of its entities are asked for in their places, so that the entities
 * themselves can be read some rows at a time. It is planned when it is asked for first; threads may share it.
 */
final class Pages {
    private final UnitModel unit;
    private final String text;
    private final Statement typed;
    private boolean isPlanned;
    private SelectPlan plan;

    Pages(UnitModel unit, String text, Statement typed) {
        this.unit = unit;
        this.text = text;
        this.typed = typed;
    }

    /** The plan whose rows have keys; null where no variable is selected, or an entity in another way. */
    synchronized SelectPlan plan() {
        if (!isPlanned) {
            isPlanned = true;
            plan = planned();
        }
        return plan;
    }

    private SelectPlan planned() {
        if (!(typed instanceof Select select) || select.items().stream().noneMatch(Pages::isKeyed)
                || !select.items().stream().allMatch(item -> isKeyed(item) || isValue(item.value()))) {
            return null;
        }
        Select all = Fetches.of(text, select).select();
        List<Item> items = new ArrayList<>();
        for (Item item : all.items()) {
            items.add(isKeyed(item) ? new Item(key((Reference) item.value()), item.name()) : item);
        }
        try {
            return (SelectPlan) Planner.plan(unit, text, new Select(all.at(), all.isDistinct(), items, all.sources(),
                    all.where(), all.groups(), all.having(), all.order()));
        } catch (QueryFault e) {
            return null;        // DISTINCT with ORDER BY of what the entity has
        }
    }

    static boolean isKeyed(Item item) {
        return item.value() instanceof Reference path && path.isEntity() && path.steps().isEmpty();
    }

    private static boolean isValue(Value value) {
        return !(value instanceof Construct) && Types.of(value).kind() != Type.Kind.ENTITY;
    }

    private static Reference key(Reference variable) {
        List<Attribute> parts = variable.entity().key().parts();
        boolean isWhole = parts.size() > 1 || variable.entity().key().embedded().isPresent();
        return new Reference(variable.at(), variable.variable(), List.of(), isWhole ? null : parts.get(0), isWhole);
    }
}
