package karzhoul.jpa.query;

import java.util.List;
import java.util.Map;
import karzhoul.jpa.model.UnitModel;
import karzhoul.jpa.query.Tree.Item;

/**
 * A statement that was read, typed and planned once for a factory; it doesn't change.
 *
 * @param text as it was given
 * @param plan how it is answered
 * @param parameters by name or number, in the order of the text
 * @param items what a row of a SELECT has
 * @param pages how its rows are streamed
 */
record Prepared(String text, Plan plan, Map<Object, ParameterModel> parameters, List<Column> items, Pages pages) {
    /**
     * An item of a SELECT.
     *
     * @param alias its result variable, or null
     * @param java the boxed type of its values
     * @param made how NEW makes it; else null
     */
    record Column(String alias, Class<?> java, Constructing made) {}

    boolean isSelect() {
        return plan instanceof SelectPlan;
    }

    static Column column(UnitModel unit, String text, Item item) {
        if (item.value() instanceof Tree.Construct construct) {
            Constructing made = Constructing.of(unit, text, construct);
            return new Column(item.name(), made.type(), made);
        }
        return new Column(item.name(), Types.of(item).java(), null);
    }
}
