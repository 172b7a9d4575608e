package karzhoul.jpa.model;

import java.util.Arrays;
import java.util.List;

/**
 * A row of a collection of values: an entity of the mapping that no application sees. What it has doesn't change, so a
 * changed element is another row.
 */
public final class ElementRow {
    private final EntityModel entity;
    private Object[] slots = {};
    private List<Object> content;
    /** Those of the same collection, which are known as long as one of them is. */
    private List<ElementRow> siblings;

    ElementRow(EntityModel entity) {
        this.entity = entity;
    }

    /** The entity of which it is. */
    public EntityModel entity() {
        return entity;
    }

    /** It is a new row, whatever it was before. */
    public void forgetKey() {
        set(0, null);
    }

    Object get(int slot) {
        return slot < slots.length ? slots[slot] : null;
    }

    void set(int slot, Object value) {
        if (slots.length <= slot) {
            slots = Arrays.copyOf(slots, slot + 1);
        }
        slots[slot] = value;
        content = slot == 0 ? content : null;
    }

    /** What it has as it is kept; null where that isn't known. */
    List<Object> content() {
        return content;
    }

    void content(List<Object> known) {
        content = known;
    }

    void isAmong(List<ElementRow> rows) {
        siblings = rows;
    }

    List<ElementRow> siblings() {
        return siblings;
    }

    /** Where a value stands in it; what can change in place is kept as in a column. */
    record Slot(int place, Codec codec) implements Place {
        @Override
        public Object get(Object row) {
            Object held = ((ElementRow) row).get(place);
            return codec.isMutable() ? codec.toAttribute(held) : held;
        }

        @Override
        public void set(Object row, Object value) {
            ((ElementRow) row).set(place, codec.isMutable() ? codec.toColumn(value) : value);
        }
    }
}
