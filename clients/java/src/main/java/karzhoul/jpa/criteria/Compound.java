package karzhoul.jpa.criteria;

import jakarta.persistence.criteria.CompoundSelection;
import jakarta.persistence.criteria.Selection;
import java.util.ArrayList;
import java.util.HashSet;
import java.util.List;
import java.util.Set;

/** Several items: a tuple, an array, or what a constructor makes of them. */
final class Compound<X> extends Selected<X> implements CompoundSelection<X> {
    /** What becomes of the items. */
    enum Kind { TUPLE, ARRAY, CONSTRUCT }

    private final Kind kind;
    private final List<Selection<?>> items;

    /**
     * The items of a row.
     *
     * @throws IllegalArgumentException where one is a tuple or an array, or two have one name
     */
    Compound(Kind kind, Class<?> javaType, List<Selection<?>> items) {
        super(javaType);
        this.kind = kind;
        this.items = List.copyOf(items);
        Set<String> names = new HashSet<>();
        for (Selection<?> item : items) {
            if (item instanceof Compound<?> compound && (compound.kind != Kind.CONSTRUCT || kind == Kind.CONSTRUCT)) {
                throw new IllegalArgumentException("an item is " + compound.told() + ", which stands alone");
            }
            if (item.getAlias() != null && !names.add(item.getAlias())) {
                throw new IllegalArgumentException("two items are named \"" + item.getAlias() + "\"");
            }
        }
        if (items.isEmpty()) {
            throw new IllegalArgumentException(told() + " has no items");
        }
    }

    private String told() {
        return switch (kind) {
            case TUPLE -> "a tuple";
            case ARRAY -> "an array";
            case CONSTRUCT -> "an object of " + getJavaType().getName();
        };
    }

    Kind kind() {
        return kind;
    }

    List<Selection<?>> items() {
        return items;
    }

    @Override
    public boolean isCompoundSelection() {
        return true;
    }

    @Override
    public List<Selection<?>> getCompoundSelectionItems() {
        return new ArrayList<>(items);
    }
}
