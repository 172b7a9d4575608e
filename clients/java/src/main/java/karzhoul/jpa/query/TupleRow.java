package karzhoul.jpa.query;

import jakarta.persistence.Tuple;
import jakarta.persistence.TupleElement;
import java.util.ArrayList;
import java.util.Arrays;
import java.util.List;

/** A row as a Tuple (chapter 3.10.3). */
final class TupleRow implements Tuple {
    private record Element<X>(String getAlias, Class<? extends X> getJavaType) implements TupleElement<X> {}

    private final List<Prepared.Column> columns;
    /** The items of a criteria query as they were selected; null for a text's. */
    private final List<TupleElement<?>> elements;
    private final Object[] values;

    TupleRow(List<Prepared.Column> columns, List<TupleElement<?>> elements, Object[] values) {
        this.columns = columns;
        this.elements = elements;
        this.values = values;
    }

    @Override
    public <X> X get(TupleElement<X> element) {
        int place = getElements().indexOf(element);
        if (place < 0 && (elements != null || element.getAlias() == null)) {
            throw new IllegalArgumentException("the tuple has no element " + element);
        }
        Object value = place < 0 ? get(element.getAlias()) : values[place];
        @SuppressWarnings("unchecked")
        X found = (X) value;
        return found;
    }

    @Override
    public <X> X get(String alias, Class<X> type) {
        return cast(get(alias), type, alias);
    }

    @Override
    public Object get(String alias) {
        for (int place = 0; place < values.length; place++) {
            if (columns.get(place).alias() != null && columns.get(place).alias().equals(alias)) {
                return values[place];
            }
        }
        throw new IllegalArgumentException("the tuple has no element named \"" + alias + "\"");
    }

    @Override
    public <X> X get(int place, Class<X> type) {
        return cast(get(place), type, String.valueOf(place));
    }

    @Override
    public Object get(int place) {
        if (place < 0 || place >= values.length) {
            throw new IllegalArgumentException("the tuple has " + values.length + " elements, and none at " + place);
        }
        return values[place];
    }

    private static <X> X cast(Object value, Class<X> type, String what) {
        Class<?> boxed = Classes.boxed(type);
        if (value != null && !boxed.isInstance(value)) {
            throw new IllegalArgumentException("the element " + what + " is of " + value.getClass().getName()
                    + ", and no " + type.getName());
        }
        @SuppressWarnings("unchecked")
        X found = (X) value;
        return found;
    }

    @Override
    public Object[] toArray() {
        return values.clone();
    }

    @Override
    public List<TupleElement<?>> getElements() {
        List<TupleElement<?>> all = new ArrayList<>();
        if (elements != null) {
            all.addAll(elements);
        } else {
            columns.forEach(column -> all.add(new Element<Object>(column.alias(), column.java())));
        }
        return all;
    }

    @Override
    public boolean equals(Object other) {
        return other instanceof TupleRow row && Arrays.equals(values, row.values);
    }

    @Override
    public int hashCode() {
        return Arrays.hashCode(values);
    }

    @Override
    public String toString() {
        return Arrays.toString(values);
    }
}
