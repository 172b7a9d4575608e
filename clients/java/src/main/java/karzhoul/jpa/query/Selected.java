package karzhoul.jpa.query;

import jakarta.persistence.PersistenceException;
import jakarta.persistence.TupleElement;
import java.lang.reflect.Array;
import java.util.ArrayList;
import java.util.List;

/**
 * The rows of a criteria query as its selection types them (chapter 6.5.10): where Java's types say another number
 * than the language has, as {@code Expression<Integer>} of a SUM, which is a Long, the item is that number.
 */
final class Selected {
    private final String text;
    private final Built.Result result;
    private final List<Prepared.Column> columns;
    private final List<Class<?>> numbers = new ArrayList<>();
    private final boolean isConverted;

    Selected(Prepared statement, Built.Result result) {
        this.text = statement.text();
        this.result = result;
        this.columns = statement.items();
        for (int place = 0; place < columns.size(); place++) {
            numbers.add(number(result.elements().get(place), columns.get(place)));
        }
        this.isConverted = numbers.stream().anyMatch(type -> type != null);
    }

    /** The type of number that an item is to be; null where it stays as it is. */
    private static Class<?> number(TupleElement<?> element, Prepared.Column column) {
        Class<?> declared = element.getJavaType() == null ? null : Classes.boxed(element.getJavaType());
        boolean isOther = declared != null && column.made() == null && declared != Number.class
                && Number.class.isAssignableFrom(declared) && Number.class.isAssignableFrom(column.java());
        return isOther && declared != column.java() ? declared : null;
    }

    List<TupleElement<?>> elements() {
        return result.elements();
    }

    /** Refuses a selection that isn't of the query's result type. */
    void needItem() {
        Class<?> has = numbers.get(0) != null ? numbers.get(0) : columns.get(0).java();
        if (!Classes.boxed(result.type()).isAssignableFrom(has) && has != Object.class) {
            throw new IllegalArgumentException("the query's results are of " + result.type().getName()
                    + ", and what it selects is of " + has.getName() + ": " + text);
        }
    }

    /** Makes of each number one of its item's type. */
    void convert(Object[] row) {
        if (!isConverted) {
            return;
        }
        for (int place = 0; place < row.length; place++) {
            if (numbers.get(place) != null) {
                try {
                    row[place] = Conversions.to(numbers.get(place), row[place]);
                } catch (IllegalArgumentException e) {
                    throw new PersistenceException("an item of the row is too great or too exact: " + e.getMessage()
                            + ": " + text, e);
                }
            }
        }
    }

    /** The row as an array of the query's result type. */
    Object array(Object[] row) {
        Class<?> element = result.type().getComponentType();
        if (element == null || element == Object.class) {
            return row;
        }
        Object array = Array.newInstance(element, row.length);
        for (int place = 0; place < row.length; place++) {
            Array.set(array, place, row[place]);
        }
        return array;
    }
}
