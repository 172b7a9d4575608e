package karzhoul.jpa.model;

import jakarta.persistence.PersistenceException;
import java.util.function.Function;

/**
 * A codec of two functions, neither of which is asked of null.
 *
 * @param toKept what is kept of a value; it raises IllegalArgumentException or ArithmeticException where it can't
 * @param toValue the value of what is kept
 */
record ValueCodec(
        Sort sort, Class<?> javaType, boolean isMutable, String meaning,
        Function<Object, Object> toKept, Function<Object, Object> toValue) implements Codec {

    @Override
    public Object toColumn(Object value) {
        if (value == null) {
            return null;
        }
        if (!javaType.isInstance(value)) {
            throw new IllegalArgumentException(
                    "a value of " + value.getClass().getName() + " stands where one of " + javaType.getName()
                            + " belongs");
        }
        return toKept.apply(value);
    }

    @Override
    public Object toAttribute(Object column) {
        if (column == null) {
            return null;
        }
        try {
            return toValue.apply(column);
        } catch (RuntimeException raised) {
            throw new PersistenceException(
                    "the store has " + column + ", which is no value of " + javaType.getName(), raised);
        }
    }
}
