package karzhoul.jpa.query;

import java.math.BigDecimal;
import java.nio.ByteBuffer;
import java.time.LocalDate;
import java.time.LocalDateTime;
import java.util.Arrays;

/** Values beside one another, as the door compares them. */
final class Comparing {
    private Comparing() {}

    /**
     * Which of two values is the greater one; equal ones give 0. Texts go by the numbers of their characters.
     *
     * @throws IllegalArgumentException where they have no order, and aren't equal
     */
    @SuppressWarnings("unchecked")
    static int compare(Object a, Object b) {
        if (a instanceof Number x && b instanceof Number y) {
            return Numbers.compare(x, y);
        }
        boolean areTexts = (a instanceof String || a instanceof Character)
                && (b instanceof String || b instanceof Character);
        if (areTexts) {
            return Arrays.compare(a.toString().codePoints().toArray(), b.toString().codePoints().toArray());
        }
        Object x = Conversions.local(a);
        Object y = Conversions.local(b);
        if (x != null && y != null) {
            return compareTimes(x, y);
        }
        if (a instanceof byte[] bytes && b instanceof byte[] others) {
            return Arrays.compareUnsigned(bytes, others);
        }
        if (a.equals(b)) {
            return 0;
        }
        if (a instanceof Comparable<?> && a.getClass() == b.getClass()) {
            return ((Comparable<Object>) a).compareTo(b);
        }
        return -1;
    }

    @SuppressWarnings("unchecked")
    private static int compareTimes(Object x, Object y) {
        Object a = x instanceof LocalDate day && y instanceof LocalDateTime ? day.atStartOfDay() : x;
        Object b = y instanceof LocalDate day && x instanceof LocalDateTime ? day.atStartOfDay() : y;
        if (a.getClass() != b.getClass()) {
            throw new IllegalArgumentException(a + " is compared with " + b);
        }
        return ((Comparable<Object>) (a instanceof LocalDateTime t ? (Comparable<?>) t
                : a instanceof LocalDate d ? (Comparable<?>) d : (Comparable<?>) a)).compareTo(b);
    }

    /** The same with nulls, which come first. */
    static int compareNulls(Object a, Object b) {
        return a == null || b == null ? Boolean.compare(a != null, b != null) : compare(a, b);
    }

    /** What is the same for values that are equal, to find them by. */
    static Object key(Object value) {
        if (value instanceof byte[] bytes) {
            return ByteBuffer.wrap(bytes);
        }
        return value instanceof BigDecimal decimal ? decimal.stripTrailingZeros() : value;
    }
}
