package karzhoul.jpa.model;

/**
 * How values of a Java type are kept as a whole number, a text or bytes (chapters 2.6 and 3.8).
 * Order and equality of what is kept are those of the Java type, so that queries may compare it.
 */
public interface Codec {
    /** The sort of what is kept. */
    Sort sort();

    /** The attribute's type; the boxed one of a primitive. */
    Class<?> javaType();

    /**
     * What is kept of a value: a {@link Long}, a {@link String}, a {@code byte[]}, or null.
     *
     * @throws IllegalArgumentException in words, where the value can't be kept exactly: it is of
     *     another type, too long, beyond 64 bits, or has half a surrogate pair
     */
    Object toColumn(Object value);

    /** The value of which this is kept. */
    Object toAttribute(Object column);

    /** Whether a value of this type can change in place, as a {@code byte[]} or a {@code Date}. */
    boolean isMutable();

    /**
     * What the kept stands for: values of two codecs may be compared as they are kept where this is the same. "whole"
     * is a number as itself, "decimal of 2" its hundreds, "text" a text as itself. A store remembers these words.
     */
    String meaning();
}
