package karzhoul.jpa.model;

/** The three sorts of values that the program keeps. */
public enum Sort {
    /** A whole number of 64 bits, as a {@link Long}. */
    INT,
    /** A text of at most 65,535 bytes of UTF-8, as a {@link String}. */
    TEXT,
    /** At most 65,535 bytes, as a {@code byte[]}. */
    BYTES
}
