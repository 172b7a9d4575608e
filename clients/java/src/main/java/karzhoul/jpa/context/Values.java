package karzhoul.jpa.context;

import java.util.Arrays;
import karzhoul.jpa.model.Attribute;
import karzhoul.jpa.model.Codec;

/**
 * Values as a snapshot keeps them: as the instance has them, where they can't change in place, so that they are
 * compared without being converted; else as they are kept in a column.
 */
final class Values {
    private Values() {}

    /** What a snapshot keeps of an instance's value. */
    static Object kept(Attribute attribute, Object value) {
        return attribute.codec().isMutable() ? column(attribute, value) : value;
    }

    /** The column of what a snapshot keeps. */
    static Object columnOfKept(Attribute attribute, Object kept) {
        return attribute.codec().isMutable() ? kept : column(attribute, kept);
    }

    /** Whether an instance's value is what a snapshot keeps. */
    static boolean isSame(Attribute attribute, Object value, Object kept) {
        Codec codec = attribute.codec();
        if (codec.isMutable()) {
            Object column = column(attribute, value);
            // what was read may be kept in another form than it was written in, as the room of a HashMap
            return isSameColumn(column, kept)
                || kept != null && isSameColumn(column, column(attribute, codec.toAttribute(kept)));
        }
        if (value == kept || value != null && value.equals(kept)) {
            return true;
        }
        return value != null && kept != null && isSameColumn(column(attribute, value), column(attribute, kept));
    }

    /** Whether a column is that of what a snapshot keeps; the zero of a primitive counts as null too. */
    static boolean isKept(Attribute attribute, Object column, Object kept) {
        Object known = columnOfKept(attribute, kept);
        return isSameColumn(column, known)
            || column == null && (Long.valueOf(0).equals(known) || "\0".equals(known));
    }

    /**
     * What is kept of a value in a column.
     *
     * @throws Unkept where it can't be kept
     */
    static Object column(Attribute attribute, Object value) {
        try {
            return attribute.codec().toColumn(value);
        } catch (IllegalArgumentException e) {
            throw new Unkept(attribute.path(), e);
        }
    }

    /**
     * What is stored of a value in its column.
     *
     * @throws Unkept where it can't be kept, or the column has no room for it
     */
    static Object stored(Attribute attribute, Object value) {
        Object column = column(attribute, value);
        try {
            attribute.width().check(value, column);
        } catch (IllegalArgumentException e) {
            throw new Unkept(attribute.path(), e);
        }
        return column;
    }

    static boolean isSameColumn(Object one, Object other) {
        if (one instanceof byte[] bytes && other instanceof byte[] others) {
            return Arrays.equals(bytes, others);
        }
        return one == null ? other == null : one.equals(other);
    }
}
