package karzhoul.jpa.query;

import java.math.BigDecimal;
import java.math.BigInteger;
import karzhoul.jpa.model.Codec;
import karzhoul.jpa.model.Sort;

/** As what the program has a value: only values of one unit can be compared and computed with by it. */
sealed interface Unit {
    /** A number as a whole one of so many decimal places. */
    record Whole(int scale) implements Unit {}

    /** A text as itself. */
    record Chars() implements Unit {}

    /** What a codec keeps, which has an order at most. */
    record Kept(Codec codec) implements Unit {}

    /** An object. */
    record Thing() implements Unit {}

    /** Whole numbers. */
    Whole INTEGERS = new Whole(0);
    /** Texts. */
    Chars TEXTS = new Chars();
    /** Objects. */
    Thing THINGS = new Thing();

    /** The unit of what a codec keeps. */
    static Unit of(Codec codec) {
        Class<?> type = codec.javaType();
        String meaning = codec.meaning();
        if (codec.sort() == Sort.INT && Number.class.isAssignableFrom(type)) {
            if (meaning.equals("whole")) {
                return INTEGERS;
            }
            if (meaning.startsWith("decimal of ")) {
                return new Whole(Integer.parseInt(meaning.substring("decimal of ".length())));
            }
        }
        boolean isText = type == String.class || type == Character.class;
        return isText && meaning.equals("text") ? TEXTS : new Kept(codec);
    }

    /** Whether values of both are the same where the program has the same. */
    default boolean isSame(Unit other) {
        if (this instanceof Kept mine && other instanceof Kept its) {
            return mine.codec.equals(its.codec) || mine.codec.sort() == its.codec.sort()
                    && mine.codec.meaning().equals(its.codec.meaning()) && !isConverted(mine.codec);
        }
        return equals(other);
    }

    /** Whether a converter of the application stands between; what two of them keep is not the same. */
    private static boolean isConverted(Codec codec) {
        return codec.meaning().endsWith(" by a converter");
    }

    /** The value of which the program has this; a converter is asked of null too. */
    default Object decoded(Object column, Type type) {
        if (this instanceof Kept kept) {
            return kept.codec.toAttribute(column);
        }
        if (column == null || this instanceof Thing) {
            return column;
        }
        if (this instanceof Whole whole) {
            return number((Long) column, whole.scale, type.java());
        }
        return type.java() == Character.class ? (Object) ((String) column).charAt(0) : column;
    }

    private static Object number(long column, int scale, Class<?> java) {
        if (java == BigDecimal.class) {
            return BigDecimal.valueOf(column, scale);
        }
        if (java == BigInteger.class) {
            return BigInteger.valueOf(column);
        }
        if (java == Double.class) {
            return BigDecimal.valueOf(column, scale).doubleValue();
        }
        if (java == Integer.class) {
            return Math.toIntExact(column);
        }
        if (java == Short.class || java == Byte.class) {
            boolean fits = java == Short.class ? column == (short) column : column == (byte) column;
            if (!fits) {
                throw new ArithmeticException(column + " is no " + java.getSimpleName());
            }
            return java == Short.class ? (Object) (short) column : (Object) (byte) column;
        }
        return column;
    }
}
