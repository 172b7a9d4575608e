package karzhoul.jpa.query;

import java.math.BigDecimal;
import java.math.BigInteger;
import java.sql.Time;
import java.time.LocalTime;
import java.time.OffsetTime;
import java.time.temporal.Temporal;
import java.util.Calendar;
import java.util.Date;
import karzhoul.jpa.model.EntityModel;

/**
 * What a value is of (chapters 4.7 and 4.8.6).
 *
 * @param java its boxed Java type; of what isn't known, Object
 * @param entity the entity, where it is one
 */
record Type(Kind kind, Class<?> java, EntityModel entity) {
    /** The kinds of values; those of one kind may be compared. */
    enum Kind {
        NUMBER("a number"), STRING("a text"), BOOLEAN("a truth"), TEMPORAL("a time"), ENUM("an enum's constant"),
        ENTITY("an entity"), CLASS("an entity's class"), OTHER("a value"), UNKNOWN("a parameter");

        final String told;

        Kind(String told) {
            this.told = told;
        }
    }

    static final Type UNKNOWN = new Type(Kind.UNKNOWN, Object.class, null);
    static final Type STRING = new Type(Kind.STRING, String.class, null);
    static final Type BOOLEAN = new Type(Kind.BOOLEAN, Boolean.class, null);
    static final Type INTEGER = new Type(Kind.NUMBER, Integer.class, null);
    static final Type LONG = new Type(Kind.NUMBER, Long.class, null);
    static final Type DOUBLE = new Type(Kind.NUMBER, Double.class, null);
    static final Type CLASS = new Type(Kind.CLASS, Class.class, null);

    static Type of(Class<?> java) {
        Class<?> type = Classes.boxed(java);
        Kind kind = Kind.OTHER;
        if (Number.class.isAssignableFrom(type)) {
            kind = Kind.NUMBER;
        } else if (type == String.class || type == Character.class) {
            kind = Kind.STRING;
        } else if (type == Boolean.class) {
            kind = Kind.BOOLEAN;
        } else if (Temporal.class.isAssignableFrom(type) || Date.class.isAssignableFrom(type)
                || Calendar.class.isAssignableFrom(type)) {
            kind = Kind.TEMPORAL;
        } else if (type.isEnum()) {
            kind = Kind.ENUM;
        }
        return new Type(kind, type, null);
    }

    static Type of(EntityModel entity) {
        return new Type(Kind.ENTITY, entity.javaClass(), entity);
    }

    boolean isKnown() {
        return kind != Kind.UNKNOWN;
    }

    boolean isNumber() {
        return kind == Kind.NUMBER;
    }

    /** Whether values of both may be compared for equality. */
    boolean goesWith(Type other) {
        if (!isKnown() || !other.isKnown()) {
            return true;
        }
        if (kind != other.kind) {
            return false;
        }
        return switch (kind) {
            case ENUM, OTHER -> java == other.java;
            case ENTITY -> entity.root() == other.entity.root();
            case TEMPORAL -> isLegacy() || other.isLegacy() || isTimeOfDay() == other.isTimeOfDay();
            default -> true;
        };
    }

    private boolean isTimeOfDay() {
        return java == LocalTime.class || java == OffsetTime.class || java == Time.class;
    }

    /** Whether the class doesn't tell which part of a time it is. */
    private boolean isLegacy() {
        return java == Date.class || Calendar.class.isAssignableFrom(java);
    }

    /** Whether values of it have an order in the language (chapter 4.6.4). */
    boolean isOrdered() {
        return kind == Kind.NUMBER || kind == Kind.STRING || kind == Kind.TEMPORAL || kind == Kind.OTHER || !isKnown();
    }

    /** The type of what arithmetic makes of two numbers: Java's numeric promotion (chapter 4.7.1). */
    static Type promoted(Type a, Type b) {
        if (!a.isKnown() || !b.isKnown()) {
            return a.isKnown() ? a : b;
        }
        for (Class<?> java : new Class<?>[] {Double.class, Float.class, BigDecimal.class, BigInteger.class,
                Long.class}) {
            if (a.java == java || b.java == java) {
                return new Type(Kind.NUMBER, java, null);
            }
        }
        return INTEGER;
    }

    /** The type that holds values of both, as of the branches of a CASE. */
    static Type joined(Type a, Type b) {
        if (!a.isKnown() || a.java == b.java) {
            return b;
        }
        if (!b.isKnown()) {
            return a;
        }
        if (a.kind == Kind.NUMBER && b.kind == Kind.NUMBER) {
            return promoted(a, b);
        }
        return a.kind == b.kind && a.kind == Kind.STRING ? STRING : new Type(a.kind, Object.class, null);
    }

    /** Of a SUM (chapter 4.8.5). */
    Type summed() {
        if (java == BigDecimal.class || java == BigInteger.class) {
            return this;
        }
        return java == Double.class || java == Float.class ? DOUBLE : LONG;
    }

    /** The type as a fault names it. */
    String told() {
        return switch (kind) {
            case ENUM, OTHER -> java.getName();
            case ENTITY -> "the entity " + entity.name();
            case TEMPORAL -> isTimeOfDay() ? "a time of day" : "a date";
            default -> kind.told;
        };
    }
}
