package karzhoul.jpa.query;

import java.math.BigDecimal;
import java.math.BigInteger;
import java.sql.Date;
import java.sql.Time;
import java.sql.Timestamp;
import java.time.Instant;
import java.time.LocalDate;
import java.time.LocalDateTime;
import java.time.LocalTime;
import java.time.OffsetDateTime;
import java.time.OffsetTime;
import java.time.ZoneId;
import java.time.ZonedDateTime;
import java.util.Calendar;

/** A literal's or a parameter's value as one of the attribute's type, where it is the same number or time. */
final class Conversions {
    private Conversions() {}

    /**
     * The value as one of this type; what can't be one is left as it is, for the codec to refuse.
     *
     * @throws IllegalArgumentException where it is a number or a time that the type has no equal of
     */
    static Object to(Class<?> type, Object value) {
        if (value == null || type.isInstance(value)) {
            return value;
        }
        if (Number.class.isAssignableFrom(type) && value instanceof Number number) {
            return number(type, number);
        }
        if (type == String.class && value instanceof Character) {
            return value.toString();
        }
        if (type == Character.class && value instanceof String text && text.length() == 1) {
            return text.charAt(0);
        }
        return time(type, value);
    }

    /** A number as a decimal, exactly. */
    static BigDecimal decimal(Number number) {
        if (number instanceof BigDecimal decimal) {
            return decimal;
        }
        if (number instanceof BigInteger whole) {
            return new BigDecimal(whole);
        }
        if (number instanceof Float single) {
            return new BigDecimal(single.toString());
        }
        if (number instanceof Double twice) {
            if (twice.isNaN() || twice.isInfinite()) {
                throw new IllegalArgumentException(twice + " is no number that can be compared with whole ones");
            }
            return BigDecimal.valueOf(twice);
        }
        return BigDecimal.valueOf(number.longValue());
    }

    private static Object number(Class<?> type, Number number) {
        if (type == Double.class) {
            return number instanceof Float single ? Double.parseDouble(single.toString()) : number.doubleValue();
        }
        if (type == Float.class) {
            return number.floatValue();
        }
        BigDecimal exact = decimal(number);
        try {
            if (type == BigDecimal.class) {
                return exact;
            }
            if (type == BigInteger.class) {
                return exact.toBigIntegerExact();
            }
            if (type == Long.class) {
                return exact.longValueExact();
            }
            if (type == Integer.class) {
                return exact.intValueExact();
            }
            return type == Short.class ? (Object) exact.shortValueExact() : (Object) exact.byteValueExact();
        } catch (ArithmeticException e) {
            throw new IllegalArgumentException(number + " is no " + type.getSimpleName());
        }
    }

    // ---- times

    private static Object time(Class<?> type, Object value) {
        Object local = local(value);
        if (local == null) {
            return value;
        }
        if (type == LocalTime.class || type == Time.class || type == OffsetTime.class) {
            LocalTime time = local instanceof LocalTime t ? t : null;
            return time == null ? value : type == LocalTime.class ? time : type == Time.class ? Time.valueOf(time)
                    : time.atOffset(ZonedDateTime.now().getOffset());
        }
        boolean isLegacy = type == java.util.Date.class || Calendar.class.isAssignableFrom(type);
        LocalDateTime at = local instanceof LocalDate day ? day.atStartOfDay() : local instanceof LocalDateTime l ? l
                : isLegacy ? ((LocalTime) local).atDate(LocalDate.EPOCH) : null;
        if (at == null) {
            return value;
        }
        boolean isDay = type == LocalDate.class || type == Date.class;
        if (isDay && !at.toLocalTime().equals(LocalTime.MIDNIGHT)) {
            throw new IllegalArgumentException(value + " is no date alone");
        }
        ZonedDateTime zoned = at.atZone(ZoneId.systemDefault());
        if (type == LocalDate.class) {
            return at.toLocalDate();
        } else if (type == LocalDateTime.class) {
            return at;
        } else if (type == Date.class) {
            return Date.valueOf(at.toLocalDate());
        } else if (type == Timestamp.class) {
            return Timestamp.valueOf(at);
        } else if (type == java.util.Date.class) {
            return java.util.Date.from(zoned.toInstant());
        } else if (type == Instant.class) {
            return zoned.toInstant();
        } else if (type == OffsetDateTime.class) {
            return zoned.toOffsetDateTime();
        } else if (type == ZonedDateTime.class) {
            return zoned;
        }
        return Calendar.class.isAssignableFrom(type) ? calendar(zoned) : value;
    }

    private static Calendar calendar(ZonedDateTime zoned) {
        Calendar calendar = Calendar.getInstance();
        calendar.setTimeInMillis(zoned.toInstant().toEpochMilli());
        return calendar;
    }

    /** A value of any type of a time as one of java.time in the zone of the JVM, or null. */
    static Object local(Object value) {
        if (value instanceof LocalDate || value instanceof LocalTime || value instanceof LocalDateTime) {
            return value;
        } else if (value instanceof Date date) {
            return date.toLocalDate();
        } else if (value instanceof Time time) {
            return time.toLocalTime();
        } else if (value instanceof Timestamp stamp) {
            return stamp.toLocalDateTime();
        } else if (value instanceof java.util.Date date) {
            return LocalDateTime.ofInstant(date.toInstant(), ZoneId.systemDefault());
        } else if (value instanceof Calendar calendar) {
            return LocalDateTime.ofInstant(calendar.toInstant(), ZoneId.systemDefault());
        } else if (value instanceof Instant instant) {
            return LocalDateTime.ofInstant(instant, ZoneId.systemDefault());
        } else if (value instanceof OffsetDateTime offset) {
            return offset.atZoneSameInstant(ZoneId.systemDefault()).toLocalDateTime();
        } else if (value instanceof ZonedDateTime zoned) {
            return zoned.withZoneSameInstant(ZoneId.systemDefault()).toLocalDateTime();
        }
        return null;
    }
}
