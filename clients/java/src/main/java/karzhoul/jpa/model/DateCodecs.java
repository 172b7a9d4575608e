package karzhoul.jpa.model;

import jakarta.persistence.TemporalType;
import java.sql.Time;
import java.sql.Timestamp;
import java.time.Instant;
import java.time.LocalDate;
import java.time.LocalTime;
import java.time.ZoneId;
import java.time.ZonedDateTime;
import java.util.Calendar;
import java.util.Date;
import java.util.GregorianCalendar;
import java.util.function.Function;

/**
 * The codecs of the dates of before Java 8 (chapter 11.1.53). A point of time is kept as its milliseconds, and a
 * Timestamp with its nanoseconds; a day as what it is in the zone of the JVM, and a time of day too.
 */
final class DateCodecs {
    private DateCodecs() {}

    /** The codec of a type, in the precision that {@code @Temporal} names; null where it is no such type. */
    static Codec of(Class<?> type, TemporalType precision) {
        if (type == java.sql.Date.class) {
            return day(type, Function.identity(), day -> new java.sql.Date(millis(day)));
        }
        if (type == Time.class) {
            return timeOfDay(type, Function.identity(), time -> new Time(firstDay(time)));
        }
        if (type == Timestamp.class) {
            return new ValueCodec(Sort.TEXT, type, true, "instant",
                    value -> TimeTexts.write(((Timestamp) value).toInstant()),
                    kept -> Timestamp.from(TimeTexts.readInstant((String) kept)));
        }
        if (type == Date.class) {
            return of(precision, type, value -> (Date) value, Date::new);
        }
        if (type == Calendar.class || type == GregorianCalendar.class) {
            return of(precision, type, value -> ((Calendar) value).getTime(), DateCodecs::calendar);
        }
        return null;
    }

    private static Codec of(TemporalType precision, Class<?> type, Function<Object, Object> toDate,
            Function<Long, Object> back) {
        return switch (precision) {
            case DATE -> day(type, toDate, day -> back.apply(millis(day)));
            case TIME -> timeOfDay(type, toDate, time -> back.apply(firstDay(time)));
            case TIMESTAMP -> new ValueCodec(Sort.INT, type, true, "millisecond",
                    value -> exact((Date) toDate.apply(value)),
                    kept -> back.apply((Long) kept));
        };
    }

    private static Codec day(Class<?> type, Function<Object, Object> toDate, Function<LocalDate, Object> back) {
        return new ValueCodec(Sort.INT, type, true, "day", value -> local((Date) toDate.apply(value)).toLocalDate()
                .toEpochDay(),
                kept -> back.apply(LocalDate.ofEpochDay((Long) kept)));
    }

    private static Codec timeOfDay(Class<?> type, Function<Object, Object> toDate, Function<LocalTime, Object> back) {
        return new ValueCodec(Sort.INT, type, true, "nanosecond of day",
                value -> local((Date) toDate.apply(value)).toLocalTime().toNanoOfDay(),
                kept -> back.apply(LocalTime.ofNanoOfDay((Long) kept)));
    }

    private static Long exact(Date date) {
        if (date instanceof Timestamp timestamp && timestamp.getNanos() % 1_000_000 != 0) {
            throw new IllegalArgumentException(date + " can't be kept in a java.util.Date without its nanoseconds; "
                    + "declare it as java.sql.Timestamp");
        }
        return date.getTime();
    }

    private static ZonedDateTime local(Date date) {
        return Instant.ofEpochMilli(date.getTime()).atZone(ZoneId.systemDefault());
    }

    private static long millis(LocalDate day) {
        return day.atStartOfDay(ZoneId.systemDefault()).toInstant().toEpochMilli();
    }

    private static long firstDay(LocalTime time) {
        return time.atDate(LocalDate.EPOCH).atZone(ZoneId.systemDefault()).toInstant().toEpochMilli();
    }

    private static Calendar calendar(long millis) {
        Calendar calendar = Calendar.getInstance();
        calendar.setTimeInMillis(millis);
        return calendar;
    }
}
