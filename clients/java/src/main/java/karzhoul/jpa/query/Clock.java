package karzhoul.jpa.query;

import java.sql.Date;
import java.sql.Time;
import java.sql.Timestamp;
import java.time.LocalDate;
import java.time.LocalDateTime;
import java.time.LocalTime;
import java.time.temporal.ChronoUnit;
import karzhoul.jpa.query.Tree.Now;

/** The time at which a statement is executed: one for all of it (chapter 4.7.2.3). */
final class Clock {
    private LocalDateTime now;

    /** The time at which the statement asked for it first. */
    private LocalDateTime now() {
        if (now == null) {
            now = LocalDateTime.now().truncatedTo(ChronoUnit.MICROS);
        }
        return now;
    }

    /** The type of a value of these. */
    static Class<?> typeOf(Now.Kind kind) {
        return switch (kind) {
            case CURRENT_DATE -> Date.class;
            case CURRENT_TIME -> Time.class;
            case CURRENT_TIMESTAMP -> Timestamp.class;
            case LOCAL_DATE -> LocalDate.class;
            case LOCAL_TIME -> LocalTime.class;
            case LOCAL_DATETIME -> LocalDateTime.class;
        };
    }

    /** The type of a field of EXTRACT; null where it is no field. */
    static Class<?> typeOfField(String field) {
        return switch (field) {
            case "YEAR", "QUARTER", "MONTH", "WEEK", "DAY", "HOUR", "MINUTE" -> Integer.class;
            case "SECOND" -> Double.class;
            case "DATE" -> LocalDate.class;
            case "TIME" -> LocalTime.class;
            default -> null;
        };
    }

    /** The date or the time in java.time, for comparisons with attributes of any type. */
    Object local(Now.Kind kind) {
        return switch (kind) {
            case CURRENT_DATE, LOCAL_DATE -> now().toLocalDate();
            case CURRENT_TIME, LOCAL_TIME -> now().toLocalTime();
            case CURRENT_TIMESTAMP, LOCAL_DATETIME -> now();
        };
    }

    /** The value as an item of the result has it. */
    Object value(Now.Kind kind) {
        return switch (kind) {
            case CURRENT_DATE -> Date.valueOf(now().toLocalDate());
            case CURRENT_TIME -> Time.valueOf(now().toLocalTime());
            case CURRENT_TIMESTAMP -> Timestamp.valueOf(now());
            default -> local(kind);
        };
    }
}
