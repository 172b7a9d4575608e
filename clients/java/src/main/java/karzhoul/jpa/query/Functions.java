package karzhoul.jpa.query;

import jakarta.persistence.PersistenceException;
import java.math.BigDecimal;
import java.math.BigInteger;
import java.math.RoundingMode;
import java.time.DateTimeException;
import java.time.LocalDate;
import java.time.LocalDateTime;
import java.time.LocalTime;
import java.time.temporal.ChronoField;
import java.time.temporal.IsoFields;
import java.time.temporal.Temporal;
import java.util.Arrays;
import java.util.List;
import java.util.Locale;
import java.util.Objects;

/** The functions as the door computes them, over values that aren't null (chapter 4.7.2). */
final class Functions {
    private Functions() {}

    static Object call(Function function, List<Object> given) {
        if (function == Function.COALESCE) {
            return given.stream().filter(Objects::nonNull).findFirst().orElse(null);
        }
        if (function == Function.NULLIF) {
            Object a = given.get(0);
            return a != null && given.get(1) != null && Comparing.compare(a, given.get(1)) == 0 ? null : a;
        }
        if (given.contains(null)) {
            return null;
        }
        return switch (function) {
            case LENGTH, CONCAT, SUBSTRING, LOCATE, UPPER, LOWER, TRIM -> text(function, given);
            case EXTRACT -> extract((String) given.get(0), given.get(1));
            default -> number(function, (Number) given.get(0), given.size() > 1 ? (Number) given.get(1) : null);
        };
    }

    // ---- texts: characters are those of Unicode, counted from 1

    private static Object text(Function function, List<Object> given) {
        String text = given.get(0).toString();
        return switch (function) {
            case LENGTH -> text.codePointCount(0, text.length());
            case CONCAT -> String.join("", given.stream().map(Object::toString).toList());
            case UPPER -> text.toUpperCase(Locale.ROOT);
            case LOWER -> text.toLowerCase(Locale.ROOT);
            case TRIM -> trim(text, given.get(1).toString(), given.get(2).toString());
            case LOCATE -> locate(text, given.get(1).toString(), given.size() > 2 ? whole(given.get(2)) : 1);
            default -> substring(text, whole(given.get(1)), given.size() > 2 ? whole(given.get(2)) : Long.MAX_VALUE);
        };
    }

    private static long whole(Object number) {
        return ((Number) number).longValue();
    }

    /** What there is of the text from a place on, so many characters at most. */
    private static String substring(String text, long from, long count) {
        int[] points = text.codePoints().toArray();
        BigInteger end = BigInteger.valueOf(from).add(BigInteger.valueOf(count));
        long last = end.min(BigInteger.valueOf(points.length + 1L)).longValue();
        long first = Math.max(1, from);
        return first >= last ? "" : new String(points, (int) first - 1, (int) (last - first));
    }

    private static Integer locate(String searched, String text, long from) {
        int[] points = text.codePoints().toArray();
        int[] wanted = searched.codePoints().toArray();
        for (long at = Math.max(1, from); at + wanted.length <= points.length + 1L; at++) {
            int place = (int) at - 1;
            if (Arrays.equals(points, place, place + wanted.length, wanted, 0, wanted.length)) {
                return (int) at;
            }
        }
        return 0;
    }

    private static String trim(String side, String character, String text) {
        checkOne("TRIM takes off", character);
        int from = 0;
        int end = text.length();
        while (!side.equals("TRAILING") && text.startsWith(character, from) && from < end) {
            from += character.length();
        }
        while (!side.equals("LEADING") && end - character.length() >= from
                && text.startsWith(character, end - character.length())) {
            end -= character.length();
        }
        return text.substring(from, end);
    }

    /** Refuses what is given and isn't one character (chapters 4.6.10 and 4.7.2). */
    static void checkOne(String what, Object given) {
        String text = String.valueOf(given);
        if (given != null && text.codePointCount(0, text.length()) != 1) {
            throw new IllegalArgumentException(what + " one character, and is given \"" + text + "\"");
        }
    }

    // ---- numbers

    private static Object number(Function function, Number a, Number b) {
        return switch (function) {
            case ABS -> Numbers.compare(a, 0) < 0 ? Numbers.signed(true, a) : Numbers.signed(false, a);
            case SIGN -> Integer.signum(Numbers.compare(a, 0));
            case MOD -> whole(b) == 0 ? null : Math.toIntExact(whole(a) % whole(b));
            case CEILING -> rounded(a, 0, RoundingMode.CEILING);
            case FLOOR -> rounded(a, 0, RoundingMode.FLOOR);
            case ROUND -> rounded(a, b.intValue(), RoundingMode.HALF_UP);
            default -> real(function, a.doubleValue(), b);
        };
    }

    private static Object rounded(Number number, int scale, RoundingMode mode) {
        if (number instanceof Double || number instanceof Float) {
            double value = number.doubleValue();
            boolean isNumber = !Double.isNaN(value) && !Double.isInfinite(value);
            double rounded = isNumber ? BigDecimal.valueOf(value).setScale(scale, mode).doubleValue() : value;
            return number instanceof Float ? (Object) (float) rounded : (Object) rounded;
        }
        return number instanceof BigDecimal decimal ? decimal.setScale(scale, mode) : Numbers.signed(false, number);
    }

    private static Double real(Function function, double a, Number b) {
        double value = switch (function) {
            case SQRT -> Math.sqrt(a);
            case EXP -> Math.exp(a);
            case LN -> Math.log(a);
            default -> Math.pow(a, b.doubleValue());
        };
        if (Double.isNaN(value) || Double.isInfinite(value)) {
            throw new PersistenceException(function + " of " + a + " is no number");
        }
        return value;
    }

    // ---- times

    private static Object extract(String field, Object value) {
        Temporal time = (Temporal) Conversions.local(value);
        try {
            return switch (field) {
                case "YEAR" -> time.get(ChronoField.YEAR);
                case "QUARTER" -> time.get(IsoFields.QUARTER_OF_YEAR);
                case "MONTH" -> time.get(ChronoField.MONTH_OF_YEAR);
                case "WEEK" -> time.get(IsoFields.WEEK_OF_WEEK_BASED_YEAR);
                case "DAY" -> time.get(ChronoField.DAY_OF_MONTH);
                case "HOUR" -> time.get(ChronoField.HOUR_OF_DAY);
                case "MINUTE" -> time.get(ChronoField.MINUTE_OF_HOUR);
                case "SECOND" -> time.get(ChronoField.SECOND_OF_MINUTE) + time.get(ChronoField.NANO_OF_SECOND) / 1e9;
                case "DATE" -> time instanceof LocalDateTime at ? at.toLocalDate() : LocalDate.from(time);
                default -> time instanceof LocalDateTime at ? at.toLocalTime() : LocalTime.from(time);
            };
        } catch (DateTimeException e) {
            throw new PersistenceException("there is no " + field + " in " + value, e);
        }
    }
}
