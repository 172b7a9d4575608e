package karzhoul.jpa.model;

import java.time.Instant;
import java.time.LocalDateTime;
import java.time.OffsetDateTime;
import java.time.OffsetTime;
import java.time.LocalTime;
import java.time.ZoneOffset;

/**
 * Points of time as texts whose order is theirs: {@code 2026-11-29T08:00:00.123456789}. Each nanosecond of each year
 * that Java has is kept. Years after 9999 begin with Y, and those before 0 with a minus and what is left to 10^10.
 */
final class TimeTexts {
    /** The seconds of four hundred years, after which the calendar repeats itself. */
    private static final long CYCLE = 146_097L * 86_400;

    private static final long BEFORE_ZERO = 10_000_000_000L;
    private static final int DAY_SECONDS = 86_400;
    private static final int WIDEST_OFFSET = ZoneOffset.MAX.getTotalSeconds();
    private static final long NANOS = 1_000_000_000L;

    private TimeTexts() {}

    static String write(LocalDateTime time) {
        return write(time.toEpochSecond(ZoneOffset.UTC), time.getNano());
    }

    static LocalDateTime readLocal(String text) {
        long[] read = read(text);
        return LocalDateTime.ofEpochSecond(read[0], (int) read[1], ZoneOffset.UTC);
    }

    static String write(Instant instant) {
        return write(instant.getEpochSecond(), instant.getNano()) + "Z";
    }

    static Instant readInstant(String text) {
        long[] read = read(text.substring(0, text.length() - 1));
        return Instant.ofEpochSecond(read[0], read[1]);
    }

    /** By the instant first and then by the offset, as {@link OffsetDateTime#compareTo}. */
    static String write(OffsetDateTime time) {
        return write(time.toEpochSecond(), time.getNano()) + "Z" + biased(time.getOffset());
    }

    static OffsetDateTime readOffset(String text) {
        int end = text.indexOf('Z');
        long[] read = read(text.substring(0, end));
        ZoneOffset offset = offset(text.substring(end + 1));
        return LocalDateTime.ofEpochSecond(read[0] + offset.getTotalSeconds(), (int) read[1], ZoneOffset.UTC)
                .atOffset(offset);
    }

    /** By the time of day in Greenwich first and then by the offset's own, as {@link OffsetTime#compareTo}. */
    static String write(OffsetTime time) {
        long nanos = time.toLocalTime().toNanoOfDay() - time.getOffset().getTotalSeconds() * NANOS;
        return "%015d %s".formatted(nanos + DAY_SECONDS * NANOS, biased(time.getOffset()));
    }

    static OffsetTime readOffsetTime(String text) {
        String[] parts = text.split(" ");
        ZoneOffset offset = offset(parts[1]);
        long nanos = Long.parseLong(parts[0]) - DAY_SECONDS * NANOS + offset.getTotalSeconds() * NANOS;
        return OffsetTime.of(LocalTime.ofNanoOfDay(nanos), offset);
    }

    private static String biased(ZoneOffset offset) {
        return "%06d".formatted(offset.getTotalSeconds() + WIDEST_OFFSET);
    }

    private static ZoneOffset offset(String biased) {
        return ZoneOffset.ofTotalSeconds(Integer.parseInt(biased) - WIDEST_OFFSET);
    }

    private static String write(long second, int nano) {
        long cycles = Math.floorDiv(second, CYCLE);
        LocalDateTime near = LocalDateTime.ofEpochSecond(second - cycles * CYCLE, nano, ZoneOffset.UTC);
        long year = near.getYear() + cycles * 400;
        StringBuilder text = new StringBuilder(40);
        if (year > 9999) {
            digits(text.append('Y'), year, 10);
        } else if (year < 0) {
            digits(text.append('-'), BEFORE_ZERO + year, 10);
        } else {
            digits(text, year, 4);
        }
        digits(text.append('-'), near.getMonthValue(), 2);
        digits(text.append('-'), near.getDayOfMonth(), 2);
        digits(text.append('T'), near.getHour(), 2);
        digits(text.append(':'), near.getMinute(), 2);
        digits(text.append(':'), near.getSecond(), 2);
        digits(text.append('.'), nano, 9);
        return text.toString();
    }

    private static void digits(StringBuilder text, long number, int width) {
        String digits = Long.toString(number);
        text.append("0".repeat(width - digits.length())).append(digits);
    }

    private static long[] read(String text) {
        int rest = text.length() - "-MM-ddTHH:mm:ss.nnnnnnnnn".length();
        long year = switch (text.charAt(0)) {
            case 'Y' -> Long.parseLong(text, 1, rest, 10);
            case '-' -> Long.parseLong(text, 1, rest, 10) - BEFORE_ZERO;
            default -> Long.parseLong(text, 0, rest, 10);
        };
        long cycles = Math.floorDiv(year - 1970, 400L);
        LocalDateTime near = LocalDateTime.of((int) (year - cycles * 400), number(text, rest + 1, 2),
                number(text, rest + 4, 2),
                number(text, rest + 7, 2), number(text, rest + 10, 2), number(text, rest + 13, 2));
        return new long[] {near.toEpochSecond(ZoneOffset.UTC) + cycles * CYCLE, number(text, rest + 16, 9)};
    }

    private static int number(String text, int from, int width) {
        return Integer.parseInt(text, from, from + width, 10);
    }
}
