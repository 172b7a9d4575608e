package karzhoul.jpa.model;

import static org.junit.jupiter.api.Assertions.assertArrayEquals;
import static org.junit.jupiter.api.Assertions.assertEquals;
import static org.junit.jupiter.api.Assertions.assertNull;
import static org.junit.jupiter.api.Assertions.assertThrows;
import static org.junit.jupiter.api.Assertions.assertTrue;

import jakarta.persistence.PersistenceException;
import jakarta.persistence.TemporalType;
import java.math.BigDecimal;
import java.math.BigInteger;
import java.nio.charset.StandardCharsets;
import java.sql.Time;
import java.sql.Timestamp;
import java.time.Instant;
import java.time.LocalDate;
import java.time.LocalDateTime;
import java.time.LocalTime;
import java.time.OffsetDateTime;
import java.time.OffsetTime;
import java.time.ZoneOffset;
import java.time.temporal.ChronoUnit;
import java.util.ArrayList;
import java.util.Arrays;
import java.util.Calendar;
import java.util.Date;
import java.util.List;
import java.util.Random;
import java.util.UUID;
import java.util.function.Function;
import java.util.stream.Stream;
import org.junit.jupiter.api.DynamicTest;
import org.junit.jupiter.api.Test;
import org.junit.jupiter.api.TestFactory;

/** What is kept of values has their order and equality, and gives them back. */
class CodecTest {
    private static final int VALUES = 150;

    enum Mood { GLAD, SAD, TIRED { @Override public String toString() { return "worn"; } } }

    /** A type whose order is that of {@code compareTo}, random values of it, and ends of its range and odd ones. */
    private record Ordered<V extends Comparable<? super V>>(Codec codec, Function<Random, V> random, List<V> ends) {}

    private static <V extends Comparable<? super V>> Ordered<V> of(Class<V> type, Function<Random, V> random, List<V> ends) {
        return new Ordered<>(Codecs.plain(type), random, ends);
    }

    private static List<Ordered<?>> ordered() {
        return List.of(
                of(Long.class, Random::nextLong, List.of(Long.MIN_VALUE, -1L, 0L, 1L, Long.MAX_VALUE)),
                of(Integer.class, Random::nextInt, List.of(Integer.MIN_VALUE, -1, 0, 1, Integer.MAX_VALUE)),
                of(Short.class, r -> (short) r.nextInt(), List.of(Short.MIN_VALUE, (short) -1, (short) 0, Short.MAX_VALUE)),
                of(Byte.class, r -> (byte) r.nextInt(), List.of(Byte.MIN_VALUE, (byte) -1, (byte) 0, Byte.MAX_VALUE)),
                of(Boolean.class, Random::nextBoolean, List.of(false, true)),
                of(BigInteger.class, r -> BigInteger.valueOf(r.nextLong()),
                        List.of(BigInteger.valueOf(Long.MIN_VALUE), BigInteger.ZERO, BigInteger.valueOf(Long.MAX_VALUE))),
                of(Double.class, r -> Double.longBitsToDouble(r.nextLong()), List.of(Double.NEGATIVE_INFINITY, -Double.MAX_VALUE,
                        -Double.MIN_VALUE, -0.0, 0.0, Double.MIN_VALUE, 1.0, Double.MAX_VALUE, Double.POSITIVE_INFINITY, Double.NaN)),
                of(Float.class, r -> Float.intBitsToFloat(r.nextInt()), List.of(Float.NEGATIVE_INFINITY, -Float.MAX_VALUE,
                        -Float.MIN_VALUE, -0.0f, 0.0f, Float.MIN_VALUE, Float.MAX_VALUE, Float.POSITIVE_INFINITY, Float.NaN)),
                of(Character.class, r -> plainCharacter(r), List.of('\0', 'a', '\uD7FF', '\uE000', '\uFFFF')),
                of(String.class, CodecTest::basicText, List.of("", "\0", "a", "a\0", "ab", "z", "\u00e9", "\uffff")),
                of(LocalDate.class, r -> LocalDate.ofEpochDay(r.nextInt()), List.of(LocalDate.MIN, LocalDate.EPOCH, LocalDate.MAX)),
                of(LocalTime.class, r -> LocalTime.ofNanoOfDay(Math.floorMod(r.nextLong(), 86_400_000_000_000L)),
                        List.of(LocalTime.MIN, LocalTime.NOON, LocalTime.MAX)),
                of(LocalDateTime.class, CodecTest::localDateTime, List.of(LocalDateTime.MIN, LocalDateTime.of(-1, 12, 31, 23, 59),
                        LocalDateTime.of(0, 1, 1, 0, 0), LocalDateTime.of(9999, 12, 31, 23, 59, 59, 999_999_999),
                        LocalDateTime.of(10_000, 1, 1, 0, 0), LocalDateTime.MAX)),
                of(Instant.class, r -> localDateTime(r).toInstant(ZoneOffset.UTC),
                        List.of(Instant.MIN, Instant.EPOCH.minusNanos(1), Instant.EPOCH, Instant.MAX)),
                of(OffsetDateTime.class, r -> localDateTime(r).atOffset(offset(r)), List.of(OffsetDateTime.MIN, OffsetDateTime.MAX,
                        OffsetDateTime.parse("2026-11-29T10:00+02:00"), OffsetDateTime.parse("2026-11-29T08:00Z"),
                        OffsetDateTime.parse("2026-11-29T06:00-02:00"))),
                of(OffsetTime.class, r -> LocalTime.ofSecondOfDay(r.nextInt(86_400)).atOffset(offset(r)), List.of(OffsetTime.MIN,
                        OffsetTime.MAX, OffsetTime.parse("10:00+02:00"), OffsetTime.parse("08:00Z"))),
                of(Date.class, r -> new Date(r.nextLong()), List.of(new Date(Long.MIN_VALUE), new Date(0), new Date(Long.MAX_VALUE))),
                of(Mood.class, r -> Mood.values()[r.nextInt(3)], List.of(Mood.values())),
                new Ordered<BigDecimal>(BasicCodecs.decimal(3), r -> BigDecimal.valueOf(r.nextLong(), 3),
                        List.of(BigDecimal.valueOf(Long.MIN_VALUE, 3), new BigDecimal("0.000"), BigDecimal.valueOf(Long.MAX_VALUE, 3))));
    }

    private static char plainCharacter(Random random) {
        char found = (char) random.nextInt(0x10000);
        return Character.isSurrogate(found) ? 'x' : found;
    }

    /** Texts whose order by UTF-8 is that of Java: without pairs of surrogates. */
    private static String basicText(Random random) {
        StringBuilder text = new StringBuilder();
        for (int i = random.nextInt(6); i > 0; i--) {
            text.append(random.nextBoolean() ? (char) ('a' + random.nextInt(3)) : plainCharacter(random));
        }
        return text.toString();
    }

    private static LocalDateTime localDateTime(Random random) {
        long second = random.nextBoolean() ? random.nextInt() : random.nextLong(-31_000_000_000_000_000L, 31_000_000_000_000_000L);
        return LocalDateTime.ofEpochSecond(second, random.nextInt(1_000_000_000), ZoneOffset.UTC);
    }

    private static ZoneOffset offset(Random random) {
        return ZoneOffset.ofTotalSeconds(random.nextInt(-64_800, 64_801));
    }

    @TestFactory
    Stream<DynamicTest> orderEqualityAndRoundTrip() {
        return ordered().stream().map(it -> DynamicTest.dynamicTest(it.codec().javaType().getSimpleName(), () -> check(it)));
    }

    private static <V extends Comparable<? super V>> void check(Ordered<V> type) {
        Random random = new Random(20261129);
        List<V> values = new ArrayList<>(type.ends());
        for (int i = 0; i < VALUES; i++) {
            values.add(type.random().apply(random));
        }
        List<Object> all = values.stream().map(type.codec()::toColumn).toList();
        for (int i = 0; i < values.size(); i++) {
            V value = values.get(i);
            Object kept = all.get(i);
            assertEquals(value, type.codec().toAttribute(kept), "given back");
            for (int j = 0; j < values.size(); j++) {
                V other = values.get(j);
                int wanted = Integer.signum(value.compareTo(other));
                assertEquals(wanted, sign(kept, all.get(j)), value + " and " + other);
                assertEquals(value.equals(other), equal(kept, all.get(j)), value + " and " + other);
            }
        }
        assertNull(type.codec().toColumn(null));
        assertNull(type.codec().toAttribute(null));
    }

    /** As the program orders what it keeps: texts and bytes by their bytes. */
    private static int sign(Object one, Object other) {
        if (one instanceof Long number) {
            return Integer.signum(number.compareTo((Long) other));
        }
        return Integer.signum(Arrays.compareUnsigned(bytes(one), bytes(other)));
    }

    private static boolean equal(Object one, Object other) {
        return sign(one, other) == 0;
    }

    private static byte[] bytes(Object kept) {
        return kept instanceof String text ? text.getBytes(StandardCharsets.UTF_8) : (byte[]) kept;
    }

    @Test
    void uuidsAreTheirTexts() {
        UUID id = UUID.fromString("f81d4fae-7dec-11d0-a765-00a0c91e6bf6");
        assertEquals("f81d4fae-7dec-11d0-a765-00a0c91e6bf6", Codecs.plain(UUID.class).toColumn(id));
        assertEquals(id, Codecs.plain(UUID.class).toAttribute("f81d4fae-7dec-11d0-a765-00a0c91e6bf6"));
    }

    @Test
    void pointsOfTimeCanBeRead() {
        assertEquals("2026-11-29T08:05:01.000000007", Codecs.plain(LocalDateTime.class).toColumn(LocalDateTime.of(2026, 11, 29, 8, 5, 1, 7)));
        assertEquals("0000-01-01T00:00:00.000000000", Codecs.plain(LocalDateTime.class).toColumn(LocalDateTime.of(0, 1, 1, 0, 0)));
        assertEquals("1970-01-01T00:00:00.000000000Z", Codecs.plain(Instant.class).toColumn(Instant.EPOCH));
    }

    @Test
    void arraysAreCopied() {
        Codec codec = Codecs.plain(byte[].class);
        byte[] bytes = {1, -1, 0};
        byte[] kept = (byte[]) codec.toColumn(bytes);
        bytes[0] = 9;
        assertArrayEquals(new byte[] {1, -1, 0}, kept);
        assertArrayEquals(new byte[] {1, -1, 0}, (byte[]) codec.toAttribute(kept));
        assertArrayEquals(new Byte[] {1, -1}, (Byte[]) Codecs.plain(Byte[].class).toAttribute(new byte[] {1, -1}));
        assertArrayEquals("ab\ud83d\ude00".toCharArray(), (char[]) Codecs.plain(char[].class).toAttribute("ab\ud83d\ude00"));
        assertArrayEquals(new Character[] {'a', '\u00e9'}, (Character[]) Codecs.plain(Character[].class).toAttribute("a\u00e9"));
        assertEquals("null at its place 1", endOf(() -> Codecs.plain(Byte[].class).toColumn(new Byte[] {1, null}), 19));
    }

    private static String endOf(org.junit.jupiter.api.function.Executable work, int length) {
        String words = assertThrows(IllegalArgumentException.class, work).getMessage();
        return words.substring(words.length() - length);
    }

    @Test
    void whatCannotBeKeptIsRefused() {
        refused(String.class, "x".repeat(65_536), "65536 bytes");
        refused(String.class, "\u20ac".repeat(21_846), "65538 bytes");
        refused(String.class, "a\ud83d", "half a surrogate pair at its place 1");
        refused(String.class, "\ude00\ud83d", "half a surrogate pair at its place 0");
        refused(Character.class, '\ud800', "half a surrogate pair");
        refused(byte[].class, new byte[65_536], "65536 bytes");
        refused(BigInteger.class, BigInteger.TWO.pow(63), "beyond 64 bits");
        refused(Integer.class, 1L, "java.lang.Long stands where one of java.lang.Integer belongs");
        refused(LocalDate.class, "2026-11-29", "java.lang.String");
        assertTrue(assertThrows(IllegalArgumentException.class, () -> BasicCodecs.decimal(2).toColumn(new BigDecimal("1.005")))
                .getMessage().contains("2 digits behind the point"));
        assertThrows(IllegalArgumentException.class, () -> BasicCodecs.decimal(2).toColumn(new BigDecimal("92233720368547758.08")));
        assertEquals(new BigDecimal("1.50"), BasicCodecs.decimal(2).toAttribute(BasicCodecs.decimal(2).toColumn(new BigDecimal("1.5"))));
        assertEquals("x".repeat(65_535), Codecs.plain(String.class).toColumn("x".repeat(65_535)));
    }

    private static void refused(Class<?> type, Object value, String words) {
        String said = assertThrows(IllegalArgumentException.class, () -> Codecs.plain(type).toColumn(value)).getMessage();
        assertTrue(said.contains(words), said);
    }

    @Test
    void whatIsNoValueOfTheTypeIsToldAtReading() {
        assertThrows(PersistenceException.class, () -> Codecs.plain(Integer.class).toAttribute(1L << 31));
        assertThrows(PersistenceException.class, () -> Codecs.plain(Byte.class).toAttribute(128L));
        assertThrows(PersistenceException.class, () -> Codecs.plain(Boolean.class).toAttribute(2L));
        assertThrows(PersistenceException.class, () -> Codecs.plain(Mood.class).toAttribute(3L));
        assertThrows(PersistenceException.class, () -> BasicCodecs.named(Mood.class).toAttribute("CROSS"));
        assertThrows(PersistenceException.class, () -> Codecs.plain(Character.class).toAttribute("ab"));
        assertThrows(PersistenceException.class, () -> Codecs.plain(UUID.class).toAttribute("no"));
    }

    @Test
    void enumsByTheirNames() {
        Codec codec = BasicCodecs.named(Mood.class);
        assertEquals("TIRED", codec.toColumn(Mood.TIRED));
        assertEquals(Mood.TIRED, codec.toAttribute("TIRED"));
    }

    @Test
    void serializedValues() {
        Codec codec = BasicCodecs.serialized(ArrayList.class, null);
        List<String> list = new ArrayList<>(List.of("a", "b"));
        assertEquals(list, codec.toAttribute(codec.toColumn(list)));
        assertTrue(codec.isMutable());
        assertThrows(IllegalArgumentException.class, () -> BasicCodecs.serialized(Object.class, null).toColumn(new Object()));
    }

    @Test
    void datesOfBeforeJava8() {
        Codec day = DateCodecs.of(java.sql.Date.class, TemporalType.TIMESTAMP);
        assertEquals(LocalDate.of(2026, 11, 29).toEpochDay(), day.toColumn(java.sql.Date.valueOf("2026-11-29")));
        assertEquals(java.sql.Date.valueOf("2026-11-29"), day.toAttribute(LocalDate.of(2026, 11, 29).toEpochDay()));
        Codec time = DateCodecs.of(Time.class, TemporalType.TIMESTAMP);
        assertEquals(Time.valueOf("08:05:01"), time.toAttribute(time.toColumn(Time.valueOf("08:05:01"))));
        Codec stamp = DateCodecs.of(Timestamp.class, TemporalType.TIMESTAMP);
        Timestamp exact = Timestamp.valueOf("2026-11-29 08:05:01.123456789");
        assertEquals(exact, stamp.toAttribute(stamp.toColumn(exact)));
        Codec ofDay = DateCodecs.of(Date.class, TemporalType.DATE);
        assertEquals(java.sql.Timestamp.valueOf("2026-11-29 00:00:00").getTime(), ((Date) ofDay.toAttribute(ofDay.toColumn(new Date(Timestamp.valueOf("2026-11-29 08:05:00").getTime())))).getTime());
        Codec calendar = DateCodecs.of(Calendar.class, TemporalType.TIMESTAMP);
        Calendar now = Calendar.getInstance();
        assertEquals(now.getTime(), ((Calendar) calendar.toAttribute(calendar.toColumn(now))).getTime());
        Codec millis = DateCodecs.of(Date.class, TemporalType.TIMESTAMP);
        assertThrows(IllegalArgumentException.class, () -> millis.toColumn(exact));
        assertTrue(stamp.isMutable() && day.isMutable() && calendar.isMutable());
        assertEquals(Instant.EPOCH.truncatedTo(ChronoUnit.MILLIS), ((Date) millis.toAttribute(0L)).toInstant());
    }
}
