package karzhoul.jpa.model;

import java.io.ByteArrayInputStream;
import java.io.ByteArrayOutputStream;
import java.io.IOException;
import java.io.ObjectInputStream;
import java.io.ObjectOutputStream;
import java.io.ObjectStreamClass;
import java.math.BigDecimal;
import java.math.BigInteger;
import java.math.RoundingMode;
import java.time.Instant;
import java.time.LocalDate;
import java.time.LocalDateTime;
import java.time.LocalTime;
import java.time.OffsetDateTime;
import java.time.OffsetTime;
import java.util.Arrays;
import java.util.HashMap;
import java.util.Map;
import java.util.UUID;
import java.util.function.Function;
import java.util.stream.Collectors;

/** The codecs of the basic types (chapter 2.8), but for those of dates of before Java 8. */
final class BasicCodecs {
    private BasicCodecs() {}

    /**
     * The codec of a boxed type that needs no annotation, or null. Each is made where it is asked for: a table of all
     * would make the classes of eighty functions in each first run.
     */
    static Codec fixed(Class<?> boxed) {
        Codec codec = number(boxed);
        codec = codec != null ? codec : text(boxed);
        codec = codec != null ? codec : time(boxed);
        return codec != null ? codec : array(boxed);
    }

    private static Codec number(Class<?> type) {
        if (type == Long.class) {
            return whole(type, kept -> kept);
        } else if (type == Integer.class) {
            return whole(type, kept -> Math.toIntExact(kept));
        } else if (type == Short.class) {
            return whole(type, kept -> (short) within(kept, Short.MIN_VALUE, Short.MAX_VALUE));
        } else if (type == Byte.class) {
            return whole(type, kept -> (byte) within(kept, Byte.MIN_VALUE, Byte.MAX_VALUE));
        } else if (type == BigInteger.class) {
            return new ValueCodec(Sort.INT, type, false, "whole", BasicCodecs::whole,
                    kept -> BigInteger.valueOf((Long) kept));
        } else if (type == Boolean.class) {
            return new ValueCodec(Sort.INT, type, false, "truth", value -> (Boolean) value ? 1L : 0L,
                    kept -> within((Long) kept, 0, 1) == 1);
        } else if (type == Double.class) {
            return new ValueCodec(Sort.INT, type, false, "double",
                    value -> sortable(Double.doubleToLongBits((Double) value)),
                    kept -> Double.longBitsToDouble(sortable((Long) kept)));
        } else if (type == Float.class) {
            return new ValueCodec(Sort.INT, type, false, "float",
                    value -> (long) sortable(Float.floatToIntBits((Float) value)),
                    kept -> Float.intBitsToFloat(sortable(Math.toIntExact((Long) kept))));
        }
        return null;
    }

    private static Codec text(Class<?> type) {
        if (type == String.class) {
            return new ValueCodec(Sort.TEXT, type, false, "text", value -> Limits.text((String) value), kept -> kept);
        } else if (type == Character.class) {
            return new ValueCodec(Sort.TEXT, type, false, "text", value -> Limits.text(value.toString()),
                    kept -> onlyCharacter((String) kept));
        } else if (type == UUID.class) {
            return new ValueCodec(Sort.TEXT, type, false, "uuid", Object::toString,
                    kept -> UUID.fromString((String) kept));
        }
        return null;
    }

    private static Codec time(Class<?> type) {
        if (type == LocalDate.class) {
            return new ValueCodec(Sort.INT, type, false, "day", value -> ((LocalDate) value).toEpochDay(),
                    kept -> LocalDate.ofEpochDay((Long) kept));
        } else if (type == LocalTime.class) {
            return new ValueCodec(Sort.INT, type, false, "nanosecond of day",
                    value -> ((LocalTime) value).toNanoOfDay(), kept -> LocalTime.ofNanoOfDay((Long) kept));
        } else if (type == LocalDateTime.class) {
            return new ValueCodec(Sort.TEXT, type, false, "local time",
                    value -> TimeTexts.write((LocalDateTime) value), kept -> TimeTexts.readLocal((String) kept));
        } else if (type == Instant.class) {
            return new ValueCodec(Sort.TEXT, type, false, "instant",
                    value -> TimeTexts.write((Instant) value), kept -> TimeTexts.readInstant((String) kept));
        } else if (type == OffsetDateTime.class) {
            return new ValueCodec(Sort.TEXT, type, false, "offset time",
                    value -> TimeTexts.write((OffsetDateTime) value), kept -> TimeTexts.readOffset((String) kept));
        } else if (type == OffsetTime.class) {
            return new ValueCodec(Sort.TEXT, type, false, "offset time of day",
                    value -> TimeTexts.write((OffsetTime) value), kept -> TimeTexts.readOffsetTime((String) kept));
        }
        return null;
    }

    private static Codec array(Class<?> type) {
        if (type == byte[].class) {
            return new ValueCodec(Sort.BYTES, type, true, "bytes", value -> Limits.bytes((byte[]) value),
                    kept -> ((byte[]) kept).clone());
        } else if (type == Byte[].class) {
            return new ValueCodec(Sort.BYTES, type, true, "bytes", value -> Limits.bytes(unboxed((Byte[]) value)),
                    kept -> boxed((byte[]) kept));
        } else if (type == char[].class) {
            return new ValueCodec(Sort.TEXT, type, true, "text", value -> Limits.text(new String((char[]) value)),
                    kept -> ((String) kept).toCharArray());
        } else if (type == Character[].class) {
            return new ValueCodec(Sort.TEXT, type, true, "text", value -> Limits.text(unboxed((Character[]) value)),
                    kept -> ((String) kept).chars().mapToObj(code -> (char) code).toArray(Character[]::new));
        }
        return null;
    }

    /** A decimal by its unscaled value; one that needs more digits is refused. */
    static Codec decimal(int scale) {
        return new ValueCodec(Sort.INT, BigDecimal.class, false, "decimal of " + scale,
                value -> unscaled((BigDecimal) value, scale), kept -> BigDecimal.valueOf((Long) kept, scale));
    }

    private static Long unscaled(BigDecimal value, int scale) {
        try {
            return value.setScale(scale, RoundingMode.UNNECESSARY).unscaledValue().longValueExact();
        } catch (ArithmeticException inexact) {
            throw new IllegalArgumentException(value + " can't be kept: there are " + scale
                    + " digits behind the point, and 64 bits for all; @Column(precision, scale) says how many",
                    inexact);
        }
    }

    /** An enum by its place. */
    static Codec ordinal(Class<?> type) {
        Object[] constants = type.getEnumConstants();
        String meaning = Arrays.stream(constants).map(it -> ((Enum<?>) it).name())
                .collect(Collectors.joining(" ", "places of ", ""));
        return new ValueCodec(Sort.INT, type, false, meaning, value -> (long) ((Enum<?>) value).ordinal(),
                kept -> constants[Math.toIntExact((Long) kept)]);
    }

    /** An enum by its name. */
    static Codec named(Class<?> type) {
        Map<String, Object> byName = new HashMap<>();
        for (Object constant : type.getEnumConstants()) {
            byName.put(((Enum<?>) constant).name(), constant);
        }
        return new ValueCodec(Sort.TEXT, type, false, "text", value -> ((Enum<?>) value).name(), kept -> {
            if (!byName.containsKey(kept)) {
                throw new IllegalArgumentException("no such constant");
            }
            return byName.get(kept);
        });
    }

    /** What is serializable, as Java writes it; its classes are those of this loader. */
    static Codec serialized(Class<?> type, ClassLoader loader) {
        return new ValueCodec(Sort.BYTES, type, true, "serialized", value -> Limits.bytes(serialize(value)),
                kept -> deserialize((byte[]) kept, type, loader));
    }

    private static byte[] serialize(Object value) {
        ByteArrayOutputStream bytes = new ByteArrayOutputStream();
        try (ObjectOutputStream objects = new ObjectOutputStream(bytes)) {
            objects.writeObject(value);
        } catch (IOException fault) {
            throw new IllegalArgumentException("it can't be serialized: " + fault, fault);
        }
        return bytes.toByteArray();
    }

    private static Object deserialize(byte[] bytes, Class<?> type, ClassLoader loader) {
        try (ObjectInputStream objects = new Objects(bytes, loader)) {
            return type.cast(objects.readObject());
        } catch (IOException | ClassNotFoundException fault) {
            throw new IllegalArgumentException(fault);
        }
    }

    /** Reads objects of the application's classes. */
    private static final class Objects extends ObjectInputStream {
        private final ClassLoader loader;

        Objects(byte[] bytes, ClassLoader loader) throws IOException {
            super(new ByteArrayInputStream(bytes));
            this.loader = loader != null ? loader : Thread.currentThread().getContextClassLoader();
        }

        @Override
        protected Class<?> resolveClass(ObjectStreamClass described) throws IOException, ClassNotFoundException {
            try {
                return Class.forName(described.getName(), false, loader);
            } catch (ClassNotFoundException elsewhere) {
                return super.resolveClass(described);
            }
        }
    }

    private static Codec whole(Class<?> type, Function<Long, Object> back) {
        return new ValueCodec(Sort.INT, type, false, "whole", value -> ((Number) value).longValue(),
                kept -> back.apply((Long) kept));
    }

    private static Long whole(Object value) {
        try {
            return ((BigInteger) value).longValueExact();
        } catch (ArithmeticException beyond) {
            throw new IllegalArgumentException(value + " can't be kept: it is beyond 64 bits", beyond);
        }
    }

    private static long within(long kept, long lowest, long highest) {
        if (kept < lowest || kept > highest) {
            throw new IllegalArgumentException(kept + " is not within " + lowest + " and " + highest);
        }
        return kept;
    }

    /** Bits whose order is that of {@link Double#compare}: -0.0 right below 0.0, and NaN above all. */
    private static long sortable(long bits) {
        return bits ^ ((bits >> 63) & Long.MAX_VALUE);
    }

    private static int sortable(int bits) {
        return bits ^ ((bits >> 31) & Integer.MAX_VALUE);
    }

    private static Object onlyCharacter(String kept) {
        if (kept.length() != 1) {
            throw new IllegalArgumentException("not one character");
        }
        return kept.charAt(0);
    }

    private static byte[] unboxed(Byte[] values) {
        byte[] bytes = new byte[values.length];
        for (int i = 0; i < bytes.length; i++) {
            bytes[i] = present(values[i], i);
        }
        return bytes;
    }

    private static Byte[] boxed(byte[] bytes) {
        Byte[] values = new Byte[bytes.length];
        for (int i = 0; i < bytes.length; i++) {
            values[i] = bytes[i];
        }
        return values;
    }

    private static String unboxed(Character[] values) {
        StringBuilder text = new StringBuilder();
        for (int i = 0; i < values.length; i++) {
            text.append(present(values[i], i).charValue());
        }
        return text.toString();
    }

    private static <V> V present(V value, int place) {
        if (value == null) {
            throw new IllegalArgumentException("the array has null at its place " + place);
        }
        return value;
    }
}
