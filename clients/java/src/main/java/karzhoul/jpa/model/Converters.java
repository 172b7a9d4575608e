package karzhoul.jpa.model;

import jakarta.persistence.AttributeConverter;
import jakarta.persistence.Converter;
import jakarta.persistence.PersistenceException;
import java.lang.reflect.Type;
import java.lang.reflect.TypeVariable;
import java.math.BigDecimal;
import java.math.BigInteger;
import java.net.URI;
import java.net.URL;
import java.util.Currency;
import java.util.HashMap;
import java.util.Locale;
import java.util.Map;
import java.util.Optional;
import java.util.Set;
import java.util.UUID;
import java.util.function.Supplier;

/** The converters of a unit (chapter 3.8). */
final class Converters {
    private static final Set<Class<?>> IMMUTABLE = Set.of(
            String.class, Boolean.class, Character.class, Byte.class, Short.class, Integer.class, Long.class,
            Float.class, Double.class, BigDecimal.class, BigInteger.class, UUID.class, Locale.class, Currency.class,
            URI.class, URL.class);

    /**
     * A codec through a converter, which is asked of null too.
     *
     * @param kept the codec of what the converter answers
     */
    private record Converted(AttributeConverter<Object, Object> converter, Class<?> javaType, Codec kept)
            implements Codec {
        @Override
        public Sort sort() {
            return kept.sort();
        }

        @Override
        public Object toColumn(Object value) {
            if (value != null && !javaType.isInstance(value)) {
                throw new IllegalArgumentException("a value of " + value.getClass().getName() + " stands where one of "
                        + javaType.getName() + " belongs");
            }
            return kept.toColumn(raised(() -> converter.convertToDatabaseColumn(value)));
        }

        @Override
        public Object toAttribute(Object column) {
            return raised(() -> converter.convertToEntityAttribute(kept.toAttribute(column)));
        }

        private Object raised(Supplier<Object> conversion) {
            try {
                return conversion.get();
            } catch (PersistenceException raised) {
                throw raised;
            } catch (RuntimeException raised) {
                throw new PersistenceException("the converter " + converter.getClass().getName() + " raised " + raised,
                        raised);
            }
        }

        @Override
        public boolean isMutable() {
            return !IMMUTABLE.contains(javaType) && !javaType.isEnum() && !javaType.isRecord()
                    && !javaType.getName().startsWith("java.time.");
        }

        @Override
        public String meaning() {
            return kept.meaning() + " by a converter";
        }
    }

    private final Faults faults;
    private final Map<Class<?>, Codec> automatic = new HashMap<>();
    private final Map<Class<?>, Optional<Codec>> made = new HashMap<>();

    Converters(Faults faults) {
        this.faults = faults;
    }

    /** Takes a class with {@code @Converter}; one with autoApply counts for all attributes of its type. */
    void add(Class<?> javaClass) {
        Optional<Codec> codec = of(javaClass);
        if (codec.isEmpty() || !javaClass.getAnnotation(Converter.class).autoApply()) {
            return;
        }
        if (automatic.putIfAbsent(codec.get().javaType(), codec.get()) != null) {
            faults.add(javaClass, "another converter applies by itself to " + codec.get().javaType().getName() + " too",
                    "Leave out autoApply of one of them");
        }
    }

    /** The converter that applies by itself to a boxed type. */
    Optional<Codec> automatic(Class<?> boxed) {
        return Optional.ofNullable(automatic.get(boxed));
    }

    /** The codec of a converter's class; empty where it is wrong, which was told then. */
    Optional<Codec> of(Class<?> javaClass) {
        Optional<Codec> known = made.get(javaClass);
        if (known == null) {
            known = make(javaClass);
            made.put(javaClass, known);
        }
        return known;
    }

    @SuppressWarnings("unchecked")
    private Optional<Codec> make(Class<?> javaClass) {
        if (!AttributeConverter.class.isAssignableFrom(javaClass)) {
            faults.add(javaClass, "it is no AttributeConverter", "Implement AttributeConverter<X, Y>");
            return Optional.empty();
        }
        Map<TypeVariable<?>, Type> arguments = Types.arguments(javaClass);
        var variables = AttributeConverter.class.getTypeParameters();
        Class<?> attribute = Types.raw(Types.resolve(variables[0], arguments));
        Class<?> column = Types.raw(Types.resolve(variables[1], arguments));
        Codec kept = column == BigDecimal.class ? BasicCodecs.decimal(Codecs.USUAL_SCALE) : Codecs.plain(column);
        if (kept == null) {
            faults.add(javaClass, "it converts to " + column.getName() + ", which is no basic type",
                    "Convert to a number, a String, a byte[] or a date");
            return Optional.empty();
        }
        try {
            var converter = (AttributeConverter<Object, Object>) Accessor.make(Accessor.constructor(javaClass));
            return Optional.of(new Converted(converter, attribute, kept));
        } catch (NoSuchMethodException missing) {
            faults.add(javaClass, "it has no constructor without parameters", "Add one");
        } catch (IllegalAccessException closed) {
            faults.add(javaClass, "its module doesn't open its package", Members.openWords(javaClass));
        } catch (RuntimeException raised) {
            faults.add(javaClass, "its constructor raised " + raised, "Let it make a converter");
        }
        return Optional.empty();
    }
}
