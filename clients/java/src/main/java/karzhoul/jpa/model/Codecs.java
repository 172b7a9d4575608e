package karzhoul.jpa.model;

import jakarta.persistence.AttributeConverter;
import jakarta.persistence.Column;
import jakarta.persistence.Convert;
import jakarta.persistence.Entity;
import jakarta.persistence.EnumType;
import jakarta.persistence.Enumerated;
import jakarta.persistence.Id;
import jakarta.persistence.Lob;
import jakarta.persistence.MapKeyColumn;
import jakarta.persistence.MapKeyEnumerated;
import jakarta.persistence.MapKeyTemporal;
import jakarta.persistence.Temporal;
import jakarta.persistence.TemporalType;
import jakarta.persistence.Version;
import java.io.Serializable;
import java.math.BigDecimal;
import java.util.Arrays;
import java.util.Collection;
import java.util.Map;
import java.util.Optional;

/** Chooses the codec of an attribute by its type and its annotations (chapters 2.8 and 3.8). */
final class Codecs {
    /** The scale of a decimal of which no column says one. */
    static final int USUAL_SCALE = 2;

    private final Faults faults;
    private final Converters converters;

    Codecs(Faults faults, Converters converters) {
        this.faults = faults;
        this.converters = converters;
    }

    /**
     * The codec of a basic attribute; empty where it has none, which was told then.
     *
     * @param path its path from the members that the scope is about
     */
    Optional<Codec> of(Member member, Scope scope, String path, Optional<Column> column) {
        Optional<Convert> convert = scope.convert(path).or(() -> member.find(Convert.class)
                .filter(it -> it.attributeName().isEmpty()));
        boolean isOff = convert.isPresent() && convert.get().disableConversion();
        boolean isNamed = convert.isPresent() && !isOff && isConverter(convert.get().converter());
        boolean isFixed = member.has(Id.class) || member.has(Version.class) || member.has(Enumerated.class)
                || member.has(Temporal.class);
        if (isNamed && (member.has(Id.class) || member.has(Version.class))) {
            faults.add(member, "a key and a version take no converter", "Leave out @Convert, and convert in Java");
            return Optional.empty();
        }
        if (isNamed) {
            return converted(member, convert.get().converter());
        }
        Optional<Codec> automatic = converters.automatic(Types.boxed(member.javaType()));
        return automatic.isPresent() && !isFixed && !isOff ? automatic : basic(member, column);
    }

    /** The codec of a part of a key, to which no converter applies (chapter 11.1.10). */
    Optional<Codec> ofKey(Member member, Scope scope, String path, Optional<Column> column) {
        Optional<Convert> convert = scope.convert(path).or(() -> member.find(Convert.class));
        if (convert.isPresent() && !convert.get().disableConversion()) {
            faults.add(member, "a key and a version take no converter", "Leave out @Convert, and convert in Java");
            return Optional.empty();
        }
        return basic(member, column);
    }

    /** The codec of a map's keys; empty where they have none, which was told then (chapters 11.1.34 and 11.1.36). */
    Optional<Codec> ofMapKey(Member member, Class<?> type, Scope scope, String path) {
        Optional<Convert> convert = scope.convert(path + ".key")
                .or(() -> Arrays.stream(Repeated.of(member.annotated(), Convert.class))
                        .filter(it -> it.attributeName().equals("key")).findFirst());
        boolean isOff = convert.isPresent() && convert.get().disableConversion();
        boolean isNamed = member.find(MapKeyEnumerated.class).filter(it -> it.value() == EnumType.STRING).isPresent();
        if (convert.isPresent() && !isOff) {
            return converters.of(convert.get().converter());
        }
        Optional<Codec> automatic = converters.automatic(type);
        if (automatic.isPresent() && !isOff && !member.has(MapKeyEnumerated.class)
                && !member.has(MapKeyTemporal.class)) {
            return automatic;
        }
        MapKeyColumn column = member.find(MapKeyColumn.class).orElse(null);
        boolean isScaled = column != null && (column.scale() != 0 || column.precision() != 0);
        TemporalType precision = member.find(MapKeyTemporal.class).map(MapKeyTemporal::value)
                .orElse(TemporalType.TIMESTAMP);
        Codec dated = DateCodecs.of(type, precision);
        Codec codec = type == BigDecimal.class ? BasicCodecs.decimal(isScaled ? column.scale() : USUAL_SCALE)
                : type.isEnum() ? isNamed ? BasicCodecs.named(type) : BasicCodecs.ordinal(type)
                : dated != null ? dated : BasicCodecs.fixed(type);
        if (codec == null) {
            faults.add(member, type.getName() + " is no type of a map's keys", "Use a basic type, or an enum");
        }
        return Optional.ofNullable(codec);
    }

    private static boolean isConverter(Class<?> named) {
        return named != void.class && named != AttributeConverter.class;
    }

    private Optional<Codec> converted(Member member, Class<?> converter) {
        Optional<Codec> codec = converters.of(converter);
        Class<?> boxed = Types.boxed(member.javaType());
        if (codec.isPresent() && !codec.get().javaType().isAssignableFrom(boxed)
                && !boxed.isAssignableFrom(codec.get().javaType())) {
            faults.add(member, "its converter is of " + codec.get().javaType().getName() + ", and it is of "
                    + boxed.getName(),
                    "Name a converter of its type");
            return Optional.empty();
        }
        return codec;
    }

    private Optional<Codec> basic(Member member, Optional<Column> column) {
        Class<?> type = Types.boxed(member.javaType());
        Codec codec = type == BigDecimal.class ? BasicCodecs.decimal(scale(column))
                : type.isEnum() ? enumerated(member, type) : dated(member, type);
        if (codec == null && (member.has(Lob.class) || Serializable.class.isAssignableFrom(type) && !hasEntities(member))) {
            ClassLoader own = type.getClassLoader();
            codec = BasicCodecs.serialized(type, own != null ? own : member.declaring().getClassLoader());
        }
        if (codec == null) {
            tellNone(member, type);
        }
        return Optional.ofNullable(codec);
    }

    private static int scale(Optional<Column> column) {
        boolean isSaid = column.isPresent() && (column.get().scale() != 0 || column.get().precision() != 0);
        return isSaid ? column.get().scale() : USUAL_SCALE;
    }

    private static Codec enumerated(Member member, Class<?> type) {
        boolean isNamed = member.find(Enumerated.class).filter(it -> it.value() == EnumType.STRING).isPresent();
        return isNamed ? BasicCodecs.named(type) : BasicCodecs.ordinal(type);
    }

    private static Codec dated(Member member, Class<?> type) {
        TemporalType precision = member.find(Temporal.class).map(Temporal::value).orElse(TemporalType.TIMESTAMP);
        Codec codec = DateCodecs.of(type, precision);
        return codec != null ? codec : BasicCodecs.fixed(type);
    }

    /** The codec of a type by itself, or null: of what converters answer, and of parts of keys. */
    static Codec plain(Class<?> type) {
        Class<?> boxed = Types.boxed(type);
        if (boxed.isEnum()) {
            return BasicCodecs.ordinal(boxed);
        }
        Codec codec = DateCodecs.of(boxed, TemporalType.TIMESTAMP);
        return codec != null ? codec : BasicCodecs.fixed(boxed);
    }

    /** Whether it is an entity, or holds some: that is a relation, and no value. */
    private static boolean hasEntities(Member member) {
        return isEntity(Types.boxed(member.javaType()))
                || Types.argument(member.type(), 0).filter(Codecs::isEntity).isPresent()
                || Types.argument(member.type(), 1).filter(Codecs::isEntity).isPresent();
    }

    private static boolean isEntity(Class<?> type) {
        return type.isAnnotationPresent(Entity.class);
    }

    private void tellNone(Member member, Class<?> type) {
        if (type.isAnnotationPresent(Entity.class)) {
            faults.add(member, "it leads to an entity, and doesn't say how", "Add @ManyToOne or @OneToOne");
        } else if (hasEntities(member)) {
            faults.add(member, "it has entities, and doesn't say how",
                    "Declare it as List, Set or Collection, with @OneToMany or @ManyToMany");
        } else if (Collection.class.isAssignableFrom(type) || Map.class.isAssignableFrom(type)) {
            faults.add(member, "a collection is no basic value",
                    "Add @OneToMany or @ManyToMany, or @Convert, or @Transient; or declare it as a class that is"
                            + " Serializable, as ArrayList");
        } else {
            faults.add(member, type.getName() + " is no basic type, no enum, and not Serializable",
                    "Add @Convert, @Embedded with an @Embeddable class, or @Transient");
        }
    }
}
