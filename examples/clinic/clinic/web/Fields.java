package clinic.web;

import clinic.common.Checks;
import java.lang.reflect.InvocationTargetException;
import java.lang.reflect.ParameterizedType;
import java.lang.reflect.RecordComponent;
import java.lang.reflect.Type;
import java.math.BigDecimal;
import java.time.DateTimeException;
import java.time.LocalDate;
import java.time.LocalDateTime;
import java.util.ArrayList;
import java.util.Arrays;
import java.util.Collection;
import java.util.List;
import java.util.Map;
import java.util.regex.Pattern;

/**
 * Makes a record of the fields of a request, whose names are those of its components. A field that is empty or
 * isn't there is null, and one that no component has isn't looked at.
 */
final class Fields {
    private static final Pattern NUMBER = Pattern.compile("-?[0-9]{1,20}(\\.[0-9]{1,20})?");
    private final Checks checks = new Checks();

    private Fields() {}

    /** @throws clinic.common.Invalid where a field is of another type than its component */
    static <R extends Record> R as(Class<R> type, Map<?, ?> given) {
        var fields = new Fields();
        var record = fields.record(type, given, "");
        fields.checks.done();
        return record;
    }

    private <R extends Record> R record(Class<R> type, Map<?, ?> given, String within) {
        var components = type.getRecordComponents();
        var values = Arrays.stream(components)
                .map(each -> value(each.getGenericType(), given.get(each.getName()), within + each.getName()))
                .toArray();
        var types = Arrays.stream(components).map(RecordComponent::getType).toArray(Class<?>[]::new);
        try {
            var constructor = type.getDeclaredConstructor(types);
            constructor.setAccessible(true); // That of a private record is private.
            return constructor.newInstance(values);
        } catch (InvocationTargetException | NoSuchMethodException | InstantiationException | IllegalAccessException failed) {
            throw new IllegalStateException(type + " can't be made", failed);
        }
    }

    private Object value(Type type, Object given, String field) {
        if (given == null || given instanceof String text && text.isBlank()) {
            return null;
        }
        if (type instanceof ParameterizedType list) {
            return list(list.getActualTypeArguments()[0], given, field);
        }
        var wanted = (Class<?>) type;
        if (wanted.isRecord()) {
            if (given instanceof Map<?, ?> map) {
                return record(wanted.asSubclass(Record.class), map, field + ".");
            }
        } else if (!(given instanceof Collection || given instanceof Map)) {
            try {
                return basic(wanted, given instanceof BigDecimal number ? number.toPlainString() : given.toString());
            } catch (IllegalArgumentException | ArithmeticException | DateTimeException failed) {
                checks.that(false, field, "is no " + words(wanted));
                return null;
            }
        }
        checks.that(false, field, "is no " + words(wanted));
        return null;
    }

    /** An array of JSON, or the fields {@code lines.0.text}, {@code lines.1.text} of a form. */
    private List<Object> list(Type type, Object given, String field) {
        var values = new ArrayList<>();
        if (given instanceof Collection<?> members) {
            members.forEach(each -> values.add(value(type, each, field + "." + values.size())));
        } else if (given instanceof Map<?, ?> members) {
            for (var each : members.values()) {
                if (!(each instanceof Map<?, ?> map && map.values().stream().allMatch(""::equals))) {
                    values.add(value(type, each, field + "." + values.size()));
                }
            }
        } else {
            checks.that(false, field, "is no list");
        }
        checks.that(!values.contains(null), field, "has a member that is empty");
        return values;
    }

    private static Object basic(Class<?> type, String text) {
        if (type == String.class) {
            return text;
        } else if (type == Long.class) {
            return number(text).longValueExact();
        } else if (type == Integer.class) {
            return number(text).intValueExact();
        } else if (type == BigDecimal.class) {
            return number(text);
        } else if (type == LocalDate.class) {
            return LocalDate.parse(text);
        } else if (type == LocalDateTime.class) {
            return LocalDateTime.parse(text);
        } else if (type.isEnum()) {
            return Arrays.stream(type.getEnumConstants()).filter(each -> each.toString().equals(text)).findFirst()
                    .orElseThrow(IllegalArgumentException::new);
        }
        throw new IllegalStateException("fields of " + type + " aren't read");
    }

    private static BigDecimal number(String text) {
        if (!NUMBER.matcher(text).matches()) {
            throw new NumberFormatException(text);
        }
        return new BigDecimal(text);
    }

    private static String words(Class<?> type) {
        if (type == LocalDate.class) {
            return "day as 2026-11-30";
        } else if (type == LocalDateTime.class) {
            return "time as 2026-11-30T09:15";
        } else if (type.isEnum()) {
            return "one of " + Arrays.toString(type.getEnumConstants());
        }
        return Number.class.isAssignableFrom(type) ? "number" : "text";
    }
}
