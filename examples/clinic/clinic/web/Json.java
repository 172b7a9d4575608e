package clinic.web;

import java.util.Collection;
import java.util.LinkedHashMap;
import java.util.Map;

/** Writes JSON: records and maps as objects, collections as arrays, and what is no number or truth by its text. */
final class Json {
    private Json() {}

    static String of(Object value) {
        var json = new StringBuilder();
        write(json, value);
        return json.toString();
    }

    private static void write(StringBuilder json, Object value) {
        if (value instanceof Record record) {
            write(json, components(record));
        } else if (value instanceof Map<?, ?> map) {
            var before = "{";
            for (var entry : map.entrySet()) {
                json.append(before);
                text(json, entry.getKey().toString());
                json.append(':');
                write(json, entry.getValue());
                before = ",";
            }
            json.append(map.isEmpty() ? "{}" : "}");
        } else if (value instanceof Collection<?> values) {
            var before = "[";
            for (var each : values) {
                json.append(before);
                write(json, each);
                before = ",";
            }
            json.append(values.isEmpty() ? "[]" : "]");
        } else if (value == null || value instanceof Number || value instanceof Boolean) {
            json.append(value);
        } else {
            text(json, value.toString());
        }
    }

    /** The components of a record, in their order. */
    static Map<String, Object> components(Record record) {
        var values = new LinkedHashMap<String, Object>();
        for (var component : record.getClass().getRecordComponents()) {
            try {
                values.put(component.getName(), component.getAccessor().invoke(record));
            } catch (ReflectiveOperationException failed) {
                throw new IllegalStateException(component + " can't be read", failed);
            }
        }
        return values;
    }

    private static void text(StringBuilder json, String text) {
        json.append('"');
        for (var at = 0; at < text.length(); at++) {
            var each = text.charAt(at);
            if (each == '"' || each == '\\') {
                json.append('\\').append(each);
            } else if (each < ' ') {
                json.append(String.format("\\u%04x", (int) each));
            } else {
                json.append(each);
            }
        }
        json.append('"');
    }
}
