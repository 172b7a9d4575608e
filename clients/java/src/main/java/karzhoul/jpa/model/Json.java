package karzhoul.jpa.model;

import java.util.LinkedHashMap;
import java.util.List;
import java.util.Map;

/** Writes the mapping: maps, lists, texts, whole numbers and booleans. */
final class Json {
    private Json() {}

    static String write(Object value) {
        StringBuilder text = new StringBuilder();
        append(text, value);
        return text.toString();
    }

    /** An object of these members: a name, its value, the next name .. */
    static Map<String, Object> object(Object... members) {
        Map<String, Object> object = new LinkedHashMap<>();
        for (int i = 0; i < members.length; i += 2) {
            object.put((String) members[i], members[i + 1]);
        }
        return object;
    }

    private static void append(StringBuilder text, Object value) {
        if (value instanceof Map<?, ?> members) {
            String before = "{";
            for (var member : members.entrySet()) {
                text.append(before);
                appendText(text, (String) member.getKey());
                append(text.append(':'), member.getValue());
                before = ",";
            }
            text.append(members.isEmpty() ? "{}" : "}");
        } else if (value instanceof List<?> items) {
            String before = "[";
            for (Object item : items) {
                append(text.append(before), item);
                before = ",";
            }
            text.append(items.isEmpty() ? "[]" : "]");
        } else if (value instanceof String words) {
            appendText(text, words);
        } else {
            text.append(value);
        }
    }

    private static void appendText(StringBuilder text, String words) {
        text.append('"');
        for (int i = 0; i < words.length(); i++) {
            char at = words.charAt(i);
            if (at == '"' || at == '\\') {
                text.append('\\').append(at);
            } else if (at < ' ') {
                text.append(String.format("\\u%04x", (int) at));
            } else {
                text.append(at);
            }
        }
        text.append('"');
    }
}
