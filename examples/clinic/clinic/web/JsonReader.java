package clinic.web;

import clinic.common.Refusal;
import java.math.BigDecimal;
import java.util.ArrayList;
import java.util.LinkedHashMap;
import java.util.List;
import java.util.Map;

/** Reads JSON: objects as maps, arrays as lists, numbers as {@link BigDecimal}, and null as it is. */
final class JsonReader {
    private static final int DEEPEST = 20;
    private final String text;
    private int at;
    private int depth;

    private JsonReader(String text) {
        this.text = text;
    }

    /** @throws Refusal where it is none */
    static Object read(String text) {
        var reader = new JsonReader(text);
        var value = reader.value();
        if (reader.next() != 0) {
            throw reader.fault("the end");
        }
        return value;
    }

    private Object value() {
        var first = next();
        if (first == '{' || first == '[') {
            if (++depth > DEEPEST) {
                throw fault("less depth");
            }
            at++;
            var value = first == '{' ? object() : array();
            depth--;
            return value;
        }
        if (first == '"') {
            return string();
        }
        return word();
    }

    private Map<String, Object> object() {
        var values = new LinkedHashMap<String, Object>();
        if (!skip('}')) {
            do {
                if (next() != '"') {
                    throw fault("a name");
                }
                var name = string();
                take(':');
                values.put(name, value());
            } while (skip(','));
            take('}');
        }
        return values;
    }

    private List<Object> array() {
        var values = new ArrayList<>();
        if (!skip(']')) {
            do {
                values.add(value());
            } while (skip(','));
            take(']');
        }
        return values;
    }

    private String string() {
        var value = new StringBuilder();
        for (at++; at < text.length() && text.charAt(at) != '"'; at++) {
            var each = text.charAt(at);
            if (each < ' ') {
                throw fault("no control character");
            }
            value.append(each == '\\' ? escaped() : each);
        }
        if (at >= text.length()) {
            throw fault("the end of a text");
        }
        at++;
        return value.toString();
    }

    private char escaped() {
        var letter = ++at < text.length() ? text.charAt(at) : 0;
        var which = "\"\\/bfnrt".indexOf(letter);
        if (which >= 0) {
            return "\"\\/\b\f\n\r\t".charAt(which);
        }
        if (letter != 'u' || at + 4 >= text.length()) {
            throw fault("an escape");
        }
        try {
            at += 4;
            return (char) Integer.parseInt(text, at - 3, at + 1, 16);
        } catch (NumberFormatException failed) {
            throw fault("four digits");
        }
    }

    private Object word() {
        var from = at;
        while (at < text.length() && ",]} \t\r\n".indexOf(text.charAt(at)) < 0) {
            at++;
        }
        var word = text.substring(from, at);
        return switch (word) {
            case "true" -> true;
            case "false" -> false;
            case "null" -> null;
            default -> {
                if (!word.matches("-?(0|[1-9][0-9]{0,40})(\\.[0-9]{1,40})?([eE][+-]?[0-9]{1,2})?")) {
                    throw fault("a value");
                }
                yield new BigDecimal(word);
            }
        };
    }

    private char next() {
        while (at < text.length() && " \t\r\n".indexOf(text.charAt(at)) >= 0) {
            at++;
        }
        return at < text.length() ? text.charAt(at) : 0;
    }

    private boolean skip(char wanted) {
        var is = next() == wanted;
        if (is) {
            at++;
        }
        return is;
    }

    private void take(char wanted) {
        if (!skip(wanted)) {
            throw fault("'" + wanted + "'");
        }
    }

    private Refusal fault(String expected) {
        return new Refusal(400, "no JSON: at " + at + " " + expected + " was expected");
    }
}
