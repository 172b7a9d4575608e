package clinic.web;

import clinic.common.Refusal;
import java.net.URLDecoder;
import java.nio.charset.StandardCharsets;
import java.util.Map;
import java.util.Optional;
import java.util.TreeMap;
import java.util.regex.Pattern;

/** What a request brings: a form, an object of JSON, or a file. */
public record Body(String type, byte[] bytes) {
    private static final Pattern BOUNDARY = Pattern.compile("multipart/form-data;.*boundary=\"?([^\";]{1,70})\"?.*");
    private static final Pattern FILE = Pattern.compile("(?is)content-disposition:[^\\r\\n]*filename=\"([^\"\\r\\n]*)\".*");
    private static final Pattern TYPE = Pattern.compile("(?is).*content-type: *([^\\r\\n;]+).*");

    /** A file that was sent by a form of HTML. */
    public record File(String name, String type, byte[] content) {}

    /** The type without what stands behind it, as {@code charset=utf-8}. */
    public String mediaType() {
        return type.split(";", 2)[0].strip();
    }

    /** The fields of a form or of an object of JSON. */
    Map<?, ?> fields() {
        var text = new String(bytes, StandardCharsets.UTF_8);
        if (!type.startsWith("application/json")) {
            return form(text);
        }
        if (JsonReader.read(text) instanceof Map<?, ?> object) {
            return object;
        }
        throw new Refusal(400, "an object was expected");
    }

    /** The fields of a form or of a query; {@code lines.0.text} is a field within two others. */
    static Map<String, Object> form(String text) {
        var fields = new TreeMap<String, Object>();
        for (var pair : text.split("&")) {
            var name = pair.split("=", 2);
            if (name.length == 2) {
                put(fields, decoded(name[0]), decoded(name[1]));
            }
        }
        return fields;
    }

    /** @throws Refusal where the body is no form with a file */
    public File file() {
        var boundary = BOUNDARY.matcher(type);
        if (boundary.matches()) {
            // Latin 1 has a character for each byte, so that places in the text are those of the bytes.
            var text = new String(bytes, StandardCharsets.ISO_8859_1);
            for (var part : text.split(Pattern.quote("--" + boundary.group(1)))) {
                var file = file(part);
                if (file.isPresent()) {
                    return file.get();
                }
            }
        }
        throw new Refusal(400, "a file was expected");
    }

    private static Optional<File> file(String part) {
        var head = part.indexOf("\r\n\r\n");
        var name = FILE.matcher(head < 0 ? "" : part.substring(0, head).strip());
        if (!name.matches()) {
            return Optional.empty();
        }
        var type = TYPE.matcher(part.substring(0, head));
        var content = part.substring(head + 4, part.length() - 2).getBytes(StandardCharsets.ISO_8859_1);
        var decoded = new String(name.group(1).getBytes(StandardCharsets.ISO_8859_1), StandardCharsets.UTF_8);
        return Optional.of(new File(decoded, type.matches() ? type.group(1).strip() : "application/octet-stream", content));
    }

    @SuppressWarnings("unchecked")
    private static void put(Map<String, Object> fields, String name, String value) {
        var dot = name.indexOf('.');
        if (dot < 0) {
            fields.put(name, value);
            return;
        }
        var member = fields.computeIfAbsent(name.substring(0, dot), key -> new TreeMap<String, Object>());
        if (member instanceof Map<?, ?> within) {
            put((Map<String, Object>) within, name.substring(dot + 1), value);
        }
    }

    private static String decoded(String text) {
        try {
            return URLDecoder.decode(text, StandardCharsets.UTF_8);
        } catch (IllegalArgumentException failed) {
            throw new Refusal(400, "no form: " + failed.getMessage());
        }
    }
}
