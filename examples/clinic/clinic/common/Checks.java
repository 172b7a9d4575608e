package clinic.common;

import java.nio.charset.StandardCharsets;
import java.util.LinkedHashMap;
import java.util.Map;
import java.util.regex.Pattern;

/** Looks at the fields of a request, and gathers what is wrong with them, so that all of it is told at once. */
public final class Checks {
    private final Map<String, String> faults = new LinkedHashMap<>();

    /** Has a fault told where this isn't so; the first one of a field counts. */
    public Checks that(boolean so, String field, String fault) {
        if (!so) {
            faults.putIfAbsent(field, fault);
        }
        return this;
    }

    /** A text that isn't blank, of so many characters at most. */
    public Checks filled(String field, String text, int most) {
        that(text != null && !text.isBlank(), field, "is missing");
        return shorter(field, text, most);
    }

    /** A text of so many characters at most, or none. */
    public Checks shorter(String field, String text, int most) {
        that(text == null || text.length() <= most, field, "is longer than " + most + " characters");
        return that(text == null || StandardCharsets.UTF_8.newEncoder().canEncode(text), field, "has half a character");
    }

    /** A text of this form, or none. */
    public Checks shaped(String field, String text, Pattern form, String words) {
        return that(text == null || form.matcher(text).matches(), field, words);
    }

    public Checks given(String field, Object value) {
        return that(value != null, field, "is missing");
    }

    /** @throws Invalid where there is a fault */
    public void done() {
        if (!faults.isEmpty()) {
            throw new Invalid(faults);
        }
    }
}
