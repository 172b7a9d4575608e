package karzhoul.jpa.query;

import java.io.IOException;
import java.io.InputStream;
import java.io.UncheckedIOException;
import java.nio.charset.StandardCharsets;
import java.util.HashMap;
import java.util.HashSet;
import java.util.List;
import java.util.Locale;
import java.util.Map;
import java.util.Set;
import karzhoul.jpa.model.JsonReader;

/**
 * What the program's language has, as {@code jpa --grammar --language wide} tells it: that line is a file beside this
 * class, so that no program is asked before the first one is needed.
 */
final class Grammar {
    /** That of the program. */
    static final Grammar PROGRAM = new Grammar(line());

    /** A function: the kinds of its values, the last of which may come again, and how many of them there may be. */
    record Called(List<String> kinds, long most, String result) {
        /** The kind of the value of a place. */
        String kind(int place) {
            return kinds.get(Math.min(place, kinds.size() - 1));
        }
    }

    private final Set<String> keywords = new HashSet<>();
    private final Set<String> aggregates = new HashSet<>();
    private final Map<String, Called> functions = new HashMap<>();
    private final Map<String, Long> limits = new HashMap<>();

    @SuppressWarnings("unchecked")
    Grammar(String line) {
        Map<String, Object> told = (Map<String, Object>) JsonReader.read(line);
        ((List<String>) told.get("keywords")).forEach(word -> keywords.add(word.toLowerCase(Locale.ROOT)));
        aggregates.addAll((List<String>) told.get("aggregates"));
        limits.putAll((Map<String, Long>) told.get("limits"));
        for (Map<String, Object> function : (List<Map<String, Object>>) told.get("functions")) {
            Long most = (Long) function.get("most");
            functions.put((String) function.get("name"), new Called((List<String>) function.get("arguments"),
                    most == null ? Long.MAX_VALUE : most, (String) function.get("result")));
        }
    }

    /** The line of the program for which the door was built. */
    static String line() {
        try (InputStream in = Grammar.class.getResourceAsStream("grammar.json")) {
            return new String(in.readAllBytes(), StandardCharsets.UTF_8);
        } catch (IOException e) {
            throw new UncheckedIOException(e);
        }
    }

    /** The keywords in small letters: names that no variable may have. */
    Set<String> keywords() {
        return keywords;
    }

    /** A function of values; null where the program has none of this name. */
    Called function(String name) {
        return functions.get(name);
    }

    /** Whether the program has this aggregate. */
    boolean hasAggregate(String name) {
        return aggregates.contains(name);
    }

    /** The most bytes of a text. */
    int bytes() {
        return limit("bytes");
    }

    /** The most parentheses within one another. */
    int parentheses() {
        return limit("parentheses");
    }

    /** The most variables of a text. */
    int variables() {
        return limit("variables");
    }

    /** The most values of one list. */
    int list() {
        return limit("list");
    }

    private int limit(String name) {
        return limits.get(name).intValue();
    }
}
