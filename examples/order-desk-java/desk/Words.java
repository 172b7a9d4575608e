package desk;

import java.nio.file.Path;
import java.time.DateTimeException;
import java.time.LocalDate;
import java.util.ArrayDeque;
import java.util.Deque;
import java.util.HashMap;
import java.util.LinkedHashMap;
import java.util.List;
import java.util.Map;
import java.util.Optional;
import java.util.Set;

/** The words of a command line: options anywhere, the others in their order. */
final class Words {
    private static final Set<String> OPTIONS = Set.of("--db", "--url", "--day", "--size", "--products", "--customers");
    private static final Set<String> FLAGS = Set.of("--events", "--help");

    /** Words that are no command. */
    static final class NoCommand extends RuntimeException {
        private static final long serialVersionUID = 1L;

        NoCommand(String words) {
            super(words);
        }
    }

    private final Deque<String> words = new ArrayDeque<>();
    private final Map<String, String> options = new HashMap<>();

    Words(List<String> given) {
        var all = new ArrayDeque<>(given);
        while (!all.isEmpty()) {
            var word = all.remove();
            if (OPTIONS.contains(word) && !all.isEmpty()) {
                options.put(word, all.remove());
            } else if (FLAGS.contains(word)) {
                options.put(word, "");
            } else if (word.startsWith("--")) {
                throw new NoCommand(word + " is no option, or has nothing behind it");
            } else {
                words.add(word);
            }
        }
    }

    boolean has(String option) {
        return options.containsKey(option);
    }

    String word(String what) {
        if (words.isEmpty()) {
            throw new NoCommand(what + " is missing");
        }
        return words.remove();
    }

    void end() {
        if (!words.isEmpty()) {
            throw new NoCommand(words.peek() + " is one word too many");
        }
    }

    Path path(String option, String otherwise) {
        return Path.of(options.getOrDefault(option, otherwise));
    }

    /** Where another provider's database is. */
    Optional<String> url() {
        return Optional.ofNullable(options.get("--url"));
    }

    int count(String option, int otherwise) {
        return Optional.ofNullable(options.get(option)).map(Words::number).map(Math::toIntExact).orElse(otherwise);
    }

    long number() {
        return number(word("a number"));
    }

    LocalDate day() {
        try {
            return Optional.ofNullable(options.get("--day")).map(LocalDate::parse).orElseGet(LocalDate::now);
        } catch (DateTimeException fault) {
            throw new NoCommand(options.get("--day") + " is no day: write it as 2026-11-29");
        }
    }

    /** The rest of the words, each as SKU=QUANTITY. */
    Map<String, Long> wanted() {
        var wanted = new LinkedHashMap<String, Long>();
        do {
            var word = word("SKU=QUANTITY");
            var mark = word.lastIndexOf('=');
            if (mark < 0 || !word.substring(mark + 1).matches("[0-9]{1,9}")) {
                throw new NoCommand(word + " is no SKU=QUANTITY, as P00001=2");
            }
            wanted.put(word.substring(0, mark), Long.valueOf(word.substring(mark + 1)));
        } while (!words.isEmpty());
        return wanted;
    }

    /** The constant that the next word names. */
    <E extends Enum<E>> E one(Class<E> type) {
        var word = word("one of " + List.of(type.getEnumConstants()));
        for (var constant : type.getEnumConstants()) {
            if (constant.toString().equals(word)) {
                return constant;
            }
        }
        throw new NoCommand(word + " is none of " + List.of(type.getEnumConstants()));
    }

    private static long number(String word) {
        if (!word.matches("[1-9][0-9]{0,8}")) {
            throw new NoCommand(word + " is no whole number from 1");
        }
        return Long.parseLong(word);
    }
}
