package karzhoul.jpa.spi;

import jakarta.persistence.PersistenceException;
import java.time.Duration;
import java.util.List;
import java.util.Map;
import java.util.Optional;
import java.util.function.Consumer;
import java.util.function.UnaryOperator;
import karzhoul.jpa.engine.Program;
import karzhoul.jpa.model.Fault;

/** Reads the properties of a unit (chapters 8.2.1.9 and 9.6), and collects what is wrong with them. */
final class Settings {
    static final String URL = "jakarta.persistence.jdbc.url";
    static final String PROGRAM = "karzhoul.program";
    static final String POOL_WAIT = "karzhoul.pool.wait";
    static final String LOG = Program.LOG;
    /** The property that has the statistics of a factory among the JVM's beans. */
    static final String BEANS = "karzhoul.jmx";
    private static final String SCHEMA_ACTION = "jakarta.persistence.schema-generation.database.action";
    private static final String SCHEME = "karzhoul:";
    private static final String URLS = "Write karzhoul:FILE, as karzhoul:shop.db, karzhoul:memory, or the address of a server";
    private static final Duration USUAL_WAIT = Duration.ofSeconds(10);

    private final UnaryOperator<String> placeOf;
    private final Map<String, Object> properties;
    private final List<Fault> faults;

    /** @param placeOf where a property was said, for words */
    Settings(UnaryOperator<String> placeOf, Map<String, Object> properties, List<Fault> faults) {
        this.placeOf = placeOf;
        this.properties = properties;
        this.faults = faults;
    }

    static boolean isOurs(Map<String, Object> properties) {
        return String.valueOf(properties.get(URL)).startsWith(SCHEME);
    }

    /** The address of the store; null where it is none, which is told then. */
    String url() {
        Object url = properties.get(URL);
        if (url == null) {
            faults.add(new Fault(placeOf.apply(URL), "it has no " + URL, URLS));
            return null;
        }
        if (!url.toString().startsWith(SCHEME) || url.toString().length() == SCHEME.length()) {
            tell(URL, " is " + url, URLS);
            return null;
        }
        return url.toString();
    }

    /** Whether the store is had by a server; an address that is none is told. */
    boolean isServed(String url) {
        try {
            return url != null && Program.isServed(url);
        } catch (PersistenceException none) {
            tell(URL, " is " + url, "Write karzhoul:unix:/run/app.sock or karzhoul:tcp:127.0.0.1:7117");
            return true;
        }
    }

    /** The program that the properties name; those of the JVM count where the unit says nothing. */
    Optional<String> program() {
        Object program = properties.getOrDefault(PROGRAM, System.getProperty(PROGRAM));
        return Optional.ofNullable(program).map(Object::toString);
    }

    Duration poolWait() {
        Object wait = properties.get(POOL_WAIT);
        try {
            long millis = wait == null ? USUAL_WAIT.toMillis() : Long.parseLong(wait.toString().trim());
            if (millis >= 0) {
                return Duration.ofMillis(millis);
            }
        } catch (NumberFormatException odd) {
            // Told below.
        }
        tell(POOL_WAIT, " is " + wait, "Write milliseconds, as 10000");
        return USUAL_WAIT;
    }

    /** From how many milliseconds on a trip is told as slow, and whether the JVM's beans have the statistics. */
    void checkWatching() {
        Object slow = properties.getOrDefault(Program.SLOW, "0");
        if (!slow.toString().trim().matches("[0-9]{1,9}")) {
            tell(Program.SLOW, " is " + slow, "Write milliseconds, as 200, or 0 for none");
        }
        Object beans = properties.getOrDefault(BEANS, "false");
        if (!beans.toString().trim().matches("true|false")) {
            tell(BEANS, " is " + beans, "Write true or false");
        }
    }

    /** Where calls and answers go: the logger karzhoul.jpa, or what the property holds. */
    @SuppressWarnings("unchecked")
    Optional<Consumer<String>> log() {
        Object log = properties.get(LOG);
        if (log instanceof Consumer<?> taker) {
            return Optional.of((Consumer<String>) taker);
        }
        String word = log == null ? "false" : log.toString().trim();
        switch (word) {
            case "false" -> {
                return Optional.empty();
            }
            case "true" -> {
                System.Logger logger = System.getLogger("karzhoul.jpa");
                return Optional.of(line -> logger.log(System.Logger.Level.INFO, line));
            }
            case "stderr" -> {
                return Optional.of(System.err::println);
            }
            default -> tell(LOG, " is " + word, "Write true for the logger karzhoul.jpa, stderr, or false");
        }
        return Optional.empty();
    }

    /** A store has no schema to make; but to drop what it has is not for a word in a file. */
    void checkSchema() {
        Object action = properties.get(SCHEMA_ACTION);
        if (action != null && action.toString().contains("drop")) {
            tell(SCHEMA_ACTION, " is " + action + ", and nothing is dropped",
                    "Delete the store's file, or use karzhoul:memory");
        }
    }

    void checkAdopt() {
        Object adopt = properties.getOrDefault(Program.ADOPT, "false");
        if (!adopt.toString().equals("true") && !adopt.toString().equals("false")) {
            tell(Program.ADOPT, " is " + adopt, "Write true or false");
        }
    }

    private void tell(String property, String what, String remedy) {
        faults.add(new Fault(placeOf.apply(property), property + what, remedy));
    }
}
