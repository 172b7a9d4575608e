package karzhoul.jpa.query;

import jakarta.persistence.EntityManager;
import java.time.Duration;
import java.util.ArrayList;
import java.util.List;
import java.util.Map;
import java.util.Optional;
import java.util.regex.Matcher;
import java.util.regex.Pattern;
import karzhoul.jpa.context.Factory;
import karzhoul.jpa.model.Reader;
import karzhoul.jpa.spi.UnitSettings;
import org.junit.jupiter.api.AfterAll;
import org.junit.jupiter.api.AfterEach;
import org.junit.jupiter.api.BeforeAll;
import org.junit.jupiter.api.BeforeEach;

/** Tests over the shop's rows in the real program; each has a manager of its own, whose changes are rolled back. */
public abstract class OverShop {
    private static final Pattern TEXT = Pattern.compile("\"text\":\"((?:[^\"\\\\]|\\\\.)*)\"");
    private static final Pattern KEY = Pattern.compile("\"call\":\"find\",\"em\":\\d+,\"entity\":\"(\\w+)\",\"key\":(\\[[^\\]]*\\])");
    protected static Factory factory;
    private static final List<String> SENT = new ArrayList<>();
    protected EntityManager manager;

    @BeforeAll
    protected static void open() {
        String program = System.getenv("KARZHOUL_PROGRAM");
        factory = new Factory(new UnitSettings("shop", Reader.read("shop", Shop.classes()), "karzhoul:memory",
                program == null ? System.getProperty("karzhoul.program", "jpa") : program, Duration.ofSeconds(20),
                Optional.of(OverShop::sent), Map.of()));
        try (EntityManager first = factory.createEntityManager()) {
            first.getTransaction().begin();
            for (Object entity : Shopping.entities()) {
                first.persist(entity);
            }
            first.getTransaction().commit();
        }
    }

    private static void sent(String line) {
        synchronized (SENT) {
            SENT.add(line);
        }
    }

    @AfterAll
    protected static void close() {
        factory.close();
    }

    @BeforeEach
    protected void begin() {
        manager = factory.createEntityManager();
        SENT.clear();
    }

    @AfterEach
    protected void end() {
        if (manager.getTransaction().isActive()) {
            manager.getTransaction().rollback();
        }
        manager.close();
    }

    /** The rows of a text. */
    protected String rows(String text) {
        return Told.rows(manager.createQuery(text).getResultList(), text.contains("ORDER BY"));
    }

    /** How often the program was asked this since the test began, or since {@link #forgetSent()}. */
    static long calls(String call) {
        synchronized (SENT) {
            return SENT.stream().filter(line -> line.contains("\"call\":\"" + call + "\"")).count();
        }
    }

    static void forgetSent() {
        synchronized (SENT) {
            SENT.clear();
        }
    }

    /** The texts that the program was asked. */
    protected static List<String> asked() {
        List<String> texts = askedAndFound();
        texts.removeIf(text -> text.startsWith("find "));
        return texts;
    }

    /** The texts that the program was asked, and the entities with their keys that it found by these. */
    protected static List<String> askedAndFound() {
        List<String> texts = new ArrayList<>();
        synchronized (SENT) {
            for (String line : SENT) {
                Matcher found = TEXT.matcher(line);
                Matcher key = KEY.matcher(line);
                if (key.find()) {
                    texts.add("find " + key.group(1) + " " + key.group(2));
                }
                if (line.contains("\"call\":\"query\"") || line.contains("\"call\":\"executeUpdate\"")) {
                    if (found.find()) {
                        texts.add(found.group(1));
                    }
                }
            }
        }
        return texts;
    }
}
