package karzhoul.jpa.context;

import static org.junit.jupiter.api.Assertions.assertEquals;
import static org.junit.jupiter.api.Assertions.assertFalse;
import static org.junit.jupiter.api.Assertions.assertInstanceOf;
import static org.junit.jupiter.api.Assertions.assertThrows;
import static org.junit.jupiter.api.Assertions.assertTrue;

import jakarta.persistence.Entity;
import jakarta.persistence.EntityManager;
import jakarta.persistence.Id;
import jakarta.persistence.OptimisticLockException;
import jakarta.persistence.PersistenceException;
import jakarta.persistence.RollbackException;
import jakarta.persistence.Version;
import java.io.IOException;
import java.lang.management.ManagementFactory;
import java.nio.file.Files;
import java.nio.file.Path;
import java.time.Duration;
import java.util.ArrayList;
import java.util.List;
import java.util.Map;
import java.util.Optional;
import java.util.concurrent.CopyOnWriteArrayList;
import java.util.function.Consumer;
import java.util.logging.Handler;
import java.util.logging.Level;
import java.util.logging.LogRecord;
import java.util.logging.Logger;
import java.util.stream.IntStream;
import javax.management.MBeanServer;
import javax.management.ObjectName;
import jdk.jfr.Recording;
import jdk.jfr.consumer.RecordedEvent;
import jdk.jfr.consumer.RecordingFile;
import karzhoul.jpa.Karzhoul;
import karzhoul.jpa.model.Reader;
import karzhoul.jpa.shop.Shop;
import karzhoul.jpa.spi.UnitSettings;
import org.junit.jupiter.api.Test;
import org.junit.jupiter.api.io.TempDir;

/** What is told of a factory beside its answers, and what it does beside the standard. */
class SeenFromOutsideTest {
    @Entity
    static class Item {
        @Id int id;
        String name;
        @Version int version;

        Item() {}

        Item(int id) {
            this.id = id;
            name = "item " + id;
        }
    }

    /** What the logger karzhoul.jpa was told. */
    private static final class Told extends Handler {
        private final List<LogRecord> records = new CopyOnWriteArrayList<>();

        @Override
        public void publish(LogRecord told) {
            records.add(told);
        }

        @Override
        public void flush() {}

        @Override
        public void close() {}

        List<String> of(Level level) {
            return records.stream().filter(it -> it.getLevel() == level).map(LogRecord::getMessage).toList();
        }
    }

    @TempDir Path folder;

    private static Factory open(String url, Consumer<String> log, Map<String, Object> properties) {
        return new Factory(new UnitSettings("seen", Reader.read("seen", List.of(Item.class)), url, Shop.program(),
                Duration.ofSeconds(20), Optional.ofNullable(log), properties));
    }

    private static void persist(Factory factory, int... ids) {
        EntityManager em = factory.createEntityManager();
        em.getTransaction().begin();
        IntStream.of(ids).forEach(id -> em.persist(new Item(id)));
        em.getTransaction().commit();
        em.close();
    }

    private static long count(Factory factory) {
        EntityManager em = factory.createEntityManager();
        long count = em.createQuery("SELECT COUNT(i) FROM Item i", Long.class).getSingleResult();
        em.close();
        return count;
    }

    @Test
    void theLoggerHasEachCallAtDebugAndSlowTripsAtWarning() {
        Logger logger = Logger.getLogger("karzhoul.jpa");
        Told told = new Told();
        logger.addHandler(told);
        logger.setUseParentHandlers(false);
        try {
            try (Factory factory = open("karzhoul:memory", null, Map.of())) {
                persist(factory, 1);
                assertEquals(List.of(), told.of(Level.FINE), "it isn't asked for");
                logger.setLevel(Level.FINE);
                persist(factory, 2);
                assertTrue(told.of(Level.FINE).stream().anyMatch(it -> it.startsWith("{\"call\":\"persist\"") && it.contains("  ->  ")),
                        told.of(Level.FINE).toString());
            }
            told.records.clear();
            List<String> log = new CopyOnWriteArrayList<>();
            try (Factory factory = open("karzhoul:memory", log::add, Map.of("karzhoul.slow", "1"))) {
                persist(factory, IntStream.range(0, 400).toArray());
                factory.createEntityManager().createQuery("SELECT COUNT(a) FROM Item a, Item b WHERE a.name < b.name").getSingleResult();
            }
            List<String> slow = told.of(Level.WARNING);
            assertTrue(slow.stream().anyMatch(it -> it.matches("slow: \\d+ calls took \\d+ ms, and \\d+ of them went by before the answer to "
                    + "\\{\"call\":\"query\".*")), slow.toString());
            assertTrue(log.containsAll(slow), "who takes the calls takes these too");
            told.records.clear();
            try (Factory factory = open("karzhoul:memory", null, Map.of("karzhoul.log", "false"))) {
                persist(factory, 1);
            }
            assertEquals(List.of(), told.of(Level.FINE));
        } finally {
            logger.removeHandler(told);
            logger.setLevel(null);
            logger.setUseParentHandlers(true);
        }
    }

    @Test
    void aBeanTellsTheStatisticsUntilTheFactoryIsClosed() throws Exception {
        MBeanServer beans = ManagementFactory.getPlatformMBeanServer();
        ObjectName names = new ObjectName("karzhoul.jpa:type=Factory,unit=\"seen\",*");
        try (Factory factory = open("karzhoul:memory", null, Map.of("karzhoul.jmx", "true"))) {
            persist(factory, 1);
            ObjectName name = beans.queryNames(names, null).iterator().next();
            Karzhoul.Statistics told = factory.unwrap(Karzhoul.class).statistics();
            assertEquals(told.calls(), beans.getAttribute(name, "Calls"));
            assertEquals(0, beans.getAttribute(name, "Managers"));
            assertEquals(1, beans.getAttribute(name, "Programs"));
            assertTrue(told.toString().matches("\\d+ calls in \\d+ trips, 0 of them refused; \\d+ objects in run 1 of program 1; 0 managers "
                    + "in use, 0 idle, 0 waited for"), told.toString());
        }
        assertEquals(0, beans.queryNames(names, null).size());
    }

    @Test
    void theFlightRecorderHasTrips() throws IOException {
        Path file = folder.resolve("told.jfr");
        try (Recording recording = new Recording(); Factory factory = open("karzhoul:memory", null, Map.of())) {
            recording.enable("karzhoul.Trip").withoutStackTrace();
            recording.start();
            persist(factory, 1);
            recording.stop();
            recording.dump(file);
        }
        List<RecordedEvent> trips = RecordingFile.readAllEvents(file).stream()
                .filter(it -> it.getEventType().getName().equals("karzhoul.Trip")).toList();
        assertFalse(trips.isEmpty());
        assertTrue(trips.stream().allMatch(it -> it.getInt("calls") > 0 && it.getInt("bytes") > 0 && it.getInt("refusals") == 0));
        assertTrue(trips.stream().anyMatch(it -> it.getString("first").startsWith("{\"call\":")));
    }

    @Test
    void workIsDoneAgainUntilNoOtherCommitComesFirst() {
        try (Factory factory = open("karzhoul:memory", null, Map.of())) {
            Karzhoul karzhoul = factory.unwrap(Karzhoul.class);
            persist(factory, 1);
            List<Integer> attempts = new ArrayList<>();
            String said = karzhoul.retry(em -> {
                Item item = em.find(Item.class, 1);
                attempts.add(item.version);
                if (attempts.size() < 3) {
                    rename(factory);
                }
                return item.name = "done";
            });
            assertEquals("done", said);
            assertEquals(List.of(0, 1, 2), attempts);
            RollbackException refused = assertThrows(RollbackException.class, () -> karzhoul.retry(2, em -> {
                attempts.add(9);
                em.find(Item.class, 1).name = "never";
                rename(factory);
                return null;
            }));
            assertInstanceOf(OptimisticLockException.class, refused.getCause());
            assertEquals(5, attempts.size());
            assertThrows(IllegalStateException.class, () -> karzhoul.retry(em -> {
                em.persist(new Item(2));
                attempts.add(10);
                throw new IllegalStateException("the application's own");
            }));
            assertEquals(6, attempts.size(), "what the application throws isn't done again");
            assertEquals(1, count(factory));
            assertThrows(IllegalArgumentException.class, () -> karzhoul.retry(0, em -> null));
            assertEquals(0, karzhoul.statistics().managers());
        }
    }

    private static void rename(Factory factory) {
        EntityManager other = factory.createEntityManager();
        other.getTransaction().begin();
        other.find(Item.class, 1).name += "!";
        other.getTransaction().commit();
        other.close();
    }

    @Test
    void workIsDoneAgainBehindTheEndOfTheProgram() {
        try (Factory factory = open("karzhoul:" + folder.resolve("ended.db"), null, Map.of())) {
            Karzhoul karzhoul = factory.unwrap(Karzhoul.class);
            List<Integer> attempts = new ArrayList<>();
            karzhoul.retry(em -> {
                em.persist(new Item(1));
                em.flush();
                attempts.add(1);
                if (attempts.size() == 1) {
                    ProcessHandle program = ProcessHandle.of(factory.pool().engine().pid()).orElseThrow();
                    program.destroyForcibly();
                    program.onExit().join();
                    em.flush();
                    em.find(Item.class, 2);
                }
                return null;
            });
            assertEquals(2, attempts.size());
            assertEquals(1, count(factory));
            assertEquals(2, karzhoul.statistics().programs());
        }
    }

    @Test
    void manyAreLoadedAndARefusalSaysHowManyAreStored() {
        try (Factory factory = open("karzhoul:memory", null, Map.of())) {
            Karzhoul karzhoul = factory.unwrap(Karzhoul.class);
            assertEquals(12, karzhoul.load(IntStream.range(0, 12).mapToObj(Item::new).iterator(), 5));
            assertEquals(12, count(factory));
            PersistenceException refused = assertThrows(PersistenceException.class, () -> karzhoul.load(
                    IntStream.of(20, 21, 22, 23, 24, 25, 26, 3, 27).mapToObj(Item::new).iterator(), 5));
            assertTrue(refused.getMessage().startsWith("5 of them are stored, and of the "), refused.getMessage());
            assertTrue(refused.getMessage().contains("EntityExists"), refused.getMessage());
            assertEquals(17, count(factory));
            assertEquals(0, karzhoul.load(List.of().iterator()));
        }
    }

    @Test
    void aBackupHasWhatWasCommittedAndIsOpened() throws IOException {
        Path copy = folder.resolve("copy.db");
        for (String url : List.of("karzhoul:" + folder.resolve("store.db"), "karzhoul:memory")) {
            try (Factory factory = open(url, null, Map.of())) {
                Karzhoul karzhoul = factory.unwrap(Karzhoul.class);
                persist(factory, 1, 2, 3);
                EntityManager open = factory.createEntityManager();
                open.getTransaction().begin();
                open.persist(new Item(4));
                open.flush();
                long bytes = karzhoul.backup(copy);
                assertEquals(Files.size(copy), bytes);
                assertFalse(Files.exists(folder.resolve("copy.db-wal")));
                open.getTransaction().commit();
                PersistenceException refused = assertThrows(PersistenceException.class, () -> karzhoul.backup(copy));
                assertTrue(refused.getMessage().contains("there is a file of this name already"), refused.getMessage());
                assertEquals(4, count(factory));
            }
            try (Factory copied = open("karzhoul:" + copy, null, Map.of())) {
                assertEquals(3, count(copied));
            }
            Files.delete(copy);
            Files.deleteIfExists(folder.resolve("copy.db-wal"));
        }
    }
}
