package karzhoul.jpa.server;

import static org.junit.jupiter.api.Assertions.assertEquals;
import static org.junit.jupiter.api.Assertions.assertNotEquals;
import static org.junit.jupiter.api.Assertions.assertThrows;
import static org.junit.jupiter.api.Assertions.assertTrue;

import jakarta.persistence.EntityManager;
import jakarta.persistence.OptimisticLockException;
import jakarta.persistence.PersistenceException;
import jakarta.persistence.RollbackException;
import java.io.BufferedReader;
import java.nio.charset.StandardCharsets;
import java.nio.file.Path;
import java.time.Duration;
import java.util.ArrayList;
import java.util.List;
import java.util.Map;
import java.util.Optional;
import java.util.concurrent.CompletableFuture;
import java.util.concurrent.TimeUnit;
import karzhoul.jpa.ServerEndingException;
import karzhoul.jpa.context.Factory;
import karzhoul.jpa.model.Reader;
import karzhoul.jpa.spi.UnitSettings;
import org.junit.jupiter.api.Test;
import org.junit.jupiter.api.io.TempDir;

/** A server's managers, runs and versions, which processes share. */
class ServerSharingTest {
    @TempDir Path folder;

    /** A second JVM: {@code Counting URL THREADS TIMES} counts a number up in each thread, and tries again. */
    static final class Counting {
        private Counting() {}

        public static void main(String[] words) throws InterruptedException {
            try (Factory factory = new Factory(new UnitSettings("counting", Reader.read("counting", List.of(Note.class, Counter.class)),
                    words[0], null, Duration.ofSeconds(30), Optional.empty(), Map.of()))) {
                System.out.println(countUp(factory, Integer.parseInt(words[1]), Integer.parseInt(words[2])));
            }
        }
    }

    /** A second JVM: {@code Holding URL} has fifteen managers busy until its input ends. */
    static final class Holding {
        private Holding() {}

        public static void main(String[] words) throws Exception {
            try (Factory factory = new Factory(new UnitSettings("holding", Reader.read("holding", List.of(Note.class, Counter.class)),
                    words[0], null, Duration.ofSeconds(30), Optional.empty(), Map.of()))) {
                List<EntityManager> managers = new ArrayList<>();
                for (int i = 0; i < 15; i++) {
                    managers.add(factory.createEntityManager());
                    managers.get(i).getTransaction().begin();
                    managers.get(i).find(Counter.class, 1);
                }
                System.out.println("holds");
                System.in.read();
            }
        }
    }

    private static int countUp(Factory factory, int threads, int times) throws InterruptedException {
        List<Thread> all = new ArrayList<>();
        for (int t = 0; t < threads; t++) {
            all.add(new Thread(() -> {
                for (int i = 0; i < times; i++) {
                    while (!isCounted(factory)) {
                        Thread.yield();
                    }
                }
            }));
        }
        all.forEach(Thread::start);
        for (Thread each : all) {
            each.join();
        }
        return threads * times;
    }

    private static boolean isCounted(Factory factory) {
        EntityManager em = factory.createEntityManager();
        try {
            em.getTransaction().begin();
            em.find(Counter.class, 1).count++;
            em.getTransaction().commit();
            return true;
        } catch (RollbackException e) {
            if (e.getCause() instanceof OptimisticLockException) {
                return false;
            }
            throw e;
        } finally {
            em.close();
        }
    }

    private static void begin(Factory factory) {
        EntityManager em = factory.createEntityManager();
        em.getTransaction().begin();
        em.persist(new Counter(1));
        em.getTransaction().commit();
        em.close();
    }

    @Test
    void twoJvmsAndAProcessOfPythonCountTogether() throws Exception {
        try (Serving server = new Serving(folder, Note.class, Counter.class);
                Factory factory = server.factory(Note.class, Counter.class)) {
            begin(factory);
            Process other = server.jvm(Counting.class, "3", "20");
            CompletableFuture<String> python = CompletableFuture.supplyAsync(() -> server.python(
                    "def work(m):\n    m.find('Counter', 1).count += 1\nfor i in range(20): app.retry(work, 1000)\nprint(20)"));
            int mine = countUp(factory, 3, 20);
            String said = new String(other.getInputStream().readAllBytes(), StandardCharsets.UTF_8).strip();
            assertEquals("60 0", said + " " + other.waitFor());
            assertEquals("20", python.get(2, TimeUnit.MINUTES));
            assertEquals(mine + 60 + 20, factory.createEntityManager().find(Counter.class, 1).count);
        }
    }

    @Test
    void whoFindsNoManagerWaitsInTheServersQueue() throws Exception {
        try (Serving server = new Serving(folder, Note.class, Counter.class);
                Factory factory = server.factory(Map.of(), Duration.ofMillis(700), Note.class, Counter.class);) {
            begin(factory);
            Process other = server.jvm(Holding.class);
            try (BufferedReader out = other.inputReader()) {
                assertEquals("holds", out.readLine());
                EntityManager sixteenth = factory.createEntityManager();
                sixteenth.getTransaction().begin();
                sixteenth.find(Counter.class, 1);
                EntityManager next = factory.createEntityManager();
                PersistenceException refused = assertThrows(PersistenceException.class, () -> next.find(Counter.class, 1));
                assertTrue(refused.getMessage().matches("Limit: no manager is free, none became free within 0\\.\\d+ seconds: of 16, "
                        + "connection .* has 15.*"), refused.getMessage());

                CompletableFuture<Integer> waits = CompletableFuture.supplyAsync(() -> next.find(Counter.class, 1).count);
                TimeUnit.MILLISECONDS.sleep(200);
                sixteenth.getTransaction().commit();        // it keeps its object, and its manager goes to who waits
                assertEquals(0, waits.get(10, TimeUnit.SECONDS));
                assertEquals(0, sixteenth.find(Counter.class, 1).count);
                other.destroyForcibly().waitFor();          // and so do those of a process that is killed
                List<EntityManager> more = new ArrayList<>();
                for (int i = 0; i < 14; i++) {
                    more.add(factory.createEntityManager());
                    more.get(i).getTransaction().begin();
                    more.get(i).find(Counter.class, 1);
                }
                more.forEach(it -> it.getTransaction().rollback());
            }
        }
    }

    @Test
    void whoIsIdleGivesItsManagerBackAndFindsItsObjectsAgain() throws Exception {
        try (Serving server = new Serving(folder, Note.class, Counter.class);
                Factory factory = server.factory(Note.class, Counter.class)) {
            begin(factory);
            EntityManager em = factory.createEntityManager();
            Counter counter = em.find(Counter.class, 1);
            assertEquals(1L, server.status().get("managers"));
            TimeUnit.SECONDS.sleep(3);
            assertEquals(0L, server.status().get("managers"));
            em.getTransaction().begin();
            counter.count = 7;
            em.getTransaction().commit();
            assertEquals(7, factory.createEntityManager().find(Counter.class, 1).count);

            TimeUnit.SECONDS.sleep(3);
            assertEquals("", server.python("with app.begin() as m: m.find('Counter', 1).count = 8"));
            em.getTransaction().begin();
            counter.count = 9;
            RollbackException refused = assertThrows(RollbackException.class, () -> em.getTransaction().commit());
            assertTrue(refused.getCause() instanceof OptimisticLockException, "it is stale");
        }
    }

    @Test
    void aNewRunOfTheServerIsUnnoticed() throws Exception {
        try (Serving server = new Serving(folder, "unix:" + folder.resolve("app.sock"), Serving.FEW_OBJECTS,
                List.of("--language", "wide"), Note.class, Counter.class);
                Factory factory = server.factory(Note.class, Counter.class)) {
            begin(factory);
            EntityManager kept = factory.createEntityManager();
            Counter counter = kept.find(Counter.class, 1);
            for (int i = 0; i < 60; i++) {
                EntityManager em = factory.createEntityManager();
                em.getTransaction().begin();
                Note note = new Note("of round " + i);
                note.more.add(new Note("a"));
                em.persist(note);
                em.getTransaction().commit();
                if (i % 5 == 0) {
                    kept.getTransaction().begin();
                    counter.count++;
                    kept.getTransaction().commit();
                }
                em.close();
            }
            assertNotEquals(0L, server.status().get("restarts"));
            assertEquals(12, factory.createEntityManager().find(Counter.class, 1).count);
            assertEquals(120L, factory.createEntityManager().createQuery("SELECT COUNT(n) FROM Note n").getSingleResult());
        }
    }

    @Test
    void whoWouldBeginWhileTheServerEndsIsRefusedAndOthersGoOn() throws Exception {
        try (Serving server = new Serving(folder, Note.class, Counter.class);
                Factory factory = server.factory(Note.class, Counter.class)) {
            begin(factory);
            EntityManager open = factory.createEntityManager();
            open.getTransaction().begin();
            Counter counter = open.find(Counter.class, 1);
            EntityManager idle = factory.createEntityManager();
            idle.find(Counter.class, 1);
            server.beginEnd();
            for (EntityManager other : List.of(factory.createEntityManager(), idle)) {
                ServerEndingException refused = assertThrows(ServerEndingException.class, () -> {
                    other.getTransaction().begin();
                    other.find(Counter.class, 2);
                });
                assertTrue(refused.getMessage().matches("Closed\\(the server is ending, and "
                        + "(creates no manager|begins no transaction)\\): what has begun may end.*"), refused.getMessage());
                other.getTransaction().rollback();
            }
            counter.count = 5;
            open.getTransaction().commit();
            server.awaitEnd();
            server.start();
            assertEquals(5, factory.createEntityManager().find(Counter.class, 1).count);
        }
    }

    @Test
    void aServerThatEndsAndComesAgainIsWaitedFor() throws Exception {
        try (Serving server = new Serving(folder, Note.class, Counter.class);
                Factory factory = server.factory(Note.class, Counter.class)) {
            begin(factory);
            EntityManager em = factory.createEntityManager();
            Counter counter = em.find(Counter.class, 1);
            server.end();
            CompletableFuture<Void> waits = CompletableFuture.runAsync(() -> {
                em.getTransaction().begin();
                counter.count = 3;
                em.getTransaction().commit();
            });
            server.start();
            waits.get(30, TimeUnit.SECONDS);
            assertEquals(3, factory.createEntityManager().find(Counter.class, 1).count);
        }
    }
}
