package karzhoul.jpa.server;

import static org.junit.jupiter.api.Assertions.assertEquals;
import static org.junit.jupiter.api.Assertions.assertTrue;

import jakarta.persistence.EntityManager;
import jakarta.persistence.PersistenceException;
import java.nio.file.Path;
import java.time.Duration;
import java.util.ArrayList;
import java.util.HashSet;
import java.util.List;
import java.util.Map;
import java.util.Set;
import java.util.concurrent.ConcurrentHashMap;
import java.util.concurrent.CopyOnWriteArrayList;
import java.util.concurrent.TimeUnit;
import java.util.concurrent.atomic.AtomicBoolean;
import karzhoul.jpa.context.Factory;
import org.junit.jupiter.api.Test;
import org.junit.jupiter.api.io.TempDir;

/** What was confirmed is there, however a server or its program ends under four threads that commit. */
class ServerKillTest {
    private static final int THREADS = 4;

    /** How many are confirmed between two kills at least. */
    private static final int MORE = 10;

    @TempDir Path folder;
    private final Set<String> confirmed = ConcurrentHashMap.newKeySet();
    private final Set<String> unknown = ConcurrentHashMap.newKeySet();
    private final Set<String> refused = ConcurrentHashMap.newKeySet();
    private final List<String> words = new CopyOnWriteArrayList<>();
    private final AtomicBoolean isOver = new AtomicBoolean();

    @Test
    void theServerIsKilledInTheMiddle() throws Exception {
        try (Serving server = new Serving(folder, Note.class); Factory factory = server.factory(Map.of(), Duration.ofMinutes(5), Note.class)) {
            List<Thread> threads = commit(factory);
            for (int i = 0; i < 3; i++) {
                awaitConfirmed();
                server.killAndStart();
            }
            judge(factory, threads);
        }
    }

    @Test
    void itsProgramIsKilledInTheMiddle() throws Exception {
        try (Serving server = new Serving(folder, Note.class); Factory factory = server.factory(Map.of(), Duration.ofMinutes(5), Note.class)) {
            List<Thread> threads = commit(factory);
            for (int i = 0; i < 3; i++) {
                awaitConfirmed();
                long pid = Long.parseLong(String.valueOf(server.status().get("process")));
                ProcessHandle.of(pid).ifPresent(ProcessHandle::destroyForcibly);
                server.awaitLog("program started");
            }
            judge(factory, threads);
        }
    }

    /** So that whoever is slow is killed in the middle too. */
    private void awaitConfirmed() throws InterruptedException {
        int before = confirmed.size();
        while (confirmed.size() < before + MORE) {
            TimeUnit.MILLISECONDS.sleep(10);
        }
    }

    private List<Thread> commit(Factory factory) {
        List<Thread> threads = new ArrayList<>();
        for (int t = 0; t < THREADS; t++) {
            String name = "thread " + t + ", ";
            threads.add(new Thread(() -> {
                for (int i = 0; !isOver.get(); i++) {
                    commitOne(factory, name + i);
                }
            }));
        }
        threads.forEach(Thread::start);
        return threads;
    }

    /** One transaction of an object and two behind it. */
    private void commitOne(Factory factory, String text) {
        EntityManager em = factory.createEntityManager();
        boolean isCommitting = false;
        try {
            em.getTransaction().begin();
            Note note = new Note(text);
            em.persist(note);
            em.flush();
            note.more.add(new Note("a"));
            note.more.add(new Note("b"));
            isCommitting = true;
            em.getTransaction().commit();
            confirmed.add(text);
        } catch (PersistenceException e) {
            words.add(e.getMessage());
            boolean mayStand = e.getMessage().contains("all of it is stored, or nothing");
            assertTrue(!mayStand || isCommitting, e.getMessage());
            (mayStand ? unknown : refused).add(text);
        } finally {
            if (em.getTransaction().isActive()) {
                em.getTransaction().rollback();
            }
            em.close();
        }
    }

    private void judge(Factory factory, List<Thread> threads) throws InterruptedException {
        awaitConfirmed();
        isOver.set(true);
        for (Thread thread : threads) {
            thread.join();
        }
        EntityManager em = factory.createEntityManager();
        Set<String> there = new HashSet<>(em.createQuery("SELECT n.text FROM Note n WHERE n.text LIKE 'thread%'", String.class)
                .getResultList());
        Set<String> lost = new HashSet<>(confirmed);
        lost.removeAll(there);
        Set<String> standing = new HashSet<>(there);
        standing.retainAll(refused);
        long halves = em.createQuery("SELECT COUNT(n) FROM Note n WHERE n.text LIKE 'thread%' AND SIZE(n.more) <> 2", Long.class)
                .getSingleResult();
        em.close();
        System.out.println(confirmed.size() + " confirmed, " + unknown.size() + " unknown, " + refused.size() + " refused: "
                + new HashSet<>(words));
        assertEquals(Set.of(), lost, "what was confirmed, and isn't there");
        assertEquals(Set.of(), standing, "what was refused, and is there");
        assertEquals(0, halves, "what is half there");
        assertTrue(confirmed.size() >= 4 * MORE && unknown.size() + refused.size() >= 1, "it was killed in the middle");
        assertTrue(words.stream().allMatch(it -> it.contains(" unix:")), words.toString());
    }
}
