package karzhoul.jpa.server;

import static org.junit.jupiter.api.Assertions.assertEquals;
import static org.junit.jupiter.api.Assertions.assertFalse;
import static org.junit.jupiter.api.Assertions.assertThrows;
import static org.junit.jupiter.api.Assertions.assertTrue;

import jakarta.persistence.EntityManager;
import jakarta.persistence.PersistenceException;
import java.io.IOException;
import java.net.InetAddress;
import java.net.ServerSocket;
import java.net.Socket;
import java.nio.file.Files;
import java.nio.file.Path;
import java.time.Duration;
import java.util.ArrayList;
import java.util.List;
import java.util.Map;
import java.util.Optional;
import java.util.concurrent.CompletableFuture;
import java.util.concurrent.ExecutionException;
import java.util.concurrent.ExecutorService;
import java.util.concurrent.Executors;
import java.util.concurrent.TimeUnit;
import karzhoul.jpa.context.Factory;
import karzhoul.jpa.model.Programs;
import karzhoul.jpa.model.Reader;
import karzhoul.jpa.spi.UnitSettings;
import org.junit.jupiter.api.Test;
import org.junit.jupiter.api.Timeout;
import org.junit.jupiter.api.io.TempDir;

/** A host that takes connections and says nothing keeps threads waiting no longer than is said, and no others at all. */
@Timeout(180)
class DeadServerTest {
    private static final Duration SHORT = Duration.ofMillis(500);

    @TempDir Path folder;

    private static ServerSocket silent(int port) throws IOException {
        return new ServerSocket(port, 50, InetAddress.getLoopbackAddress());
    }

    private static String refused(Factory factory) {
        EntityManager em = factory.createEntityManager();
        em.getTransaction().begin();
        String said = assertThrows(PersistenceException.class, () -> em.find(Counter.class, 1)).getMessage();
        em.getTransaction().rollback();
        em.close();
        return said;
    }

    @Test
    void whoConnectsAgainWaitsAsLongAsForAManager() throws Exception {
        int port;
        try (ServerSocket socket = silent(0)) {
            port = socket.getLocalPort();
        }
        Path token = Files.writeString(folder.resolve("token"), "t".repeat(32));
        Serving server = new Serving(folder, "tcp:127.0.0.1:" + port, "", List.of("--language", "wide", "--token-file",
            token.toString()), Counter.class);
        try (server; Factory factory = server.factory(Map.of("karzhoul.token.file", token), SHORT, Counter.class)) {
            EntityManager open = factory.createEntityManager();
            open.getTransaction().begin();
            open.persist(new Counter(1));
            open.flush();
            server.close();
            try (ServerSocket socket = silent(port)) {
                long start = System.nanoTime();
                ExecutorService threads = Executors.newFixedThreadPool(4);
                List<CompletableFuture<String>> waiting = new ArrayList<>();
                for (int i = 0; i < 4; i++) {
                    waiting.add(CompletableFuture.supplyAsync(() -> refused(factory), threads));
                }
                Socket first = socket.accept();
                open.getTransaction().rollback();
                open.close();
                assertTrue(waiting.stream().noneMatch(CompletableFuture::isDone), "it let go without waiting for them");
                for (CompletableFuture<String> each : waiting) {
                    String said = each.get(120, TimeUnit.SECONDS);
                    assertTrue(said.startsWith("who serves at tcp:127.0.0.1:" + port + " doesn't answer: nothing came within "), said);
                }
                assertTrue(System.nanoTime() - start < TimeUnit.SECONDS.toNanos(25), "they waited for each other");
                first.close();
                threads.shutdown();
            }
            server.start();
            assertEquals(0, counted(factory));
        }
    }

    /** On a busy machine a server that has just started may take more than the five seconds for its first word. */
    private static long counted(Factory factory) {
        for (int left = 5;; left--) {
            EntityManager em = factory.createEntityManager();
            try {
                return em.createQuery("SELECT COUNT(c) FROM Counter c", Long.class).getSingleResult();
            } catch (PersistenceException slow) {
                if (left == 0) {
                    throw slow;
                }
            } finally {
                em.close();
            }
        }
    }

    @Test
    void factoriesOfAnotherStoreDontWait() throws Exception {
        try (ServerSocket socket = silent(0)) {
            String url = "karzhoul:tcp:127.0.0.1:" + socket.getLocalPort();
            CompletableFuture<Factory> connecting = CompletableFuture.supplyAsync(
                () -> Serving.factory(url, Map.of(), SHORT, Counter.class));
            Socket one = socket.accept();
            try (Factory other = inMemory()) {
                EntityManager em = other.createEntityManager();
                em.getTransaction().begin();
                em.persist(new Counter(1));
                em.getTransaction().commit();
                em.close();
            }
            assertFalse(connecting.isDone());
            one.close();
            Throwable refused = assertThrows(ExecutionException.class, () -> connecting.get(60, TimeUnit.SECONDS)).getCause();
            assertTrue(refused.getMessage().startsWith("nobody serves at "), refused.getMessage());
        }
    }

    private static Factory inMemory() {
        return new Factory(new UnitSettings("served", Reader.read("served", List.of(Counter.class)), "karzhoul:memory",
            Programs.path(), SHORT, Optional.empty(), Map.of()));
    }
}
