package karzhoul.jpa.server;

import static org.junit.jupiter.api.Assertions.assertEquals;
import static org.junit.jupiter.api.Assertions.assertFalse;
import static org.junit.jupiter.api.Assertions.assertThrows;
import static org.junit.jupiter.api.Assertions.assertTrue;

import jakarta.persistence.EntityManager;
import jakarta.persistence.PersistenceException;
import java.io.IOException;
import java.net.ServerSocket;
import java.net.Socket;
import java.nio.charset.StandardCharsets;
import java.nio.file.Path;
import java.time.Duration;
import java.util.List;
import java.util.Map;
import java.util.concurrent.CompletableFuture;
import java.util.concurrent.TimeUnit;
import karzhoul.jpa.Karzhoul;
import karzhoul.jpa.ServerEndingException;
import karzhoul.jpa.context.Factory;
import org.junit.jupiter.api.Test;
import org.junit.jupiter.api.Timeout;
import org.junit.jupiter.api.io.TempDir;

/** A server that ends, or isn't there: what is said, and what is waited for. */
@Timeout(180)
class ServerEndsTest {
    private static final Duration SHORT = Duration.ofMillis(500);

    @TempDir Path folder;

    private static void store(Factory factory, int id) {
        EntityManager em = factory.createEntityManager();
        em.getTransaction().begin();
        em.persist(new Counter(id));
        em.getTransaction().commit();
        em.close();
    }

    private static EntityManager reading(Factory factory) {
        EntityManager em = factory.createEntityManager();
        em.getTransaction().begin();
        em.find(Counter.class, 1);
        return em;
    }

    private static int counted(EntityManager em) {
        em.find(Counter.class, 1).count++;
        return em.find(Counter.class, 1).count;
    }

    @Test
    void retryWaitsForTheServerThatComesNext() throws Exception {
        try (Serving server = new Serving(folder, Counter.class);
                Factory factory = server.factory(Map.of(), Duration.ofMinutes(2), Counter.class)) {
            store(factory, 1);
            EntityManager open = reading(factory);
            server.beginEnd();
            EntityManager refused = factory.createEntityManager();
            refused.getTransaction().begin();
            assertThrows(ServerEndingException.class, () -> refused.find(Counter.class, 1));
            refused.getTransaction().rollback();
            CompletableFuture<Integer> retried = CompletableFuture.supplyAsync(
                () -> factory.unwrap(Karzhoul.class).retry(3, ServerEndsTest::counted));
            TimeUnit.MILLISECONDS.sleep(500);
            assertFalse(retried.isDone(), "the server ends still");
            open.getTransaction().commit();
            server.awaitEnd();
            server.start();
            assertEquals(1, retried.get(120, TimeUnit.SECONDS));
            assertEquals(1, factory.createEntityManager().find(Counter.class, 1).count);
        }
    }

    @Test
    void retryWaitsNoLongerThanForAManager() throws Exception {
        try (Serving server = new Serving(folder, Counter.class);
                Factory factory = server.factory(Map.of(), SHORT, Counter.class)) {
            store(factory, 1);
            EntityManager open = reading(factory);
            server.beginEnd();
            Karzhoul karzhoul = factory.unwrap(Karzhoul.class);
            String said = assertThrows(ServerEndingException.class, () -> karzhoul.retry(ServerEndsTest::counted)).getMessage();
            assertTrue(said.startsWith("Closed(the server is ending, and "), said);
            open.getTransaction().commit();
            server.awaitEnd();
            said = assertThrows(PersistenceException.class, () -> karzhoul.retry(ServerEndsTest::counted)).getMessage();
            assertTrue(said.startsWith("nobody serves at unix:"), said);
        }
    }

    @Test
    void oneSentenceTellsThatItEndedAndWhatOnlyReadIsCommitted() throws Exception {
        try (Serving server = new Serving(folder, Counter.class); Factory factory = server.factory(Counter.class)) {
            store(factory, 1);
            List<EntityManager> open = List.of(reading(factory), reading(factory), reading(factory));
            server.killAndStart();
            told(open, "the connection to " + server.url().substring("karzhoul:".length()) + " has ended; what was not"
                + " committed is rolled back, and the next entity manager connects again");

            open = List.of(reading(factory), reading(factory), reading(factory));
            server.program().destroyForcibly();
            server.awaitLog("program started");
            told(open, "the connection to " + server.url().substring("karzhoul:".length()) + " has ended; what was not"
                + " committed is rolled back, and the next entity manager connects again");
        }
    }

    private static void told(List<EntityManager> open, String expected) {
        open.get(0).getTransaction().commit();
        for (EntityManager each : open.subList(1, 3)) {
            assertEquals(expected, assertThrows(PersistenceException.class, () -> each.find(Counter.class, 2)).getMessage());
            each.getTransaction().rollback();
        }
    }

    /** At once, where nobody listens; another factory may do it again. */
    @Test
    void aFactoryDoesntWaitForAServer() throws Exception {
        int port;
        try (ServerSocket socket = new ServerSocket(0)) {
            port = socket.getLocalPort();
        }
        for (String url : List.of("karzhoul:tcp:127.0.0.1:" + port, "karzhoul:unix:" + folder.resolve("none.sock"))) {
            long start = System.nanoTime();
            String said = assertThrows(PersistenceException.class, () -> factory(url)).getMessage();
            assertTrue(said.startsWith("nobody serves at " + url.substring("karzhoul:".length()) + ": "), said);
            assertTrue(System.nanoTime() - start < TimeUnit.SECONDS.toNanos(5), "it waited");
        }
    }

    @Test
    void whoIsNoServerIsTold() throws Exception {
        try (ServerSocket socket = new ServerSocket(0)) {
            CompletableFuture<Void> other = CompletableFuture.runAsync(() -> {
                try (Socket one = socket.accept()) {
                    one.getOutputStream().write("HTTP/1.1 400 Bad Request\r\n\r\n".getBytes(StandardCharsets.US_ASCII));
                } catch (IOException e) {
                    throw new IllegalStateException(e);
                }
            });
            String url = "karzhoul:tcp:127.0.0.1:" + socket.getLocalPort();
            String said = assertThrows(PersistenceException.class, () -> factory(url)).getMessage();
            assertTrue(said.startsWith("who serves at tcp:127.0.0.1:" + socket.getLocalPort() + " is no server of Karzhoul"), said);
            other.get(30, TimeUnit.SECONDS);
        }
    }

    private static Factory factory(String url) {
        return Serving.factory(url, Map.of(), Duration.ofSeconds(20), Counter.class);
    }
}
