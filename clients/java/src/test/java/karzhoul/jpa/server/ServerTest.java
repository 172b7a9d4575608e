package karzhoul.jpa.server;

import static org.junit.jupiter.api.Assertions.assertEquals;
import static org.junit.jupiter.api.Assertions.assertInstanceOf;
import static org.junit.jupiter.api.Assertions.assertThrows;
import static org.junit.jupiter.api.Assertions.assertTrue;

import jakarta.persistence.Entity;
import jakarta.persistence.EntityManager;
import jakarta.persistence.Id;
import jakarta.persistence.OptimisticLockException;
import jakarta.persistence.PersistenceException;
import jakarta.persistence.RollbackException;
import java.io.IOException;
import java.net.ServerSocket;
import java.nio.file.Files;
import java.nio.file.Path;
import java.time.Duration;
import java.util.List;
import java.util.Map;
import karzhoul.jpa.context.Factory;
import org.junit.jupiter.api.Test;
import org.junit.jupiter.api.io.TempDir;

/** A unit over a server: who is served, who is refused, and other processes beside it. */
class ServerTest {
    @Entity(name = "Note")
    static class OtherNote { @Id Long id; String words; }

    @TempDir Path folder;

    @Test
    void aProcessOfPythonHasTheSameObjectsAndVersionsConflict() throws Exception {
        try (Serving server = new Serving(folder, Note.class, Counter.class);
                Factory factory = server.factory(Note.class, Counter.class)) {
            EntityManager em = factory.createEntityManager();
            em.getTransaction().begin();
            Note note = new Note("grüezi");
            note.more.add(new Note("wohl"));
            em.persist(note);
            em.persist(new Counter(1));
            em.getTransaction().commit();
            assertEquals("grüezi 1", server.python("m = app.create_entity_manager()\n"
                    + "n = m.find('Note', 1)\nprint(n.text, len(n.more))"));

            em.getTransaction().begin();
            em.find(Counter.class, 1).count = 10;
            assertEquals("5", server.python("with app.begin() as m:\n    c = m.find('Counter', 1)\n    c.count = 5\n"
                    + "print(app.create_entity_manager().find('Counter', 1).count)"));
            RollbackException refused = assertThrows(RollbackException.class, () -> em.getTransaction().commit());
            assertInstanceOf(OptimisticLockException.class, refused.getCause());
            em.clear();
            assertEquals(5, em.find(Counter.class, 1).count);
            assertEquals(List.of("wohl"), em.find(Note.class, note.id).more.stream().map(it -> it.text).toList());
            em.close();
        }
    }

    @Test
    void aTokenIsShownOverTcp() throws Exception {
        Path token = Files.writeString(folder.resolve("token"), "t".repeat(32) + "\n");
        Path other = Files.writeString(folder.resolve("other"), "\"\\".repeat(16));
        try (Serving server = new Serving(folder, "tcp:127.0.0.1:" + freePort(), "",
                List.of("--language", "wide", "--token-file", token.toString()), Counter.class)) {
            Duration wait = Duration.ofSeconds(5);
            Map<String, Map<String, Object>> refused = Map.of("missing", Map.of(), "another one", Map.of("karzhoul.token.file", other));
            refused.forEach((why, wrong) -> {
                String said = assertThrows(PersistenceException.class, () -> server.factory(wrong, wait, Counter.class)).getMessage();
                assertTrue(said.contains("Denied(the token is " + why + "); the property karzhoul.token.file"), said);
            });
            Map<String, Object> missing = Map.of("karzhoul.token.file", folder.resolve("none"));
            String said = assertThrows(PersistenceException.class, () -> server.factory(missing, wait, Counter.class)).getMessage();
            assertTrue(said.contains("can't be read (karzhoul.token.file)"), said);
            try (Factory factory = server.factory(Map.of("karzhoul.token.file", token), wait, Counter.class)) {
                assertEquals(0L, factory.createEntityManager().createQuery("SELECT COUNT(c) FROM Counter c").getSingleResult());
            }
        }
    }

    private static int freePort() throws IOException {
        try (ServerSocket socket = new ServerSocket(0)) {
            return socket.getLocalPort();
        }
    }

    @Test
    void whoIsNotServedIsToldWhy() throws Exception {
        Serving server = new Serving(folder, Note.class);
        try (server) {
            String said = assertThrows(PersistenceException.class, () -> server.factory(OtherNote.class)).getMessage();
            assertTrue(said.contains("serves other classes; these differ: Note"), said);
        }
        String said = assertThrows(PersistenceException.class, () -> server.factory(Note.class)).getMessage();
        assertTrue(said.startsWith("nobody serves at unix:"), said);
        try (Serving profile = new Serving(folder, "unix:" + folder.resolve("app.sock"), "", List.of(), Note.class)) {
            said = assertThrows(PersistenceException.class, () -> profile.factory(Note.class)).getMessage();
            assertTrue(said.contains("start it with --language wide"), said);
        }
    }

    @Test
    void aStoreOfAnotherClientIsAdoptedAndOneOfJavaIsKnown() throws Exception {
        try (Serving server = new Serving(folder, Counter.class)) {
            assertEquals("", server.python("with app.begin() as m:\n    m.persist(app.new('Counter', id=1, count=3))"));
            String said = assertThrows(PersistenceException.class, () -> server.factory(Counter.class)).getMessage();
            assertTrue(said.contains("doesn't say with which classes it was written"), said);
            Factory factory = server.factory(Map.of("karzhoul.adopt", "true"), Duration.ofSeconds(5), Counter.class);
            assertEquals(3, factory.createEntityManager().find(Counter.class, 1).count);
            factory.close();
            server.factory(Counter.class).close();
        }
    }

    @Test
    void whoIsInterruptedEndsNoConnection() throws Exception {
        try (Serving server = new Serving(folder, Note.class); Factory factory = server.factory(Note.class)) {
            Thread.currentThread().interrupt();
            EntityManager em = factory.createEntityManager();
            em.getTransaction().begin();
            em.persist(new Note("kept"));
            em.getTransaction().commit();
            assertTrue(Thread.interrupted(), "it stays interrupted");
            Thread asking = new Thread(() -> {
                EntityManager other = factory.createEntityManager();
                for (int i = 0; i < 300; i++) {
                    other.createQuery("SELECT n FROM Note n").getResultList();
                }
                other.close();
            });
            asking.start();
            em.getTransaction().begin();
            for (int i = 0; asking.isAlive(); i++) {
                asking.interrupt();
                em.find(Note.class, (long) i + 2);
            }
            em.persist(new Note("also"));
            em.getTransaction().commit();
            assertEquals(2L, em.createQuery("SELECT COUNT(n) FROM Note n").getSingleResult());
            em.close();
        }
    }
}
