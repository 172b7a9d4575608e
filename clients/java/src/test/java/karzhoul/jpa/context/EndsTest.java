package karzhoul.jpa.context;

import static org.junit.jupiter.api.Assertions.assertEquals;
import static org.junit.jupiter.api.Assertions.assertFalse;
import static org.junit.jupiter.api.Assertions.assertInstanceOf;
import static org.junit.jupiter.api.Assertions.assertNotNull;
import static org.junit.jupiter.api.Assertions.assertThrows;
import static org.junit.jupiter.api.Assertions.assertTrue;

import jakarta.persistence.CascadeType;
import jakarta.persistence.Entity;
import jakarta.persistence.EntityManager;
import jakarta.persistence.GeneratedValue;
import jakarta.persistence.Id;
import jakarta.persistence.OneToMany;
import jakarta.persistence.PersistenceException;
import java.io.IOException;
import java.nio.file.Files;
import java.nio.file.Path;
import java.nio.file.attribute.PosixFilePermissions;
import java.time.Duration;
import java.util.ArrayList;
import java.util.List;
import java.util.Map;
import java.util.Optional;
import karzhoul.jpa.model.Reader;
import karzhoul.jpa.CommitUnknownException;
import karzhoul.jpa.Karzhoul;
import karzhoul.jpa.shop.Person;
import karzhoul.jpa.shop.Shop;
import karzhoul.jpa.spi.UnitSettings;
import org.junit.jupiter.api.Test;
import org.junit.jupiter.api.Timeout;
import org.junit.jupiter.api.io.TempDir;

/** What is said where a commit isn't answered, and where a store can't be opened. */
@Timeout(120)
class EndsTest {
    /** Serves the calls of the program, and ends after the next commit, or before it, or behind its answer, or has the disk fail. */
    private static final String ENDING = """
        #!/usr/bin/env bash
        coproc served { exec '%s' "$@"; }
        end() { eval "exec ${served[1]}>&-"; wait "$served_PID"; exit 9; }
        while IFS= read -r line; do
            case $line in *'"call":"commit"'*)
                [ ! -e '%s' ] || end
                [ ! -e '%s' ] || { echo '{"error":{"name":"StoreFault","no":2},"events":[]}'; continue; } ;;
            esac
            printf '%%s\\n' "$line" >&"${served[1]}"
            IFS= read -r answer <&"${served[0]}"
            case $line in *'"call":"commit"'*) [ ! -e '%s' ] || end ;; esac
            printf '%%s\\n' "$answer"
            case $line in *'"call":"commit"'*) [ ! -e '%s' ] || end ;; esac
        done
        end
        """;

    @Entity(name = "Page")
    static class Page {
        @Id @GeneratedValue Long id;
        @OneToMany(cascade = CascadeType.ALL) List<Page> more = new ArrayList<>();
    }

    @TempDir
    Path folder;

    private Factory over(String program) {
        return over(program, Shop.CLASSES);
    }

    private Factory over(String program, List<Class<?>> classes) {
        return new Factory(new UnitSettings("shop", Reader.read("shop", classes), "karzhoul:" + folder.resolve("a.db"),
            program, Duration.ofSeconds(20), Optional.empty(), Map.of()));
    }

    /** A program that ends where one of the files before, after and behind is there. */
    private String ending() throws IOException {
        Path program = folder.resolve("ending");
        Files.writeString(program, ENDING.formatted(Path.of(Shop.program()).toAbsolutePath(), folder.resolve("before"),
            folder.resolve("fault"), folder.resolve("after"), folder.resolve("behind")));
        Files.setPosixFilePermissions(program, PosixFilePermissions.fromString("rwx------"));
        return program.toString();
    }

    /** How many persons stand after a commit of which it isn't known whether it was done, as these words say. */
    private long standAfter(String armed, String words) throws Exception {
        try (Factory factory = over(ending()); EntityManager manager = factory.createEntityManager()) {
            manager.getTransaction().begin();
            Person ada = new Person("Ada");
            manager.persist(ada);
            Files.createFile(folder.resolve(armed));
            PersistenceException unknown =
                assertThrows(PersistenceException.class, () -> manager.getTransaction().commit());
            assertInstanceOf(CommitUnknownException.class, unknown);
            assertTrue(unknown.getMessage().contains(words + ": all of it is stored, or nothing"), unknown.getMessage());
            assertFalse(manager.getTransaction().isActive());
            assertFalse(manager.contains(ada));
            Files.delete(folder.resolve(armed));
            return manager.createQuery("SELECT COUNT(p) FROM Person p", Long.class).getSingleResult();
        }
    }

    @Test
    void aCommitThatWasDoneAndNotAnsweredIsNoRollback() throws Exception {
        assertEquals(1, standAfter("after", "before it answered the commit"));
    }

    @Test
    void norIsOneOfWhichNothingIsKnown() throws Exception {
        assertEquals(0, standAfter("before", "before it answered the commit"));
    }

    @Test
    void norIsOneAtWhichTheDiskFailed() throws Exception {
        assertEquals(0, standAfter("fault", "as the commit was written"));
    }

    /** With a key that the program gives, to what the commit comes upon. */
    @Test
    void oneThatWasAnsweredIsDoneThoughTheProgramEndsBehindIt() throws Exception {
        try (Factory factory = over(ending(), List.of(Page.class)); EntityManager manager = factory.createEntityManager()) {
            manager.getTransaction().begin();
            Page page = new Page();
            manager.persist(page);
            manager.flush();
            page.more.add(new Page());
            Files.createFile(folder.resolve("behind"));
            manager.getTransaction().commit();
            assertNotNull(page.more.get(0).id);
            Files.delete(folder.resolve("behind"));
            assertEquals(2L, factory.unwrap(Karzhoul.class).<Long>retry(em ->
                em.createQuery("SELECT COUNT(p) FROM Page p", Long.class).getSingleResult()));
        }
    }

    @Test
    void itIsntDoneAgainUnseen() throws Exception {
        try (Factory factory = over(ending())) {
            Files.createFile(folder.resolve("after"));
            assertThrows(CommitUnknownException.class, () -> factory.unwrap(Karzhoul.class).retry(em -> {
                em.persist(new Person("Ada"));
                return null;
            }));
            Files.delete(folder.resolve("after"));
            EntityManager em = factory.createEntityManager();
            assertEquals(1L, em.createQuery("SELECT COUNT(p) FROM Person p", Long.class).getSingleResult());
            em.close();
        }
    }

    @Test
    void aStoreThatAnotherProcessHasIsNamed() throws Exception {
        try (Factory factory = over(Shop.program())) {
            Path same = Files.createSymbolicLink(folder.resolve("b.db"), folder.resolve("a.db"));
            assertTrue(factory.isOpen());
            PersistenceException refused = assertThrows(PersistenceException.class, () -> Shop.open(
                "karzhoul:" + same, Shop.CLASSES, Duration.ofSeconds(20), null).close());
            assertTrue(refused.getMessage().matches("The store .*db isn't opened .*: another process has it open, and one at a time"
                + " has a store: .* \\(process " + factory.pool().engine().pid() + "\\), which this process started"),
                refused.getMessage());
        }
    }

    @Test
    void aFileThatIsNoStoreIsNamed() throws Exception {
        Files.writeString(folder.resolve("a.db"), "this is no store");
        PersistenceException refused =
            assertThrows(PersistenceException.class, () -> over(Shop.program()).close());
        assertTrue(refused.getMessage().startsWith("The store " + folder.resolve("a.db") + " isn't opened (status 3"),
            refused.getMessage());
        assertTrue(refused.getMessage().endsWith(": it is no database of SQLite"), refused.getMessage());
    }

    @Test
    void aFolderIsNoStore() throws Exception {
        Files.createDirectory(folder.resolve("a.db"));
        String said = assertThrows(PersistenceException.class, () -> over(Shop.program()).close()).getMessage();
        assertTrue(said.endsWith("): it is a folder, and a store is a file"), said);
    }

    @Test
    void aFolderThatIsntThereIsNamed() {
        Path missing = folder.resolve("missing");
        String said = assertThrows(PersistenceException.class, () -> Shop.open("karzhoul:" + missing.resolve("a.db"),
            Shop.CLASSES, Duration.ofSeconds(20), null).close()).getMessage();
        assertEquals("The store " + missing.resolve("a.db") + " can't be made: there is no folder " + missing, said);
    }
}
