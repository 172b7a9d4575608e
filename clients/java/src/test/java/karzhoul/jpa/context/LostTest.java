package karzhoul.jpa.context;

import static org.junit.jupiter.api.Assertions.assertEquals;
import static org.junit.jupiter.api.Assertions.assertFalse;
import static org.junit.jupiter.api.Assertions.assertNull;
import static org.junit.jupiter.api.Assertions.assertSame;
import static org.junit.jupiter.api.Assertions.assertThrows;
import static org.junit.jupiter.api.Assertions.assertTrue;

import jakarta.persistence.EntityManager;
import jakarta.persistence.LockModeType;
import jakarta.persistence.PersistenceException;
import jakarta.persistence.RollbackException;
import java.nio.file.Path;
import java.time.Duration;
import java.util.ArrayList;
import java.util.List;
import java.util.function.Consumer;
import karzhoul.jpa.CommitUnknownException;
import karzhoul.jpa.shop.Audit;
import karzhoul.jpa.shop.Person;
import karzhoul.jpa.shop.Shop;
import org.junit.jupiter.api.AfterEach;
import org.junit.jupiter.api.BeforeEach;
import org.junit.jupiter.api.Test;
import org.junit.jupiter.api.Timeout;
import org.junit.jupiter.api.io.TempDir;

/** What a transaction is told whose program was killed, and what the commit of one that can only roll back is. */
@Timeout(120)
class LostTest {
    /** Of a program that is ended by kill -9: 128 and 9. */
    private static final String ENDED =
        "the program has ended (status 137); what was not committed is rolled back, and the next entity manager starts it again";

    @TempDir Path folder;
    private Factory factory;
    private EntityManager manager;

    @BeforeEach
    void open() {
        factory = Shop.open("karzhoul:" + folder.resolve("a.db"), Shop.CLASSES, Duration.ofSeconds(20), null);
        manager = factory.createEntityManager();
        manager.getTransaction().begin();
        manager.persist(new Person("Ada"));
        manager.getTransaction().commit();
        manager.clear();
    }

    @AfterEach
    void close() {
        Audit.also(null);
        factory.close();
    }

    private void kill() {
        ProcessHandle program = ProcessHandle.of(factory.pool().engine().pid()).orElseThrow();
        program.destroyForcibly();
        program.onExit().join();
    }

    private List<String> names() {
        try (EntityManager other = factory.createEntityManager()) {
            return other.createQuery("SELECT p.name FROM Person p ORDER BY p.name", String.class).getResultList();
        }
    }

    /** What the commit raises of a transaction that has done this when the program is killed. */
    private <E extends PersistenceException> E refused(Class<E> expected, Consumer<Person> done) {
        manager.getTransaction().begin();
        done.accept(manager.find(Person.class, 1L));
        kill();
        E refused = assertThrows(expected, () -> manager.getTransaction().commit());
        assertFalse(manager.getTransaction().isActive());
        return refused;
    }

    @Test
    void whatOnlyReadIsCommitted() {
        manager.getTransaction().begin();
        Person ada = manager.find(Person.class, 1L);
        manager.refresh(ada);
        kill();
        manager.getTransaction().commit();
        assertFalse(manager.getTransaction().isActive());
        assertTrue(manager.contains(ada), "a commit detaches nothing");
        manager.getTransaction().begin();
        ada.setName("Bea");
        manager.getTransaction().commit();
        assertEquals(List.of("Bea"), names());
    }

    @Test
    void whatIsLockedWasntComparedAndIsRolledBack() {
        RollbackException refused = refused(RollbackException.class, ada -> manager.lock(ada, LockModeType.OPTIMISTIC));
        assertEquals("the transaction was rolled back: " + ENDED, refused.getMessage());
        assertEquals(ENDED, refused.getCause().getMessage());
    }

    /** The changes are sent before the commit, and found that nobody took them. */
    @Test
    void whatIsWrittenByTheCommitIsRolledBack() {
        List<Consumer<Person>> changes = List.of(ada -> ada.setName("Bea"), ada -> manager.remove(ada),
            ada -> manager.lock(ada, LockModeType.OPTIMISTIC_FORCE_INCREMENT), ada -> manager.persist(new Person("Bea")));
        for (Consumer<Person> change : changes) {
            assertEquals(ENDED, refused(RollbackException.class, change).getCause().getMessage());
        }
        assertEquals(List.of("Ada"), names());
    }

    @Test
    void whatWasFlushedIsNotKnownToBeStored() {
        List<Runnable> unknown = List.of(() -> manager.persist(new Person("Bea")),
            () -> manager.createQuery("UPDATE Person p SET p.name = 'Bea'").executeUpdate());
        for (Runnable change : unknown) {
            refused(CommitUnknownException.class, ada -> {
                change.run();
                manager.flush();
            });
        }
        assertEquals(List.of("Ada"), names());
    }

    @Test
    void whatWasPersistedBeforeTheTransactionIsStored() {
        manager.persist(new Person("Bea"));
        kill();
        manager.getTransaction().begin();
        manager.getTransaction().commit();
        assertEquals(List.of("Ada", "Bea"), names());
    }

    @Test
    void oneSentenceTellsThatItEnded() {
        manager.getTransaction().begin();
        manager.find(Person.class, 1L);
        EntityManager other = factory.createEntityManager();
        other.getTransaction().begin();
        other.find(Person.class, 1L);
        kill();
        List<PersistenceException> met = new ArrayList<>();
        for (EntityManager each : List.of(manager, other, manager)) {
            met.add(assertThrows(PersistenceException.class, () -> each.find(Person.class, 2L)));
            assertTrue(each.getTransaction().getRollbackOnly());
        }
        met.forEach(each -> assertEquals(ENDED, each.getMessage()));
        RollbackException refused = assertThrows(RollbackException.class, () -> manager.getTransaction().commit());
        assertSame(met.get(0), refused.getCause());
        assertEquals("the transaction was rolled back: " + ENDED, refused.getMessage());
        other.getTransaction().rollback();
        assertNull(manager.find(Person.class, 2L));
    }

    @Test
    void aRollbackNeedsNoProgram() {
        manager.getTransaction().begin();
        manager.persist(new Person("Bea"));
        manager.flush();
        kill();
        manager.getTransaction().rollback();
        assertEquals(List.of("Ada"), names());
    }

    @Test
    void whatMarkedIsTheCauseOfTheRollback() {
        List<Runnable> refused = List.of(
            () -> manager.find(Person.class, "no key"),
            () -> manager.createQuery("SELECT nothing"),
            () -> manager.persist(null),
            () -> {
                manager.persist(new Person(null));
                manager.flush();
            });
        for (Runnable each : refused) {
            manager.getTransaction().begin();
            RuntimeException first = assertThrows(RuntimeException.class, each::run);
            assertThrows(IllegalArgumentException.class, () -> manager.find(Person.class, "another"));
            RollbackException rolledBack = assertThrows(RollbackException.class, () -> manager.getTransaction().commit());
            assertSame(first, rolledBack.getCause());
            assertEquals("the transaction was rolled back: " + first.getMessage(), rolledBack.getMessage());
        }
    }

    @Test
    void whatACallbackThrowsMarksAndReachesTheApplicationAsItIs() {
        IllegalStateException thrown = new IllegalStateException();
        Audit.also((event, entity) -> {
            throw thrown;
        });
        manager.getTransaction().begin();
        assertSame(thrown, assertThrows(IllegalStateException.class, () -> manager.persist(new Person("Bea"))));
        RollbackException rolledBack = assertThrows(RollbackException.class, () -> manager.getTransaction().commit());
        assertSame(thrown, rolledBack.getCause());
        assertEquals("the transaction was rolled back: java.lang.IllegalStateException", rolledBack.getMessage());
        assertSame(thrown, assertThrows(IllegalStateException.class, () -> manager.find(Person.class, 1L)), "of PostLoad");
    }

    @Test
    void setRollbackOnlyIsNoFaultOfAnyCall() {
        manager.getTransaction().begin();
        manager.getTransaction().setRollbackOnly();
        assertThrows(IllegalArgumentException.class, () -> manager.find(Person.class, "no key"));
        RollbackException rolledBack = assertThrows(RollbackException.class, () -> manager.getTransaction().commit());
        assertNull(rolledBack.getCause());
        assertEquals("the transaction was rolled back: setRollbackOnly asked for it", rolledBack.getMessage());
    }
}
