package karzhoul.jpa.context;

import static org.junit.jupiter.api.Assertions.assertEquals;
import static org.junit.jupiter.api.Assertions.assertNotNull;
import static org.junit.jupiter.api.Assertions.assertNull;
import static org.junit.jupiter.api.Assertions.assertThrows;

import jakarta.persistence.PersistenceException;
import jakarta.persistence.RollbackException;
import karzhoul.jpa.engine.Engine;
import karzhoul.jpa.engine.Lines;
import karzhoul.jpa.shop.Tag;
import org.junit.jupiter.api.Test;

/** What goes to the program ahead of its answers: nothing is lost by it, and nothing refused is committed. */
class AheadTest extends Tried {
    private static final int MANY = 2_000;

    private void persist(String before) {
        for (int i = 0; i < MANY; i++) {
            manager.persist(new Tag(before + i));
        }
    }

    private long count() {
        return read(other -> other.createQuery("SELECT COUNT(t) FROM Tag t", Long.class).getSingleResult());
    }

    @Test
    void allOfALargeTransactionIsStored() {
        commit(() -> persist("a"));
        assertEquals(MANY, count());
        manager.getTransaction().begin();
        persist("b");
        other(it -> it.persist(new Tag("between")));
        manager.getTransaction().rollback();
        assertEquals(MANY + 1, count());
    }

    @Test
    void whatIsRefusedAheadIsToldByTheFlush() {
        for (boolean isFlushed : new boolean[] {true, false}) {
            manager.getTransaction().begin();
            persist("first ");
            Context context = ((Manager) manager).context();
            context.queue().set(900_000, "label", "x");             // names no object, which marks nothing by itself
            persist("then ");
            if (isFlushed) {
                assertThrows(PersistenceException.class, () -> manager.flush());
            }
            assertThrows(RollbackException.class, () -> manager.getTransaction().commit());
            assertEquals(0, count());
        }
    }

    @Test
    void aRefusalIsKeptUntilItIsAskedFor() {
        Engine engine = factory.pool().engine();
        Engine.Sent refused = engine.send(new Lines().begin(4_711));
        assertNull(refused.refused(), "its reply wasn't read");
        for (int i = 0; i < 100; i++) {
            Lines lines = new Lines();
            while (lines.length() < 8_000) {
                lines.newObject("Tag");
            }
            assertNull(engine.send(lines).refused());
        }
        engine.ask(new Lines());
        assertNotNull(refused.refused());
        assertEquals("NoSuchManager", refused.refused().error());
    }
}
