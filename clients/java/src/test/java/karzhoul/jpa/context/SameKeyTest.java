package karzhoul.jpa.context;

import static org.junit.jupiter.api.Assertions.assertEquals;
import static org.junit.jupiter.api.Assertions.assertInstanceOf;
import static org.junit.jupiter.api.Assertions.assertSame;
import static org.junit.jupiter.api.Assertions.assertThrows;

import jakarta.persistence.Entity;
import jakarta.persistence.Id;
import jakarta.persistence.OptimisticLockException;
import jakarta.persistence.RollbackException;
import jakarta.persistence.Version;
import java.time.Duration;
import java.util.List;
import java.util.function.UnaryOperator;
import karzhoul.jpa.Karzhoul;
import karzhoul.jpa.shop.Shop;
import org.junit.jupiter.api.BeforeEach;
import org.junit.jupiter.api.Test;

/** Two transactions that make an object of the same key: the second one is told which. */
class SameKeyTest extends Tried {
    @Entity(name = "Guest")
    public static class Guest {
        @Id String mail;
        @Version long version;
        String name;

        protected Guest() {}

        Guest(String mail, String name) {
            this.mail = mail;
            this.name = name;
        }
    }

    @Entity(name = "Seat")
    public static class Seat {
        @Id int number;
        String holder;

        protected Seat() {}

        Seat(int number, String holder) {
            this.number = number;
            this.holder = holder;
        }
    }

    @BeforeEach
    @Override
    void open() {
        factory = Shop.open("karzhoul:memory", List.of(Guest.class, Seat.class), Duration.ofSeconds(20), null);
        manager = factory.createEntityManager();
    }

    private void refused(Object theirs, Object mine, String words, boolean isFlushed, UnaryOperator<Object> done) {
        manager.clear();
        manager.getTransaction().begin();
        manager.createQuery("SELECT COUNT(g) FROM Guest g").getSingleResult();         // it sees what is committed by now
        manager.persist(new Guest("another than " + words + isFlushed + done, ""));
        Object made = done.apply(mine);
        if (isFlushed) {
            manager.flush();
        }
        other(it -> it.persist(theirs));
        RollbackException refused = assertThrows(RollbackException.class, () -> manager.getTransaction().commit());
        OptimisticLockException cause = assertInstanceOf(OptimisticLockException.class, refused.getCause());
        assertEquals("OptimisticLock, " + words + ": another commit stored an object of this key meanwhile; find it, and change"
            + " that one, or take another key", cause.getMessage());
        assertSame(made, cause.getEntity());
    }

    private Object persisted(Object instance) {
        manager.persist(instance);
        return instance;
    }

    @Test
    void whoIsSecondIsToldTheObject() {
        refused(new Guest("a", "theirs"), new Guest("a", "mine"), "Guest a", false, this::persisted);
        refused(new Guest("b", "theirs"), new Guest("b", "mine"), "Guest b", true, this::persisted);
        refused(new Guest("c", "theirs"), new Guest("c", "mine"), "Guest c", false, manager::merge);
        refused(new Guest("d", "theirs"), new Guest("d", "mine"), "Guest d", true, manager::merge);
        refused(new Guest("e", "same"), new Guest("e", "same"), "Guest e", false, manager::merge);
    }

    @Test
    void soIsWhoHasNoVersion() {
        refused(new Seat(1, "theirs"), new Seat(1, "mine"), "Seat 1", false, this::persisted);
        refused(new Seat(2, "theirs"), new Seat(2, "mine"), "Seat 2", true, this::persisted);
        refused(new Seat(3, "same"), new Seat(3, "same"), "Seat 3", false, this::persisted);
        refused(new Seat(4, "same"), new Seat(4, "same"), "Seat 4", true, manager::merge);
    }

    @Test
    void whoTriesAgainFindsIt() {
        boolean[] isSecond = new boolean[1];
        factory.unwrap(Karzhoul.class).retry(em -> {
            Guest guest = em.find(Guest.class, "f");
            if (guest == null) {
                em.persist(new Guest("f", "mine"));
                other(it -> it.persist(new Guest("f", "theirs")));
            } else {
                guest.name += ", and mine";
                isSecond[0] = true;
            }
            return null;
        });
        assertEquals(List.of(true, "theirs, and mine"), List.of(isSecond[0], read(it -> it.find(Guest.class, "f").name)));
    }

    @Test
    void whatIsStaleBesideNewOnesIsStillNamed() {
        store(new Guest("g", "before"), new Guest("detached", ""));
        Guest detached = read(it -> it.find(Guest.class, "detached"));
        manager.getTransaction().begin();
        detached.name = "merged";
        manager.merge(detached);
        Guest guest = manager.find(Guest.class, "g");
        guest.name = "mine";
        manager.persist(new Guest("h", ""));
        manager.flush();
        other(it -> it.find(Guest.class, "g").name = "theirs");
        RollbackException refused = assertThrows(RollbackException.class, () -> manager.getTransaction().commit());
        assertSame(guest, ((OptimisticLockException) refused.getCause()).getEntity());
        assertEquals("OptimisticLock, Guest g: another commit changed or removed the row meanwhile; find it again, apply the"
            + " change, commit", refused.getCause().getMessage());
    }
}
