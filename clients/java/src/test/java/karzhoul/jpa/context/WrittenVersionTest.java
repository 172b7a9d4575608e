package karzhoul.jpa.context;

import static org.junit.jupiter.api.Assertions.assertEquals;
import static org.junit.jupiter.api.Assertions.assertInstanceOf;
import static org.junit.jupiter.api.Assertions.assertThrows;

import jakarta.persistence.Entity;
import jakarta.persistence.Id;
import jakarta.persistence.PersistenceException;
import jakarta.persistence.RollbackException;
import jakarta.persistence.Version;
import java.time.Duration;
import java.util.List;
import karzhoul.jpa.shop.Shop;
import org.junit.jupiter.api.BeforeEach;
import org.junit.jupiter.api.Test;

/** A version that the application writes (chapter 3.4.2) is refused, and never dropped. */
class WrittenVersionTest extends Tried {
    @Entity(name = "Lot")
    public static class Lot {
        @Id long id;
        @Version int version;
        int price;
    }

    @Entity(name = "Boxed")
    public static class Boxed {
        @Id long id;
        @Version Long version;
        int price;
    }

    @BeforeEach
    @Override
    void open() {
        factory = Shop.open("karzhoul:memory", List.of(Lot.class, Boxed.class), Duration.ofSeconds(20), null);
        manager = factory.createEntityManager();
        store(new Lot(), new Boxed());
        commit(() -> {
            manager.find(Lot.class, 0L).price = 1;
            manager.find(Boxed.class, 0L).price = 1;
        });
        manager.clear();
    }

    private String refused(Runnable done) {
        RollbackException refused = assertThrows(RollbackException.class, () -> commit(done));
        return assertInstanceOf(PersistenceException.class, refused.getCause()).getMessage();
    }

    private String row() {
        return read(other -> other.find(Lot.class, 0L).price + " of " + other.find(Lot.class, 0L).version);
    }

    @Test
    void besideAnotherValueOrAlone() {
        String words = "the version of Lot 0 was changed: version is 55, and its row has 1; leave it to the provider, and find"
            + " the entity again";
        assertEquals(words, refused(() -> {
            Lot lot = manager.find(Lot.class, 0L);
            lot.version = 55;
            lot.price = 2;
        }));
        assertEquals("1 of 1", row());
        assertEquals(words, refused(() -> manager.find(Lot.class, 0L).version = 55));
        manager.getTransaction().begin();
        manager.find(Lot.class, 0L).version = 55;
        assertEquals(words, assertThrows(PersistenceException.class, manager::flush).getMessage());
        manager.getTransaction().rollback();
        assertEquals("the version of Boxed 0 was changed: version is null, and its row has 1",
            refused(() -> manager.find(Boxed.class, 0L).version = null).substring(0, 70));
        commit(() -> manager.find(Lot.class, 0L).price = 3);
        assertEquals("3 of 2", row());
    }

    @Test
    void whatMayHaveAnother() {
        Lot lot = manager.find(Lot.class, 0L);
        lot.version = 55;
        commit(() -> {
            manager.refresh(lot);
            lot.price = 4;
        });
        assertEquals("4 of 2", row());
        commit(() -> {
            Lot made = new Lot();
            made.id = 7;
            made.version = 3;
            manager.persist(made);
            lot.version = 2;
            lot.price = 5;
        });
        assertEquals("5 of 3", row());
        manager.clear();
        lot.price = 6;
        commit(() -> manager.merge(lot));
        assertEquals("6 of 4", row());
    }
}
