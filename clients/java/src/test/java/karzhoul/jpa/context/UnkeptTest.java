package karzhoul.jpa.context;

import static org.junit.jupiter.api.Assertions.assertEquals;
import static org.junit.jupiter.api.Assertions.assertInstanceOf;
import static org.junit.jupiter.api.Assertions.assertThrows;

import jakarta.persistence.Column;
import jakarta.persistence.Embeddable;
import jakarta.persistence.Embedded;
import jakarta.persistence.Entity;
import jakarta.persistence.Id;
import jakarta.persistence.PersistenceException;
import jakarta.persistence.RollbackException;
import java.math.BigDecimal;
import java.time.Duration;
import java.util.List;
import karzhoul.jpa.shop.Shop;
import org.junit.jupiter.api.BeforeEach;
import org.junit.jupiter.api.Test;

/** A value that can't be kept is told with the entity whose it is. */
class UnkeptTest extends Tried {
    @Embeddable
    public static class Money {
        @Column(scale = 2) BigDecimal amount;

        protected Money() {}

        Money(String amount) {
            this.amount = new BigDecimal(amount);
        }
    }

    @Entity(name = "Purse")
    public static class Purse {
        @Id String owner;
        BigDecimal balance;
        @Embedded Money limit;

        protected Purse() {}

        Purse(String owner, String balance) {
            this.owner = owner;
            this.balance = new BigDecimal(balance);
        }
    }

    @BeforeEach
    @Override
    void open() {
        factory = Shop.open("karzhoul:memory", List.of(Purse.class), Duration.ofSeconds(20), null);
        manager = factory.createEntityManager();
    }

    private static final String DIGITS = " can't be stored: 1.005 can't be kept: there are 2 digits behind the point, and 64 bits"
        + " for all; @Column(precision, scale) says how many";

    private String refused(Runnable done) {
        RollbackException refused = assertThrows(RollbackException.class, () -> commit(done));
        return assertInstanceOf(PersistenceException.class, refused.getCause()).getMessage();
    }

    @Test
    void atTheFlushOrTheCommit() {
        store(new Purse("ada", "1.00"), new Purse("bea", "2.00"));
        assertEquals("Purse bea.balance" + DIGITS, refused(() -> manager.find(Purse.class, "bea").balance = new BigDecimal("1.005")));
        assertEquals("Purse ada.limit.amount" + DIGITS, refused(() -> manager.find(Purse.class, "ada").limit = new Money("1.005")));
        manager.getTransaction().begin();
        manager.find(Purse.class, "ada").balance = new BigDecimal("1.005");
        assertEquals("Purse ada.balance" + DIGITS, assertThrows(PersistenceException.class, manager::flush).getMessage());
    }

    @Test
    void atPersistAndMerge() {
        for (boolean isMerged : new boolean[] {false, true}) {
            manager.getTransaction().begin();
            String said = assertThrows(PersistenceException.class, () -> {
                Purse purse = new Purse("cy", "1.005");
                if (isMerged) {
                    manager.merge(purse);
                } else {
                    manager.persist(purse);
                    manager.flush();
                }
            }).getMessage();
            assertEquals((isMerged ? "Purse cy" : "a new Purse") + ".balance" + DIGITS, said);
            manager.getTransaction().rollback();
        }
    }

    @Test
    void aKey() {
        manager.getTransaction().begin();
        String said = assertThrows(PersistenceException.class, () -> manager.merge(new Purse("half \ud800", "1"))).getMessage();
        assertEquals("Purse.owner can't be stored", said.substring(0, said.indexOf(':')));
    }

    @Test
    void aDetachedOneThatIsRemovedIsNamed() {
        Purse purse = new Purse("ada", "1.00");
        store(purse);
        manager.getTransaction().begin();
        assertEquals("IllegalArgument(state), Purse ada: a detached instance can't be removed; merge it first",
            assertThrows(IllegalArgumentException.class, () -> manager.remove(purse)).getMessage());
    }
}
