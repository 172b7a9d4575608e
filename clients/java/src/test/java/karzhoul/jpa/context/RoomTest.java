package karzhoul.jpa.context;

import static org.junit.jupiter.api.Assertions.assertEquals;
import static org.junit.jupiter.api.Assertions.assertInstanceOf;
import static org.junit.jupiter.api.Assertions.assertNull;
import static org.junit.jupiter.api.Assertions.assertThrows;

import jakarta.persistence.Column;
import jakarta.persistence.ElementCollection;
import jakarta.persistence.Entity;
import jakarta.persistence.Id;
import jakarta.persistence.Lob;
import jakarta.persistence.PersistenceException;
import jakarta.persistence.PreUpdate;
import jakarta.persistence.RollbackException;
import jakarta.persistence.Table;
import java.math.BigDecimal;
import java.math.BigInteger;
import java.nio.file.Path;
import java.time.Duration;
import java.util.ArrayList;
import java.util.List;
import karzhoul.jpa.Karzhoul;
import karzhoul.jpa.shop.Shop;
import org.junit.jupiter.api.BeforeEach;
import org.junit.jupiter.api.Test;
import org.junit.jupiter.api.io.TempDir;

/** What a column has room for, where @Column says so: a value beyond it is refused, and never stored. */
class RoomTest extends Tried {
    @Entity(name = "Ledger")
    public static class Ledger {
        @Id @Column(length = 5) String name;
        @Column(precision = 14, scale = 2) BigDecimal amount;
        @Column(scale = 2) BigDecimal open;
        @Column(precision = 3) BigInteger count;
        @Column(length = 4) String word;
        @Column(length = 255) String usual;
        @Lob @Column(length = 4) String large;
        @ElementCollection @Column(precision = 4, scale = 2) List<BigDecimal> parts = new ArrayList<>();

        protected Ledger() {}

        Ledger(String name, String amount) {
            this.name = name;
            this.amount = new BigDecimal(amount);
        }
    }

    @Entity(name = "Bounded")
    public static class Bounded {
        @Id long id;
        @Column(precision = 3, scale = 1) BigDecimal amount;

        @PreUpdate
        void bound() {
            amount = amount.min(new BigDecimal("99.9"));
        }
    }

    @Entity(name = "Kept")
    @Table(name = "kept")
    public static class Before {
        @Id long id;
        @Column(scale = 2) BigDecimal amount;
        String word;
    }

    @Entity(name = "Kept")
    @Table(name = "kept")
    public static class After {
        @Id long id;
        @Column(precision = 5, scale = 2) BigDecimal amount;
        @Column(length = 3) String word;
    }

    @BeforeEach
    @Override
    void open() {
        factory = Shop.open("karzhoul:memory", List.of(Ledger.class, Bounded.class), Duration.ofSeconds(20), null);
        manager = factory.createEntityManager();
    }

    private static final String DIGITS = ".amount can't be stored: 9999999999999.00 can't be kept: it has 15 digits as it is"
        + " kept, and @Column(precision = 14, scale = 2) has room for 14; declare a greater precision";

    private String refused(Runnable done) {
        RollbackException refused = assertThrows(RollbackException.class, () -> commit(done));
        return assertInstanceOf(PersistenceException.class, refused.getCause()).getMessage();
    }

    private Ledger ada() {
        return manager.find(Ledger.class, "ada");
    }

    @Test
    void aDecimalOfMoreDigitsThanItsPrecision() {
        store(new Ledger("ada", "-999999999999.99"));
        assertEquals("Ledger ada" + DIGITS, refused(() -> ada().amount = new BigDecimal("9999999999999.00")));
        manager.getTransaction().begin();
        assertEquals("a new Ledger" + DIGITS, assertThrows(PersistenceException.class,
            () -> manager.persist(new Ledger("bea", "9999999999999.00"))).getMessage());
        manager.getTransaction().rollback();
        manager.getTransaction().begin();
        assertEquals("Ledger cy" + DIGITS, assertThrows(PersistenceException.class,
            () -> manager.merge(new Ledger("cy", "9999999999999.00"))).getMessage());
        manager.getTransaction().rollback();
        assertEquals("-999999999999.99", read(other -> other.find(Ledger.class, "ada").amount.toString()));
        assertNull(read(other -> other.find(Ledger.class, "bea")));
        commit(() -> ada().open = new BigDecimal("9999999999999.00"));
        assertEquals("9999999999999.00", read(other -> other.find(Ledger.class, "ada").open.toString()));
    }

    @Test
    void othersWithAPrecision() {
        store(new Ledger("ada", "1"));
        assertEquals("Ledger ada.count can't be stored: 1000 can't be kept: it has 4 digits as it is kept, and"
            + " @Column(precision = 3, scale = 0) has room for 3; declare a greater precision",
            refused(() -> ada().count = BigInteger.valueOf(1000)));
        assertEquals("Ledger ada.parts can't be stored: 100 can't be kept: it has 5 digits as it is kept, and"
            + " @Column(precision = 4, scale = 2) has room for 4; declare a greater precision",
            refused(() -> ada().parts.add(new BigDecimal("100"))));
        commit(() -> ada().parts.add(new BigDecimal("99.99")));
        assertEquals("[99.99]", read(other -> other.find(Ledger.class, "ada").parts.toString()));
    }

    @Test
    void aTextOfMoreLettersThanItsLength() {
        store(new Ledger("ada", "1"));
        assertEquals("Ledger ada.word can't be stored: \"lines\" can't be kept: it has 5 letters, and @Column(length = 4) has"
            + " room for 4; declare a greater length", refused(() -> ada().word = "lines"));
        manager.getTransaction().begin();
        assertEquals("a new Ledger.name can't be stored: \"berenice\" can't be kept", assertThrows(PersistenceException.class,
            () -> manager.persist(new Ledger("berenice", "1"))).getMessage().substring(0, 59));
        manager.getTransaction().rollback();
        commit(() -> {
            ada().word = "\ud83d\udd14\ud83d\udd14\ud83d\udd14\ud83d\udd14";
            ada().usual = "x".repeat(300);
            ada().large = "large";
        });
        assertEquals("x".repeat(300), read(other -> other.find(Ledger.class, "ada").usual));
        assertNull(manager.find(Ledger.class, "berenice"));
    }

    @Test
    void whatPreUpdateMakesFitIsStored() {
        Bounded bounded = new Bounded();
        bounded.amount = BigDecimal.ONE;
        store(bounded);
        commit(() -> manager.find(Bounded.class, 0L).amount = new BigDecimal("100"));
        assertEquals("99.9", read(other -> other.find(Bounded.class, 0L).amount.toString()));
    }

    @Test
    void whatAStoreHasFromBeforeIsReadAndJudgedWhereItChanges(@TempDir Path folder) {
        String url = "karzhoul:" + folder.resolve("kept.db");
        Before before = new Before();
        before.amount = new BigDecimal("12345.00");
        before.word = "four";
        try (Factory first = Shop.open(url, List.of(Before.class), Duration.ofSeconds(20), null)) {
            first.unwrap(Karzhoul.class).retry(work -> {
                work.persist(before);
                return null;
            });
        }
        factory.close();
        factory = Shop.open(url, List.of(After.class), Duration.ofSeconds(20), null);
        manager = factory.createEntityManager();
        After after = manager.find(After.class, 0L);
        assertEquals("12345.00 four", after.amount + " " + after.word);
        commit(() -> after.word = "two");
        manager.clear();
        after.word = "one";
        commit(() -> manager.merge(after));
        assertEquals("Kept 0.amount can't be stored: 12345.01 can't be kept", refused(() ->
            manager.find(After.class, 0L).amount = new BigDecimal("12345.01")).substring(0, 53));
        commit(() -> manager.find(After.class, 0L).amount = BigDecimal.ONE);
        assertEquals("1.00 one", read(other -> other.find(After.class, 0L).amount + " " + other.find(After.class, 0L).word));
    }

    private int set(String set, Object value) {
        var query = manager.createQuery("UPDATE Ledger l SET " + set);
        return (value == null ? query : query.setParameter("p", value)).executeUpdate();
    }

    private String refusedSet(String set, Object value) {
        manager.getTransaction().begin();
        String said = assertThrows(RuntimeException.class, () -> set(set, value)).getMessage();
        manager.getTransaction().rollback();
        return said;
    }

    @Test
    void whatSetGives() {
        store(new Ledger("ada", "5000000000.00"));
        String words = "Ledger" + DIGITS;
        assertEquals(words, refusedSet("l.amount = :p", new BigDecimal("9999999999999.00")));
        assertEquals("line 1, column 32: " + words, refusedSet("l.amount = 9999999999999.00bd", null));
        assertEquals("Overflow: SET gives 1 objects what Ledger.amount has no room for by @Column(precision = 14, scale = 2)",
            refusedSet("l.amount = l.amount * 500", null));
        assertEquals("Overflow: SET gives 1 objects what Ledger.word has no room for by @Column(length = 4)",
            refusedSet("l.word = CONCAT('abc', l.name)", null));
        commit(() -> assertEquals(1, set("l.amount = l.amount + :p, l.word = CONCAT('a', l.name)", BigDecimal.ONE)));
        assertEquals("5000000001.00 aada", read(other -> other.find(Ledger.class, "ada").amount + " "
            + other.find(Ledger.class, "ada").word));
        assertEquals(0, manager.createQuery("SELECT l FROM Ledger l WHERE l.amount = :p")
            .setParameter("p", new BigDecimal("9999999999999.00")).getResultList().size());
    }
}
