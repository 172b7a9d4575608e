package karzhoul.jpa.context;

import static org.junit.jupiter.api.Assertions.assertEquals;
import static org.junit.jupiter.api.Assertions.assertFalse;
import static org.junit.jupiter.api.Assertions.assertNull;
import static org.junit.jupiter.api.Assertions.assertThrows;
import static org.junit.jupiter.api.Assertions.assertTrue;

import jakarta.persistence.Column;
import jakarta.persistence.Entity;
import jakarta.persistence.FetchType;
import jakarta.persistence.Id;
import jakarta.persistence.JoinColumn;
import jakarta.persistence.ManyToOne;
import jakarta.persistence.Version;
import java.time.Duration;
import java.util.ArrayList;
import java.util.HashMap;
import java.util.List;
import java.util.function.Consumer;
import karzhoul.jpa.shop.Shop;
import org.junit.jupiter.api.AfterEach;
import org.junit.jupiter.api.BeforeEach;
import org.junit.jupiter.api.Test;

/** Columns that an attribute doesn't write (chapter 11.1.9), and values that are serialized (chapter 2.8). */
class UnwrittenTest extends Tried {
    @Entity(name = "Customer")
    public static class Customer {
        @Id long id;

        protected Customer() {}

        Customer(long id) {
            this.id = id;
        }

        public long getId() {
            return id;
        }
    }

    @Entity(name = "Invoice")
    public static class Invoice {
        @Id long id = 1;
        @Version int version;
        int amount;
        @Column(updatable = false) String created = "monday";
        @Column(insertable = false, updatable = false) String stamped;
        @Column(name = "CUSTOMER_ID", insertable = false, updatable = false) Long customerId;
        @ManyToOne(fetch = FetchType.LAZY) @JoinColumn(name = "customer_id") Customer customer;
        ArrayList<String> words = new ArrayList<>(List.of("a", "b"));
        HashMap<String, Integer> counts = new HashMap<>(100);
    }

    @BeforeEach
    @Override
    void open() {
        factory = Shop.open("karzhoul:memory", List.of(Customer.class, Invoice.class), Duration.ofSeconds(20), null);
        manager = factory.createEntityManager();
    }

    @AfterEach
    @Override
    void close() {
        super.close();
    }

    private void storeInvoice(Consumer<Invoice> prepared) {
        Invoice invoice = new Invoice();
        prepared.accept(invoice);
        store(invoice);
    }

    private void change(Consumer<Invoice> change) {
        commit(() -> change.accept(manager.find(Invoice.class, 1L)));
        manager.clear();
    }

    private Invoice stored() {
        return read(other -> other.find(Invoice.class, 1L));
    }

    @Test
    void whatIsNotUpdatedKeepsWhatWasInserted() {
        storeInvoice(it -> { });
        change(it -> it.created = "tuesday");
        assertEquals("monday", stored().created);
        assertEquals(0, stored().version, "nothing was written");
        change(it -> {
            it.created = "wednesday";
            it.amount = 2;
        });
        assertEquals("monday", stored().created);
        assertEquals(2, stored().amount);
    }

    @Test
    void beforeItsRowIsThereItIsInserted() {
        Invoice invoice = new Invoice();
        commit(() -> {
            manager.persist(invoice);
            invoice.created = "tuesday";
            manager.flush();
            invoice.created = "wednesday";
        });
        assertEquals("tuesday", stored().created);
    }

    @Test
    void aMergeDoesNotUpdateIt() {
        storeInvoice(it -> { });
        Invoice detached = stored();
        detached.created = null;
        detached.stamped = "now";
        detached.amount = 3;
        commit(() -> manager.merge(detached));
        assertEquals("monday", stored().created);
        assertNull(stored().stamped);
        assertEquals(3, stored().amount);
        Invoice other = new Invoice();
        other.id = 2;
        other.created = "friday";
        other.stamped = "now";
        commit(() -> manager.merge(other));
        assertEquals("friday", read(it -> it.find(Invoice.class, 2L)).created, "a new one is inserted");
        assertNull(read(it -> it.find(Invoice.class, 2L)).stamped);
    }

    @Test
    void whatIsNeverWrittenIsRead() {
        storeInvoice(it -> it.stamped = "by hand");
        assertNull(stored().stamped);
        change(it -> it.stamped = "by hand");
        assertNull(stored().stamped);
        commit(() -> manager.createQuery("UPDATE Invoice i SET i.stamped = 'by a statement'").executeUpdate());
        assertEquals("by a statement", stored().stamped);
        change(it -> it.amount = 1);
        assertEquals("by a statement", stored().stamped);
    }

    @Test
    void anAttributeBesideARelationHasItsKey() {
        store(new Customer(7), new Customer(8));
        storeInvoice(it -> it.customer = manager.getReference(Customer.class, 7L));
        Invoice invoice = manager.find(Invoice.class, 1L);
        assertEquals(7, invoice.customerId);
        assertFalse(factory.getPersistenceUnitUtil().isLoaded(invoice, "customer"), "the customer wasn't read for that");
        commit(() -> {
            invoice.customerId = 99L;
            invoice.customer = manager.find(Customer.class, 8L);
        });
        manager.refresh(invoice);
        assertEquals(8, invoice.customerId, "it is read where its target is managed, too");
        long customer = read(other -> other.find(Invoice.class, 1L).customer.getId());
        assertEquals(8, customer);
        change(it -> it.customer = null);
        assertNull(stored().customerId);
    }

    @Test
    void aQueryAsksTheRelation() {
        store(new Customer(7));
        storeInvoice(it -> it.customer = manager.getReference(Customer.class, 7L));
        String words = assertThrows(IllegalArgumentException.class,
            () -> manager.createQuery("SELECT i FROM Invoice i WHERE i.customerId = 7")).getMessage();
        assertTrue(words.contains("\"customerId\" of Invoice reads the column of a relation, which isn't served; ask for"
            + " \"customer.id\""), words);
        assertEquals(7, manager.createQuery("SELECT i FROM Invoice i WHERE i.customer.id = 7", Invoice.class)
            .getSingleResult().customerId);
    }

    @Test
    void serializableCollectionsAreValues() {
        storeInvoice(it -> it.counts.put("a", 1));
        assertEquals(List.of("a", "b"), stored().words);
        assertEquals(1, stored().counts.get("a"));
        change(it -> it.counts.get("a"));
        assertEquals(0, stored().version, "a map that was read has another room, and is no change");
        change(it -> {
            it.words.add("c");
            it.counts.put("b", 2);
        });
        assertEquals(List.of("a", "b", "c"), stored().words);
        assertEquals(2, stored().counts.get("b"));
        assertEquals(1, stored().version);
    }
}
