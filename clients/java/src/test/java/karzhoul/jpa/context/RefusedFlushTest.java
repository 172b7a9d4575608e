package karzhoul.jpa.context;

import static org.junit.jupiter.api.Assertions.assertEquals;
import static org.junit.jupiter.api.Assertions.assertThrows;

import jakarta.persistence.PersistenceException;
import jakarta.persistence.RollbackException;
import karzhoul.jpa.shop.Depot;
import karzhoul.jpa.shop.Order;
import karzhoul.jpa.shop.Person;
import karzhoul.jpa.shop.Tag;
import org.junit.jupiter.api.BeforeEach;
import org.junit.jupiter.api.Test;

/** A flush that is refused for a relation names it (chapters 3.2.2 and 3.2.4): the class, the key and the member. */
class RefusedFlushTest extends Tried {
    private static final String UNSTORED = ": a relation that doesn't cascade PERSIST or MERGE leads to an entity that is"
        + " new or removed: persist it first, or let it cascade";
    private static final String NO_ROW = ": a stored relation would lead to an entity that isn't stored";

    @BeforeEach
    void fill() {
        Depot depot = new Depot("d", "here");
        Order one = new Order(1, 1);
        Order two = new Order(2, 2);
        one.setDepot(depot);
        two.setDepot(depot);
        Person ada = new Person("Ada");
        ada.getTags().add(new Tag("red"));
        store(depot, one, two, ada);
        manager.getTransaction().begin();
    }

    private String flushed() {
        return assertThrows(RuntimeException.class, () -> manager.flush()).getMessage();
    }

    private Throwable committed() {
        return assertThrows(RollbackException.class, () -> manager.getTransaction().commit()).getCause();
    }

    @Test
    void aLinkToANewOneThatDoesNotCascade() {
        manager.find(Order.class, 1L).setDepot(new Depot("new", "there"));
        assertEquals("IllegalState(reference), Order 1.depot, which leads to a new Depot" + UNSTORED, flushed());
    }

    @Test
    void aLinkOfANewOneIsToldByTheCommitToo() {
        Person bea = new Person("Bea").add(new Order(3, 3));
        bea.getOrders().get(0).setDepot(new Depot("new", "there"));
        manager.persist(bea);
        Throwable cause = committed();
        assertEquals(IllegalStateException.class, cause.getClass());
        assertEquals("IllegalState(reference), Order 3.depot, which leads to a new Depot" + UNSTORED, cause.getMessage());
    }

    @Test
    void aLinkToARemovedOne() {
        Depot depot = manager.find(Depot.class, "d");
        Order order = new Order(3, 3);
        order.setDepot(depot);
        manager.persist(order);
        manager.remove(depot);
        assertEquals("IllegalState(reference), Order 3.depot, which leads to the removed Depot d" + UNSTORED, flushed());
    }

    @Test
    void aManagedRowThatLeadsToARemovedOne() {
        manager.find(Order.class, 1L).setDepot(null);
        manager.remove(manager.find(Order.class, 2L).getDepot());
        assertEquals("Persistence(reference), Order 2.depot, which leads to the removed Depot d" + NO_ROW, flushed());
    }

    @Test
    void aRowThatLeadsToARemovedOne() {
        manager.remove(manager.find(Order.class, 1L));
        manager.remove(manager.find(Depot.class, "d"));
        assertEquals("Persistence(reference), Order 2.depot, which leads to the removed Depot d" + NO_ROW, flushed());
    }

    @Test
    void aRowWhoseCollectionHasARemovedOne() {
        manager.remove(manager.find(Tag.class, "red"));
        Throwable cause = committed();
        assertEquals(PersistenceException.class, cause.getClass());
        assertEquals("Persistence(reference), Person 1.tags, which leads to the removed Tag red" + NO_ROW, cause.getMessage());
    }

    @Test
    void aLinkToWhatAnotherCommitHasRemoved() {
        other(it -> it.persist(new Depot("e", "there")));
        Depot depot = manager.find(Depot.class, "e");
        manager.find(Order.class, 1L).setDepot(depot);
        other(it -> it.remove(it.find(Depot.class, "e")));
        assertEquals("Persistence(reference), Order 1.depot, which leads to Depot e" + NO_ROW, committed().getMessage());
    }
}
