package karzhoul.jpa.context;

import static org.junit.jupiter.api.Assertions.assertEquals;
import static org.junit.jupiter.api.Assertions.assertFalse;
import static org.junit.jupiter.api.Assertions.assertNull;
import static org.junit.jupiter.api.Assertions.assertSame;
import static org.junit.jupiter.api.Assertions.assertThrows;
import static org.junit.jupiter.api.Assertions.assertTrue;

import jakarta.persistence.EntityNotFoundException;
import jakarta.persistence.PersistenceException;
import java.io.ByteArrayInputStream;
import java.io.ByteArrayOutputStream;
import java.io.IOException;
import java.io.ObjectInputStream;
import java.io.ObjectOutputStream;
import java.util.List;
import karzhoul.jpa.shop.Depot;
import karzhoul.jpa.shop.Order;
import karzhoul.jpa.shop.Person;
import org.junit.jupiter.api.Test;

/** What is read when it is looked at (chapters 3.2.6 and 11.1): proxies and collections, detached ones too. */
class LazyTest extends Tried {
    private void storeDepotWithOrders() {
        Depot depot = new Depot("d", "here");
        Order one = new Order(1, 1);
        Order two = new Order(2, 2);
        one.setDepot(depot);
        two.setDepot(depot);
        store(depot, one, two);
    }

    @Test
    void aProxyIsReadAtItsFirstCall() {
        storeDepotWithOrders();
        Depot depot = manager.find(Order.class, 1L).getDepot();
        assertFalse(LoadStates.isRead(depot));
        assertEquals("here", depot.getPlace());
        assertTrue(LoadStates.isRead(depot));
        assertEquals(2, depot.getOrders().size());
        assertSame(depot, depot.getOrders().get(0).getDepot());
    }

    @Test
    void aProxyIsChangedAsAnyInstance() {
        storeDepotWithOrders();
        commit(() -> manager.getReference(Depot.class, "d").setPlace("there"));
        assertEquals("there", read(other -> other.find(Depot.class, "d")).getPlace());
    }

    @Test
    void aProxyThatNobodyLooksAtIsALinkByItsKey() {
        storeDepotWithOrders();
        commit(() -> {
            Order order = new Order(3, 3);
            order.setDepot(manager.getReference(Depot.class, "d"));
            manager.persist(order);
        });
        assertEquals("d", read(other -> other.find(Order.class, 3L).getDepot().getCode()));
    }

    @Test
    void aReferenceWithoutARowIsNotFoundWhenItIsLookedAt() {
        Depot none = manager.getReference(Depot.class, "none");
        String words = assertThrows(EntityNotFoundException.class, none::getPlace).getMessage();
        assertTrue(words.contains(": there is no such row, or it was removed"), words);
        assertThrows(EntityNotFoundException.class, () -> manager.getReference(Person.class, 9L));
    }

    @Test
    void aReferenceToNothingLeavesItsKeyToANewInstance() {
        Depot none = manager.getReference(Depot.class, "d");
        assertNull(manager.find(Depot.class, "d"));
        assertFalse(manager.contains(none));
        commit(() -> manager.persist(new Depot("d", "here")));
        Order order = new Order(1, 1);
        order.setDepot(manager.getReference(Depot.class, "none"));
        manager.getTransaction().begin();
        assertThrows(EntityNotFoundException.class, () -> {
            manager.persist(order);
            manager.flush();
        });
    }

    @Test
    void whatWasNotReadBeforeItWasDetachedSaysSo() {
        storeDepotWithOrders();
        Order order = manager.find(Order.class, 1L);
        Depot proxy = order.getDepot();
        Depot depot = read(other -> other.find(Depot.class, "d"));
        manager.close();
        manager = factory.createEntityManager();
        assertTrue(assertThrows(PersistenceException.class, proxy::getPlace).getMessage().contains("detached"));
        PersistenceException refused = assertThrows(PersistenceException.class, () -> depot.getOrders().size());
        assertTrue(refused.getMessage().contains("orders"), refused.getMessage());
    }

    @Test
    void aRemovedRowReadsAsGone() {
        storeDepotWithOrders();
        Depot proxy = manager.getReference(Depot.class, "d");
        other(it -> {
            it.find(Order.class, 1L).setDepot(null);
            it.find(Order.class, 2L).setDepot(null);
            it.remove(it.find(Depot.class, "d"));
        });
        assertThrows(EntityNotFoundException.class, proxy::getPlace);
    }

    @Test
    void whatIsSerializedIsReadBackAndMerged() throws Exception {
        storeDepotWithOrders();
        Order order = manager.find(Order.class, 1L);
        manager.clear();
        order.setAmount(10L);
        Order copy = copied(order);
        assertThrows(PersistenceException.class, () -> copy.getDepot().getPlace());
        commit(() -> manager.merge(copy));
        Order stored = read(other -> {
            Order found = other.find(Order.class, 1L);
            found.getDepot().getPlace();
            return found;
        });
        assertEquals(10L, stored.getAmount());
        assertEquals("here", stored.getDepot().getPlace());
    }

    @Test
    void anUnreadListIsSerializedAsUnreadAndMergedAsItIs() throws Exception {
        storeDepotWithOrders();
        Depot depot = manager.find(Depot.class, "d");
        manager.clear();
        Depot copy = copied(depot);
        assertThrows(PersistenceException.class, () -> copy.getOrders().size());
        copy.setPlace("there");
        commit(() -> manager.merge(copy));
        Depot stored = read(other -> {
            Depot found = other.find(Depot.class, "d");
            found.getOrders().size();
            return found;
        });
        assertEquals("there", stored.getPlace());
        assertEquals(2, stored.getOrders().size());
    }

    @Test
    void aReadProxyIsSerializedAsItsEntity() throws Exception {
        storeDepotWithOrders();
        Order order = manager.find(Order.class, 1L);
        assertEquals(2, order.getDepot().getOrders().size());
        manager.clear();
        Order copy = copied(order);
        assertSame(Depot.class, copy.getDepot().getClass());
        assertEquals("here", copy.getDepot().getPlace());
        assertEquals(List.of(1L, 2L), copy.getDepot().getOrders().stream().map(Order::getNumber).sorted().toList());
    }

    @SuppressWarnings("unchecked")
    private static <T> T copied(T instance) throws IOException, ClassNotFoundException {
        ByteArrayOutputStream bytes = new ByteArrayOutputStream();
        try (ObjectOutputStream out = new ObjectOutputStream(bytes)) {
            out.writeObject(instance);
        }
        return (T) new ObjectInputStream(new ByteArrayInputStream(bytes.toByteArray())).readObject();
    }
}
