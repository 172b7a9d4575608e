package karzhoul.jpa.context;

import static org.junit.jupiter.api.Assertions.assertArrayEquals;
import static org.junit.jupiter.api.Assertions.assertEquals;
import static org.junit.jupiter.api.Assertions.assertFalse;
import static org.junit.jupiter.api.Assertions.assertNotNull;
import static org.junit.jupiter.api.Assertions.assertNotSame;
import static org.junit.jupiter.api.Assertions.assertNull;
import static org.junit.jupiter.api.Assertions.assertSame;
import static org.junit.jupiter.api.Assertions.assertThrows;
import static org.junit.jupiter.api.Assertions.assertTrue;

import jakarta.persistence.EntityManager;
import jakarta.persistence.OptimisticLockException;
import jakarta.persistence.PersistenceException;
import jakarta.persistence.RollbackException;
import java.util.ArrayList;
import java.util.List;
import karzhoul.jpa.Karzhoul;
import karzhoul.jpa.shop.Circle;
import karzhoul.jpa.shop.Depot;
import karzhoul.jpa.shop.Holder;
import karzhoul.jpa.shop.Order;
import karzhoul.jpa.shop.Person;
import karzhoul.jpa.shop.Sealed;
import karzhoul.jpa.shop.Shop;
import karzhoul.jpa.shop.Tag;
import org.junit.jupiter.api.Test;
import org.junit.jupiter.params.ParameterizedTest;
import org.junit.jupiter.params.provider.ValueSource;

/** Traps into which doors to this program fall, each by its name. */
class TrapsTest extends Tried {
    @Test
    void aThreadWithTwoManagersDoesNotWaitForItselfWhereARunIsAtItsEnd() {
        store(new Person("Ada"));
        manager.getTransaction().begin();
        assertNotNull(manager.find(Person.class, 1L));
        makeObjects(500_000);
        assertNotNull(read(other -> other.find(Person.class, 1L)));
        manager.getTransaction().commit();
        assertNotNull(manager.find(Person.class, 1L));
        assertEquals(2, factory.pool().run());
    }

    private void makeObjects(int most) {
        var lines = new karzhoul.jpa.engine.Lines();
        for (int i = 0; i < 10_000; i++) {
            lines.newObject("Order");
        }
        while (factory.pool().engine().made() < most) {
            factory.pool().engine().ask(lines);
        }
    }

    @Test
    void aValueThatCannotBeStoredIsRefusedBeforeAnyLine() {
        store(new Person("Ada"));
        Person ada = manager.find(Person.class, 1L);
        ada.setActive(false);
        ada.setName("x".repeat(65_536));
        manager.getTransaction().begin();
        RollbackException refused = assertThrows(RollbackException.class, () -> manager.getTransaction().commit());
        assertTrue(refused.getMessage().contains("name"), refused.getMessage());
        Person stored = read(other -> other.find(Person.class, 1L));
        assertEquals("Ada", stored.getName());
        assertTrue(stored.isActive(), "nothing of a refused commit is stored");
    }

    @Test
    void theVersionZeroOfANewInstanceIsNoneWhenItIsMerged() {
        commit(() -> manager.merge(new Person("Ada")));
        assertEquals("Ada", read(other -> other.find(Person.class, 1L)).getName());
    }

    @Test
    void aVersionOfWhatWasRemovedMeanwhileIsOptimisticLockWhenItIsMerged() {
        Depot depot = new Depot("d", "here");
        store(depot);
        other(it -> it.remove(it.find(Depot.class, "d")));
        manager.getTransaction().begin();
        OptimisticLockException refused = assertThrows(OptimisticLockException.class, () -> manager.merge(depot));
        assertSame(depot, refused.getEntity());
        assertTrue(manager.getTransaction().getRollbackOnly());
    }

    @Test
    void whatAFlushWithinACommitLoadsLeavesNothingHalf() {
        store(new Person("Ada").add(new Order(1, 1)).add(new Order(2, 2)));
        Person ada = manager.find(Person.class, 1L);
        commit(() -> {
            ada.getOrders().size();
            manager.detach(ada.getOrders().get(0));
            ada.getOrders().remove(0);
            manager.detach(ada.getOrders().get(0));
            ada.getOrders().remove(0);
        });
        assertEquals(List.of(), read(other -> List.copyOf(other.find(Person.class, 1L).getOrders())));
        assertNull(manager.find(Order.class, 1L));
    }

    @Test
    void whatWasDetachedStaysTheSameInstanceInListsOfWhatIsManaged() {
        Tag red = new Tag("red");
        Person ada = new Person("Ada");
        ada.getTags().add(red);
        store(ada);
        Tag managed = manager.find(Tag.class, "red");
        Person person = manager.find(Person.class, ada.getId());
        manager.detach(person);
        assertFalse(manager.contains(person));
        assertEquals(1, managed.getPersons().size());
        Person member = managed.getPersons().iterator().next();
        assertSame(manager.contains(member) ? manager.find(Person.class, ada.getId()) : person, member);
        Tag again = manager.find(Tag.class, "red");
        manager.refresh(again);
        assertEquals(1, again.getPersons().size());
    }

    @Test
    void aListThatReplacesAnUnreadOneOfADetachedInstanceIsMerged() {
        store(new Person("Ada").add(new Order(1, 1)).add(new Order(2, 2)));
        Person detached = manager.find(Person.class, 1L);
        manager.clear();
        detached.setOrders(new ArrayList<>(List.of(new Order(2, 20))));
        detached.getOrders().get(0).setPerson(detached);
        commit(() -> manager.merge(detached));
        List<String> stored = read(other -> other.find(Person.class, 1L).getOrders().stream()
            .map(order -> order.getNumber() + ":" + order.getAmount()).toList());
        assertEquals(List.of("2:20"), stored);
    }

    @Test
    void aListThatReplacesAnUnreadOneOfAManagedInstanceIsComparedWithTheRow() {
        store(new Person("Ada").add(new Order(1, 1)).add(new Order(2, 2)));
        Person ada = manager.find(Person.class, 1L);
        commit(() -> {
            ada.setOrders(new ArrayList<>());
            ada.add(manager.find(Order.class, 2L));
        });
        assertEquals(List.of(2L), read(other -> other.find(Person.class, 1L).getOrders().stream()
            .map(Order::getNumber).toList()));
    }

    @Test
    void anUnreadListStaysUnreadWhenItsOwnerIsMerged() {
        store(new Person("Ada").add(new Order(1, 1)).add(new Order(2, 2)));
        Person detached = manager.find(Person.class, 1L);
        manager.clear();
        detached.setName("Bea");
        commit(() -> manager.merge(detached));
        Person stored = read(other -> {
            Person found = other.find(Person.class, 1L);
            found.getOrders().size();
            return found;
        });
        assertEquals("Bea", stored.getName());
        assertEquals(2, stored.getOrders().size());
    }

    @Test
    void eventsOfARefusedCallAreNotTaken() {
        store(new Depot("d", "here"));
        Person ada = new Person("Ada").add(new Order(1, 1));
        ada.getOrders().get(0).setDepot(new Depot("new", "there"));
        manager.getTransaction().begin();
        manager.persist(ada);
        assertThrows(IllegalStateException.class, () -> manager.flush());
        assertEquals(0, ada.getVersion());
        assertTrue(manager.getTransaction().getRollbackOnly());
        assertThrows(RollbackException.class, () -> manager.getTransaction().commit());
        assertFalse(manager.contains(ada));
        assertNull(manager.find(Person.class, 1L));
    }

    @Test
    void orphansOfAListAreToldOnceThoughItsOwnerIsNotWritten() {
        store(new Person("Ada").add(new Order(1, 1)).add(new Order(2, 2)));
        Person ada = manager.find(Person.class, 1L);
        Order second = ada.getOrders().get(0);
        commit(() -> {
            ada.getOrders().remove(second);
            manager.flush();
            ada.add(new Order(3, 3));
            manager.flush();
            manager.persist(second);
            second.setPerson(null);
        });
        assertNotNull(read(other -> other.find(Order.class, 2L)));
        assertEquals(0, read(other -> other.find(Person.class, 1L)).getVersion());
    }

    @Test
    void whatWasRemovedAndIsPersistedAgainIsToldAgain() {
        Person ada = new Person("Ada").add(new Order(1, 1));
        store(ada, new Person("Bea"));
        Person one = manager.find(Person.class, 1L);
        Person two = manager.find(Person.class, 2L);
        commit(() -> {
            Order order = one.getOrders().get(0);
            manager.remove(order);
            one.getOrders().remove(order);
            two.add(order);
            order.setAmount(5L);
            manager.persist(order);
        });
        Order stored = read(other -> {
            Order found = other.find(Order.class, 1L);
            return found == null ? null : found.getPerson().getName().equals("Bea") ? found : null;
        });
        assertNotNull(stored);
        assertEquals(5L, stored.getAmount());
    }

    @Test
    void membersAreFilledBeforeTheyEnterASetAlsoInCircles() {
        Circle one = new Circle(1, "one");
        Circle two = new Circle(2, "two");
        Circle three = new Circle(3, "three");
        one.setNext(two);
        two.setNext(three);
        three.setNext(one);
        one.getFriends().addAll(List.of(two, three, one));
        two.getFriends().addAll(List.of(one, three));
        store(one);
        Circle found = manager.find(Circle.class, 1);
        assertSame(found, found.getNext().getNext().getNext());
        assertEquals(3, found.getFriends().size());
        assertTrue(found.getFriends().contains(found.getNext()));
        assertTrue(found.getNext().getFriends().contains(found));
    }

    @Test
    void thereIsOneClassOfProxiesForAnEntityAndNoSecondInstance() {
        Order order = new Order(1, 1);
        Depot depot = new Depot("d", "here");
        order.setDepot(depot);
        store(depot, order);
        Depot proxy = manager.find(Order.class, 1L).getDepot();
        assertFalse(factory.getPersistenceUnitUtil().isLoaded(proxy));
        assertEquals("d", factory.getPersistenceUnitUtil().getIdentifier(proxy));
        assertTrue(manager.contains(proxy));
        assertSame(proxy, manager.find(Depot.class, "d"));
        assertTrue(factory.getPersistenceUnitUtil().isLoaded(proxy));
        assertEquals("here", proxy.getPlace());
        assertEquals(depot, proxy);
        assertEquals(depot.hashCode(), proxy.hashCode());
        try (Factory second = Shop.open()) {
            EntityManager other = second.createEntityManager();
            assertSame(proxy.getClass(), other.getReference(Depot.class, "x").getClass());
        }
    }

    @Test
    void afinalClassHasNoProxiesAndIsReadAtOnce() {
        Holder holder = new Holder(1);
        Sealed sealed = new Sealed("s", "text");
        holder.setSealed(sealed);
        store(sealed, holder);
        Sealed found = manager.find(Holder.class, 1L).getSealed();
        assertSame(Sealed.class, found.getClass());
        assertEquals("text", found.getText());
        assertSame(found, manager.getReference(Sealed.class, "s"));
    }

    @ParameterizedTest
    @ValueSource(strings = {"a\ud800", "\udc00b", "\ud800\ud800\udc00"})
    void halfASurrogatePairIsNoText(String half) {
        store(new Person("Ada"));
        Person ada = manager.find(Person.class, 1L);
        manager.getTransaction().begin();
        ada.setName(half);
        assertThrows(PersistenceException.class, () -> manager.flush());
        manager.getTransaction().rollback();
        assertEquals("Ada", read(other -> other.find(Person.class, 1L)).getName());
        assertThrows(RuntimeException.class, () -> manager.createQuery("SELECT p FROM Person p WHERE p.name = :n")
            .setParameter("n", half).getResultList());
        assertThrows(IllegalArgumentException.class, () -> manager.find(Depot.class, half));
    }

    @Test
    void aKeyOfAnotherTypeMarksTheTransactionWhoeverChecksIt() {
        manager.getTransaction().begin();
        assertThrows(IllegalArgumentException.class, () -> manager.find(Person.class, "one"));
        assertTrue(manager.getTransaction().getRollbackOnly());
        manager.getTransaction().rollback();
        manager.getTransaction().begin();
        assertThrows(IllegalArgumentException.class, () -> manager.find(Person.class, null));
        assertTrue(manager.getTransaction().getRollbackOnly());
    }

    @Test
    void valuesThatChangeInPlaceAreCompared() {
        Holder holder = new Holder(1);
        holder.setBytes(new byte[] {1, 2});
        holder.setDay(new java.util.Date(5));
        store(holder);
        Holder found = manager.find(Holder.class, 1L);
        commit(() -> {
            found.getBytes()[0] = 9;
            found.getDay().setTime(7);
        });
        Holder stored = read(other -> other.find(Holder.class, 1L));
        assertArrayEquals(new byte[] {9, 2}, stored.getBytes());
        assertEquals(7, stored.getDay().getTime());
        assertNotSame(found.getBytes(), stored.getBytes());
    }

    @ParameterizedTest
    @ValueSource(longs = {Long.MIN_VALUE, -1, 0, Long.MAX_VALUE})
    void theEndsOf64Bits(long end) {
        Holder holder = new Holder(end == 0 ? 1 : end);
        holder.setAmount(end);
        holder.setText("€".repeat(21_845));
        store(holder);
        Holder found = manager.find(Holder.class, holder.getNumber());
        assertEquals(end, found.getAmount());
        assertEquals("€".repeat(21_845), found.getText());
        manager.getTransaction().begin();
        found.setText("€".repeat(21_845) + "x");
        assertThrows(PersistenceException.class, () -> manager.flush());
    }

    @Test
    void aMergeLoadsNothingThatTheMergedOneHasNotRead() {
        Person ada = new Person("Ada");
        for (int i = 1; i <= 50; i++) {
            ada.add(new Order(i, i));
        }
        store(ada);
        Person detached = read(other -> other.find(Person.class, 1L));
        detached.setName("Ada L");
        commit(() -> {
            long made = factory.pool().engine().made();
            Person merged = manager.merge(detached);
            assertTrue(factory.pool().engine().made() - made <= 3, "the object of the row, the image, and room for one more");
            assertFalse(factory.getPersistenceUnitUtil().isLoaded(merged, "orders"));
            assertEquals("Ada L", merged.getName());
        });
        int orders = read(other -> other.find(Person.class, 1L).getOrders().size());
        assertEquals(50, orders);
        assertEquals("Ada L", read(other -> other.find(Person.class, 1L)).getName());
        detached.setName("Ada M");
        manager.clear();
        manager.getTransaction().begin();
        OptimisticLockException refused = assertThrows(OptimisticLockException.class, () -> manager.merge(detached));
        assertSame(detached, refused.getEntity(), "its version is that of before the first merge");
    }

    @Test
    void whatWasAskedOfTheProgramIsCounted() {
        Karzhoul counting = manager.unwrap(Karzhoul.class);
        Karzhoul.Statistics before = counting.statistics();
        store(new Person("Ada"));
        manager.getTransaction().begin();
        assertNotNull(manager.find(Person.class, 1L));
        Karzhoul.Statistics after = factory.unwrap(Karzhoul.class).statistics();
        assertTrue(after.calls() - before.calls() > 5, "sets, persist, commit, find");
        assertTrue(after.trips() - before.trips() < after.calls() - before.calls(), "several calls go in one trip");
        assertEquals(before.refusals(), after.refusals());
        assertEquals(1, after.managers());
        assertEquals(1, after.runs());
    }
}
