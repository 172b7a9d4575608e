package karzhoul.jpa.context;

import static org.junit.jupiter.api.Assertions.assertEquals;
import static org.junit.jupiter.api.Assertions.assertFalse;
import static org.junit.jupiter.api.Assertions.assertNotNull;
import static org.junit.jupiter.api.Assertions.assertNull;
import static org.junit.jupiter.api.Assertions.assertSame;
import static org.junit.jupiter.api.Assertions.assertThrows;
import static org.junit.jupiter.api.Assertions.assertTrue;

import jakarta.persistence.EntityExistsException;
import jakarta.persistence.EntityManager;
import jakarta.persistence.EntityManagerFactory;
import jakarta.persistence.FlushModeType;
import jakarta.persistence.LockModeType;
import jakarta.persistence.OptimisticLockException;
import jakarta.persistence.PersistenceException;
import jakarta.persistence.RollbackException;
import jakarta.persistence.SynchronizationType;
import jakarta.persistence.TransactionRequiredException;
import java.util.List;
import java.util.Map;
import karzhoul.jpa.shop.Audit;
import karzhoul.jpa.shop.Car;
import karzhoul.jpa.shop.Depot;
import karzhoul.jpa.shop.Holder;
import karzhoul.jpa.shop.Motor;
import karzhoul.jpa.shop.Order;
import karzhoul.jpa.shop.Person;
import karzhoul.jpa.shop.Place;
import karzhoul.jpa.shop.Profile;
import karzhoul.jpa.shop.Tag;
import karzhoul.jpa.shop.Team;
import karzhoul.jpa.shop.Vip;
import org.junit.jupiter.api.Test;
import org.junit.jupiter.params.ParameterizedTest;
import org.junit.jupiter.params.provider.EnumSource;

/** Each method of an entity manager, its factory and its transactions (chapters 3.1, 3.2, 3.4 and 7). */
class ManagerTest extends Tried {
    private static RuntimeException causeOf(Runnable commit) {
        RollbackException refused = assertThrows(RollbackException.class, commit::run);
        return (RuntimeException) refused.getCause();
    }

    private void commitNow() {
        manager.getTransaction().commit();
    }

    @Test
    void aJoinedRelationRemovesItsOrphansAndItsMembers() {
        Team team = new Team("t");
        team.getPlaces().addAll(List.of(new Place("a"), new Place("b"), new Place("c")));
        store(team);
        Team found = manager.find(Team.class, team.getId());
        commit(() -> found.getPlaces().remove(0));
        assertEquals(2L, manager.createQuery("SELECT COUNT(p) FROM Place p").getSingleResult());
        assertEquals(2, read(other -> List.copyOf(other.find(Team.class, team.getId()).getPlaces())).size());
        manager.clear();
        commit(() -> manager.remove(manager.find(Team.class, team.getId())));
        assertEquals(0L, manager.createQuery("SELECT COUNT(p) FROM Place p").getSingleResult());
    }

    @Test
    void aMergeRemovesTheOrphansOfAJoinedRelation() {
        Team team = new Team("t");
        team.getPlaces().addAll(List.of(new Place("a"), new Place("b")));
        store(team);
        Team found = manager.find(Team.class, team.getId());
        assertEquals(2, found.getPlaces().size());
        manager.clear();
        found.getPlaces().remove(0);
        commit(() -> manager.merge(found));
        assertEquals(1L, manager.createQuery("SELECT COUNT(p) FROM Place p").getSingleResult());
        assertEquals(1, read(other -> List.copyOf(other.find(Team.class, team.getId()).getPlaces())).size());
    }

    @Test
    void bothSidesOfAOneToOne() {
        Car car = new Car(new Motor(1.5));
        store(car);
        Motor motor = manager.find(Motor.class, car.getMotor().getId());
        assertFalse(LoadStates.isRead(motor.getCar()));
        assertEquals(car.getId(), motor.getCar().getId());
        assertSame(motor, motor.getCar().getMotor());
        commit(() -> manager.find(Car.class, car.getId()).setMotor(new Motor(2.5)));
        assertNull(manager.find(Motor.class, motor.getId()), "it is an orphan");
        assertEquals(2.5, read(other -> other.find(Car.class, car.getId()).getMotor().getPower()));
        manager.clear();
        Car detached = manager.find(Car.class, car.getId());
        detached.getMotor().setPower(3.5);
        manager.clear();
        commit(() -> assertEquals(3.5, manager.merge(detached).getMotor().getPower()));
        assertEquals(3.5, read(other -> other.find(Car.class, car.getId()).getMotor().getPower()));
        Car unread = manager.find(Car.class, car.getId());
        manager.clear();
        Car again = manager.find(Car.class, car.getId());
        manager.clear();
        commit(() -> manager.merge(again));
        assertEquals(3.5, read(other -> other.find(Car.class, car.getId()).getMotor().getPower()));
        commit(() -> manager.remove(manager.merge(unread)));
        assertEquals(0L, manager.createQuery("SELECT COUNT(m) FROM Motor m").getSingleResult());
    }

    @Test
    void aDerivedKeyIsThatOfWhatItLeadsTo() {
        Profile profile = new Profile(new Place("p"), "text");
        commit(() -> manager.persist(profile));
        assertEquals(profile.getPlace().getId(), profile.getId());
        assertEquals("text", read(other -> other.find(Profile.class, profile.getId())).getText());
        Place place = new Place("q");
        commit(() -> {
            manager.persist(place);
            manager.persist(new Profile(place, "second"));
        });
        assertEquals("second", read(other -> other.find(Profile.class, place.getId())).getText());
        manager.getTransaction().begin();
        assertThrows(PersistenceException.class, () -> manager.persist(new Profile(null, "none")));
    }

    @Test
    void aCommitThatIsStaleNamesItsEntity() {
        store(new Person("Ada"), new Person("Bea"));
        Person ada = manager.find(Person.class, 1L);
        Person bea = manager.find(Person.class, 2L);
        other(it -> it.find(Person.class, 2L).setName("other"));
        manager.getTransaction().begin();
        ada.setName("one");
        bea.setName("two");
        RuntimeException cause = causeOf(this::commitNow);
        assertSame(bea, ((OptimisticLockException) cause).getEntity());
        assertTrue(cause.getMessage().startsWith("OptimisticLock"), cause.getMessage());
        assertFalse(manager.contains(ada));
        assertFalse(manager.getTransaction().isActive());
        assertEquals("Ada", manager.find(Person.class, 1L).getName());
    }

    @Test
    void aCommitAfterAFlushThatIsStaleNamesItsEntityAlsoWithoutAVersion() {
        store(new Person("Ada"), new Person("Bea"), new Order(1, 1), new Order(2, 2));
        manager.getTransaction().begin();
        manager.find(Person.class, 1L).setName("one");
        Person bea = manager.find(Person.class, 2L);
        bea.setName("two");
        manager.flush();
        other(it -> it.find(Person.class, 2L).setName("other"));
        assertSame(bea, ((OptimisticLockException) causeOf(this::commitNow)).getEntity());
        manager.getTransaction().begin();
        manager.find(Order.class, 1L).setAmount(10L);
        Order second = manager.find(Order.class, 2L);
        second.setAmount(20L);
        other(it -> it.find(Order.class, 2L).setAmount(30L));
        assertSame(second, ((OptimisticLockException) causeOf(this::commitNow)).getEntity());
    }

    @Test
    void aKeyThatIsStoredAlreadyNamesItsEntity() {
        store(new Depot("d", "here"));
        manager.getTransaction().begin();
        manager.persist(new Depot("e", "new"));
        manager.persist(new Depot("d", "again"));
        RuntimeException cause = causeOf(this::commitNow);
        assertTrue(cause instanceof EntityExistsException, cause.toString());
        assertTrue(cause.getMessage().contains("Depot d"), cause.getMessage());
        assertNull(read(other -> other.find(Depot.class, "e")));
    }

    @Test
    void twoInstancesOfOneKeyInOneContext() {
        manager.getTransaction().begin();
        manager.persist(new Depot("d", "here"));
        assertThrows(EntityExistsException.class, () -> manager.persist(new Depot("d", "there")));
        assertTrue(manager.getTransaction().getRollbackOnly());
    }

    @Test
    void aRequiredValueThatIsMissingIsNamed() {
        manager.getTransaction().begin();
        manager.persist(new Person(null));
        RuntimeException cause = causeOf(this::commitNow);
        assertTrue(cause.getMessage().startsWith("Persistence(null)") && cause.getMessage().contains("name"),
            cause.getMessage());
    }

    @Test
    void twoOwnersOfOneTarget() {
        Depot depot = new Depot("d", "here");
        Holder one = new Holder(1);
        Holder two = new Holder(2);
        one.setDepot(depot);
        two.setDepot(depot);
        manager.getTransaction().begin();
        manager.persist(depot);
        manager.persist(one);
        manager.persist(two);
        assertTrue(causeOf(this::commitNow).getMessage().startsWith("Persistence(unique)"));
    }

    @Test
    void aRowThatOthersReferToStays() {
        Depot depot = new Depot("d", "here");
        Order order = new Order(1, 1);
        order.setDepot(depot);
        store(depot, order);
        manager.getTransaction().begin();
        manager.remove(manager.find(Depot.class, "d"));
        assertTrue(causeOf(this::commitNow).getMessage().startsWith("Persistence(reference)"));
        assertNotNull(manager.find(Depot.class, "d"));
    }

    @Test
    void findTellsSubclassesApart() {
        store(new Person("Ada"), new Vip("Vic", 5));
        assertSame(Vip.class, manager.find(Person.class, 2L).getClass());
        assertNull(manager.find(Vip.class, 1L));
        assertEquals(5, manager.find(Vip.class, 2L).getDiscount());
        assertSame(manager.find(Person.class, 2L), manager.find(Vip.class, 2L));
    }

    @Test
    void statesOfTransactions() {
        assertThrows(IllegalStateException.class, () -> manager.getTransaction().commit());
        assertThrows(IllegalStateException.class, () -> manager.getTransaction().rollback());
        assertThrows(IllegalStateException.class, () -> manager.getTransaction().setRollbackOnly());
        assertThrows(IllegalStateException.class, () -> manager.getTransaction().getRollbackOnly());
        assertThrows(TransactionRequiredException.class, () -> manager.flush());
        manager.getTransaction().begin();
        assertTrue(manager.getTransaction().isActive());
        assertTrue(manager.isJoinedToTransaction());
        assertThrows(IllegalStateException.class, () -> manager.getTransaction().begin());
        assertFalse(manager.getTransaction().getRollbackOnly());
        Person ada = new Person("Ada");
        manager.persist(ada);
        manager.getTransaction().setRollbackOnly();
        assertTrue(manager.getTransaction().getRollbackOnly());
        assertThrows(RollbackException.class, () -> manager.getTransaction().commit());
        assertFalse(manager.getTransaction().isActive());
        assertFalse(manager.contains(ada));
        assertThrows(TransactionRequiredException.class, () -> manager.joinTransaction());
    }

    @Test
    void whatIsAskedBeforeATransactionIsWrittenByIt() {
        Person ada = new Person("Ada");
        manager.persist(ada);
        assertTrue(manager.contains(ada));
        commit(() -> { });
        assertEquals("Ada", read(other -> other.find(Person.class, 1L)).getName());
        manager.remove(ada);
        assertFalse(manager.contains(ada));
        commit(() -> { });
        assertNull(read(other -> other.find(Person.class, 1L)));
        Person merged = manager.merge(new Person("Bea"));
        commit(() -> { });
        assertEquals("Bea", read(other -> other.find(Person.class, merged.getId())).getName());
    }

    @Test
    void aClosedManagerWithATransactionStaysUntilItEnds() {
        manager.getTransaction().begin();
        manager.persist(new Person("Ada"));
        manager.close();
        assertFalse(manager.isOpen());
        assertThrows(IllegalStateException.class, () -> manager.find(Person.class, 1L));
        assertThrows(IllegalStateException.class, () -> manager.close());
        manager.getTransaction().commit();
        assertEquals("Ada", read(other -> other.find(Person.class, 1L)).getName());
    }

    @Test
    void aClosedFactoryClosesItsManagers() {
        EntityManager other = factory.createEntityManager();
        Factory second = karzhoul.jpa.shop.Shop.open();
        EntityManager its = second.createEntityManager();
        second.close();
        assertFalse(second.isOpen());
        assertFalse(its.isOpen());
        assertThrows(IllegalStateException.class, () -> its.find(Person.class, 1L));
        assertThrows(IllegalStateException.class, second::createEntityManager);
        assertThrows(IllegalStateException.class, second::close);
        assertTrue(other.isOpen());
        other.close();
    }

    @Test
    void locksAreAskedAtTheCommit() {
        store(new Depot("d", "here"));
        Depot depot = manager.find(Depot.class, "d");
        assertThrows(TransactionRequiredException.class, () -> manager.lock(depot, LockModeType.READ));
        assertThrows(TransactionRequiredException.class, () -> manager.getLockMode(depot));
        assertThrows(TransactionRequiredException.class, () -> manager.find(Depot.class, "d", LockModeType.READ));
        manager.getTransaction().begin();
        assertEquals(LockModeType.NONE, manager.getLockMode(depot));
        manager.lock(depot, LockModeType.OPTIMISTIC);
        assertEquals(LockModeType.OPTIMISTIC, manager.getLockMode(depot));
        other(it -> it.find(Depot.class, "d").setPlace("other"));
        assertTrue(causeOf(this::commitNow) instanceof OptimisticLockException);
        manager.getTransaction().begin();
        Depot again = manager.find(Depot.class, "d", LockModeType.OPTIMISTIC_FORCE_INCREMENT, Map.of());
        int version = again.getVersion();
        manager.getTransaction().commit();
        assertEquals(version + 1, again.getVersion());
        assertEquals(version + 1, read(other -> other.find(Depot.class, "d")).getVersion());
        manager.getTransaction().begin();
        assertEquals(LockModeType.NONE, manager.getLockMode(again));
    }

    @ParameterizedTest
    @EnumSource(value = LockModeType.class, names = "PESSIMISTIC.*", mode = EnumSource.Mode.MATCH_ANY)
    void pessimisticLocksAreRefusedInWords(LockModeType mode) {
        store(new Depot("d", "here"));
        manager.getTransaction().begin();
        PersistenceException refused =
            assertThrows(PersistenceException.class, () -> manager.find(Depot.class, "d", mode));
        assertTrue(refused.getMessage().contains("OPTIMISTIC"), refused.getMessage());
        assertTrue(manager.getTransaction().getRollbackOnly());
    }

    @Test
    void anEntityWithoutAVersionHasNoOptimisticLocks() {
        store(new Order(1, 1));
        manager.getTransaction().begin();
        assertThrows(PersistenceException.class, () -> manager.lock(manager.find(Order.class, 1L), LockModeType.READ));
    }

    @Test
    void refreshLosesWhatWasNotWritten() {
        store(new Person("Ada").add(new Order(1, 1)));
        Person ada = manager.find(Person.class, 1L);
        ada.getOrders().get(0).setAmount(9L);
        ada.setName("Bea");
        ada.getOrders().clear();
        ada.getTags().add(new Tag("x"));
        manager.refresh(ada);
        assertEquals("Ada", ada.getName());
        assertEquals(1, ada.getOrders().size());
        assertEquals(0, ada.getTags().size());
        commit(() -> { });
        assertEquals(0, read(other -> other.find(Person.class, 1L)).getVersion());
    }

    @Test
    void refreshReadsWhatOthersCommitted() {
        store(new Person("Ada"));
        Person ada = manager.find(Person.class, 1L);
        other(it -> it.find(Person.class, 1L).setName("Bea"));
        manager.refresh(ada);
        assertEquals("Bea", ada.getName());
        assertEquals(1, ada.getVersion());
    }

    @Test
    void whatIsRemovedAndStillInACascadingRelationIsManagedAgain() {
        store(new Person("Ada").add(new Order(1, 1)));
        Person ada = manager.find(Person.class, 1L);
        Order order = ada.getOrders().get(0);
        commit(() -> manager.remove(order));
        assertTrue(manager.contains(order));
        assertSame(order, manager.find(Order.class, 1L));
        commit(() -> order.setAmount(9L));
        assertEquals(9L, read(other -> other.find(Order.class, 1L)).getAmount());
    }

    @Test
    void whatWasRefusedMayBePersistedAnotherTime() {
        Person ada = new Person("Ada");
        Audit.also((event, entity) -> {
            throw new IllegalStateException("not today");
        });
        manager.getTransaction().begin();
        assertThrows(IllegalStateException.class, () -> manager.persist(ada));
        manager.getTransaction().rollback();
        Audit.also(null);
        Audit.told();
        assertFalse(manager.contains(ada));
        commit(() -> manager.persist(ada));
        assertEquals(List.of("PrePersist Person Ada", "PostPersist Person Ada"), Audit.told());
        assertEquals("created", read(other -> other.find(Person.class, 1L)).getCreated());
    }

    @Test
    void refreshLeavesOthersAsTheyAre() {
        store(new Person("Ada"), new Person("Bea"));
        Person ada = manager.find(Person.class, 1L);
        Person bea = manager.find(Person.class, 2L);
        ada.setName("changed");
        bea.setName("x".repeat(70_000));
        manager.refresh(bea);
        assertEquals("Bea", bea.getName());
        assertEquals("changed", ada.getName());
        commit(() -> { });
        assertEquals("changed", read(other -> other.find(Person.class, 1L)).getName());
    }

    @Test
    void mergeOntoAProxyThatNobodyRead() {
        Depot depot = new Depot("d", "here");
        Order order = new Order(1, 1);
        order.setDepot(depot);
        store(depot, order);
        Depot detached = manager.find(Depot.class, "d");
        manager.clear();
        detached.setPlace("there");
        commit(() -> {
            Depot proxy = manager.find(Order.class, 1L).getDepot();
            assertFalse(LoadStates.isRead(proxy));
            assertSame(proxy, manager.merge(detached));
            assertSame(proxy, manager.merge(manager.getReference(Depot.class, "d")));
        });
        assertEquals("there", read(other -> other.find(Depot.class, "d")).getPlace());
    }

    @Test
    void detachGoesOnAlongItsCascade() {
        store(new Person("Ada").add(new Order(1, 1)));
        Person ada = manager.find(Person.class, 1L);
        Order order = ada.getOrders().get(0);
        manager.detach(ada);
        assertFalse(manager.contains(order));
        ada.setName("lost");
        order.setAmount(9L);
        commit(() -> { });
        assertEquals("Ada", read(other -> other.find(Person.class, 1L)).getName());
        assertEquals(1L, read(other -> other.find(Order.class, 1L)).getAmount());
    }

    @Test
    void clearLosesWhatWasNotFlushed() {
        manager.getTransaction().begin();
        manager.persist(new Person("one"));
        manager.flush();
        manager.persist(new Person("two"));
        manager.clear();
        manager.persist(new Person("three"));
        manager.getTransaction().commit();
        assertEquals(List.of("one", "three"), read(other ->
            other.createQuery("SELECT p.name FROM Person p ORDER BY p.name", String.class).getResultList()));
    }

    @Test
    void queriesFlushBeforeAsTheModeSays() {
        manager.getTransaction().begin();
        manager.persist(new Person("Ada"));
        assertEquals(1L, manager.createQuery("SELECT COUNT(p) FROM Person p").getSingleResult());
        manager.setFlushMode(FlushModeType.COMMIT);
        assertEquals(FlushModeType.COMMIT, manager.getFlushMode());
        manager.persist(new Person("Bea"));
        assertEquals(1L, manager.createQuery("SELECT COUNT(p) FROM Person p").getSingleResult());
        manager.getTransaction().commit();
        assertEquals(2L, manager.createQuery("SELECT COUNT(p) FROM Person p").getSingleResult());
    }

    @Test
    void aBulkChangeLeavesInstancesStale() {
        store(new Order(1, 1), new Order(2, 2));
        commit(() -> {
            Order one = manager.find(Order.class, 1L);
            assertEquals(2, manager.createQuery("UPDATE Order o SET o.amount = 7").executeUpdate());
            assertEquals(1L, one.getAmount());
            manager.refresh(one);
            assertEquals(7L, one.getAmount());
        });
        assertEquals(7L, read(other -> other.find(Order.class, 2L)).getAmount());
    }

    @Test
    void argumentsThatAreNoEntities() {
        manager.getTransaction().begin();
        assertThrows(IllegalArgumentException.class, () -> manager.persist("text"));
        assertThrows(IllegalArgumentException.class, () -> manager.persist(null));
        assertThrows(IllegalArgumentException.class, () -> manager.contains("text"));
        assertThrows(IllegalArgumentException.class, () -> manager.merge(null));
        assertThrows(IllegalArgumentException.class, () -> manager.find(String.class, 1L));
        assertThrows(IllegalArgumentException.class, () -> manager.createQuery("SELEC p FROM Person p"));
        assertTrue(manager.getTransaction().getRollbackOnly());
    }

    @Test
    void whatIsNotThereSaysWhen() {
        assertThrows(UnsupportedOperationException.class, () -> manager.createNativeQuery("SELECT 1"));
        assertThrows(UnsupportedOperationException.class, () -> manager.createStoredProcedureQuery("p"));
        assertThrows(IllegalStateException.class,
            () -> factory.createEntityManager(SynchronizationType.SYNCHRONIZED));
    }

    @Test
    void whatManagersAndFactoriesTellOfThemselves() {
        assertSame(manager, manager.unwrap(EntityManager.class));
        assertThrows(PersistenceException.class, () -> manager.unwrap(String.class));
        assertSame(factory, factory.unwrap(EntityManagerFactory.class));
        assertSame(factory, manager.getEntityManagerFactory());
        assertSame(manager, manager.getDelegate());
        manager.setProperty("a", "b");
        assertEquals("b", manager.getProperties().get("a"));
        store(new Person("Ada"));
        assertFalse(factory.getCache().contains(Person.class, 1L));
        factory.getCache().evictAll();
        Person ada = manager.find(Person.class, 1L);
        assertEquals(1L, factory.getPersistenceUnitUtil().getIdentifier(ada));
        assertTrue(factory.getPersistenceUnitUtil().isLoaded(ada, "name"));
        assertFalse(factory.getPersistenceUnitUtil().isLoaded(ada, "orders"));
        ada.getOrders().size();
        assertTrue(factory.getPersistenceUnitUtil().isLoaded(ada, "orders"));
    }

    @Test
    void mergeOfAGraphKeepsOneImageOfEach() {
        store(new Person("Ada").add(new Order(1, 1)).add(new Order(2, 2)));
        Person detached = manager.find(Person.class, 1L);
        detached.getOrders().size();
        manager.clear();
        detached.setName("Bea");
        detached.getOrders().get(0).setAmount(20L);
        detached.getOrders().remove(1);
        detached.add(new Order(3, 3));
        manager.getTransaction().begin();
        Person merged = manager.merge(detached);
        assertEquals("Bea", merged.getName());
        assertEquals(2, merged.getOrders().size());
        for (Order order : merged.getOrders()) {
            assertTrue(manager.contains(order));
            assertSame(merged, order.getPerson());
            assertFalse(detached.getOrders().contains(order));
        }
        manager.getTransaction().commit();
        assertEquals(List.of("2:20", "3:3"), read(other -> other.find(Person.class, 1L).getOrders().stream()
            .map(order -> order.getNumber() + ":" + order.getAmount()).sorted().toList()));
    }

    @Test
    void mergeOfAnOlderVersionIsStale() {
        store(new Person("Ada"));
        Person detached = manager.find(Person.class, 1L);
        manager.clear();
        other(it -> it.find(Person.class, 1L).setName("other"));
        detached.setName("stale");
        manager.getTransaction().begin();
        assertThrows(OptimisticLockException.class, () -> manager.merge(detached));
    }

    @Test
    void mergeDoesNotPersistWhatItsCascadeDoesNotReach() {
        Order order = new Order(1, 1);
        order.setDepot(new Depot("new", "there"));
        manager.getTransaction().begin();
        assertThrows(IllegalStateException.class, () -> manager.merge(order));
    }

    @Test
    void aDetachedTargetIsALinkByItsKey() {
        store(new Depot("d", "here"), new Person("Ada"));
        Depot depot = manager.find(Depot.class, "d");
        Person ada = manager.find(Person.class, 1L);
        manager.clear();
        Order order = new Order(1, 1);
        order.setDepot(depot);
        order.setPerson(ada);
        commit(() -> manager.persist(order));
        Order stored = read(other -> {
            Order found = other.find(Order.class, 1L);
            found.getDepot().getPlace();
            found.getPerson().getName();
            return found;
        });
        assertEquals("here", stored.getDepot().getPlace());
        assertEquals("Ada", stored.getPerson().getName());
    }
}
