package karzhoul.jpa.context;

import static org.junit.jupiter.api.Assertions.assertEquals;
import static org.junit.jupiter.api.Assertions.assertFalse;
import static org.junit.jupiter.api.Assertions.assertNotNull;
import static org.junit.jupiter.api.Assertions.assertNotSame;
import static org.junit.jupiter.api.Assertions.assertNull;
import static org.junit.jupiter.api.Assertions.assertSame;
import static org.junit.jupiter.api.Assertions.assertThrows;
import static org.junit.jupiter.api.Assertions.assertTrue;

import jakarta.persistence.EntityExistsException;
import jakarta.persistence.EntityManager;
import jakarta.persistence.LockModeType;
import jakarta.persistence.RollbackException;
import java.util.ArrayList;
import java.util.List;
import java.util.function.Function;
import java.util.function.Supplier;
import java.util.stream.Stream;
import karzhoul.jpa.shop.Depot;
import karzhoul.jpa.shop.Order;
import karzhoul.jpa.shop.Person;
import karzhoul.jpa.shop.Shop;
import karzhoul.jpa.shop.Team;
import org.junit.jupiter.api.AfterAll;
import org.junit.jupiter.api.AfterEach;
import org.junit.jupiter.api.BeforeAll;
import org.junit.jupiter.api.BeforeEach;
import org.junit.jupiter.params.ParameterizedTest;
import org.junit.jupiter.params.provider.MethodSource;

/** The life cycle of an instance (chapter 3.2): each state by each operation, as the standard's text has them. */
class LifeCycleTest {
    private enum State { NEW, MANAGED, DETACHED, REMOVED }

    private enum Operation { PERSIST, REMOVE, REFRESH, MERGE, DETACH, CONTAINS, LOCK, FLUSH }

    /** A kind of entity, by the way in which it gets its key. */
    private record Kind(String name, Class<?> type, Supplier<Object> made, Function<Object, Object> key) {
        @Override
        public String toString() {
            return name;
        }
    }

    private static long number;

    private static final List<Kind> KINDS = List.of(
        new Kind("generated", Person.class, () -> new Person("p"), it -> ((Person) it).getId()),
        new Kind("assigned, versioned", Depot.class, () -> new Depot("d" + ++number, "here"),
            it -> ((Depot) it).getCode()),
        new Kind("assigned", Order.class, () -> new Order(++number, 1), it -> ((Order) it).getNumber()),
        new Kind("UUID", Team.class, () -> new Team("t"), it -> ((Team) it).getId()));

    private static Factory factory;
    private EntityManager manager;

    @BeforeAll
    static void open() {
        factory = Shop.open();
    }

    @AfterAll
    static void close() {
        factory.close();
    }

    @BeforeEach
    void begin() {
        manager = factory.createEntityManager();
    }

    @AfterEach
    void end() {
        if (manager.getTransaction().isActive()) {
            manager.getTransaction().rollback();
        }
        manager.close();
    }

    static Stream<Object[]> table() {
        List<Object[]> rows = new ArrayList<>();
        for (Kind kind : KINDS) {
            for (State state : State.values()) {
                for (Operation operation : Operation.values()) {
                    rows.add(new Object[] {kind, state, operation});
                }
            }
        }
        return rows.stream();
    }

    @ParameterizedTest(name = "{0}: {1} by {2}")
    @MethodSource("table")
    void eachStateByEachOperation(Kind kind, State state, Operation operation) {
        Object instance = in(state, kind);
        switch (operation) {
            case PERSIST:
                persist(instance, state, kind);
                break;
            case REMOVE:
                remove(instance, state, kind);
                break;
            case REFRESH:
                refusedUnlessManaged(state, () -> manager.refresh(instance));
                break;
            case MERGE:
                merge(instance, state, kind);
                break;
            case DETACH:
                manager.detach(instance);
                assertFalse(manager.contains(instance));
                manager.getTransaction().commit();
                assertEquals(state != State.NEW, isStored(instance, kind), "what was removed and detached stays");
                break;
            case CONTAINS:
                assertEquals(state == State.MANAGED, manager.contains(instance));
                break;
            case LOCK:
                if (kind.type() != Order.class && kind.type() != Team.class) {
                    refusedUnlessManaged(state, () -> manager.lock(instance, LockModeType.OPTIMISTIC));
                }
                break;
            default:
                manager.flush();
                assertEquals(state == State.MANAGED, manager.contains(instance));
                manager.getTransaction().commit();
                assertEquals(state == State.MANAGED || state == State.DETACHED, isStored(instance, kind));
        }
    }

    private Object in(State state, Kind kind) {
        Object instance = kind.made().get();
        manager.getTransaction().begin();
        if (state == State.NEW) {
            return instance;
        }
        manager.persist(instance);
        manager.getTransaction().commit();
        assertTrue(manager.contains(instance));
        if (state == State.DETACHED) {
            manager.clear();
        }
        manager.getTransaction().begin();
        if (state == State.REMOVED) {
            manager.remove(instance);
        }
        return instance;
    }

    private boolean isStored(Object instance, Kind kind) {
        Object key = kind.key().apply(instance);
        if (key == null) {
            return false;
        }
        try (EntityManager reader = factory.createEntityManager()) {
            return reader.find(kind.type(), key) != null;
        }
    }

    private void persist(Object instance, State state, Kind kind) {
        if (state == State.DETACHED) {
            RuntimeException refused = assertThrows(RuntimeException.class, () -> {
                manager.persist(instance);
                manager.getTransaction().commit();
            });
            assertTrue(refused instanceof EntityExistsException
                || refused instanceof RollbackException && refused.getCause() instanceof EntityExistsException,
                refused.toString());
            return;
        }
        manager.persist(instance);
        assertTrue(manager.contains(instance));
        assertNotNull(kind.key().apply(instance));
        manager.getTransaction().commit();
        assertTrue(manager.contains(instance));
        assertTrue(isStored(instance, kind));
    }

    private void remove(Object instance, State state, Kind kind) {
        if (state == State.DETACHED) {
            assertThrows(IllegalArgumentException.class, () -> manager.remove(instance));
            assertTrue(manager.getTransaction().getRollbackOnly());
            return;
        }
        manager.remove(instance);
        assertFalse(manager.contains(instance));
        manager.getTransaction().commit();
        assertFalse(manager.contains(instance));
        assertFalse(isStored(instance, kind));
    }

    private void refusedUnlessManaged(State state, Runnable operation) {
        if (state == State.MANAGED) {
            operation.run();
            manager.getTransaction().commit();
            return;
        }
        assertThrows(IllegalArgumentException.class, operation::run);
        assertTrue(manager.getTransaction().getRollbackOnly());
    }

    private void merge(Object instance, State state, Kind kind) {
        if (state == State.REMOVED) {
            assertThrows(IllegalArgumentException.class, () -> manager.merge(instance));
            return;
        }
        Object merged = manager.merge(instance);
        assertTrue(manager.contains(merged));
        if (state == State.MANAGED) {
            assertSame(instance, merged);
        } else {
            assertNotSame(instance, merged);
            assertFalse(manager.contains(instance));
        }
        if (state == State.NEW && kind.type() != Depot.class && kind.type() != Order.class) {
            assertNull(kind.key().apply(instance), "the copy alone gets a key");
        }
        manager.getTransaction().commit();
        assertTrue(isStored(merged, kind));
    }
}
