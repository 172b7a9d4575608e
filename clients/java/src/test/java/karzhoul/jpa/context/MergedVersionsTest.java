package karzhoul.jpa.context;

import static org.junit.jupiter.api.Assertions.assertEquals;
import static org.junit.jupiter.api.Assertions.assertNotSame;
import static org.junit.jupiter.api.Assertions.assertSame;
import static org.junit.jupiter.api.Assertions.assertThrows;

import jakarta.persistence.CascadeType;
import jakarta.persistence.Entity;
import jakarta.persistence.EntityManager;
import jakarta.persistence.GeneratedValue;
import jakarta.persistence.GenerationType;
import jakarta.persistence.Id;
import jakarta.persistence.ManyToOne;
import jakarta.persistence.OneToMany;
import jakarta.persistence.OptimisticLockException;
import jakarta.persistence.SequenceGenerator;
import jakarta.persistence.Version;
import java.util.ArrayList;
import java.util.List;
import java.util.function.Function;
import org.junit.jupiter.api.AfterEach;
import org.junit.jupiter.api.BeforeEach;
import org.junit.jupiter.api.Test;

/** merge of versions that are zero still (chapters 3.2.7.1 and 3.4): of what is gone, new, or not inserted yet. */
class MergedVersionsTest {
    @Entity
    static class Garage {
        @Id @GeneratedValue Long id;
        @Version int version;
        String name;
        @OneToMany(mappedBy = "garage", cascade = CascadeType.ALL)
        List<Truck> trucks = new ArrayList<>();
    }

    @Entity
    @SequenceGenerator(name = "trucks", sequenceName = "trucks", initialValue = 7, allocationSize = 5)
    static class Truck {
        @Id @GeneratedValue(strategy = GenerationType.SEQUENCE, generator = "trucks") long id;
        @Version int version;
        String name;
        @ManyToOne Garage garage;
    }

    @Entity
    static class Sign {
        @Id @GeneratedValue(strategy = GenerationType.UUID) String id;
        @Version long version;
    }

    @Entity
    static class Street {
        @Id String name;
        @Version int version;
    }

    private Factory factory;

    @BeforeEach
    void open() {
        factory = Units.over("karzhoul:memory", Garage.class, Truck.class, Sign.class, Street.class);
    }

    @AfterEach
    void close() {
        factory.close();
    }

    private <T> T done(Function<EntityManager, T> done) {
        try (EntityManager manager = factory.createEntityManager()) {
            manager.getTransaction().begin();
            T result = done.apply(manager);
            manager.getTransaction().commit();
            return result;
        }
    }

    private Garage stored() {
        return done(it -> {
            Garage garage = new Garage();
            for (String name : List.of("one", "two")) {
                Truck truck = new Truck();
                truck.name = name;
                truck.garage = garage;
                garage.trucks.add(truck);
            }
            it.persist(garage);
            return garage;
        });
    }

    private long count(String entity) {
        return done(it -> it.createQuery("SELECT COUNT(e) FROM " + entity + " e", Long.class).getSingleResult());
    }

    private Object stale(Object merged) {
        return assertThrows(OptimisticLockException.class, () -> done(it -> it.merge(merged))).getEntity();
    }

    @Test
    void whatAnotherRemovedIsNotBroughtBackUnderANewKey() {
        Truck truck = stored().trucks.get(0);
        done(it -> it.createQuery("DELETE FROM Truck t WHERE t.name = 'one'").executeUpdate());
        assertEquals(0, truck.version);
        truck.garage = null;
        assertSame(truck, stale(truck));
        assertEquals(1, count("Truck"));
    }

    @Test
    void norByACascade() {
        Garage garage = stored();
        done(it -> {
            it.remove(it.find(Truck.class, garage.trucks.get(1).id));
            return null;
        });
        assertSame(garage.trucks.get(1), stale(garage));
        assertEquals(1, count("Truck"));
    }

    @Test
    void norAKeyThatIsAUuid() {
        Sign sign = done(it -> {
            Sign made = new Sign();
            it.persist(made);
            return made;
        });
        done(it -> {
            it.remove(it.find(Sign.class, sign.id));
            return null;
        });
        assertSame(sign, stale(sign));
        assertEquals(0, count("Sign"));
    }

    @Test
    void whatHasAKeyOfItsOwnOrNoneIsNew() {
        Street street = new Street();
        street.name = "Main";
        assertEquals("Main", done(it -> it.merge(street)).name);
        assertEquals(1L, done(it -> it.merge(new Garage())).id);
        assertEquals(7L, done(it -> it.merge(new Truck())).id);
        assertEquals(36, done(it -> it.merge(new Sign())).id.length());
    }

    @Test
    void aCopyIsMergedIntoWhatIsPersistedAndNotInsertedYet() {
        Garage stored = done(it -> {
            Garage garage = new Garage();
            it.persist(garage);
            Garage copy = copy(garage);
            assertSame(garage, it.merge(copy));
            assertEquals("copy", garage.name);
            it.flush();
            copy.name = "again";
            assertSame(garage, it.merge(copy));
            return garage;
        });
        assertEquals("again", done(it -> it.find(Garage.class, stored.id)).name);
        assertEquals(1, count("Garage"));
    }

    @Test
    void aCopyOfAnotherVersionIsNot() {
        try (EntityManager manager = factory.createEntityManager()) {
            manager.getTransaction().begin();
            Garage garage = new Garage();
            manager.persist(garage);
            Garage copy = copy(garage);
            copy.version = 3;
            assertSame(copy, assertThrows(OptimisticLockException.class, () -> manager.merge(copy)).getEntity());
            assertNotSame("copy", garage.name);
        }
    }

    private static Garage copy(Garage garage) {
        Garage copy = new Garage();
        copy.id = garage.id;
        copy.version = garage.version;
        copy.name = "copy";
        return copy;
    }
}
