package karzhoul.jpa.context;

import static org.junit.jupiter.api.Assertions.assertEquals;
import static org.junit.jupiter.api.Assertions.assertNotEquals;
import static org.junit.jupiter.api.Assertions.assertThrows;

import jakarta.persistence.CascadeType;
import jakarta.persistence.Column;
import jakarta.persistence.Entity;
import jakarta.persistence.EntityManager;
import jakarta.persistence.GeneratedValue;
import jakarta.persistence.GenerationType;
import jakarta.persistence.Id;
import jakarta.persistence.OneToMany;
import jakarta.persistence.OptimisticLockException;
import jakarta.persistence.RollbackException;
import jakarta.persistence.SequenceGenerator;
import jakarta.persistence.Version;
import java.util.ArrayList;
import java.util.List;
import java.util.UUID;
import java.util.function.Consumer;
import java.util.function.Function;
import org.junit.jupiter.api.AfterEach;
import org.junit.jupiter.api.BeforeEach;
import org.junit.jupiter.api.Test;

/** What a transaction made and rolled back keeps its key and its version (chapter 3.3.3), and is new all the same. */
class RolledBackTest {
    @Entity
    static class Counted {
        @Id @GeneratedValue long id;
        @Version int version;
        @Column(unique = true) String name;
        @OneToMany(cascade = CascadeType.ALL) List<Counted> parts = new ArrayList<>();

        Counted() {}

        Counted(String name, Counted... parts) {
            this.name = name;
            this.parts.addAll(List.of(parts));
        }
    }

    @Entity
    @SequenceGenerator(name = "from100", initialValue = 100)
    static class Sequenced {
        @Id @GeneratedValue(strategy = GenerationType.SEQUENCE, generator = "from100") Long id;
        @Version Integer version;
        String name = "s";
    }

    @Entity
    static class Random {
        @Id @GeneratedValue UUID id;
        @Version long version;
        String name = "r";
    }

    private Factory factory;

    @BeforeEach
    void open() {
        factory = Units.over("karzhoul:memory", Counted.class, Sequenced.class, Random.class);
    }

    @AfterEach
    void close() {
        factory.close();
    }

    private <R> R committed(Function<EntityManager, R> work) {
        try (EntityManager manager = factory.createEntityManager()) {
            manager.getTransaction().begin();
            R result = work.apply(manager);
            manager.getTransaction().commit();
            return result;
        }
    }

    private void rolledBack(Consumer<EntityManager> work) {
        try (EntityManager manager = factory.createEntityManager()) {
            manager.getTransaction().begin();
            work.accept(manager);
            manager.getTransaction().rollback();
        }
    }

    private List<String> names() {
        return committed(manager -> manager.createQuery("SELECT c.name FROM Counted c ORDER BY c.name", String.class).getResultList());
    }

    @Test
    void itIsMergedAsNew() {
        Counted one = new Counted("one");
        rolledBack(manager -> manager.persist(one));
        long before = one.id;
        assertNotEquals(0, before);
        Counted merged = committed(manager -> manager.merge(one));
        assertEquals(before, one.id);
        assertNotEquals(before, merged.id);
        assertEquals(List.of("one"), names());
        merged.name = "two";
        assertEquals("two", committed(manager -> manager.merge(merged)).name);
        assertEquals(List.of("two"), names());
    }

    @Test
    void alsoWhatWasFlushedAndChanged() {
        Counted one = new Counted("one", new Counted("part"));
        rolledBack(manager -> {
            manager.persist(one);
            manager.flush();
            one.name = "first";
            manager.flush();
        });
        assertEquals(1, one.version);
        Counted merged = committed(manager -> manager.merge(one));
        assertEquals(0, merged.version);
        assertEquals(List.of("first", "part"), names());
        assertEquals("part", committed(manager -> manager.find(Counted.class, merged.id).parts.get(0).name));
    }

    @Test
    void itIsPersistedAgain() {
        Counted one = new Counted("one", new Counted("part"));
        rolledBack(manager -> manager.persist(one));
        long before = one.id;
        committed(manager -> {
            manager.persist(one);
            return null;
        });
        assertNotEquals(before, one.id);
        assertEquals(List.of("one", "part"), names());
        one.name = "two";
        committed(manager -> manager.merge(one));
        assertEquals(List.of("part", "two"), names());
    }

    @Test
    void aCommitThatWasRefused() {
        Counted first = committed(manager -> manager.merge(new Counted("one")));
        Counted twin = new Counted("one");
        try (EntityManager manager = factory.createEntityManager()) {
            manager.getTransaction().begin();
            manager.persist(twin);
            assertThrows(RollbackException.class, manager.getTransaction()::commit);
        }
        twin.name = "other";
        committed(manager -> manager.merge(twin));
        assertEquals(List.of("one", "other"), names());
        assertEquals("one", committed(manager -> manager.find(Counted.class, first.id)).name);
    }

    @Test
    void anImageThatAMergeMade() {
        Counted[] image = new Counted[1];
        rolledBack(manager -> image[0] = manager.merge(new Counted("one")));
        committed(manager -> manager.merge(image[0]));
        assertEquals(List.of("one"), names());
        rolledBack(manager -> image[0] = manager.merge(new Counted("two")));
        rolledBack(manager -> manager.merge(image[0]));
        committed(manager -> manager.merge(image[0]));
        assertEquals(List.of("one", "two"), names());
    }

    @Test
    void keysThatTheProgramDoesNotGive() {
        Sequenced sequenced = new Sequenced();
        Random random = new Random();
        rolledBack(manager -> {
            manager.persist(sequenced);
            manager.persist(random);
            manager.flush();
            sequenced.name = "changed";
            manager.flush();
        });
        committed(manager -> {
            manager.merge(sequenced);
            return manager.merge(random);
        });
        assertEquals("changed", committed(manager -> manager.find(Sequenced.class, sequenced.id)).name);
        assertEquals("r", committed(manager -> manager.find(Random.class, random.id)).name);
    }

    /** What was removed and persisted again has its row once that is rolled back. */
    @Test
    void aRemovalThatWasTakenBackIsNoNewOne() {
        for (boolean isFlushed : new boolean[] {false, true}) {
            Counted one = committed(manager -> manager.merge(new Counted("one" + isFlushed)));
            try (EntityManager manager = factory.createEntityManager()) {
                manager.getTransaction().begin();
                Counted managed = manager.find(Counted.class, one.id);
                manager.remove(managed);
                if (isFlushed) {
                    manager.flush();
                }
                manager.persist(managed);
                manager.getTransaction().rollback();
                managed.name += " again";
                assertEquals(one.id, committed(other -> other.merge(managed)).id);
            }
        }
        assertEquals(List.of("onefalse again", "onetrue again"), names());
    }

    @Test
    void whatWasCommittedIsStaleWhereItIsGone() {
        Counted one = new Counted("one");
        committed(manager -> {
            manager.persist(one);
            return null;
        });
        rolledBack(manager -> manager.merge(one));
        committed(manager -> manager.createQuery("DELETE FROM Counted c").executeUpdate());
        assertThrows(OptimisticLockException.class, () -> committed(manager -> manager.merge(one)));
    }
}
