package karzhoul.jpa.context;

import static org.junit.jupiter.api.Assertions.assertEquals;
import static org.junit.jupiter.api.Assertions.assertNull;
import static org.junit.jupiter.api.Assertions.assertSame;
import static org.junit.jupiter.api.Assertions.assertThrows;
import static org.junit.jupiter.api.Assertions.assertTrue;

import jakarta.persistence.CascadeType;
import jakarta.persistence.Entity;
import jakarta.persistence.EntityManager;
import jakarta.persistence.FetchType;
import jakarta.persistence.GeneratedValue;
import jakarta.persistence.Id;
import jakarta.persistence.ManyToMany;
import jakarta.persistence.ManyToOne;
import jakarta.persistence.MapKey;
import jakarta.persistence.OneToMany;
import jakarta.persistence.PersistenceException;
import jakarta.persistence.criteria.CriteriaQuery;
import jakarta.persistence.criteria.MapJoin;
import java.util.AbstractMap;
import java.util.HashMap;
import java.util.List;
import java.util.Map;
import java.util.Set;
import java.util.function.Consumer;
import org.junit.jupiter.api.AfterEach;
import org.junit.jupiter.api.BeforeEach;
import org.junit.jupiter.api.Test;

/** Maps of entities, kept by an attribute of their values or by their key (chapters 2.7 and 11.1.33). */
class MapsTest {
    @Entity
    static class Shelf {
        @Id
        @GeneratedValue
        Long id;
        @OneToMany(mappedBy = "shelf", cascade = CascadeType.ALL, orphanRemoval = true)
        @MapKey(name = "title")
        Map<String, Tome> tomes = new HashMap<>();
        @ManyToMany(fetch = FetchType.EAGER)
        @MapKey
        Map<Long, Shelf> beside = new HashMap<>();

        void add(Tome tome) {
            tome.shelf = this;
            tomes.put(tome.title, tome);
        }
    }

    @Entity
    static class Tome {
        @Id
        @GeneratedValue
        Long id;
        String title;
        @ManyToOne
        Shelf shelf;

        Tome() {}

        Tome(String title) {
            this.title = title;
        }
    }

    private Factory factory;

    @BeforeEach
    void open() {
        factory = Units.over("karzhoul:memory", Shelf.class, Tome.class);
    }

    @AfterEach
    void close() {
        factory.close();
    }

    private void commit(Consumer<EntityManager> done) {
        try (EntityManager manager = factory.createEntityManager()) {
            manager.getTransaction().begin();
            done.accept(manager);
            manager.getTransaction().commit();
        }
    }

    private void store() {
        commit(manager -> {
            Shelf shelf = new Shelf();
            shelf.add(new Tome("a"));
            shelf.add(new Tome("b"));
            Shelf other = new Shelf();
            manager.persist(shelf);
            manager.persist(other);
            shelf.beside.put(other.id, other);
        });
    }

    @Test
    void valuesStandUnderTheirAttribute() {
        store();
        commit(manager -> {
            Shelf shelf = manager.find(Shelf.class, 1L);
            assertEquals(Set.of("a", "b"), shelf.tomes.keySet());
            assertEquals("a", shelf.tomes.get("a").title);
            assertEquals(Set.of(2L), shelf.beside.keySet());
            assertSame(manager.find(Shelf.class, 2L), shelf.beside.get(2L));
            shelf.tomes.remove("a");
            shelf.add(new Tome("c"));
            shelf.beside.clear();
        });
        commit(manager -> {
            Shelf shelf = manager.find(Shelf.class, 1L);
            assertEquals(Set.of("b", "c"), shelf.tomes.keySet());
            assertEquals(Map.of(), shelf.beside);
            assertNull(manager.find(Tome.class, 1L), "it was an orphan");
            assertEquals(2L, manager.createQuery("SELECT COUNT(t) FROM Shelf s JOIN s.tomes t WHERE t.title IN ('b', 'c')")
                .getSingleResult());
            manager.remove(shelf);
        });
        commit(manager -> assertEquals(0L, manager.createQuery("SELECT COUNT(t) FROM Tome t").getSingleResult()));
    }

    /** KEY is the attribute of the member by which it is kept, VALUE the member, ENTRY both (chapter 4.4.2.1). */
    @Test
    void queriesAskForKeysAndEntries() {
        store();
        commit(manager -> {
            Shelf shelf = manager.find(Shelf.class, 1L);
            assertEquals(List.of("a", "b"), manager.createQuery("SELECT KEY(t) FROM Shelf s JOIN s.tomes t ORDER BY KEY(t)").getResultList());
            assertEquals(List.of(2L), manager.createQuery("SELECT VALUE(t).id FROM Shelf s, IN (s.tomes) t WHERE KEY(t) = 'b'").getResultList());
            assertEquals(List.of(2L), manager.createQuery("SELECT KEY(b) FROM Shelf s JOIN s.beside b").getResultList());
            assertEquals(List.of(Map.entry(2L, manager.find(Shelf.class, 2L))),
                manager.createQuery("SELECT ENTRY(b) FROM Shelf s JOIN s.beside b").getResultList());
            List<Map.Entry> entries = manager.createQuery("SELECT DISTINCT ENTRY(t) FROM Shelf s JOIN s.tomes t WHERE s.id = 1", Map.Entry.class)
                .getResultList();
            assertEquals(shelf.tomes.entrySet(), Set.copyOf(entries));
            assertSame(shelf.tomes.get("a"), entries.get(0).getValue());
            Object[] row = (Object[]) manager.createQuery("SELECT s.id, ENTRY(t) FROM Shelf s LEFT JOIN s.tomes t WHERE s.id = 2").getSingleResult();
            assertEquals(2L, row[0]);
            assertEquals(new AbstractMap.SimpleEntry<>(null, null), row[1]);
            CriteriaQuery<Object> query = manager.getCriteriaBuilder().createQuery();
            MapJoin<Shelf, String, Tome> tome = query.from(Shelf.class).joinMap("tomes");
            query.select(tome.entry()).where(manager.getCriteriaBuilder().equal(tome.key(), "b"));
            assertEquals(List.of(Map.entry("b", shelf.tomes.get("b"))), manager.createQuery(query).getResultList());
        });
    }

    @Test
    void aMergeTakesTheMapAsItIs() {
        store();
        Shelf[] detached = new Shelf[1];
        commit(manager -> {
            detached[0] = manager.find(Shelf.class, 1L);
            detached[0].tomes.size();
        });
        detached[0].tomes.remove("b");
        detached[0].add(new Tome("d"));
        commit(manager -> assertEquals(Set.of("a", "d"), manager.merge(detached[0]).tomes.keySet()));
        commit(manager -> assertEquals(Set.of("a", "d"), manager.find(Shelf.class, 1L).tomes.keySet()));
    }

    @Test
    void aKeyThatTheValueDoesNotHaveIsRefused() {
        store();
        PersistenceException refused = assertThrows(PersistenceException.class, () -> commit(manager -> {
            Shelf shelf = manager.find(Shelf.class, 1L);
            shelf.tomes.put("other", new Tome("title"));
        }));
        String told = refused.getMessage() + refused.getCause();
        assertTrue(told.contains("Shelf.tomes has a member under the key other, and @MapKey says that it is title"), told);
        commit(manager -> assertEquals(Set.of("a", "b"), manager.find(Shelf.class, 1L).tomes.keySet()));
    }
}
