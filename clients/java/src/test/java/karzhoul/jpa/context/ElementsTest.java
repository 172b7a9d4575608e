package karzhoul.jpa.context;

import static org.junit.jupiter.api.Assertions.assertEquals;
import static org.junit.jupiter.api.Assertions.assertFalse;
import static org.junit.jupiter.api.Assertions.assertNull;
import static org.junit.jupiter.api.Assertions.assertThrows;
import static org.junit.jupiter.api.Assertions.assertTrue;

import jakarta.persistence.EntityManager;
import jakarta.persistence.criteria.CriteriaBuilder;
import jakarta.persistence.criteria.CriteriaQuery;
import jakarta.persistence.OptimisticLockException;
import jakarta.persistence.PersistenceException;
import jakarta.persistence.RollbackException;
import java.io.ByteArrayInputStream;
import java.io.ByteArrayOutputStream;
import java.io.ObjectInputStream;
import java.io.ObjectOutputStream;
import java.math.BigDecimal;
import java.util.ArrayList;
import java.util.Arrays;
import java.util.Collections;
import java.util.Date;
import java.util.HashMap;
import java.util.List;
import java.util.Map;
import java.util.Set;
import java.util.function.Consumer;
import java.util.function.Function;
import karzhoul.jpa.context.Page.Mark;
import karzhoul.jpa.context.Page.Spot;
import org.junit.jupiter.api.AfterEach;
import org.junit.jupiter.api.BeforeEach;
import org.junit.jupiter.api.Test;
import org.junit.jupiter.api.function.Executable;

/** Collections of values: they live with their owner, and raise its version (chapters 2.6, 2.7, 3.2, 11.1.14). */
class ElementsTest {
    private Factory factory;
    private EntityManager manager;

    @BeforeEach
    void open() {
        factory = Units.over("karzhoul:memory", Page.class);
        manager = factory.createEntityManager();
    }

    @AfterEach
    void close() {
        factory.close();
    }

    private static Page full() {
        Page page = new Page("p");
        page.words.addAll(List.of("b", "a", "b"));
        page.marks.addAll(Set.of(Mark.RED, Mark.BLUE));
        page.prices.addAll(List.of(new BigDecimal("1.500"), new BigDecimal("-2.125")));
        page.steps.addAll(List.of("one", "two", "three"));
        page.spots.addAll(List.of(new Spot(1, "x"), new Spot(2, null)));
        page.titles.putAll(Map.of("de", "Seite", "en", "page"));
        page.places.putAll(Map.of(Mark.GREEN, new Spot(7, "g")));
        page.sorted.addAll(List.of(new Spot(1, "c"), new Spot(3, "a"), new Spot(2, "b")));
        page.dates.add(new Date(86_400_123));
        return page;
    }

    private static List<Object> content(Page page) {
        List<String> words = new ArrayList<>(page.words);
        Collections.sort(words);
        return List.of(words, Set.copyOf(page.marks), Set.copyOf(page.prices), List.copyOf(page.steps),
            Set.copyOf(page.spots), Map.copyOf(page.titles), Map.copyOf(page.places), Set.copyOf(page.sorted),
            Set.copyOf(page.dates));
    }

    private void commit(Consumer<EntityManager> done) {
        try (EntityManager other = factory.createEntityManager()) {
            other.getTransaction().begin();
            done.accept(other);
            other.getTransaction().commit();
        }
    }

    private <T> T read(Function<Page, T> read) {
        try (EntityManager other = factory.createEntityManager()) {
            return read.apply(other.find(Page.class, 1L));
        }
    }

    private void change(Consumer<Page> change) {
        commit(other -> change.accept(other.find(Page.class, 1L)));
    }

    private long rows() {
        return Units.rowsOfElements(factory);
    }

    @Test
    void theyComeBackAsTheyWere() {
        Page page = full();
        commit(other -> other.persist(page));
        assertEquals(content(full()), read(ElementsTest::content));
        assertEquals(List.of(3, 2, 1), read(it -> it.sorted.stream().map(spot -> spot.left).toList()));
        assertEquals(0, (int) read(it -> it.version));
        change(it -> assertEquals(content(full()), content(it)));
        assertEquals(0, (int) read(it -> it.version), "nothing was changed");
        assertEquals(19, rows());
    }

    @Test
    void eachChangeRaisesTheVersionOnceAndIsKept() {
        commit(other -> other.persist(full()));
        List<Consumer<Page>> changes = List.of(
            it -> it.words.remove("b"), it -> it.words.add("c"), it -> it.words.set(0, "d"),
            it -> it.words.clear(), it -> it.words = new ArrayList<>(List.of("e", "f")), it -> it.words = null,
            it -> it.marks.remove(Mark.RED), it -> it.marks.add(Mark.GREEN), it -> it.prices.add(new BigDecimal("3.000")),
            it -> it.steps.add(1, "between"), it -> Collections.swap(it.steps, 0, 2), it -> it.steps.remove(0),
            it -> it.spots.get(0).word = "changed", it -> it.spots.remove(1),
            it -> it.titles.put("fr", "page"), it -> it.titles.put("de", "Blatt"), it -> it.titles.remove("en"),
            it -> it.titles.entrySet().iterator().next().setValue("v"),
            it -> it.places.get(Mark.GREEN).left = 8, it -> it.places.clear(),
            it -> it.dates.iterator().next().setTime(5));
        for (int i = 0; i < changes.size(); i++) {
            List<List<Object>> expected = new ArrayList<>();
            int place = i;
            change(it -> {
                changes.get(place).accept(it);
                Page copy = it.words == null ? withWords(it) : it;
                expected.add(content(copy));
            });
            assertEquals(expected.get(0), read(ElementsTest::content), "change " + i);
            assertEquals(i + 1, (int) read(it -> it.version), "change " + i);
        }
    }

    private static Page withWords(Page of) {
        Page copy = new Page(of.name);
        copy.marks = of.marks;
        copy.prices = of.prices;
        copy.steps = of.steps;
        copy.spots = of.spots;
        copy.titles = of.titles;
        copy.places = of.places;
        copy.sorted = of.sorted;
        copy.dates = of.dates;
        return copy;
    }

    @Test
    void theyGoWithTheirOwner() {
        commit(other -> other.persist(full()));
        commit(other -> other.remove(other.find(Page.class, 1L)));
        assertEquals(0, rows());
        assertNull(read(it -> it));
    }

    @Test
    void nullsStandAmongBasicsAndAreRefusedAmongEmbeddables() {
        Page page = new Page("p");
        page.words.addAll(Arrays.asList("a", null, null));
        commit(other -> other.persist(page));
        assertEquals(Arrays.asList("a", null, null), read(it -> new ArrayList<>(it.words)));
        PersistenceException refused = assertThrows(PersistenceException.class, () -> change(it -> it.spots.add(null)));
        assertTrue(told(refused).contains("Page 1.spots has a member that is null"), told(refused));
        refused = assertThrows(PersistenceException.class, () -> change(it -> it.marks.add(null)));
        assertTrue(told(refused).contains("required"), told(refused));
        refused = assertThrows(PersistenceException.class,
            () -> change(it -> it.prices.add(new BigDecimal("0.0001"))));
        assertTrue(told(refused).contains("Page 1.prices can't be stored"), told(refused));
        assertEquals(3, rows());
    }

    private static String told(Throwable raised) {
        return raised.getMessage() + (raised.getCause() == null ? "" : told(raised.getCause()));
    }

    @Test
    void lazyOnesAreReadWhenTheyAreLookedAtAndRefusedOnceDetached() {
        commit(other -> other.persist(full()));
        Page page = manager.find(Page.class, 1L);
        var util = factory.getPersistenceUnitUtil();
        assertFalse(util.isLoaded(page, "words"));
        assertTrue(util.isLoaded(page, "prices"));
        assertEquals(3, page.words.size());
        assertTrue(util.isLoaded(page, "words"));
        manager.clear();
        assertEquals(3, page.words.size());
        PersistenceException refused = assertThrows(PersistenceException.class, () -> page.steps.size());
        assertTrue(refused.getMessage().contains("steps wasn't read before"), refused.getMessage());
    }

    @Test
    void refreshDropsWhatAMergeChanged() {
        commit(other -> other.persist(full()));
        List<Consumer<Page>> changes = List.of(it -> it.words.add("new"), it -> it.words.clear(),
            it -> it.steps.add(0, "zero"), it -> it.spots.get(0).left = 9, it -> it.titles.put("fr", "page"),
            it -> it.titles.remove("de"), it -> it.places.get(Mark.GREEN).left = 8, it -> it.marks.remove(Mark.RED));
        List<String> faults = new ArrayList<>();
        for (Consumer<Page> change : changes) {
            Page detached = read(it -> {
                content(it);
                return it;
            });
            change.accept(detached);
            try {
                commit(other -> {
                    Page merged = other.merge(detached);
                    assertEquals(content(detached), content(merged));
                    other.refresh(merged);
                    assertEquals(content(full()), content(merged));
                });
            } catch (RuntimeException e) {
                faults.add(changes.indexOf(change) + " " + e);
            }
            assertEquals(content(full()), read(ElementsTest::content));
            assertEquals(19, rows());
        }
        assertEquals(List.of(), faults);
    }

    @Test
    void refreshBringsBackWhatTheRowHas() {
        commit(other -> other.persist(full()));
        manager.getTransaction().begin();
        Page page = manager.find(Page.class, 1L);
        List<String> words = page.words;
        words.add("more");
        page.titles.clear();
        page.prices.clear();
        manager.refresh(page);
        assertEquals(content(full()), content(page));
        assertEquals(3, words.size());
        manager.getTransaction().commit();
        assertEquals(0, (int) read(it -> it.version));
        assertEquals(19, rows());
    }

    @Test
    void mergeOfWhatWasDetachedChangesWhatDiffers() throws Exception {
        commit(other -> other.persist(full()));
        Page detached = read(it -> {
            content(it);
            return it;
        });
        commit(other -> other.merge(detached));
        assertEquals(0, (int) read(it -> it.version), "nothing differs");
        assertEquals(19, rows());
        detached.words.add("new");
        detached.spots.get(0).left = 9;
        detached.titles.remove("de");
        commit(other -> assertEquals(content(detached), content(other.merge(detached))));
        assertEquals(content(detached), read(ElementsTest::content));
        assertEquals(1, (int) read(it -> it.version));
        assertEquals(19, rows());
    }

    @Test
    void mergeOfWhatWasSerializedDoesTheSame() throws Exception {
        commit(other -> other.persist(full()));
        Page sent = sent(read(it -> {
            it.words.size();
            return it;
        }));
        assertEquals(3, sent.words.size());
        assertThrows(PersistenceException.class, () -> sent.steps.size());
        commit(other -> other.merge(sent));
        assertEquals(0, (int) read(it -> it.version), "nothing differs");
        sent.words.remove("a");
        commit(other -> other.merge(sent));
        assertEquals(List.of("b", "b"), read(it -> List.copyOf(it.words)));
        assertEquals(3, (int) read(it -> it.steps.size()));
        assertEquals(18, rows());
    }

    private static Page sent(Page page) throws Exception {
        ByteArrayOutputStream bytes = new ByteArrayOutputStream();
        try (ObjectOutputStream out = new ObjectOutputStream(bytes)) {
            out.writeObject(page);
        }
        return (Page) new ObjectInputStream(new ByteArrayInputStream(bytes.toByteArray())).readObject();
    }

    @Test
    void mergeOfANewOneStoresThem() {
        commit(other -> other.merge(full()));
        assertEquals(content(full()), read(ElementsTest::content));
        assertEquals(19, rows());
    }

    @Test
    void twoWritersOfOneCollectionConflict() {
        commit(other -> other.persist(full()));
        manager.getTransaction().begin();
        manager.find(Page.class, 1L).words.add("mine");
        change(it -> it.words.add("other"));
        RollbackException refused = assertThrows(RollbackException.class, () -> manager.getTransaction().commit());
        assertTrue(refused.getCause() instanceof OptimisticLockException, told(refused));
        assertEquals(4, (int) read(it -> it.words.size()));
    }

    @Test
    void aRollbackLeavesTheRowsAndThePersistedIsPersistedAgain() {
        Page page = full();
        manager.getTransaction().begin();
        manager.persist(page);
        manager.flush();
        manager.getTransaction().rollback();
        assertEquals(0, rows());
        page.id = null;
        page.version = 0;
        manager.getTransaction().begin();
        manager.persist(page);
        manager.getTransaction().commit();
        assertEquals(19, rows());
        page.words.add("z");
        manager.getTransaction().begin();
        manager.getTransaction().commit();
        assertEquals(20, rows());
    }

    private static List<Object> asked(EntityManager manager, String text, Object... parameters) {
        var query = manager.createQuery(text);
        for (int i = 0; i < parameters.length; i++) {
            query.setParameter(i + 1, parameters[i]);
        }
        List<Object> rows = new ArrayList<>();
        List<?> found = query.getResultList();
        found.forEach(row -> rows.add(row instanceof Object[] items ? Arrays.asList(items) : row));
        return rows;
    }

    @Test
    void queriesGoOverThem() {
        commit(other -> {
            other.persist(full());
            Page second = new Page("q");
            second.words.addAll(List.of("a", "z"));
            second.titles.put("de", "Blatt");
            other.persist(second);
            other.persist(new Page("r"));
        });
        assertEquals(List.of("a", "b", "b"),
            asked(manager, "SELECT w FROM Page p JOIN p.words w WHERE p.name = 'p' ORDER BY w"));
        assertEquals(List.of("p", "q"), asked(manager, "SELECT p.name FROM Page p WHERE ?1 MEMBER OF p.words ORDER BY p.name", "a"));
        assertEquals(List.of("p", "r"), asked(manager, "SELECT p.name FROM Page p WHERE 'z' NOT MEMBER OF p.words ORDER BY p.name"));
        assertEquals(List.of("r"), asked(manager, "SELECT p.name FROM Page p WHERE p.words IS EMPTY"));
        assertEquals(List.of("p"), asked(manager, "SELECT p.name FROM Page p WHERE ?1 MEMBER OF p.marks", Mark.RED));
        assertEquals(List.of("p"), asked(manager, "SELECT p.name FROM Page p JOIN p.marks m WHERE m = ?1", Mark.BLUE));
        assertEquals(List.of(List.of("p", 3), List.of("q", 2), List.of("r", 0)),
            asked(manager, "SELECT p.name, SIZE(p.words) FROM Page p ORDER BY p.name"));
        assertEquals(List.of(List.of("a", 2L), List.of("b", 2L), List.of("z", 1L)),
            asked(manager, "SELECT w, COUNT(w) FROM Page p JOIN p.words w GROUP BY w ORDER BY w"));
        assertEquals(List.of(List.of("Blatt", "q"), List.of("Seite", "p")),
            asked(manager, "SELECT VALUE(t), p.name FROM Page p JOIN p.titles t WHERE KEY(t) = 'de' ORDER BY t"));
        assertEquals(List.of("three", "two"),
            asked(manager, "SELECT s FROM Page p JOIN p.steps s WHERE INDEX(s) > 0 ORDER BY INDEX(s) DESC"));
        assertEquals(List.of(new Spot(1, "x")),
            asked(manager, "SELECT s FROM Page p JOIN p.spots s WHERE s.word = 'x'"));
        assertEquals(List.of(List.of(Mark.GREEN, 7)),
            asked(manager, "SELECT KEY(s), s.left FROM Page p JOIN p.places s"));
        assertEquals(List.of(Arrays.asList("q", null), Arrays.asList("r", null)),
            asked(manager, "SELECT p.name, s FROM Page p LEFT JOIN p.places s WHERE p.name > 'p' ORDER BY p.name"));
        assertEquals(List.of(new BigDecimal("-0.625")),
            asked(manager, "SELECT SUM(c) FROM Page p JOIN p.prices c"));
        Page fetched = (Page) asked(manager, "SELECT DISTINCT p FROM Page p JOIN FETCH p.words WHERE p.name = 'p'").get(0);
        assertTrue(factory.getPersistenceUnitUtil().isLoaded(fetched, "words"));
        assertEquals(1L, asked(manager, "SELECT COUNT(p) FROM Page p WHERE EXISTS (SELECT w FROM p.words w WHERE w = 'z')").get(0));
        for (String refused : List.of("SELECT r FROM Page__words r", "SELECT NEW java.util.ArrayList(ENTRY(t)) FROM Page p JOIN p.titles t",
            "SELECT t FROM Page p JOIN p.titles t ORDER BY ENTRY(t)", "SELECT ENTRY(t).key FROM Page p JOIN p.titles t",
            "SELECT INDEX(w) FROM Page p JOIN p.words w", "SELECT KEY(w) FROM Page p JOIN p.words w",
            "SELECT p FROM Page p WHERE ?1 MEMBER OF p.spots", "SELECT w.x FROM Page p JOIN p.words w")) {
            assertThrows(IllegalArgumentException.class, () -> manager.createQuery(refused), refused);
        }
    }

    /** As EclipseLink 2.7 counts them. */
    @Test
    void embeddablesAreCountedByTheirRows() {
        Page second = new Page("q");
        second.spots.addAll(List.of(new Spot(1, "x"), new Spot(1, "x"), new Spot(2, null)));
        second.places.put(Mark.RED, new Spot(1, "r"));
        commit(other -> List.of(second, new Page("r")).forEach(other::persist));
        assertEquals(List.of(3L), asked(manager, "SELECT COUNT(s) FROM Page p JOIN p.spots s"));
        assertEquals(List.of(List.of("q", 3L), List.of("r", 0L)),
            asked(manager, "SELECT p.name, COUNT(s) FROM Page p LEFT JOIN p.spots s GROUP BY p.name ORDER BY p.name"));
        assertEquals(List.of("q"), asked(manager, "SELECT p.name FROM Page p JOIN p.spots s GROUP BY p.name HAVING COUNT(s) > 2"));
        assertEquals(List.of("q"), asked(manager, "SELECT p.name FROM Page p WHERE (SELECT COUNT(s) FROM p.spots s) = 3"));
        assertEquals(List.of(List.of(1L, 1L)), asked(manager, "SELECT COUNT(VALUE(s)), COUNT(KEY(s)) FROM Page p JOIN p.places s"));
        assertEquals(List.of(List.of(1.0, 3L)), asked(manager, "SELECT MIN(SQRT(s.left)), COUNT(s) FROM Page p JOIN p.spots s"));
        CriteriaBuilder cb = factory.getCriteriaBuilder();
        CriteriaQuery<Long> counting = cb.createQuery(Long.class);
        counting.select(cb.count(counting.from(Page.class).join("spots")));
        assertEquals(3L, manager.createQuery(counting).getSingleResult());
        counting.select(cb.countDistinct(counting.getRoots().iterator().next().getJoins().iterator().next()));
        for (Executable refused : List.<Executable>of(() -> asked(manager, "SELECT COUNT(DISTINCT s) FROM Page p JOIN p.spots s"),
                () -> manager.createQuery(counting))) {
            String words = assertThrows(IllegalArgumentException.class, refused).getMessage();
            assertTrue(words.matches("(?s).*COUNT\\(DISTINCT \\w+\\) isn't served: \"\\w+\" is an embeddable, .*"), words);
        }
        String words = assertThrows(IllegalArgumentException.class,
            () -> asked(manager, "SELECT s FROM Page p JOIN p.spots s ORDER BY s")).getMessage();
        assertTrue(words.contains("\"s\" is an embeddable of a collection") && words.contains("name its attributes, as \"s.left\""), words);
    }

    @Test
    void aDeleteTakesTheirRowsAlong() {
        commit(other -> {
            other.persist(full());
            other.persist(new Page("q"));
            Page third = new Page("r");
            third.words.add("w");
            other.persist(third);
        });
        commit(other -> assertEquals(1, other.createQuery("DELETE FROM Page p WHERE p.name = :n AND 'a' MEMBER OF p.words")
            .setParameter("n", "p").executeUpdate()));
        assertEquals(1, rows());
        commit(other -> assertEquals(2, other.createQuery("DELETE FROM Page").executeUpdate()));
        assertEquals(0, rows());
    }

    @Test
    void theyGoOnOverANewRunOfTheProgram() {
        commit(other -> other.persist(full()));
        Page page = manager.find(Page.class, 1L);
        page.words.add("before");
        page.titles.remove("en");
        assertTrue(factory.pool().restartIfIdle());
        assertEquals(3, page.steps.size());
        page.steps.add("after");
        manager.getTransaction().begin();
        manager.getTransaction().commit();
        assertEquals(content(page), read(ElementsTest::content));
        assertEquals(20, rows());
    }

    @Test
    void aCollectionThatMovesIsInBoth() {
        commit(other -> {
            other.persist(full());
            other.persist(new Page("q"));
        });
        change(it -> { });
        commit(other -> {
            Page one = other.find(Page.class, 1L);
            Page two = other.find(Page.class, 2L);
            two.words = one.words;
            two.titles = one.titles;
            one.titles = new HashMap<>();
        });
        commit(other -> {
            assertEquals(3, other.find(Page.class, 1L).words.size());
            assertEquals(3, other.find(Page.class, 2L).words.size());
            assertEquals(Map.of(), other.find(Page.class, 1L).titles);
            assertEquals(Map.of("de", "Seite", "en", "page"), other.find(Page.class, 2L).titles);
        });
        assertEquals(22, rows());
    }
}
