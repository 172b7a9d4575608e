package karzhoul.jpa.context;

import static org.junit.jupiter.api.Assertions.assertEquals;
import static org.junit.jupiter.api.Assertions.assertTrue;

import jakarta.persistence.EntityManager;
import jakarta.persistence.Query;
import jakarta.persistence.criteria.CriteriaBuilder;
import jakarta.persistence.criteria.CriteriaQuery;
import jakarta.persistence.criteria.Join;
import jakarta.persistence.criteria.JoinType;
import jakarta.persistence.criteria.ListJoin;
import jakarta.persistence.criteria.MapJoin;
import jakarta.persistence.criteria.Root;
import jakarta.persistence.criteria.Subquery;
import java.io.BufferedReader;
import java.io.IOException;
import java.io.InputStreamReader;
import java.math.BigDecimal;
import java.nio.charset.StandardCharsets;
import java.util.ArrayList;
import java.util.Arrays;
import java.util.Collections;
import java.util.List;
import java.util.Map;
import java.util.Set;
import java.util.function.BiConsumer;
import java.util.function.Consumer;
import java.util.function.Function;
import karzhoul.jpa.context.Page.Mark;
import karzhoul.jpa.context.Page.Spot;
import org.junit.jupiter.api.AfterEach;
import org.junit.jupiter.api.BeforeEach;
import org.junit.jupiter.api.Test;

/**
 * Queries over collections of values, and changes of these, as EclipseLink 2.7 over H2 has them: elements.tsv has a text
 * and its rows in each line.
 */
class ElementsPeerTest {
    private Factory factory;

    @BeforeEach
    void open() {
        factory = Units.over("karzhoul:memory", Page.class);
        Page one = new Page("p");
        one.words.addAll(List.of("b", "a", "b"));
        one.marks.addAll(Set.of(Mark.RED, Mark.BLUE));
        one.prices.addAll(List.of(new BigDecimal("1.500"), new BigDecimal("-2.125")));
        one.steps.addAll(List.of("one", "two", "three"));
        one.spots.addAll(List.of(new Spot(1, "x"), new Spot(2, "y")));
        one.titles.putAll(Map.of("de", "Seite", "en", "page"));
        one.places.putAll(Map.of(Mark.GREEN, new Spot(7, "g")));
        Page two = new Page("q");
        two.words.addAll(List.of("a", "z"));
        two.steps.add("two");
        two.titles.put("de", "Blatt");
        two.spots.add(new Spot(1, "z"));
        two.prices.add(new BigDecimal("10.000"));
        commit(manager -> List.of(one, two, new Page("r")).forEach(manager::persist));
    }

    @AfterEach
    void close() {
        factory.close();
    }

    private void commit(Consumer<EntityManager> done) {
        try (EntityManager manager = factory.createEntityManager()) {
            manager.getTransaction().begin();
            done.accept(manager);
            manager.getTransaction().commit();
        }
    }

    private static String told(Object item) {
        if (item instanceof Object[] items) {
            return String.join("|", Arrays.stream(items).map(ElementsPeerTest::told).toList());
        }
        return item instanceof Page page ? page.name : String.valueOf(item);
    }

    private String rows(String text) {
        return rows(manager -> manager.createQuery(text));
    }

    private String rows(Function<EntityManager, Query> query) {
        try (EntityManager manager = factory.createEntityManager()) {
            List<?> found = query.apply(manager).getResultList();
            return String.join("; ", found.stream().map(ElementsPeerTest::told).sorted().toList());
        } catch (RuntimeException e) {
            return e.toString();
        }
    }

    @Test
    void rowsAreThoseOfAnotherProvider() throws IOException {
        List<String> wrong = new ArrayList<>();
        int count = 0;
        try (BufferedReader lines = new BufferedReader(new InputStreamReader(
                ElementsPeerTest.class.getResourceAsStream("elements.tsv"), StandardCharsets.UTF_8))) {
            for (String line = lines.readLine(); line != null; line = lines.readLine(), count++) {
                String[] parts = line.split("\t");
                if (!rows(parts[0]).equals(parts[1])) {
                    wrong.add(parts[0] + "\n  is " + rows(parts[0]) + "\n  not " + parts[1]);
                }
            }
        }
        assertEquals(List.of(), wrong);
        assertEquals(31, count);
    }

    private String built(BiConsumer<CriteriaQuery<Object>, Root<Page>> build) {
        CriteriaQuery<Object> query = factory.getCriteriaBuilder().createQuery(Object.class);
        build.accept(query, query.from(Page.class));
        return rows(manager -> manager.createQuery(query));
    }

    /** The rows of elements.tsv, of the same queries in criteria. */
    @Test
    void criteriaHaveTheRowsOfAnotherProvider() {
        CriteriaBuilder cb = factory.getCriteriaBuilder();
        assertEquals("a; b; z", built((query, p) -> query.select(p.join("words")).distinct(true)));
        assertEquals("p|a; p|b; p|b; q|a; q|z; r|null",
            built((query, p) -> query.multiselect(p, p.joinList("words", JoinType.LEFT))));
        assertEquals("a|2; b|2; z|1", built((query, p) -> {
            Join<Page, String> word = p.join("words");
            query.multiselect(word, cb.count(word)).groupBy(word);
        }));
        assertEquals("BLUE; RED", built((query, p) -> query.select(p.joinSet("marks"))));
        assertEquals("x; z", built((query, p) -> {
            Join<Page, Spot> spot = p.joinList("spots");
            query.select(spot.get("word")).where(cb.equal(spot.get("left"), 1));
        }));
        assertEquals("4", built((query, p) -> query.select(cb.sum(p.joinList("spots").<Integer>get("left")))));
        assertEquals("r", built((query, p) -> query.select(p).where(p.joinList("spots", JoinType.LEFT).get("left").isNull())));
        assertEquals("q", built((query, p) -> {
            Subquery<String> found = query.subquery(String.class);
            Join<Page, String> word = found.correlate(p).join("words");
            query.select(p).where(cb.exists(found.select(word).where(cb.equal(word, "z"))));
        }));
    }

    /** As those, by KEY, VALUE and INDEX. */
    @Test
    void criteriaHaveTheKeysAndPlacesOfAnotherProvider() {
        CriteriaBuilder cb = factory.getCriteriaBuilder();
        assertEquals("de|Blatt; de|Seite; en|page", built((query, p) -> {
            MapJoin<Page, String, String> title = p.joinMap("titles");
            query.multiselect(title.key(), title.value());
        }));
        assertEquals("p|Seite; q|Blatt", built((query, p) -> {
            MapJoin<Page, String, String> title = p.joinMap("titles");
            query.multiselect(p.get("name"), title).where(cb.equal(title.key(), "de"));
        }));
        assertEquals("p|a; p|b; p|b", built((query, p) -> {
            Join<Page, String> word = p.join("words");
            MapJoin<Page, String, String> title = p.joinMap("titles");
            query.multiselect(p.get("name"), word).where(cb.equal(title.key(), "en"));
        }));
        assertEquals("GREEN|7", built((query, p) -> {
            MapJoin<Page, Mark, Spot> place = p.joinMap("places");
            query.multiselect(place.key(), place.get("left"));
        }));
        assertEquals("one|0; three|2; two|0; two|1", built((query, p) -> {
            ListJoin<Page, String> step = p.joinList("steps");
            query.multiselect(step, step.index());
        }));
        assertEquals("three; two", built((query, p) -> {
            ListJoin<Page, String> step = p.joinList("steps");
            query.select(step).where(cb.gt(step.index(), 0));
        }));
        assertEquals("de=Blatt; de=Seite; en=page",
            built((query, p) -> query.select(p.<Page, String, String>joinMap("titles").entry())));
        assertTrue(built((query, p) -> query.select(p.joinList("words").index()))
            .contains("INDEX takes a variable along a List of values with @OrderColumn"));
    }

    /** There each of these raised the version by one, but for the last two, which change nothing. */
    @Test
    void versionsAreThoseOfAnotherProvider() {
        List<Consumer<Page>> changes = List.of(it -> it.words.add("c"), it -> it.words.remove("b"),
            it -> it.words = new ArrayList<>(List.of("e")), it -> it.marks.add(Mark.GREEN), it -> it.steps.add(1, "x"),
            it -> Collections.swap(it.steps, 0, 2), it -> it.titles.put("de", "B"), it -> it.titles.remove("en"),
            it -> it.places.put(Mark.RED, new Spot(1, "r")), it -> it.spots.remove(0),
            it -> it.words = new ArrayList<>(List.of("e")), it -> { });
        List<Integer> versions = new ArrayList<>();
        for (Consumer<Page> change : changes) {
            commit(manager -> change.accept(manager.find(Page.class, 1L)));
            commit(manager -> versions.add(manager.find(Page.class, 1L).version));
        }
        assertEquals(List.of(1, 2, 3, 4, 5, 6, 7, 8, 9, 10, 10, 10), versions);
    }
}
