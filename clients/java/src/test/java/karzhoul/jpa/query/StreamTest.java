package karzhoul.jpa.query;

import static org.junit.jupiter.api.Assertions.assertEquals;
import static org.junit.jupiter.api.Assertions.assertFalse;
import static org.junit.jupiter.api.Assertions.assertThrows;
import static org.junit.jupiter.api.Assertions.assertTrue;

import jakarta.persistence.EntityManager;
import jakarta.persistence.QueryTimeoutException;
import jakarta.persistence.TypedQuery;
import java.util.ArrayList;
import java.util.Iterator;
import java.util.List;
import java.util.stream.Collectors;
import java.util.stream.Stream;
import org.junit.jupiter.api.Test;

/** Streams of rows, which are read a page at a time (chapter 3.10.1), and the hints of queries (chapter 3.10.9). */
class StreamTest extends OverShop {
    private static final int TAGS = 3 * PagedRows.PAGE - 7;

    private void persistTags() {
        manager.getTransaction().begin();
        for (int i = 0; i < TAGS; i++) {
            Shop.Tag tag = new Shop.Tag();
            tag.code = String.format("t%04d", i);
            manager.persist(tag);
        }
        manager.flush();
        manager.clear();
        forgetSent();
    }

    private TypedQuery<Shop.Tag> tags() {
        return manager.createQuery("SELECT t FROM Tag t WHERE t.code LIKE 't%' ORDER BY t.code DESC", Shop.Tag.class);
    }

    private static String code(int i) {
        return String.format("t%04d", i);
    }

    @Test
    void eachRowIsThereOnceInOrder() {
        persistTags();
        List<String> codes = tags().getResultStream().map(tag -> tag.code).collect(Collectors.toList());
        assertEquals(TAGS, codes.size());
        for (int i = 0; i < TAGS; i++) {
            assertEquals(code(TAGS - 1 - i), codes.get(i));
        }
    }

    @Test
    void aPageIsReadAtATime() {
        persistTags();
        Iterator<Shop.Tag> tags = tags().getResultStream().iterator();
        Shop.Tag first = tags.next();
        assertTrue(manager.contains(first));
        assertEquals(1, asked().size());
        assertEquals(PagedRows.PAGE, calls("find"));
        for (int i = 1; i < PagedRows.PAGE; i++) {
            tags.next();
        }
        assertEquals(PagedRows.PAGE, calls("find"));
        tags.next();
        assertEquals(2 * PagedRows.PAGE, calls("find"));
    }

    @Test
    void rowsAreThoseOfTheBeginningWhateverChanges() {
        persistTags();
        List<String> seen = new ArrayList<>();
        int[] count = {0};
        tags().getResultStream().forEach(tag -> {
            seen.add(tag.code);
            if (++count[0] % 50 == 0) {
                manager.remove(tag);
                manager.flush();
                manager.clear();
            }
        });
        assertEquals(TAGS, seen.size());
        assertEquals(TAGS - count[0] / 50, tags().getResultList().size());
    }

    @Test
    void whatIsRemovedMeanwhileIsLeftOut() {
        persistTags();
        Iterator<Shop.Tag> tags = tags().getResultStream().iterator();
        tags.next();
        manager.createQuery("DELETE FROM Tag t WHERE t.code = 't0000'").executeUpdate();
        int count = 1;
        while (tags.hasNext()) {
            assertFalse(tags.next().code.equals("t0000"));
            count++;
        }
        assertEquals(TAGS - 1, count);
    }

    @Test
    void aStreamIsClosed() {
        persistTags();
        Stream<Shop.Tag> stream = tags().getResultStream();
        Iterator<Shop.Tag> tags = stream.iterator();
        tags.next();
        stream.close();
        assertFalse(tags.hasNext());
    }

    @Test
    void aClosedManagerIsRefused() {
        EntityManager other = factory.createEntityManager();
        Stream<Shop.Person> persons = other.createQuery("SELECT p FROM Person p", Shop.Person.class).getResultStream();
        other.close();
        assertThrows(IllegalStateException.class, persons::toList);
    }

    @Test
    void rowsOfEachKindAreThoseOfTheList() {
        for (String text : List.of("SELECT p FROM Person p", "SELECT p, p.name, t FROM Person p LEFT JOIN p.team t",
                "SELECT l FROM Place l WHERE l.at.row = 1", "SELECT s FROM Seat s", "SELECT DISTINCT p FROM Order o JOIN"
                + " o.person p", "SELECT p, COUNT(o) FROM Person p LEFT JOIN p.orders o GROUP BY p ORDER BY p.name",
                "SELECT DISTINCT p FROM Person p ORDER BY p.name", "SELECT o.person FROM Order o", "SELECT p.name FROM"
                + " Person p", "SELECT p FROM Person p LEFT JOIN FETCH p.orders WHERE UPPER(p.name) = 'ADA'",
                "SELECT NEW karzhoul.jpa.query.Shop.PlaceKey(p.age, p.name) FROM Person p WHERE p.id = 3")) {
            String streamed = Told.rows(manager.createQuery(text).getResultStream().toList(), true);
            assertEquals(Told.rows(manager.createQuery(text).getResultList(), true), streamed, text);
        }
    }

    @Test
    void firstAndMaxFetchJoinsAndGraphs() {
        TypedQuery<Shop.Person> query = manager.createQuery("SELECT p FROM Person p LEFT JOIN FETCH p.tags ORDER BY p.id",
                Shop.Person.class).setFirstResult(2).setMaxResults(1);
        var graph = manager.createEntityGraph(Shop.Person.class);
        graph.addAttributeNodes("orders");
        List<Shop.Person> found = query.setHint("jakarta.persistence.loadgraph", graph).getResultStream().toList();
        manager.clear();
        assertEquals("[Person 2]", found.toString());
        assertEquals("0 1", found.get(0).tags.size() + " " + found.get(0).orders.size());
    }

    // ---- hints

    @Test
    void whatIsNoValueOfAKnownHintIsRefused() {
        var query = manager.createQuery("SELECT p FROM Person p");
        for (String hint : List.of("jakarta.persistence.query.timeout", "jakarta.persistence.lock.timeout",
                "jakarta.persistence.cache.storeMode", "jakarta.persistence.cache.retrieveMode",
                "jakarta.persistence.lock.scope", "jakarta.persistence.fetchgraph")) {
            String message = assertThrows(IllegalArgumentException.class, () -> query.setHint(hint, "soon")).getMessage();
            assertTrue(message.startsWith("the hint " + hint + ": "), message);
        }
        assertEquals(0, query.getHints().size());
    }

    @Test
    void knownHintsAndOthersAreKept() {
        var query = manager.createQuery("SELECT p FROM Person p")
                .setHint("jakarta.persistence.query.timeout", 60_000).setHint("jakarta.persistence.lock.timeout", "0")
                .setHint("jakarta.persistence.cache.storeMode", jakarta.persistence.CacheStoreMode.REFRESH)
                .setHint("jakarta.persistence.cache.retrieveMode", "BYPASS").setHint("org.other.hint", new int[1]);
        assertEquals(5, query.getHints().size());
        assertEquals(4, query.getResultList().size());
    }

    @Test
    void aTimeoutEndsAStatementBetweenItsQuestions() {
        manager.getTransaction().begin();
        for (int i = 0; i < 2_000; i++) {
            Shop.Tag tag = new Shop.Tag();
            tag.code = "u" + i;
            manager.persist(tag);
        }
        // the door asks the block once for each tag
        var query = manager.createQuery("SELECT t FROM Tag t WHERE EXISTS (SELECT u FROM Tag u WHERE u.code = t.code"
                + " AND SQRT(LENGTH(u.code)) > 0)")
                .setHint("jakarta.persistence.query.timeout", 1);
        assertThrows(QueryTimeoutException.class, query::getResultList);
        assertFalse(manager.getTransaction().getRollbackOnly());
    }
}
