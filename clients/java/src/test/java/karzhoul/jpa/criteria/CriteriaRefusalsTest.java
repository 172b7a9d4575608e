package karzhoul.jpa.criteria;

import static org.junit.jupiter.api.Assertions.assertEquals;
import static org.junit.jupiter.api.Assertions.assertThrows;
import static org.junit.jupiter.api.Assertions.assertTrue;

import jakarta.persistence.criteria.CriteriaBuilder;
import jakarta.persistence.criteria.CriteriaQuery;
import jakarta.persistence.criteria.CriteriaUpdate;
import jakarta.persistence.criteria.Expression;
import jakarta.persistence.criteria.Join;
import jakarta.persistence.criteria.JoinType;
import jakarta.persistence.criteria.Predicate;
import jakarta.persistence.criteria.Root;
import jakarta.persistence.criteria.Subquery;
import java.util.ArrayList;
import java.util.List;
import java.util.Map;
import java.util.function.Consumer;
import karzhoul.jpa.query.OverShop;
import karzhoul.jpa.query.Shop;
import karzhoul.jpa.query.Shop.Person;
import org.junit.jupiter.api.Test;

/** What isn't right or isn't served, each with its words. */
class CriteriaRefusalsTest extends OverShop {
    private final List<String> wrong = new ArrayList<>();

    private void refused(Class<? extends RuntimeException> type, String words, Consumer<CriteriaQuery<Object>> built) {
        CriteriaQuery<Object> query = manager.getCriteriaBuilder().createQuery();
        try {
            built.accept(query);
            manager.createQuery(query);
            wrong.add("not refused: " + words);
        } catch (RuntimeException e) {
            if (!type.isInstance(e) || !e.getMessage().contains(words)) {
                wrong.add(words + "\n  is " + e);
            }
        }
    }

    private void argument(String words, Consumer<CriteriaQuery<Object>> built) {
        refused(IllegalArgumentException.class, words, built);
    }

    private void state(String words, Consumer<CriteriaQuery<Object>> built) {
        refused(IllegalStateException.class, words, built);
    }

    @Test
    void eachIsRefusedInWords() {
        CriteriaBuilder cb = manager.getCriteriaBuilder();
        paths(cb);
        statements(cb);
        selections(cb);
        conditions(cb);
        unserved(cb);
        assertEquals(List.of(), wrong);
    }

    private void paths(CriteriaBuilder cb) {
        argument("Shop$Person has no attribute \"nam\"; it has [", q -> q.from(Person.class).get("nam"));
        argument("java.lang.String is no entity", q -> q.from(String.class));
        state("\"name\" has no attributes, and \"length\" is asked of it",
                q -> q.from(Person.class).get("name").get("length"));
        state("\"orders\" has no attributes, and \"amount\" is asked of it",
                q -> q.from(Person.class).get("orders").get("amount"));
        argument("\"name\" is a value, and no relation", q -> q.from(Person.class).join("name"));
        argument("\"age\" is a value, and no relation", q -> q.from(Person.class).fetch("age"));
        argument("\"orders\" is of java.util.List, which is joined by another method",
                q -> q.from(Person.class).joinSet("orders"));
        argument("\"team\" is of karzhoul.jpa.query.Shop$Team, which is joined by another method",
                q -> q.from(Person.class).joinList("team"));
        argument("an attribute is null", q -> q.from(Person.class)
                .get((jakarta.persistence.metamodel.SingularAttribute<Person, String>) null));
        argument("is of another query", q -> q.select(q.from(Person.class))
                .where(cb.isNull(cb.createQuery().from(Person.class).get("name"))));
        argument("is of another query", q -> {
            Subquery<Person> sub = q.subquery(Person.class);
            Root<Person> inner = sub.from(Person.class);
            q.select(q.from(Shop.Order.class)).where(cb.equal(inner.get("age"), 1));
        });
    }

    private void statements(CriteriaBuilder cb) {
        state("selects nothing, and has 0 roots", q -> { });
        state("the query has no root", q -> q.select(cb.literal(1)));
        state("a subquery has no root", q -> {
            Root<Person> p = q.from(Person.class);
            Subquery<Person> sub = q.subquery(Person.class);
            q.select(p).where(cb.exists(sub.select(sub.correlate(p))));
        });
        state("a subquery selects nothing", q -> q.select(q.from(Person.class))
                .where(cb.exists(q.subquery(Person.class))));
        argument("a subquery fetches nothing", q -> {
            Root<Person> p = q.from(Person.class);
            Subquery<Person> sub = q.subquery(Person.class);
            Root<Person> inner = sub.from(Person.class);
            inner.fetch("team");
            q.select(p).where(cb.exists(sub.select(inner)));
        });
        argument("is an inner one without ON", q -> {
            Root<Person> p = q.from(Person.class);
            Subquery<Object> sub = q.subquery(Object.class);
            q.select(p).where(cb.exists(sub.select(sub.correlate(p).join("orders", JoinType.LEFT))));
        });
        CriteriaUpdate<Person> update = cb.createCriteriaUpdate(Person.class);
        assertThrows(IllegalStateException.class, update::getRoot);
        assertThrows(IllegalStateException.class, () -> manager.createQuery(update));
        Root<Person> root = update.from(Person.class);
        assertThrows(IllegalStateException.class, () -> manager.createQuery(update));
        update.set("id", 5L);
        String said = assertThrows(IllegalArgumentException.class, () -> manager.createQuery(update)).getMessage();
        assertTrue(said.contains("is part of the key, which SET doesn't change"), said);
        root.join("team");
        said = assertThrows(IllegalArgumentException.class, () -> manager.createQuery(update)).getMessage();
        assertTrue(said.contains("an UPDATE or DELETE has no joins"), said);
        assertThrows(IllegalArgumentException.class, () -> cb.createCriteriaDelete(String.class));
        assertThrows(IllegalArgumentException.class, () -> manager.createQuery((CriteriaQuery<Object>) null));
    }

    private void selections(CriteriaBuilder cb) {
        argument("two items are named \"n\"", q -> {
            Root<Person> p = q.from(Person.class);
            q.multiselect(p.get("name").alias("n"), p.get("age").alias("n"));
        });
        argument("an item is a tuple, which stands alone",
                q -> q.multiselect(cb.tuple(q.from(Person.class)), cb.literal(1)));
        argument("an item is an array, which stands alone",
                q -> q.select(cb.construct(String.class, cb.array(q.from(Person.class)))));
        argument("an item is an object of java.lang.String, which stands alone", q -> q.select(
                cb.construct(String.class, cb.construct(String.class, q.from(Person.class).get("name")))));
        argument("an array has no items", q -> cb.array());
        argument("java.lang.String has no constructor of (Integer, Integer)", q -> {
            Root<Person> p = q.from(Person.class);
            q.select(cb.construct(String.class, p.get("age"), p.get("age")));
        });
        argument("a condition stands where a value is expected",
                q -> q.select(cb.isNull(q.from(Person.class).get("name"))));
        argument("stands outside of aggregates, and isn't one of GROUP BY", q -> {
            Root<Person> p = q.from(Person.class);
            q.multiselect(p.get("name"), cb.count(p));
        });
        @SuppressWarnings({"unchecked", "rawtypes"})
        CriteriaQuery<String> texts = (CriteriaQuery) manager.getCriteriaBuilder().createQuery(String.class);
        @SuppressWarnings({"unchecked", "rawtypes"})
        Expression<String> age = (Expression) texts.from(Person.class).get("age");
        texts.select(age);
        assertThrows(IllegalArgumentException.class, () -> manager.createQuery(texts));
    }

    private void conditions(CriteriaBuilder cb) {
        argument("nothing is equal to NULL; IS NULL asks for it",
                q -> q.select(where(cb, q, p -> cb.equal(p.get("name"), (Object) null))));
        argument("a number is compared with a text",
                q -> q.select(where(cb, q, p -> cb.equal(p.get("age"), "old"))));
        argument("an expression is null", q -> q.where(cb.and((Predicate) null)));
        argument("a literal is null", q -> cb.literal(null));
        state("a CASE has no WHEN", q -> q.select(where(cb, q,
                p -> cb.isNull(cb.selectCase().otherwise(p.get("name"))))));
        state("a COALESCE has no values", q -> q.select(where(cb, q, p -> cb.isNull(cb.coalesce()))));
        argument("ANY of a subquery stands on the right of a comparison alone", q -> {
            Subquery<Integer> sub = q.subquery(Integer.class);
            sub.select(sub.from(Person.class).get("age"));
            q.select(where(cb, q, p -> cb.equal(cb.any(sub), 1)));
        });
        argument("IS EMPTY takes a path to a collection", q -> q.select(where(cb, q,
                p -> cb.isEmpty(p.<List<Object>>get("team")))));
        argument("java.lang.Integer is no entity class", q -> q.select(where(cb, q,
                p -> cb.equal(p.type(), Integer.class))));
    }

    private static Root<Person> where(CriteriaBuilder cb, CriteriaQuery<?> query,
            java.util.function.Function<Root<Person>, Predicate> built) {
        Root<Person> p = query.from(Person.class);
        query.where(built.apply(p));
        return p;
    }

    @SuppressWarnings("unchecked")
    private void unserved(CriteriaBuilder cb) {
        refused(UnsupportedOperationException.class, "right joins aren't served",
                q -> q.from(Person.class).join("orders", JoinType.RIGHT));
        argument("FUNCTION isn't served", q -> cb.function("soundex", String.class));
        argument("maps of entities aren't kept", q -> cb.keys(Map.of("a", 1)));
        argument("maps of entities aren't kept", q -> cb.values(Map.of("a", 1)));
        argument("INDEX takes a variable along a List of values with @OrderColumn",
                q -> q.select(q.from(Person.class).joinList("orders").index()));
        argument("joined by another method", q -> q.from(Person.class).joinMap("orders"));
        argument("isn't below", q -> cb.treat((Root) q.from(Shop.Vip.class), Person.class));
        argument("SQRT isn't among what the program computes", q -> {
            Root<Person> p = q.from(Person.class);
            Join<Person, Person> boss = p.join("boss", JoinType.LEFT);
            q.select(p).where(cb.isNotNull(boss.on(cb.equal(cb.sqrt(boss.get("age")), 6))));
        });
        argument("TREAT isn't served in the ON of a LEFT JOIN", q -> {
            Root<Person> p = q.from(Person.class);
            p.join("boss", JoinType.LEFT).on(cb.equal(cb.treat(p, Shop.Vip.class).get("discount"), 1));
        });
        argument("a join is along a path of a variable", q -> {
            Root<Person> p = q.from(Person.class);
            cb.treat(p, Shop.Vip.class).join("orders");
            q.select(p);
        });
    }

    @Test
    void aRefusalMarksAnOpenTransaction() {
        manager.getTransaction().begin();
        CriteriaQuery<Object> query = manager.getCriteriaBuilder().createQuery();
        Root<Person> p = query.from(Person.class);
        query.select(p).where(manager.getCriteriaBuilder().equal(p.get("age"), "old"));
        assertThrows(IllegalArgumentException.class, () -> manager.createQuery(query));
        assertTrue(manager.getTransaction().getRollbackOnly());
    }
}
