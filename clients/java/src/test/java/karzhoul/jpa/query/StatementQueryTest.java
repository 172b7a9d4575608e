package karzhoul.jpa.query;

import static org.junit.jupiter.api.Assertions.assertEquals;
import static org.junit.jupiter.api.Assertions.assertFalse;
import static org.junit.jupiter.api.Assertions.assertNull;
import static org.junit.jupiter.api.Assertions.assertSame;
import static org.junit.jupiter.api.Assertions.assertThrows;
import static org.junit.jupiter.api.Assertions.assertTrue;

import jakarta.persistence.FlushModeType;
import jakarta.persistence.LockModeType;
import jakarta.persistence.NoResultException;
import jakarta.persistence.NonUniqueResultException;
import jakarta.persistence.Parameter;
import jakarta.persistence.PersistenceException;
import jakarta.persistence.Query;
import jakarta.persistence.TemporalType;
import jakarta.persistence.TransactionRequiredException;
import jakarta.persistence.Tuple;
import jakarta.persistence.TypedQuery;
import java.math.BigDecimal;
import java.math.BigInteger;
import java.time.LocalDate;
import java.time.LocalDateTime;
import java.time.LocalTime;
import java.time.ZoneId;
import java.util.ArrayList;
import java.util.Calendar;
import java.util.Collection;
import java.util.Date;
import java.util.List;
import java.util.Set;
import java.util.stream.LongStream;
import org.junit.jupiter.api.Assumptions;
import org.junit.jupiter.api.Test;

/** Query and TypedQuery (chapter 3.10): parameters, results, how they are executed. */
class StatementQueryTest extends OverShop {
    private Query query(String text) {
        return manager.createQuery(text);
    }

    private String with(String text, Object... values) {
        Query query = query(text);
        for (int place = 0; place < values.length; place++) {
            query.setParameter(place + 1, values[place]);
        }
        return Told.rows(query.getResultList(), false);
    }

    // ---- parameters

    @Test
    void parametersOfEachType() {
        String person = "SELECT p FROM Person p WHERE p.";
        assertEquals("[Person 1]", with(person + "name = ?1", "Ada"));
        assertEquals("[Person 1, Person 3]", with(person + "age = ?1", 36));
        assertEquals("[Person 1, Person 3]", with(person + "active = ?1", true));
        assertEquals("[Person 2]", with(person + "mood = ?1", Shop.Mood.SAD));
        assertEquals("[Person 1]", with(person + "born = ?1", LocalDate.of(1815, 12, 10)));
        assertEquals("[Person 3]", with(person + "credit = ?1", new BigDecimal("0.750")));
        assertEquals("[Person 4]", with(person + "weight < ?1", 0.0));
        assertEquals("[Person 1, Person 4]", with(person + "cents = ?1", new Shop.Cents(100)));
        assertEquals("[Person 2, Person 3]", with(person + "boss = ?1", manager.find(Shop.Person.class, 1L)));
        assertEquals("[Person 3]", with(person + "id = ?1", 3L));
        String order = "SELECT o FROM Order o WHERE o.";
        assertEquals("[Order 10, Order 14]", with(order + "status = ?1", Shop.Status.OPEN));
        assertEquals("[Order 13]", with(order + "placed = ?1", LocalDateTime.of(2026, 2, 1, 0, 0)));
        assertEquals("[Order 13]", with(order + "hour > ?1", LocalTime.of(9, 0)));
        assertEquals("[Seat 1a]", with("SELECT s FROM Seat s WHERE s.price = ?1", 9.5f));
        assertEquals("[Place 1/y]", with("SELECT l FROM Place l WHERE l.at = ?1", new Shop.PlaceKey(1, "y")));
        assertEquals("[Place 1/x, Place 2/x]", with("SELECT l FROM Place l WHERE l.at <> ?1",
                new Shop.PlaceKey(1, "y")));
        assertEquals("[Person 4]", with("SELECT p FROM Person p WHERE TYPE(p) = ?1", Shop.Vip.class));
        assertEquals("[Tag a, Tag b]", with("SELECT t FROM Tag t WHERE ?1 MEMBER OF t.persons",
                manager.find(Shop.Person.class, 1L)));
    }

    @Test
    void numbersOfOtherTypesAreThatNumber() {
        String amount = "SELECT o.number FROM Order o WHERE o.amount ";
        assertEquals("[Long 10]", with(amount + "= ?1", 5L));
        assertEquals("[Long 10]", with(amount + "= ?1", BigInteger.valueOf(5)));
        assertEquals("[Long 10]", with(amount + "= ?1", 5.0));
        assertEquals("[]", with(amount + "= ?1", 5.5));
        assertEquals("[Long 10, Long 11, Long 13, Long 14]", with(amount + "<> ?1", 5.5));
        assertEquals("[Long 11, Long 13]", with(amount + "> ?1", 5.5));
        assertEquals("[Long 10, Long 14]", with(amount + "<= ?1", new BigDecimal("6.9")));
        assertEquals("[]", with(amount + "> ?1", new BigInteger("9".repeat(30))));
        assertEquals("[Long 10, Long 11, Long 13, Long 14]", with(amount + "< ?1", new BigInteger("9".repeat(30))));
        assertEquals("[]", with(amount + "= ?1", new BigDecimal("1e-1000000000")));
        assertEquals("[Long 10, Long 11, Long 13, Long 14]", with(amount + "> ?1", new BigDecimal("1e-1000000000")));
        assertEquals("[]", with(amount + "> ?1", new BigDecimal("1e1000000000")));
        assertEquals("[Long 11]", with("SELECT o.number FROM Order o WHERE o.price = ?1", 2.25));
    }

    @Test
    void nullIsUnknown() {
        for (String test : List.of("p.name = ?1", "p.name <> ?1", "p.age > ?1", "p.boss = ?1", "p.mood = ?1",
                "p.name IN (?1)", "p.name NOT IN ('Bob', ?1)", "p.name LIKE ?1", "UPPER(p.name) = ?1",
                        "p.credit < ?1")) {
            assertEquals("[]", with("SELECT p FROM Person p WHERE " + test, (Object) null), test);
        }
        assertEquals("[Tag a, Tag b, Tag c]", with("SELECT t FROM Tag t WHERE ?1 IS NULL", (Object) null));
        assertEquals("[]", with("SELECT t FROM Tag t WHERE ?1 IS NULL", "x"));
    }

    @Test
    void listsOfIn() {
        String in = "SELECT p FROM Person p WHERE p.name ";
        assertEquals("[Person 1, Person 3]", with(in + "IN ?1", List.of("Ada", "Bob", "Ada", "Eve")));
        assertEquals("[Person 1, Person 3]", with(in + "IN (?1)", Set.of("Ada", "Bob")));
        assertEquals("[Person 4]", with(in + "NOT IN ?1", List.of("Ada", "Bob")));
        assertEquals("[]", with(in + "IN ?1", List.of()));
        assertEquals("[Person 1, Person 2, Person 3, Person 4]", with(in + "NOT IN ?1", List.of()));
        assertEquals("[Person 1]", with(in + "IN ?1", java.util.Arrays.asList("Ada", null)));
        assertEquals("[]", with(in + "NOT IN ?1", java.util.Arrays.asList("Ada", null)));
        assertEquals("[Person 1]", with(in + "IN (?1)", "Ada"));
        assertEquals("[Order 10]", with("SELECT o FROM Order o WHERE o.amount IN ?1", List.of(5.0, 6.5)));
        assertEquals("[Order 10, Order 11, Order 13, Order 14]",
                with("SELECT o FROM Order o WHERE o.amount NOT IN ?1", List.of(6.5)));
        assertEquals("[Person 1]", with("SELECT p FROM Person p WHERE p.mood IN ?1", List.of(Shop.Mood.GLAD)));
        assertEquals("[Order 14]", with("SELECT o FROM Order o WHERE o.person IN ?1",
                List.of(manager.find(Shop.Person.class, 3L), manager.find(Shop.Person.class, 4L))));
        assertEquals("[Person 4]", with("SELECT p FROM Person p WHERE TYPE(p) IN ?1", List.of(Shop.Vip.class)));
        assertEquals("[Place 1/x, Place 2/x]", with("SELECT l FROM Place l WHERE l.at IN ?1",
                List.of(new Shop.PlaceKey(1, "x"), new Shop.PlaceKey(2, "x"), new Shop.PlaceKey(3, "x"))));
        assertEquals("[Person 1, Person 3]", with("SELECT p FROM Person p WHERE LOWER(p.name) IN ?1",
                List.of("ada", "bob")));
        assertThrows(IllegalArgumentException.class, () -> with(in + "IN ?1", List.of(1)));
    }

    /** A list goes to the program as it is; one of more values than it takes in one is spread over several. */
    @Test
    void listsOfTenThousand() {
        List<Long> numbers = LongStream.range(0, 10_000).map(n -> 13 + n * 1_000_003).boxed().toList();
        assertEquals("[Long 13]", with("SELECT o.number FROM Order o WHERE o.number IN ?1", numbers));
        assertEquals("[Long 10, Long 11, Long 12, Long 14]",
                with("SELECT o.number FROM Order o WHERE o.number NOT IN ?1", numbers));
        assertEquals(List.of("SELECT o.number FROM Order o WHERE (o.number IN :p0 OR o.number IN :p1 OR o.number IN :p2)",
                "SELECT o.number FROM Order o WHERE (o.number NOT IN :p0 AND o.number NOT IN :p1 AND o.number NOT IN :p2)"), asked());
        assertEquals("[Long 10, Long 11, Long 13, Long 14]",
                with("SELECT o.number FROM Order o WHERE o.number IN ?1 OR NOT o.person.age NOT IN ?2", numbers, List.of(36, 50)));
        assertEquals("[[7, 1]]", with("SELECT o.amount, COUNT(o) FROM Order o WHERE o.number IN ?1 GROUP BY o.amount",
                numbers)
                .replace("Integer ", "").replace("Long ", ""));
        List<Object> withNull = new ArrayList<>(numbers);
        withNull.add(null);
        assertEquals("[]", with("SELECT o.number FROM Order o WHERE o.number NOT IN ?1", withNull));
        List<Object> texts = new ArrayList<>(LongStream.range(0, 10_000).mapToObj(n -> "name " + n).toList());
        texts.add("Bob");
        assertEquals("[Person 3]", with("SELECT p FROM Person p WHERE p.name IN ?1", texts));
        manager.getTransaction().begin();
        texts.add("c");
        assertEquals(1, query("DELETE FROM Tag t WHERE t.code IN :l").setParameter("l", texts).executeUpdate());
        assertEquals("[Tag a, Tag b]", rows("SELECT t FROM Tag t"));
        assertEquals(2, query("UPDATE Order o SET o.amount = 1 WHERE o.number IN :l AND SQRT(o.number) > 1 OR o.number = 10")
                .setParameter("l", numbers).executeUpdate());
    }

    /** One entity by its key is found without a text, and is what the text would have found. */
    @Test
    void oneByItsKey() {
        String text = "SELECT p FROM Person p WHERE p.id = ?1";
        assertEquals("[Person 1]", with(text, 1L));
        assertEquals("[]", with(text, 99));
        assertEquals("[]", with(text, (Object) null));
        assertEquals("[]", with(text, 1.5));
        assertEquals("[Place 1/x]", with("SELECT l FROM Place l WHERE l.at = ?1", new Shop.PlaceKey(1, "x")));
        assertEquals("[Person 4]", with("SELECT DISTINCT p FROM Person p LEFT JOIN FETCH p.orders WHERE p.id = ?1", 4));
        assertEquals("[]", with("SELECT v FROM Vip v WHERE v.id = ?1", 1));
        assertEquals(List.of(), query(text).setParameter(1, 2).setFirstResult(1).getResultList());
        assertEquals(List.of(), query(text).setParameter(1, 3).setMaxResults(0).getResultList());
        assertTrue(askedAndFound().containsAll(List.of("find Person [1]", "find Person [99]", "find Place [1,\"x\"]")),
                askedAndFound().toString());
        assertSame(manager.find(Shop.Person.class, 4L), query(text).setParameter(1, 4).getSingleResult());
    }

    /** Where the manager has the key, what it did and hasn't flushed is no row, or still one (chapter 3.10.8). */
    @Test
    void oneByItsKeyWithoutAFlush() {
        String text = "SELECT t FROM Tag t WHERE t.code = ?1";
        manager.setFlushMode(FlushModeType.COMMIT);
        manager.getTransaction().begin();
        Shop.Tag fresh = new Shop.Tag();
        fresh.code = "new";
        manager.persist(fresh);
        Shop.Tag known = manager.find(Shop.Tag.class, "c");
        manager.remove(known);
        assertEquals("[]", with(text, "new"));
        assertEquals("[Tag c]", with(text, "c"));
        manager.setFlushMode(FlushModeType.AUTO);
        assertEquals("[Tag new]", with(text, "new"));
        assertEquals("[]", with(text, "c"));
        assertEquals(1, query("DELETE FROM Tag t WHERE t.code = 'new'").executeUpdate());
        manager.clear();
        assertEquals("[]", with(text, "new"));
    }

    /** Lists as the program is asked them: each value once, and no value to which nothing is equal. */
    @Test
    void listsAreParametersOfTheProgram() {
        assertEquals("[Person 1, Person 3]", with("SELECT p FROM Person p WHERE p.name IN ?1", List.of("Ada", "Bob", "Ada")));
        assertEquals(List.of("SELECT p FROM Person p WHERE p.name IN :p0"), asked());
        assertEquals("[Order 13]", with("SELECT o FROM Order o WHERE o.price IN ?1 AND o.person.mood NOT IN ?2",
                List.of(10, 2.255, new BigDecimal("7.001")), List.of()));
        assertEquals("[]", with("SELECT o FROM Order o WHERE o.person.name NOT IN ?1 AND o.number = 12", List.of()));
        assertEquals("[Order 12]", with("SELECT o FROM Order o WHERE o.number NOT IN ?1 AND o.number = 12", List.of(5.5)));
        assertEquals("[Long 12]", with("SELECT o.number FROM Order o WHERE o.amount NOT IN ?1 AND o.amount IS NULL", List.of()));
        assertEquals("[]", with("SELECT o.number FROM Order o WHERE o.amount NOT IN ?1 AND o.amount IS NULL", List.of(5.5)));
        assertEquals("[[Long 14, BOB]]",
                with("SELECT o.number, UPPER(p.name) FROM Order o LEFT JOIN o.person p ON LOWER(p.name) IN ?1 WHERE UPPER(p.name) IN (?2)",
                        List.of("ada", "bob"), new String[] {"BOB"}));
        assertEquals("[Person 1, Person 3]", with("SELECT p FROM Person p WHERE EXISTS (SELECT o FROM Order o WHERE o.person = p"
                + " AND o.number IN ?1) AND p IN ?2", List.of(10L, 14L), List.of(manager.find(Shop.Person.class, 1L),
                manager.find(Shop.Person.class, 3L))));
    }

    /** All lists of one text together have a limit, where the program tells that it has one. */
    @Test
    void listsBeyondTheLimitOfAText() {
        Assumptions.assumeTrue(Grammar.line().contains("\"listsTogether\":65536"));
        List<Long> numbers = LongStream.rangeClosed(1, 65_536).boxed().toList();
        String text = "SELECT COUNT(o) FROM Order o WHERE o.number IN ?1";
        assertEquals("[Long 5]", with(text, numbers));
        PersistenceException refused = assertThrows(PersistenceException.class, () -> with(text + " OR o.number IN ?2", numbers, List.of(1)));
        assertTrue(refused.getMessage().contains("more than 65,536 values together"), refused.getMessage());
    }

    /** What is beyond a line of the program is refused in words, and the transaction is marked as by each refusal. */
    @Test
    void listsBeyondALineOfTheProgram() {
        manager.getTransaction().begin();
        List<String> texts = LongStream.range(0, 60_000).mapToObj(n -> "a name that is long " + n).toList();
        PersistenceException refused = assertThrows(PersistenceException.class,
                () -> with("SELECT p FROM Person p WHERE p.name IN ?1", texts));
        assertTrue(refused.getMessage().startsWith("Limit, ") && refused.getMessage().contains("a line over 1,048,576"),
                refused.getMessage());
        assertTrue(manager.getTransaction().getRollbackOnly());
        manager.getTransaction().rollback();
        assertEquals("[Person 1]", with("SELECT p FROM Person p WHERE p.name IN ?1", texts.subList(0, 9_000).stream()
                .map(text -> text.endsWith(" 77") ? "Ada" : text).toList()));
    }

    @Test
    void datesAndCalendars() {
        Date noon = Date.from(LocalDateTime.of(1900, 1, 1, 12, 0).atZone(ZoneId.systemDefault()).toInstant());
        Calendar calendar = Calendar.getInstance();
        calendar.setTime(noon);
        String born = "SELECT p FROM Person p WHERE p.born = :d";
        assertEquals("[Person 3]", query(born).setParameter("d", noon, TemporalType.DATE).getResultList().toString());
        assertEquals("[Person 3]", query(born).setParameter("d", calendar,
                TemporalType.DATE).getResultList().toString());
        assertThrows(IllegalArgumentException.class, () -> query(born).setParameter("d", noon, TemporalType.TIME)
                .getResultList());
        Date first = Date.from(LocalDateTime.of(2026, 1, 1, 8, 0).atZone(ZoneId.systemDefault()).toInstant());
        assertEquals("[Order 10, Order 14]", Told.rows(query("SELECT o FROM Order o WHERE o.placed = ?1")
                .setParameter(1, first, TemporalType.TIMESTAMP).getResultList(), false));
        assertEquals("[Order 13]", query("SELECT o FROM Order o WHERE o.hour = ?1")
                .setParameter(1, noon, TemporalType.TIME).getResultList().toString());
    }

    @Test
    void parametersAreDescribed() {
        Query query =
                query("SELECT p FROM Person p WHERE p.name = :name AND p.age > :age AND p.mood IN :moods AND :x IS NULL");
        assertEquals(List.of("name", "age", "moods", "x"),
                query.getParameters().stream().map(Parameter::getName).sorted(
                java.util.Comparator.comparing(List.of("name", "age", "moods", "x")::indexOf)).toList());
        assertEquals(String.class, query.getParameter("name").getParameterType());
        assertEquals(Integer.class, query.getParameter("age", Integer.class).getParameterType());
        assertEquals(Collection.class, query.getParameter("moods").getParameterType());
        assertNull(query.getParameter("name").getPosition());
        assertThrows(IllegalArgumentException.class, () -> query.getParameter("name", Integer.class));
        assertThrows(IllegalArgumentException.class, () -> query.getParameter("nam"));
        assertThrows(IllegalArgumentException.class, () -> query.getParameter(1));
        Parameter<String> name = query.getParameter("name", String.class);
        assertFalse(query.isBound(name));
        assertThrows(IllegalStateException.class, () -> query.getParameterValue(name));
        query.setParameter(name, "Ada");
        assertTrue(query.isBound(name));
        assertEquals("Ada", query.getParameterValue(name));
        assertEquals("Ada", query.getParameterValue("name"));
        Query byPlace = query("SELECT p FROM Person p WHERE p.age IN (?2, ?1)");
        assertEquals(1, byPlace.getParameter(1).getPosition());
        assertNull(byPlace.getParameter(1).getName());
    }

    @Test
    void parametersAreChecked() {
        Query query = query("SELECT p FROM Person p WHERE p.name = :name AND p.age > :age AND p.boss = :boss");
        assertThrows(IllegalArgumentException.class, () -> query.setParameter("nome", "x"));
        assertThrows(IllegalArgumentException.class, () -> query.setParameter(1, "x"));
        assertThrows(IllegalArgumentException.class, () -> query.setParameter("name", 1));
        assertThrows(IllegalArgumentException.class, () -> query.setParameter("age", "x"));
        assertThrows(IllegalArgumentException.class, () -> query.setParameter("boss", new Shop.Team()));
        assertThrows(IllegalArgumentException.class, () -> query.setParameter("age", new Date(), TemporalType.DATE));
        Query born = query("SELECT p FROM Person p WHERE p.born = ?1");
        for (Object wrong : List.of(new Date(), LocalDateTime.now(), "1900-01-01", 7)) {
            assertThrows(IllegalArgumentException.class, () -> born.setParameter(1, wrong));
        }
        query.setParameter("name", "x").setParameter("age", 1);
        assertThrows(IllegalStateException.class, query::getResultList);
        query.setParameter("boss", new Shop.Person());
        assertThrows(IllegalArgumentException.class, query::getResultList);
    }

    // ---- results

    @Test
    void resultsAreOfTheClass() {
        TypedQuery<Shop.Person> persons = manager.createQuery("SELECT p FROM Person p WHERE p.id = 4",
                Shop.Person.class);
        assertTrue(persons.getSingleResult() instanceof Shop.Vip);
        assertSame(manager.find(Shop.Person.class, 4L), persons.getSingleResult());
        assertEquals(List.of(36, 20, 36, 50), manager.createQuery("SELECT p.age FROM Person p",
                Integer.class).getResultList());
        assertEquals(List.of(36, 20, 36, 50), manager.createQuery("SELECT p.age FROM Person p",
                Number.class).getResultList());
        assertEquals(4L, manager.createQuery("SELECT COUNT(p) FROM Person p", Long.class).getSingleResult());
        assertEquals("Ada", manager.createQuery("SELECT p.name, p.age FROM Person p",
                Object[].class).getResultList().get(0)[0]);
        assertEquals("Ada", manager.createQuery("SELECT p.name FROM Person p",
                Object[].class).getResultList().get(0)[0]);
        assertEquals(Object[].class, query("SELECT p.name, p.age FROM Person p").getResultList().get(0).getClass());
        assertEquals("36/Ada",
                manager.createQuery("SELECT NEW karzhoul.jpa.query.Shop$PlaceKey(p.age, p.name) FROM Person p",
                Shop.PlaceKey.class).setMaxResults(1).getSingleResult().toString());
        for (Class<?> wrong : List.of(Shop.Order.class, String.class, Long.class)) {
            assertThrows(IllegalArgumentException.class, () -> manager.createQuery("SELECT p FROM Person p", wrong));
            assertThrows(IllegalArgumentException.class, () -> manager.createQuery("SELECT p.age, p FROM Person p",
                    wrong));
        }
        assertThrows(IllegalArgumentException.class, () -> manager.createQuery("SELECT p.name FROM Person p",
                Integer.class));
        assertThrows(IllegalArgumentException.class, () -> manager.createQuery("DELETE FROM Tag t", Shop.Tag.class));
    }

    @Test
    void tuples() {
        Tuple row = manager.createQuery("SELECT p.name AS n, p.age, p AS who FROM Person p WHERE p.id = 1", Tuple.class)
                .getSingleResult();
        assertEquals("Ada", row.get("n"));
        assertEquals("Ada", row.get("n", String.class));
        assertEquals(36, row.get(1));
        assertEquals(36, row.get(1, Integer.class));
        assertEquals("Ada", row.get(row.getElements().get(0)));
        assertEquals(36, row.get(row.getElements().get(1)));
        assertEquals("Person 1", row.toArray()[2].toString());
        assertEquals(Integer.class, row.getElements().get(1).getJavaType());
        assertEquals("who", row.getElements().get(2).getAlias());
        assertThrows(IllegalArgumentException.class, () -> row.get("x"));
        assertThrows(IllegalArgumentException.class, () -> row.get(3));
        assertThrows(IllegalArgumentException.class, () -> row.get(0, Integer.class));
    }

    @Test
    void oneResult() {
        assertThrows(NoResultException.class, () -> query("SELECT p FROM Person p WHERE p.id = 9").getSingleResult());
        assertThrows(NonUniqueResultException.class, () -> query("SELECT p FROM Person p").getSingleResult());
        assertEquals("Person 1", query("SELECT p FROM Person p").setMaxResults(1).getSingleResult().toString());
        manager.getTransaction().begin();
        assertThrows(NoResultException.class, () -> query("SELECT p FROM Person p WHERE p.id = 9").getSingleResult());
        assertThrows(NonUniqueResultException.class, () -> query("SELECT p FROM Person p").getSingleResult());
        assertFalse(manager.getTransaction().getRollbackOnly());
    }

    @Test
    void pages() {
        for (String text : List.of("SELECT o.number FROM Order o ORDER BY o.number DESC",
                "SELECT o.number FROM Order o WHERE COALESCE(o.amount, 1) / 1 > 0 ORDER BY o.number DESC")) {
            assertEquals("[13, 12]", query(text).setFirstResult(1).setMaxResults(2).getResultList().toString());
            assertEquals("[10]", query(text).setFirstResult(4).getResultList().toString());
            assertEquals("[]",
                    query(text).setFirstResult(9).setMaxResults(Integer.MAX_VALUE).getResultList().toString());
            assertEquals("[]", query(text).setMaxResults(0).getResultList().toString());
            assertEquals(3, query(text).setMaxResults(3).getResultStream().count());
        }
        Query query = query("SELECT p FROM Person p");
        assertEquals(Integer.MAX_VALUE, query.getMaxResults());
        assertEquals(0, query.getFirstResult());
        assertThrows(IllegalArgumentException.class, () -> query.setMaxResults(-1));
        assertThrows(IllegalArgumentException.class, () -> query.setFirstResult(-1));
    }

    @Test
    void fetchJoinsReadTheRelation() {
        Shop.Person ada =
                manager.createQuery("SELECT DISTINCT p FROM Person p JOIN FETCH p.orders o JOIN FETCH o.items "
                + "LEFT JOIN FETCH p.tags WHERE p.name = 'Ada'", Shop.Person.class).getSingleResult();
        Shop.Order order = manager.createQuery("SELECT o FROM Order o JOIN FETCH o.person WHERE o.number = 14",
                Shop.Order.class)
                .getSingleResult();
        manager.clear();
        assertEquals("[Order 10, Order 11]", ada.orders.toString());
        assertEquals("[Item 100, Item 101]", ada.orders.get(0).items.toString());
        assertEquals("[Tag a, Tag b]", ada.tags.toString());
        assertEquals("Person 3", order.person.toString());
    }

    // ---- how it is executed

    @Test
    void aQueryFlushesBeforeAsTheModeSays() {
        manager.getTransaction().begin();
        manager.find(Shop.Person.class, 1L).age = 77;
        String text = "SELECT p FROM Person p WHERE p.age = 77";
        assertEquals("[]", query(text).setFlushMode(FlushModeType.COMMIT).getResultList().toString());
        assertEquals(FlushModeType.AUTO, query(text).getFlushMode());
        assertEquals("[Person 1]", query(text).getResultList().toString());
    }

    @Test
    void updatesAndDeletes() {
        assertThrows(TransactionRequiredException.class, () -> query("DELETE FROM Item i").executeUpdate());
        manager.getTransaction().begin();
        assertEquals(2,
                query("UPDATE Order o SET o.amount = o.amount + ?1 WHERE o.status = karzhoul.jpa.query.Shop.Status.OPEN")
                .setParameter(1, 10).executeUpdate());
        assertEquals("[Integer 11, Integer 15, Integer 7, Integer 7, null]", rows("SELECT o.amount FROM Order o"));
        assertEquals(5,
                query("UPDATE Order SET price = 2.5, status = :s, person = NULL, placed = {ts '2026-05-05 05:05:05'}")
                .setParameter("s", Shop.Status.SENT).executeUpdate());
        assertEquals("[[BigDecimal 2.5, SENT, null, 2026-05-05T05:05:05]]",
                rows("SELECT DISTINCT o.price, o.status, o.person, o.placed FROM Order o"));
        assertEquals(1, query("UPDATE Order o SET o.person = :p WHERE o.number = 12").setParameter("p",
                manager.find(Shop.Person.class, 3L)).executeUpdate());
        assertEquals("[Long 12]", rows("SELECT o.number FROM Order o WHERE o.person.name = 'Bob'"));
        assertEquals(1, query("UPDATE Person SET address.city = 'Rome', cents = :c WHERE name = 'Ada'")
                .setParameter("c", new Shop.Cents(7)).executeUpdate());
        assertEquals("[[Rome, Cents[count=7]]]", rows("SELECT p.address.city, p.cents FROM Person p WHERE p.id = 1"));
        assertEquals(3, query("DELETE FROM Item i WHERE i.count > (SELECT MIN(j.count) FROM Item j)").executeUpdate());
        assertEquals("[Item 102]", rows("SELECT i FROM Item i"));
        assertEquals(1, query("DELETE FROM Item").executeUpdate());
    }

    /** Where the program can't say WHERE, its keys are asked for before: the same rows as those of a SELECT. */
    @Test
    void updatesAndDeletesWhereTheDoorDecides() {
        manager.getTransaction().begin();
        assertEquals(2, query("UPDATE Item i SET i.count = i.count + :n WHERE UPPER(i.what) = :w AND SQRT(LENGTH(i.what)) > :n")
                .setParameter("n", 1).setParameter("w", "PEN").executeUpdate());
        assertEquals("[[Long 100, Long 3], [Long 101, Long 3], [Long 102, Long 2], [Long 103, Long 10]]",
                rows("SELECT i.id, i.count FROM Item i"));
        assertEquals(2, query("UPDATE Order o SET o.amount = 0 WHERE o.amount / 2 = 3").executeUpdate());
        assertEquals("[Integer 0, Integer 0, Integer 1, Integer 5, null]", rows("SELECT o.amount FROM Order o"));
        assertEquals(2, query("UPDATE Order o SET o.amount = 100 WHERE 5 < (SELECT SUM(i.count) FROM Item i WHERE i.order = o)")
                .executeUpdate());
        assertEquals("[Long 10, Long 14]", rows("SELECT o.number FROM Order o WHERE o.amount = 100"));
        assertEquals(2, query("DELETE FROM Item i WHERE NOT CONCAT(i.what, CASE WHEN i.id > 0 THEN '' ELSE 'x' END) = 'pen'").executeUpdate());
        assertEquals("[Item 100, Item 102]", rows("SELECT i FROM Item i"));
        assertEquals(1, query("DELETE FROM Place p WHERE CASE WHEN p.label IS NULL THEN '' ELSE p.label END LIKE 'o%'").executeUpdate());
        assertEquals("[null, three]", rows("SELECT p.label FROM Place p ORDER BY p.label"));
        assertEquals(1, query("DELETE FROM Seat s WHERE CASE WHEN s.price IS NULL THEN 1 ELSE 0 END = 1").executeUpdate());
        assertEquals("[Float 3.25, Float 9.5]", rows("SELECT s.price FROM Seat s ORDER BY s.price"));
        assertEquals(0, query("DELETE FROM Item i WHERE SQRT(i.count) = -1").executeUpdate());
        assertThrows(PersistenceException.class,
                () -> query("UPDATE Order o SET o.amount = o.amount + 2147483600 WHERE o.amount / 1 = 100").executeUpdate());
        assertTrue(manager.getTransaction().getRollbackOnly());
    }

    /** Subqueries that the program can't say in WHERE, as those of a SELECT. */
    @Test
    void updatesWithSubqueriesOfEveryKind() {
        manager.getTransaction().begin();
        String set = "UPDATE Order o SET o.amount = ";
        assertEquals(1, query(set + "91 WHERE 1 < (SELECT COUNT(i) FROM Item i WHERE i.order = o GROUP BY i.order HAVING COUNT(i) > 0)")
                .executeUpdate());
        assertEquals("[Long 10]", rows("SELECT o.number FROM Order o WHERE o.amount = 91"));
        assertEquals(1, query(set + "92 WHERE o.price = (SELECT q.price FROM Order q WHERE q.person = o.person AND q.number = 11)")
                .executeUpdate());
        assertEquals("[Long 11]", rows("SELECT o.number FROM Order o WHERE o.amount = 92"));
        assertEquals(1, query(set + "93 WHERE o.number = 13 AND o.amount IN (SELECT q.amount + 0 FROM Order q WHERE q.amount / 7 = 1)")
                .executeUpdate());
        assertThrows(PersistenceException.class,
                () -> query(set + "94 WHERE o.price = (SELECT q.price FROM Order q WHERE q.person = o.person)").executeUpdate());
        assertTrue(manager.getTransaction().getRollbackOnly());
    }

    /** What would be beyond the attribute's type is refused before anything is changed. */
    @Test
    void updatesStayWithinTheType() {
        manager.getTransaction().begin();
        assertEquals(1, query("UPDATE Order o SET o.amount = 2147483646 WHERE o.number = 10").executeUpdate());
        assertEquals(1, query("UPDATE Order o SET o.amount = o.amount + 1 WHERE o.number = 10").executeUpdate());
        assertThrows(PersistenceException.class,
                () -> query("UPDATE Order o SET o.amount = o.amount + 1").executeUpdate());
        assertTrue(manager.getTransaction().getRollbackOnly());
    }

    /** What the door computes stays within the type too, and a refusal marks the transaction. */
    @Test
    void overflowAndDivisionByZeroAreRefused() {
        for (String text : List.of("SELECT o.amount / (o.number - 10) FROM Order o",
                "SELECT p.age * 1000000000 FROM Person p",
                "SELECT o.number FROM Order o WHERE o.amount / 0 > 1", "SELECT (p.age / 1) * 1000000000 FROM Person p",
                "SELECT p.id FROM Person p WHERE p.id = (SELECT q.id FROM Person q)")) {
            manager.getTransaction().begin();
            assertThrows(PersistenceException.class, () -> query(text).getResultList(), text);
            assertTrue(manager.getTransaction().getRollbackOnly(), text);
            manager.getTransaction().rollback();
        }
    }

    @Test
    void namedQueries() {
        assertEquals("Person 3", manager.createNamedQuery("Person.byName", Shop.Person.class).setParameter("name",
                "Bob")
                .getSingleResult().toString());
        assertThrows(IllegalArgumentException.class, () -> manager.createNamedQuery("Person.byNam"));
        assertThrows(IllegalArgumentException.class, () -> manager.createNamedQuery("Person.byName", Shop.Order.class));
        factory.addNamedQuery("two",
                query("SELECT o FROM Order o ORDER BY o.number").setMaxResults(2).setFirstResult(1));
        assertEquals("[Order 11, Order 12]", manager.createNamedQuery("two").getResultList().toString());
    }

    @Test
    void statesAndHints() {
        assertThrows(IllegalStateException.class, () -> query("DELETE FROM Tag t").getResultList());
        assertThrows(IllegalStateException.class, () -> query("DELETE FROM Tag t").getSingleResult());
        assertThrows(IllegalStateException.class,
                () -> query("DELETE FROM Tag t").setLockMode(LockModeType.OPTIMISTIC));
        assertThrows(IllegalStateException.class, () -> query("SELECT t FROM Tag t").executeUpdate());
        assertThrows(TransactionRequiredException.class, () -> query("SELECT p FROM Person p")
                .setLockMode(LockModeType.OPTIMISTIC).getResultList());
        Query query = query("SELECT p FROM Person p").setHint("jakarta.persistence.query.timeout", 5).setHint("x.y",
                "z");
        assertEquals("z", query.getHints().get("x.y"));
        assertSame(query, query.unwrap(Query.class));
        assertThrows(PersistenceException.class, () -> query.unwrap(String.class));
        manager.close();
        assertThrows(IllegalStateException.class, query::getResultList);
        manager = factory.createEntityManager();
    }

    @Test
    void lockedResultsAreLocked() {
        manager.getTransaction().begin();
        Object ada =
                query("SELECT p FROM Person p WHERE p.id = 1").setLockMode(LockModeType.OPTIMISTIC).getSingleResult();
        assertEquals(LockModeType.OPTIMISTIC, manager.getLockMode(ada));
    }
}
