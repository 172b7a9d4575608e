package karzhoul.jpa.criteria;

import static org.junit.jupiter.api.Assertions.assertArrayEquals;
import static org.junit.jupiter.api.Assertions.assertEquals;
import static org.junit.jupiter.api.Assertions.assertFalse;
import static org.junit.jupiter.api.Assertions.assertNull;
import static org.junit.jupiter.api.Assertions.assertSame;
import static org.junit.jupiter.api.Assertions.assertThrows;
import static org.junit.jupiter.api.Assertions.assertTrue;

import jakarta.persistence.Parameter;
import jakarta.persistence.PersistenceException;
import jakarta.persistence.Tuple;
import jakarta.persistence.TypedQuery;
import jakarta.persistence.criteria.CriteriaBuilder;
import jakarta.persistence.criteria.CriteriaDelete;
import jakarta.persistence.criteria.CriteriaQuery;
import jakarta.persistence.criteria.CriteriaUpdate;
import jakarta.persistence.criteria.Expression;
import jakarta.persistence.criteria.Fetch;
import jakarta.persistence.criteria.Join;
import jakarta.persistence.criteria.JoinType;
import jakarta.persistence.criteria.ListJoin;
import jakarta.persistence.criteria.Order;
import jakarta.persistence.criteria.ParameterExpression;
import jakarta.persistence.criteria.Path;
import jakarta.persistence.criteria.Predicate;
import jakarta.persistence.criteria.Predicate.BooleanOperator;
import jakarta.persistence.criteria.Root;
import jakarta.persistence.criteria.Selection;
import jakarta.persistence.criteria.Subquery;
import java.math.BigDecimal;
import java.sql.Timestamp;
import java.time.LocalDate;
import java.time.LocalDateTime;
import java.time.LocalTime;
import java.util.Arrays;
import java.util.Collection;
import java.util.Date;
import java.util.List;
import java.util.Set;
import karzhoul.jpa.query.OverShop;
import karzhoul.jpa.query.Shop;
import karzhoul.jpa.query.Shop.Item;
import karzhoul.jpa.query.Shop.Person;
import karzhoul.jpa.query.Shop.Team;
import karzhoul.jpa.query.Shop.Vip;
import karzhoul.jpa.query.Told;
import org.junit.jupiter.api.BeforeEach;
import org.junit.jupiter.api.Test;

/** What the objects of criteria answer of themselves, and what becomes of their rows (chapter 6). */
class QueryObjectsTest extends OverShop {
    private CriteriaBuilder cb;

    @BeforeEach
    void builder() {
        cb = manager.getCriteriaBuilder();
        assertSame(cb, factory.getCriteriaBuilder());
    }

    private String told(CriteriaQuery<?> query) {
        return Told.rows(manager.createQuery(query).getResultList(), true);
    }

    /** An object of rows. */
    public record Line(String name, long orders) {}

    @Test
    void gettersTellWhatWasSaid() {
        CriteriaQuery<Person> query = cb.createQuery(Person.class);
        assertNull(query.getSelection());
        assertNull(query.getRestriction());
        assertNull(query.getGroupRestriction());
        assertEquals(Set.of(), query.getRoots());
        Root<Person> p = query.from(Person.class);
        Predicate adult = cb.ge(p.get("age"), 18);
        Order order = cb.asc(p.get("name"));
        query.select(p).where(adult).orderBy(order).distinct(true);
        assertSame(adult, query.getRestriction());
        assertSame(p, query.getSelection());
        assertEquals(Set.of(p), query.getRoots());
        assertEquals(Person.class, query.getResultType());
        assertEquals(List.of(order), query.getOrderList());
        assertTrue(query.isDistinct());
        assertTrue(order.isAscending());
        assertFalse(order.reverse().isAscending());
        assertSame(p.getModel(), factory.getMetamodel().entity(Person.class));
        query.where();
        assertNull(query.getRestriction());
        query.groupBy(p.get("age")).having(cb.gt(cb.count(p), 1L));
        assertEquals(1, query.getGroupList().size());
        assertEquals(BooleanOperator.AND, query.getGroupRestriction().getOperator());
        query.having();
        assertNull(query.getGroupRestriction());
    }

    @Test
    void predicatesTellTheirParts() {
        Root<Person> p = cb.createQuery(Person.class).from(Person.class);
        Predicate one = cb.isNull(p.get("name"));
        Predicate two = cb.equal(p.get("age"), 1);
        Predicate or = cb.or(one, two);
        assertEquals(BooleanOperator.OR, or.getOperator());
        assertEquals(List.of(one, two), or.getExpressions());
        assertEquals(BooleanOperator.AND, one.getOperator());
        assertEquals(List.of(), one.getExpressions());
        assertFalse(one.isNegated());
        assertTrue(one.not().isNegated());
        assertTrue(cb.not(or).isNegated());
        assertEquals(BooleanOperator.AND, cb.conjunction().getOperator());
        assertEquals(BooleanOperator.OR, cb.disjunction().getOperator());
        or.getExpressions().clear();
        assertEquals(2, or.getExpressions().size());
        CriteriaBuilder.In<Integer> in = cb.in(p.<Integer>get("age"));
        assertEquals(p.get("age").getModel(), ((jakarta.persistence.criteria.Path<?>) in.value(1).getExpression())
                .getModel());
    }

    @Test
    void nullAmongTheValuesOfInIsEqualToNothing() {
        CriteriaQuery<Integer> query = cb.createQuery(Integer.class);
        Path<Integer> age = query.from(Person.class).get("age");
        query.select(age).distinct(true).where(age.in(36, null));
        assertEquals(List.of(36), manager.createQuery(query).getResultList());
        query.where(age.in(36, null).not());
        assertEquals(List.of(), manager.createQuery(query).getResultList());
    }

    @Test
    void pathsAndJoinsTellWhereTheyStand() {
        Root<Person> p = cb.createQuery(Person.class).from(Person.class);
        ListJoin<Person, Shop.Order> orders = p.joinList("orders", JoinType.LEFT);
        Join<Shop.Order, Item> items = orders.join("items");
        assertEquals(Set.of(orders), p.getJoins());
        assertEquals(Set.of(items), orders.getJoins());
        assertEquals(JoinType.LEFT, orders.getJoinType());
        assertEquals("orders", orders.getAttribute().getName());
        assertSame(p, orders.getParent());
        assertSame(p, orders.getParentPath());
        assertEquals(Shop.Order.class, orders.getJavaType());
        assertEquals("orders", orders.getModel().getName());
        assertNull(orders.getOn());
        Predicate on = cb.gt(orders.get("amount"), 1);
        assertSame(on, orders.on(on).getOn());
        assertNull(p.getParentPath());
        assertSame(p.get("boss").get("name").getParentPath().getParentPath(), p);
        assertEquals(Integer.class, p.get("age").getJavaType());
        assertFalse(p.isCorrelated());
        assertThrows(IllegalStateException.class, p::getCorrelationParent);
        Fetch<Person, Team> team = p.fetch("team");
        assertEquals(Set.of(team), p.getFetches());
        assertSame(p, team.getParent());
        assertEquals(JoinType.INNER, team.getJoinType());
    }

    @Test
    void selectionsAreNamedOnce() {
        Root<Person> p = cb.createQuery(Person.class).from(Person.class);
        Selection<?> name = p.get("name").alias("n");
        assertEquals("n", name.getAlias());
        assertFalse(name.isCompoundSelection());
        assertThrows(IllegalStateException.class, () -> name.alias("m"));
        assertThrows(IllegalStateException.class, name::getCompoundSelectionItems);
        assertEquals(List.of(name), cb.tuple(name).getCompoundSelectionItems());
        assertTrue(cb.array(name).isCompoundSelection());
    }

    @Test
    void rowsAreWhatTheSelectionSays() {
        CriteriaQuery<Tuple> tuples = cb.createTupleQuery();
        Root<Person> p = tuples.from(Person.class);
        Selection<String> name = p.<String>get("name").alias("n");
        Expression<Integer> age = p.get("age");
        tuples.multiselect(name, age).orderBy(cb.asc(p.get("id")));
        Tuple first = manager.createQuery(tuples).getResultList().get(0);
        assertEquals("Ada", first.get(name));
        assertEquals("Ada", first.get("n"));
        assertEquals(36, first.get(age));
        assertEquals(Integer.valueOf(36), first.get(1, Integer.class));
        assertEquals(List.of(name, age), first.getElements());
        assertThrows(IllegalArgumentException.class, () -> first.get(p.get("name")));
        tuples.select(cb.tuple(p.get("id"), name));
        assertEquals(1L, manager.createQuery(tuples).getResultList().get(0).get(0));

        CriteriaQuery<Object[]> arrays = cb.createQuery(Object[].class);
        Root<Person> q = arrays.from(Person.class);
        arrays.select(cb.array(q.get("id"))).orderBy(cb.desc(q.get("id")));
        assertArrayEquals(new Object[] {4L}, manager.createQuery(arrays).setMaxResults(1).getSingleResult());

        CriteriaQuery<String[]> texts = cb.createQuery(String[].class);
        Root<Person> r = texts.from(Person.class);
        texts.multiselect(r.get("name"), r.get("address").get("city")).orderBy(cb.asc(r.get("id")));
        assertArrayEquals(new String[] {"Ada", "London"}, manager.createQuery(texts).getResultList().get(0));

        CriteriaQuery<Object> any = cb.createQuery();
        Root<Person> s = any.from(Person.class);
        any.multiselect(s.get("name")).where(cb.equal(s.get("id"), 3));
        assertEquals("Bob", manager.createQuery(any).getSingleResult());
        any.multiselect(s.get("name"), s.get("age"));
        assertArrayEquals(new Object[] {"Bob", 36}, (Object[]) manager.createQuery(any).getSingleResult());
    }

    @Test
    void objectsAreConstructed() {
        CriteriaQuery<Line> query = cb.createQuery(Line.class);
        Root<Person> p = query.from(Person.class);
        Join<Person, Shop.Order> o = p.join("orders");
        query.multiselect(p.get("name"), cb.count(o)).groupBy(p.get("name")).orderBy(cb.asc(p.get("name")));
        List<Line> wanted = List.of(new Line(null, 1), new Line("Ada", 2), new Line("Bob", 1));
        assertEquals(wanted, manager.createQuery(query).getResultList());
        query.select(cb.construct(Line.class, p.get("name"), cb.count(o)));
        assertEquals(wanted, manager.createQuery(query).getResultList());
        CriteriaQuery<Tuple> within = cb.createTupleQuery();
        Root<Person> q = within.from(Person.class);
        within.multiselect(q.get("id"), cb.construct(Line.class, q.get("name"), q.get("id")).alias("line"))
                .where(cb.equal(q.get("id"), 1));
        assertEquals(new Line("Ada", 1), manager.createQuery(within).getSingleResult().get("line"));
    }

    @Test
    void oneRootIsWhatIsSelected() {
        CriteriaQuery<Team> query = cb.createQuery(Team.class);
        query.from(Team.class);
        assertEquals(2, manager.createQuery(query).getResultList().size());
        query.from(Person.class);
        assertThrows(IllegalStateException.class, () -> manager.createQuery(query));
    }

    @Test
    void numbersAreOfTheSelectionsType() {
        CriteriaQuery<Integer> query = cb.createQuery(Integer.class);
        Root<Person> p = query.from(Person.class);
        query.select(cb.sum(p.<Integer>get("age")));
        Integer sum = manager.createQuery(query).getSingleResult();
        assertEquals(142, sum);
        query.select(cb.sum(cb.prod(p.<Integer>get("age"), 100_000_000)));
        assertThrows(PersistenceException.class, () -> manager.createQuery(query).getSingleResult());
    }

    @Test
    void parametersAreObjectsNamesAndTypes() {
        CriteriaQuery<String> query = cb.createQuery(String.class);
        Root<Person> p = query.from(Person.class);
        ParameterExpression<Integer> age = cb.parameter(Integer.class);
        ParameterExpression<String> name = cb.parameter(String.class, "name");
        query.select(p.get("name")).where(cb.equal(p.get("age"), age), cb.like(p.get("name"), name));
        assertEquals(Set.of(age, name), query.getParameters());
        TypedQuery<String> typed = manager.createQuery(query);
        assertEquals(Set.of(age, name), typed.getParameters());
        assertEquals(Set.<Parameter<?>>of(age, name), typed.getParameters());
        assertSame(name, typed.getParameter("name"));
        assertSame(name, typed.getParameter("name", String.class));
        assertThrows(IllegalArgumentException.class, () -> typed.getParameter("name", Integer.class));
        assertFalse(typed.isBound(age));
        assertThrows(IllegalStateException.class, () -> typed.getParameterValue(age));
        assertThrows(IllegalStateException.class, typed::getResultList);
        typed.setParameter(age, 36).setParameter("name", "B%");
        assertTrue(typed.isBound(age));
        assertEquals(36, typed.getParameterValue(age));
        assertEquals("B%", typed.getParameterValue("name"));
        assertEquals(List.of("Bob"), typed.getResultList());
        assertEquals(List.of("Ada"), typed.setParameter(name, "A%").getResultList());
        assertThrows(IllegalArgumentException.class, () -> typed.setParameter("name", 5));
        assertThrows(IllegalArgumentException.class, () -> typed.setParameter("other", "x"));
        assertThrows(IllegalArgumentException.class,
                () -> typed.setParameter(cb.parameter(String.class), "x"));
        assertNull(age.getName());
        assertNull(age.getPosition());
        assertEquals(Integer.class, age.getParameterType());
    }

    @Test
    void parametersInSubqueriesAndJoinsAreFound() {
        CriteriaQuery<Long> query = cb.createQuery(Long.class);
        Root<Person> p = query.from(Person.class);
        ParameterExpression<Integer> least = cb.parameter(Integer.class, "least");
        ParameterExpression<Integer> on = cb.parameter(Integer.class, "on");
        ParameterExpression<Collection> ids = cb.parameter(Collection.class, "ids");
        Join<Person, Shop.Order> o = p.<Person, Shop.Order>join("orders", JoinType.LEFT);
        o.on(cb.gt(o.get("amount"), on));
        Subquery<Shop.Order> sub = query.subquery(Shop.Order.class);
        Root<Shop.Order> other = sub.from(Shop.Order.class);
        sub.select(other).where(cb.equal(other.get("person"), p), cb.ge(other.get("amount"), least));
        @SuppressWarnings("unchecked")
        Expression<Collection<?>> list = (Expression<Collection<?>>) (Expression<?>) ids;
        query.select(p.get("id")).distinct(true).where(cb.exists(sub), p.get("id").in(list));
        assertEquals(Set.of(least, on, ids), query.getParameters());
        TypedQuery<Long> typed = manager.createQuery(query).setParameter(least, 5).setParameter(on, 100);
        assertEquals(Set.of(1L, 2L), Set.copyOf(typed.setParameter("ids", List.of(1L, 2L, 3L)).getResultList()));
        assertEquals(List.of(), typed.setParameter("ids", List.of()).getResultList());
    }

    @Test
    void queriesChangeNothingOfWhatWasMadeOfThem() {
        CriteriaQuery<Long> query = cb.createQuery(Long.class);
        Root<Person> p = query.from(Person.class);
        query.select(p.get("id")).where(cb.equal(p.get("name"), "Ada"));
        TypedQuery<Long> made = manager.createQuery(query);
        query.where(cb.equal(p.get("name"), "Bob"));
        assertEquals(List.of(1L), made.getResultList());
        assertEquals(List.of(3L), manager.createQuery(query).getResultList());
    }

    @Test
    void valuesOfEachTypeAreExact() {
        CriteriaQuery<Long> query = cb.createQuery(Long.class);
        Root<Shop.Order> o = query.from(Shop.Order.class);
        query.select(o.get("number"));
        LocalDateTime placed = LocalDateTime.of(2026, 1, 2, 9, 30);
        for (Predicate test : List.of(cb.equal(o.get("placed"), placed),
                cb.equal(o.get("placed"), Timestamp.valueOf(placed)), cb.equal(o.get("status"), Shop.Status.PAID),
                cb.equal(o.get("price"), new BigDecimal("2.250")), cb.equal(o.get("price"), 2.25),
                cb.and(cb.isNull(o.get("hour")), cb.equal(o.get("amount"), 7L)),
                o.get("placed").in(placed, LocalDateTime.MIN), o.get("status").in(List.of(Shop.Status.PAID)))) {
            assertEquals(List.of(11L), manager.createQuery(query.where(test)).getResultList());
        }
        assertEquals(List.of(13L), manager.createQuery(query.where(cb.equal(o.get("hour"), LocalTime.NOON)))
                .getResultList());
        CriteriaQuery<Long> persons = cb.createQuery(Long.class);
        Root<Person> p = persons.from(Person.class);
        persons.select(p.get("id"));
        Person ada = manager.find(Person.class, 1L);
        Date born = java.sql.Date.valueOf(LocalDate.of(1900, 1, 1));
        Predicate onDay = cb.equal(p.get("born"), born);
        born.setTime(0);
        for (Predicate test : List.of(onDay, cb.equal(p.get("cents"), new Shop.Cents(250)),
                p.get("cents").in(new Shop.Cents(250)), cb.and(cb.equal(p.get("boss"), ada),
                        cb.equal(p.get("team"), manager.find(Team.class, 1L))), cb.equal(p.get("name"), "Bob"))) {
            assertEquals(List.of(3L), manager.createQuery(persons.where(test)).getResultList());
        }
        CriteriaQuery<Object[]> items = cb.createQuery(Object[].class);
        Root<Person> q = items.from(Person.class);
        items.multiselect(cb.literal(new Shop.Cents(3)), cb.literal(Shop.Mood.SAD), cb.literal('c'),
                cb.literal(new BigDecimal("1.50"))).where(cb.equal(q.get("id"), 1));
        assertEquals(List.of(new Shop.Cents(3), Shop.Mood.SAD, "c", new BigDecimal("1.50")),
                Arrays.asList(manager.createQuery(items).getSingleResult()));
    }

    @Test
    void classesAreCompared() {
        CriteriaQuery<Long> query = cb.createQuery(Long.class);
        Root<Person> p = query.from(Person.class);
        query.select(p.get("id"));
        assertEquals(List.of(4L), manager.createQuery(query.where(cb.equal(p.type(), Vip.class))).getResultList());
        assertEquals(List.of(4L), manager.createQuery(query.where(cb.equal(p.type(), cb.literal(Vip.class))))
                .getResultList());
        assertEquals(4, manager.createQuery(query.where(p.type().in(Vip.class, Person.class))).getResultList()
                .size());
    }

    @Test
    void embeddedAttributesAreJoined() {
        CriteriaQuery<String> query = cb.createQuery(String.class);
        Root<Person> p = query.from(Person.class);
        Join<Person, Shop.Address> address = p.join("address");
        query.select(address.get("city")).where(cb.equal(p.get("id"), 3));
        assertEquals(List.of("Paris"), manager.createQuery(query).getResultList());
        assertThrows(IllegalArgumentException.class, () -> address.on(cb.conjunction()));
    }

    @Test
    void subqueriesCorrelate() {
        CriteriaQuery<String> query = cb.createQuery(String.class);
        Root<Person> p = query.from(Person.class);
        Subquery<Long> sub = query.subquery(Long.class);
        Root<Person> outer = sub.correlate(p);
        Join<Person, Shop.Order> o = outer.join("orders");
        Join<Shop.Order, Item> i = o.join("items");
        sub.select(i.get("id")).where(cb.equal(i.get("what"), "ink"));
        query.select(p.get("name")).where(cb.exists(sub));
        assertEquals(List.of("Ada"), manager.createQuery(query).getResultList());
        assertTrue(outer.isCorrelated());
        assertSame(p, outer.getCorrelationParent());
        assertSame(query, sub.getParent());
        assertSame(query, sub.getContainingQuery());
        assertEquals(Long.class, sub.getResultType());
        assertEquals(Set.of(), sub.getCorrelatedJoins());
        CriteriaQuery<Long> joins = cb.createQuery(Long.class);
        Root<Person> q = joins.from(Person.class);
        ListJoin<Person, Shop.Order> orders = q.joinList("orders");
        Subquery<Item> block = joins.subquery(Item.class);
        ListJoin<Person, Shop.Order> same = block.correlate(orders);
        block.select(same.join("items"));
        joins.select(orders.get("number")).where(cb.exists(block)).orderBy(cb.asc(orders.get("number")));
        assertEquals(List.of(10L, 11L, 14L), manager.createQuery(joins).getResultList());
        assertEquals(Set.of(same), block.getCorrelatedJoins());
    }

    /** The examples of chapter 6.5.7. */
    @Test
    void classesBelowAreTreated() {
        CriteriaQuery<Integer> query = cb.createQuery(Integer.class);
        Root<Team> t = query.from(Team.class);
        ListJoin<Team, Vip> v = cb.treat(t.<Team, Person>joinList("members"), Vip.class);
        query.select(v.get("discount"));
        assertEquals(List.of(10), manager.createQuery(query).getResultList());
        CriteriaQuery<Long> other = cb.createQuery(Long.class);
        Root<Person> p = other.from(Person.class);
        other.select(p.get("id")).where(cb.or(cb.gt(cb.treat(p, Vip.class).<Integer>get("discount"), 5),
                cb.equal(p.get("name"), "Ada"))).orderBy(cb.asc(p.get("id")));
        assertEquals(List.of(1L, 4L), manager.createQuery(other).getResultList());
        other.where(cb.lt(cb.treat(p, Vip.class).<Integer>get("discount"), 5));
        assertEquals(List.of(), manager.createQuery(other).getResultList());
        Join<Person, Person> boss = p.join("boss");
        other.where(cb.gt(cb.treat(boss, Vip.class).<Integer>get("discount"), 5));
        assertEquals(List.of(), manager.createQuery(other).getResultList());
        assertEquals(Vip.class, cb.treat(p.<Person>get("boss"), Vip.class).getJavaType());
    }

    @Test
    void fetchesAreRead() {
        CriteriaQuery<Person> query = cb.createQuery(Person.class);
        Root<Person> p = query.from(Person.class);
        p.fetch("orders", JoinType.LEFT).fetch("items", JoinType.LEFT);
        p.fetch("team", JoinType.LEFT).fetch("leader", JoinType.LEFT);
        query.select(p).distinct(true).where(cb.equal(p.get("id"), 1));
        Person ada = manager.createQuery(query).getSingleResult();
        asked().clear();
        assertEquals(2, ada.orders.size());
        assertTrue(factory.getPersistenceUnitUtil().isLoaded(ada, "orders"));
        assertTrue(factory.getPersistenceUnitUtil().isLoaded(ada.orders.get(0), "items"));
        assertTrue(factory.getPersistenceUnitUtil().isLoaded(ada, "team"));
    }

    @Test
    void updatesAndDeletesAreDone() {
        manager.getTransaction().begin();
        CriteriaUpdate<Person> update = cb.createCriteriaUpdate(Person.class);
        Root<Person> p = update.from(Person.class);
        assertSame(p, update.getRoot());
        Person ada = manager.find(Person.class, 1L);
        update.set("name", "Eve").set(p.<Integer>get("age"), cb.sum(p.<Integer>get("age"), 1))
                .set(p.<Person>get("boss"), ada).set(p.<String>get("address").<String>get("city"), (String) null)
                .where(cb.equal(p.get("id"), 3));
        assertEquals(1, manager.createQuery(update).executeUpdate());
        manager.clear();
        Person eve = manager.find(Person.class, 3L);
        assertEquals("Eve", eve.name);
        assertEquals(37, eve.age);
        CriteriaDelete<Item> delete = cb.createCriteriaDelete(Item.class);
        Root<Item> i = delete.from(Item.class);
        Subquery<Shop.Order> of = delete.subquery(Shop.Order.class);
        Root<Shop.Order> o = of.from(Shop.Order.class);
        of.select(o).where(cb.equal(i.get("order"), o), cb.lt(o.get("amount"), 6));
        delete.where(cb.exists(of));
        assertSame(delete, of.getContainingQuery());
        assertThrows(IllegalStateException.class, of::getParent);
        ParameterExpression<Long> least = cb.parameter(Long.class);
        assertEquals(3, manager.createQuery(delete).executeUpdate());
        delete.where(cb.ge(i.get("count"), least));
        assertEquals(1, manager.createQuery(delete).setParameter(least, 1L).executeUpdate());
        assertEquals(0, manager.createQuery(cb.createCriteriaDelete(Item.class).where(cb.conjunction()) == null
                ? null : all(Item.class)).executeUpdate());
    }

    private <T> CriteriaDelete<T> all(Class<T> type) {
        CriteriaDelete<T> delete = cb.createCriteriaDelete(type);
        delete.from(type);
        return delete;
    }

    @Test
    void namedQueriesMayBeOfCriteria() {
        CriteriaQuery<Long> query = cb.createQuery(Long.class);
        Root<Person> p = query.from(Person.class);
        query.select(p.get("id")).where(cb.equal(p.get("name"), cb.parameter(String.class, "n")),
                p.get("cents").in(new Shop.Cents(100)));
        factory.addNamedQuery("byCriteria", manager.createQuery(query));
        assertEquals(List.of(1L), manager.createNamedQuery("byCriteria", Long.class).setParameter("n", "Ada")
                .getResultList());
        assertThrows(IllegalArgumentException.class, () -> manager.createNamedQuery("byCriteria", String.class));
    }

    @Test
    void manyKeysStandInOneList() {
        CriteriaQuery<Long> query = cb.createQuery(Long.class);
        Root<Person> p = query.from(Person.class);
        List<Long> ids = java.util.stream.LongStream.range(2, 10_000).boxed().toList();
        query.select(p.get("id")).where(p.get("id").in(ids)).orderBy(cb.desc(p.get("id")));
        assertEquals("[Long 4, Long 3, Long 2]", told(query));
        query.where(p.get("id").in(List.of()));
        assertEquals("[]", told(query));
        query.where(p.get("id").in(List.of()).not());
        assertEquals("[Long 4, Long 3, Long 2, Long 1]", told(query));
    }

    @Test
    void namesOfTheLanguageAreNames() {
        CriteriaQuery<Object[]> query = cb.createQuery(Object[].class);
        Root<Item> i = query.from(Item.class);
        Join<Item, Shop.Order> order = i.join("order");
        query.multiselect(i.get("count").alias("select"), order.get("number").alias("from"))
                .where(cb.equal(i.get("order").get("number"), 11)).orderBy(cb.asc(i.get("count")));
        assertEquals("[[Long 1, Long 11]]", told(query));
        CriteriaQuery<Integer> limits = cb.createQuery(Integer.class);
        Root<Team> t = limits.from(Team.class);
        limits.select(t.get("limit")).where(cb.isNotNull(t.get("limit")));
        assertEquals("[Integer 3]", told(limits));
    }
}
