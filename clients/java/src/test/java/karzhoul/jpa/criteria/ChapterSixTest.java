package karzhoul.jpa.criteria;

import static org.junit.jupiter.api.Assertions.assertEquals;

import jakarta.persistence.criteria.CriteriaBuilder;
import jakarta.persistence.criteria.CriteriaDelete;
import jakarta.persistence.criteria.CriteriaQuery;
import jakarta.persistence.criteria.CriteriaUpdate;
import jakarta.persistence.criteria.Expression;
import jakarta.persistence.criteria.Join;
import jakarta.persistence.criteria.JoinType;
import jakarta.persistence.criteria.ParameterExpression;
import jakarta.persistence.criteria.Root;
import jakarta.persistence.criteria.Selection;
import jakarta.persistence.criteria.Subquery;
import jakarta.persistence.metamodel.EntityType;
import java.math.BigDecimal;
import java.util.Collection;
import java.util.List;
import karzhoul.jpa.query.OverShop;
import karzhoul.jpa.query.Shop.Item;
import karzhoul.jpa.query.Shop.Order;
import karzhoul.jpa.query.Shop.Person;
import karzhoul.jpa.query.Shop.Team;
import karzhoul.jpa.query.Shop.Vip;
import karzhoul.jpa.query.Told;
import org.junit.jupiter.api.BeforeEach;
import org.junit.jupiter.api.Test;

/**
 * The examples of the standard's chapter 6, with persons for customers and employees; their rows are worked by hand.
 */
class ChapterSixTest extends OverShop {
    private CriteriaBuilder cb;

    @BeforeEach
    void builder() {
        cb = manager.getCriteriaBuilder();
    }

    private void gives(String rows, CriteriaQuery<?> query) {
        assertEquals(rows, Told.rows(manager.createQuery(query).getResultList(), !query.getOrderList().isEmpty()));
    }

    /** 6.5.3: SELECT c FROM Customer c JOIN c.orders o JOIN o.lineItems i WHERE i.product.productType = 'printer'. */
    @Test
    void joins() {
        CriteriaQuery<Person> q = cb.createQuery(Person.class);
        Root<Person> customer = q.from(Person.class);
        Join<Person, Order> order = customer.join("orders");
        Join<Order, Item> item = order.join("items");
        q.select(customer).where(cb.equal(item.get("what"), "pen"));
        gives("[Person 1, Person 1]", q);
        CriteriaQuery<Person> chained = cb.createQuery(Person.class);
        Root<Person> root = chained.from(Person.class);
        Join<Person, Item> items = root.join("orders").join("items");
        chained.select(root).distinct(true)
                .where(cb.equal(items.get("what"), "pen"));
        gives("[Person 1]", chained);
    }

    /** 6.5.2: several roots. */
    @Test
    void roots() {
        CriteriaQuery<Person> q = cb.createQuery(Person.class);
        EntityType<Person> type = manager.getMetamodel().entity(Person.class);
        Root<Person> one = q.from(type);
        Root<Person> other = q.from(Person.class);
        q.select(one).distinct(true).where(cb.gt(one.<Integer>get("age"), other.<Integer>get("age")),
                cb.equal(other.get("name"), "Bob"));
        gives("[Person 4]", q);
    }

    /** 6.5.3: SELECT c FROM Customer c LEFT JOIN c.orders o WHERE c.status = 1. */
    @Test
    void outerJoins() {
        CriteriaQuery<Person> q = cb.createQuery(Person.class);
        Root<Person> c = q.from(Person.class);
        Join<Person, Order> o = c.join("orders", JoinType.LEFT);
        q.select(c).where(cb.ge(c.<Integer>get("age"), 36));
        gives("[Person 1, Person 1, Person 3, Person 4]", q);
        o.on(cb.equal(o.get("amount"), 7));
        CriteriaQuery<Object> counted = cb.createQuery();
        Root<Person> p = counted.from(Person.class);
        Join<Person, Order> sent = p.join("orders", JoinType.LEFT);
        sent.on(cb.equal(sent.get("amount"), 7));
        counted.multiselect(p.get("id"), cb.count(sent)).groupBy(p.get("id")).orderBy(cb.asc(p.get("id")));
        gives("[[Long 1, Long 1], [Long 2, Long 1], [Long 3, Long 0], [Long 4, Long 0]]", counted);
    }

    /** 6.5.4: SELECT d FROM Department d LEFT JOIN FETCH d.employees WHERE d.deptno = 1. */
    @Test
    void fetchJoins() {
        CriteriaQuery<Team> q = cb.createQuery(Team.class);
        Root<Team> d = q.from(Team.class);
        d.fetch("members", JoinType.LEFT);
        q.where(cb.equal(d.get("id"), 1)).select(d);
        List<Team> found = manager.createQuery(q).getResultList();
        assertEquals("[Team 1, Team 1]", Told.rows(found, true));
        assertEquals("[Person 1, Person 3]", Told.rows(found.get(0).members, false));
    }

    /** 6.5.4: path navigation, and SELECT p.vendor FROM Employee e JOIN e.contactInfo.phones p. */
    @Test
    void paths() {
        CriteriaQuery<String> q = cb.createQuery(String.class);
        Root<Person> p = q.from(Person.class);
        q.select(p.get("address").get("city")).where(cb.equal(p.get("boss").get("address").get("city"), "Paris"));
        gives("[London]", q);
        CriteriaQuery<Order> orders = cb.createQuery(Order.class);
        Root<Item> i = orders.from(Item.class);
        orders.select(i.get("order")).where(cb.equal(i.<Order>get("order").<Person>get("person").get("name"), "Bob"));
        gives("[Order 14]", orders);
    }

    /** 6.5.5 and 6.5.8: values, and the bound of a comparison as an expression. */
    @Test
    void expressions() {
        CriteriaQuery<Object> q = cb.createQuery();
        Root<Order> o = q.from(Order.class);
        q.multiselect(o.get("number"), cb.prod(o.<BigDecimal>get("price"), new BigDecimal("2")))
                .where(cb.gt(cb.prod(o.<BigDecimal>get("price"), new BigDecimal("2")), 4),
                        cb.like(o.<Person>get("person").get("name"), "A%"));
        gives("[[Long 11, BigDecimal 4.5]]", q);
        CriteriaQuery<Person> in = cb.createQuery(Person.class);
        Root<Person> p = in.from(Person.class);
        in.select(p).where(p.<String>get("address").get("city").in("London", "Paris"),
                cb.not(cb.between(p.<Integer>get("age"), 30, 40)));
        gives("[Person 4]", in);
    }

    /** 6.5.6: CASE by a rating, and NULLIF. */
    @Test
    void choices() {
        CriteriaQuery<Object> q = cb.createQuery();
        Root<Person> e = q.from(Person.class);
        q.multiselect(e.get("name"), cb.selectCase(e.<Integer>get("age")).when(36, "first").when(50, "second")
                .otherwise("third"), cb.nullif(e.<Integer>get("age"), 50)).orderBy(cb.asc(e.get("id")));
        gives("[[Ada, first, Integer 36], [null, third, Integer 20], [Bob, first, Integer 36], [Cy, second, null]]",
                q);
    }

    /** 6.5.13: parameters by object and by name. */
    @Test
    void parameters() {
        CriteriaQuery<Person> q = cb.createQuery(Person.class);
        Root<Person> c = q.from(Person.class);
        ParameterExpression<Integer> param = cb.parameter(Integer.class);
        q.select(c).where(cb.equal(c.get("age"), param));
        assertEquals("[Person 1, Person 3]",
                Told.rows(manager.createQuery(q).setParameter(param, 36).getResultList(), false));
        q.where(cb.equal(c.get("age"), cb.parameter(Integer.class, "stat")));
        assertEquals("[Person 2]", Told.rows(manager.createQuery(q).setParameter("stat", 20).getResultList(), false));
    }

    /** 6.5.14: a value of a subquery, EXISTS, ALL, and blocks of what is around them. */
    @Test
    void subqueries() {
        CriteriaQuery<Person> good = cb.createQuery(Person.class);
        Root<Person> c = good.from(Person.class);
        Subquery<Double> sq = good.subquery(Double.class);
        Root<Person> d = sq.from(Person.class);
        good.where(cb.lt(c.<BigDecimal>get("credit"), sq.select(cb.avg(d.<BigDecimal>get("credit"))))).select(c);
        gives("[Person 1, Person 3]", good);

        CriteriaQuery<Person> spouses = cb.createQuery(Person.class);
        Root<Person> emp = spouses.from(Person.class);
        Subquery<Person> one = spouses.subquery(Person.class);
        Root<Person> spouse = one.from(Person.class);
        one.select(spouse).where(cb.equal(spouse, emp.get("boss")));
        spouses.select(emp).distinct(true).where(cb.exists(one));
        gives("[Person 2, Person 3, Person 4]", spouses);

        CriteriaQuery<Person> most = cb.createQuery(Person.class);
        Root<Person> paid = most.from(Person.class);
        Subquery<Integer> all = most.subquery(Integer.class);
        Root<Vip> manage = all.from(Vip.class);
        all.select(manage.get("age")).where(cb.equal(manage.get("team"), paid.get("team")));
        most.select(paid).where(cb.gt(paid.<Integer>get("age"), cb.all(all)));
        gives("[Person 1, Person 3]", withTeam(most, paid, all));
    }

    private CriteriaQuery<Person> withTeam(CriteriaQuery<Person> query, Root<Person> p, Subquery<Integer> all) {
        return query.where(cb.isNotNull(p.get("team")), cb.gt(p.<Integer>get("age"), cb.all(all)));
    }

    /** 6.5.14: SELECT c FROM Customer c WHERE (SELECT COUNT(o) FROM c.orders o) > 10, and correlated joins. */
    @Test
    void correlatedSubqueries() {
        CriteriaQuery<Person> q = cb.createQuery(Person.class);
        Root<Person> customer = q.from(Person.class);
        Subquery<Long> sq = q.subquery(Long.class);
        Join<Person, Order> o = sq.correlate(customer).join("orders");
        q.where(cb.gt(sq.select(cb.count(o)), 1)).select(customer);
        gives("[Person 1]", q);

        CriteriaQuery<Item> items = cb.createQuery(Item.class);
        Root<Item> i = items.from(Item.class);
        Join<Item, Order> order = i.join("order");
        Subquery<Integer> ages = items.subquery(Integer.class);
        Join<Item, Order> outer = ages.correlate(order);
        Join<Order, Person> of = outer.join("person");
        ages.select(of.get("age"));
        items.select(i).where(cb.gt(cb.literal(30), cb.all(ages)));
        gives("[]", items);
        items.where(cb.lt(cb.literal(30), cb.all(ages)));
        gives("[Item 100, Item 101, Item 102, Item 103]", items);
    }

    /** 6.5.11: SELECT c.status, AVG(..), COUNT(c) FROM Customer c GROUP BY c.status HAVING c.status IN (1, 2). */
    @Test
    void groups() {
        CriteriaQuery<Object> q = cb.createQuery();
        Root<Person> c = q.from(Person.class);
        q.multiselect(c.get("age"), cb.avg(c.<BigDecimal>get("credit")), cb.count(c)).groupBy(c.get("age"))
                .having(cb.in(c.get("age")).value(36).value(50)).orderBy(cb.asc(c.get("age")));
        gives("[[Integer 36, Double 5.625, Long 2], [Integer 50, Double 99.99, Long 1]]", q);
    }

    /** 6.5.12: ORDER BY of paths and of an item. */
    @Test
    void order() {
        CriteriaQuery<Object> q = cb.createQuery();
        Root<Person> c = q.from(Person.class);
        Join<Person, Order> o = c.join("orders");
        Selection<?> taxed = cb.prod(o.<BigDecimal>get("price"), new BigDecimal("1.1")).alias("taxedCost");
        q.multiselect(o.get("amount"), taxed, c.get("address").get("city")).where(cb.isNotNull(c.get("team")))
                .orderBy(cb.desc(o.get("amount")), cb.asc((Expression<?>) taxed));
        gives("[[Integer 7, BigDecimal 2.475, London], [Integer 5, BigDecimal 1.65, London], "
                + "[Integer 1, BigDecimal 0.11, Paris]]", q);
    }

    /** 6.5.15: bulk updates and deletes. */
    @Test
    void changes() {
        manager.getTransaction().begin();
        CriteriaUpdate<Person> u = cb.createCriteriaUpdate(Person.class);
        Root<Person> e = u.from(Person.class);
        u.set(e.get("address").get("city"), "Rome").where(cb.equal(e.get("address").get("city"), "London"),
                cb.equal(e.get("team").get("name"), "Blue"));
        assertEquals(1, manager.createQuery(u).executeUpdate());
        assertEquals("[Rome]", rows("SELECT p.address.city FROM Person p WHERE p.id = 4"));
        CriteriaDelete<Order> d = cb.createCriteriaDelete(Order.class);
        Root<Order> c = d.from(Order.class);
        d.where(cb.isNull(c.get("status")), cb.isEmpty(c.<Collection<Item>>get("items")));
        assertEquals(1, manager.createQuery(d).executeUpdate());
        assertEquals("[Long 4]", rows("SELECT COUNT(o) FROM Order o"));
    }
}
