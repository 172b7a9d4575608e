package karzhoul.jpa.criteria;

import jakarta.persistence.criteria.CriteriaBuilder;
import jakarta.persistence.criteria.CriteriaQuery;
import jakarta.persistence.criteria.Expression;
import jakarta.persistence.criteria.Join;
import jakarta.persistence.criteria.JoinType;
import jakarta.persistence.criteria.Predicate;
import jakarta.persistence.criteria.Root;
import jakarta.persistence.criteria.Selection;
import jakarta.persistence.criteria.Subquery;
import java.math.BigDecimal;
import java.time.LocalDate;
import java.util.Arrays;
import java.util.Collection;
import java.util.LinkedHashMap;
import java.util.List;
import java.util.Map;
import java.util.function.BiConsumer;
import java.util.function.BiFunction;
import karzhoul.jpa.query.Shop.Item;
import karzhoul.jpa.query.Shop.Mood;
import karzhoul.jpa.query.Shop.Order;
import karzhoul.jpa.query.Shop.Person;
import karzhoul.jpa.query.Shop.Place;
import karzhoul.jpa.query.Shop.Status;
import karzhoul.jpa.query.Shop.Tag;
import karzhoul.jpa.query.Shop.Team;
import karzhoul.jpa.query.Shop.Vip;

/** Criteria queries by their names, in the standard's words alone, so that any provider may answer them. */
final class PeerQueries {
    private final CriteriaBuilder cb;
    private final Map<String, CriteriaQuery<?>> all = new LinkedHashMap<>();

    private PeerQueries(CriteriaBuilder cb) {
        this.cb = cb;
    }

    /** The queries of a builder. */
    static Map<String, CriteriaQuery<?>> of(CriteriaBuilder cb) {
        PeerQueries queries = new PeerQueries(cb);
        queries.conditions();
        queries.values();
        queries.joins();
        queries.groups();
        queries.subqueries();
        queries.selections();
        return queries.all;
    }

    private void put(String name, BiConsumer<CriteriaQuery<Object>, Root<Person>> built) {
        CriteriaQuery<Object> query = cb.createQuery(Object.class);
        built.accept(query, query.from(Person.class));
        all.put(name, query);
    }

    private void where(String name, BiFunction<CriteriaQuery<?>, Root<Person>, Predicate> test) {
        put(name, (q, p) -> q.select(p.get("id")).where(test.apply(q, p)).orderBy(cb.asc(p.get("id"))));
    }

    private void items(String name, BiFunction<CriteriaQuery<?>, Root<Person>, List<Selection<?>>> items) {
        put(name, (q, p) -> q.multiselect(items.apply(q, p)).orderBy(cb.asc(p.get("id"))));
    }

    private static List<Selection<?>> list(Selection<?>... items) {
        return Arrays.asList(items);
    }

    private static Expression<Integer> age(Root<Person> p) {
        return p.get("age");
    }

    private static Expression<String> name(Root<Person> p) {
        return p.get("name");
    }

    private void conditions() {
        where("equal text", (q, p) -> cb.equal(name(p), "Ada"));
        where("equal enum", (q, p) -> cb.equal(p.get("mood"), Mood.SAD));
        where("not equal, nulls left out", (q, p) -> cb.notEqual(name(p), "Ada"));
        where("greater or equal", (q, p) -> cb.ge(age(p), 36));
        where("decimal less", (q, p) -> cb.lessThan(p.<BigDecimal>get("credit"), new BigDecimal("10.5")));
        where("date before", (q, p) -> cb.lessThan(p.<LocalDate>get("born"), LocalDate.of(1900, 1, 1)));
        where("between", (q, p) -> cb.between(age(p), 21, 40));
        where("not between", (q, p) -> cb.not(cb.between(age(p), 21, 40)));
        where("like", (q, p) -> cb.like(name(p), "%o%"));
        where("not like", (q, p) -> cb.notLike(name(p), "A%"));
        where("like with escape", (q, p) -> cb.like(name(p), "A!_a", '!'));
        where("in texts", (q, p) -> name(p).in("Ada", "Cy"));
        where("in collection", (q, p) -> age(p).in(List.of(20, 50)));
        where("not in", (q, p) -> cb.not(name(p).in("Ada", "Cy")));
        where("in builder", (q, p) -> cb.in(age(p)).value(36).value(20));
        where("is null", (q, p) -> cb.isNull(p.get("boss")));
        where("is not null", (q, p) -> p.get("born").isNotNull());
        where("boolean path", (q, p) -> cb.isTrue(p.get("active")));
        where("boolean false", (q, p) -> cb.isFalse(p.get("active")));
        where("and of three", (q, p) -> cb.and(cb.gt(age(p), 10), cb.isNotNull(name(p)), cb.isNotNull(p.get("boss"))));
        where("or", (q, p) -> cb.or(cb.equal(name(p), "Cy"), cb.lt(age(p), 30)));
        where("not or", (q, p) -> cb.not(cb.or(cb.equal(name(p), "Cy"), cb.lt(age(p), 30))));
        where("and within or", (q, p) -> cb.or(cb.and(cb.equal(age(p), 36), cb.equal(name(p), "Bob")),
                cb.equal(age(p), 50)));
        where("conjunction", (q, p) -> cb.conjunction());
        where("disjunction", (q, p) -> cb.disjunction());
        where("empty collection", (q, p) -> cb.isEmpty(p.<Collection<Order>>get("orders")));
        where("not empty collection", (q, p) -> cb.isNotEmpty(p.<Collection<Tag>>get("tags")));
        where("embedded path", (q, p) -> cb.equal(p.get("address").get("city"), "London"));
        where("path along a relation", (q, p) -> cb.equal(p.get("boss").get("name"), "Ada"));
        where("upper", (q, p) -> cb.equal(cb.upper(name(p)), "ADA"));
        where("type", (q, p) -> cb.equal(p.type(), Vip.class));
        where("arithmetic", (q, p) -> cb.gt(cb.sum(cb.prod(age(p), 2), 1), 73));
    }

    private void values() {
        items("texts", (q, p) -> list(cb.concat(name(p), "!"), cb.substring(name(p), 2), cb.length(name(p)),
                cb.lower(name(p))));
        items("locate", (q, p) -> list(cb.locate(name(p), "o"), cb.locate(name(p), "a", 2)));
        items("trim", (q, p) -> list(cb.trim(CriteriaBuilder.Trimspec.LEADING, 'A', name(p)), p.get("id")));
        items("coalesce", (q, p) -> list(cb.coalesce(name(p), "none"),
                cb.<String>coalesce().value(name(p)).value("x")));
        items("nullif", (q, p) -> list(cb.nullif(name(p), "Ada"), p.get("id")));
        items("case", (q, p) -> list(cb.<String>selectCase().when(cb.gt(age(p), 40), "old").otherwise("young"),
                p.get("id")));
        items("simple case", (q, p) -> list(cb.<Integer, String>selectCase(age(p)).when(36, "x").when(20, "y")
                .otherwise("z"), p.get("id")));
        items("numbers", (q, p) -> list(cb.abs(p.<Double>get("weight")), cb.mod(age(p), 7), cb.neg(age(p))));
        items("decimal product", (q, p) -> list(cb.prod(p.<BigDecimal>get("credit"), new BigDecimal("2")),
                p.get("id")));
    }

    private void joins() {
        put("inner join", (q, p) -> {
            Join<Person, Order> o = p.join("orders");
            q.multiselect(p.get("id"), o.get("number")).orderBy(cb.asc(o.get("number")));
        });
        put("left join", (q, p) -> {
            Join<Person, Order> o = p.join("orders", JoinType.LEFT);
            q.multiselect(p.get("id"), o.get("number")).where(cb.isNull(o.get("number")));
        });
        put("left join with on", (q, p) -> {
            Join<Person, Order> o = p.join("orders", JoinType.LEFT);
            o.on(cb.gt(o.<Integer>get("amount"), 5));
            q.multiselect(p.get("id"), o.get("number")).orderBy(cb.asc(p.get("id")), cb.asc(o.get("number")));
        });
        put("joins over three", (q, p) -> {
            Join<Order, Item> i = p.<Person, Order>join("orders").join("items");
            q.multiselect(p.get("name"), i.get("what")).where(cb.gt(i.<Long>get("count"), 1L))
                    .orderBy(cb.asc(i.get("id")));
        });
        put("join to one", (q, p) -> {
            Join<Person, Person> boss = p.join("boss");
            q.multiselect(p.get("id"), boss.get("name")).orderBy(cb.asc(p.get("id")));
        });
        joinsToOne();
    }

    private void joinsToOne() {
        put("left join to one", (q, p) -> {
            Join<Person, Person> boss = p.join("boss", JoinType.LEFT);
            q.multiselect(p.get("id"), boss.get("name")).orderBy(cb.asc(p.get("id")));
        });
        put("distinct over a join", (q, p) -> {
            p.join("orders");
            q.select(p.get("name")).distinct(true);
        });
        put("two roots", (q, p) -> {
            Root<Team> t = q.from(Team.class);
            q.multiselect(p.get("id"), t.get("name")).where(cb.equal(p.get("team"), t)).orderBy(cb.asc(p.get("id")));
        });
        put("fetch", (q, p) -> {
            p.fetch("team", JoinType.LEFT);
            q.select(p).orderBy(cb.desc(p.get("id")));
        });
        put("many to many", (q, p) -> {
            Join<Person, Tag> t = p.join("tags");
            q.multiselect(p.get("id"), t.get("code")).orderBy(cb.asc(p.get("id")), cb.desc(t.get("code")));
        });
    }

    private void groups() {
        put("count", (q, p) -> q.select(cb.count(p)));
        put("aggregates", (q, p) -> q.multiselect(cb.avg(age(p)), cb.min(age(p)), cb.max(p.<Double>get("weight")),
                cb.countDistinct(age(p))));
        put("sum of decimals", (q, p) -> q.select(cb.sum(p.<BigDecimal>get("credit"))));
        put("sum as long", (q, p) -> q.select(cb.sumAsLong(age(p))));
        put("greatest and least", (q, p) -> q.multiselect(cb.greatest(name(p)), cb.least(name(p))));
        put("group by", (q, p) -> q.multiselect(age(p), cb.count(p)).groupBy(age(p)).orderBy(cb.asc(age(p))));
        put("group by of a join", (q, p) -> {
            Join<Person, Order> o = p.join("orders");
            q.multiselect(p.get("id"), cb.sumAsLong(o.get("amount"))).groupBy(p.get("id"))
                    .orderBy(cb.asc(p.get("id")));
        });
        put("having", (q, p) -> q.multiselect(age(p), cb.count(p)).groupBy(age(p)).having(cb.gt(cb.count(p), 1)));
        put("having two", (q, p) -> q.select(p.get("address").get("city")).groupBy(p.get("address").get("city"))
                .having(cb.gt(cb.count(p), 1), cb.isNotNull(p.get("address").get("city"))));
    }

    private void subqueries() {
        where("exists", (q, p) -> {
            Subquery<Order> sub = q.subquery(Order.class);
            Root<Order> o = sub.from(Order.class);
            return cb.exists(sub.select(o).where(cb.equal(o.get("person"), p), cb.equal(o.get("status"),
                    Status.OPEN)));
        });
        where("not exists", (q, p) -> {
            Subquery<Order> sub = q.subquery(Order.class);
            Root<Order> o = sub.from(Order.class);
            return cb.not(cb.exists(sub.select(o).where(cb.equal(o.get("person"), p))));
        });
        where("in subquery", (q, p) -> {
            Subquery<Long> sub = q.subquery(Long.class);
            Root<Order> o = sub.from(Order.class);
            return cb.in(p.<Long>get("id")).value(sub.select(o.<Person>get("person").get("id"))
                    .where(cb.gt(o.<Integer>get("amount"), 4)));
        });
        where("greater than all", (q, p) -> {
            Subquery<Integer> sub = q.subquery(Integer.class);
            Root<Person> other = sub.from(Person.class);
            sub.select(other.get("age")).where(cb.lt(other.<Integer>get("age"), 40));
            return cb.gt(age(p), cb.all(sub));
        });
        where("less than any", (q, p) -> {
            Subquery<Integer> sub = q.subquery(Integer.class);
            return cb.lt(age(p), cb.any(sub.select(sub.from(Person.class).get("age"))));
        });
        where("a value of a subquery", (q, p) -> {
            Subquery<Integer> sub = q.subquery(Integer.class);
            return cb.equal(age(p), sub.select(cb.max(sub.from(Person.class).<Integer>get("age"))));
        });
        where("correlated root", (q, p) -> {
            Subquery<Order> sub = q.subquery(Order.class);
            Join<Person, Order> o = sub.correlate(p).join("orders");
            return cb.exists(sub.select(o).where(cb.gt(o.<Integer>get("amount"), 5)));
        });
    }

    private void selections() {
        put("an entity", (q, p) -> q.select(p).where(cb.equal(p.get("id"), 3)));
        put("a relation", (q, p) -> q.select(p.get("team")).where(cb.equal(p.get("id"), 4)));
        put("an entity and a value", (q, p) -> q.multiselect(p, p.get("age")).orderBy(cb.desc(p.get("id"))));
        put("order by two", (q, p) -> q.multiselect(age(p), p.get("id")).orderBy(cb.desc(age(p)),
                cb.asc(p.get("id"))));
        CriteriaQuery<Place> places = cb.createQuery(Place.class);
        Root<Place> place = places.from(Place.class);
        places.select(place).where(cb.equal(place.get("at").get("row"), 1)).orderBy(cb.asc(place.get("label")));
        all.put("a part of an embedded key", places);
    }
}
