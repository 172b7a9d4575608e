package karzhoul.jpa.criteria;

import static org.junit.jupiter.api.Assertions.assertEquals;
import static org.junit.jupiter.api.Assertions.assertTrue;

import jakarta.persistence.criteria.CriteriaBuilder;
import jakarta.persistence.criteria.CriteriaBuilder.Trimspec;
import jakarta.persistence.criteria.CriteriaQuery;
import jakarta.persistence.criteria.Expression;
import jakarta.persistence.criteria.Predicate;
import jakarta.persistence.criteria.Root;
import jakarta.persistence.criteria.Subquery;
import java.lang.reflect.Method;
import java.math.BigDecimal;
import java.math.BigInteger;
import java.time.LocalDate;
import java.util.ArrayList;
import java.util.Arrays;
import java.util.Collection;
import java.util.List;
import java.util.Set;
import java.util.TreeSet;
import java.util.function.BiFunction;
import java.util.stream.Collectors;
import karzhoul.jpa.query.OverShop;
import karzhoul.jpa.query.Shop;
import karzhoul.jpa.query.Shop.Mood;
import karzhoul.jpa.query.Shop.Person;
import karzhoul.jpa.query.Told;
import org.junit.jupiter.api.Test;

/** Each method of the builder, with the text that means the same: both have the same rows. */
class BuilderTest extends OverShop {
    /** The methods that other tests of this package are about. */
    private static final Set<String> ELSEWHERE = Set.of("createQuery()", "createQuery(Class)", "createTupleQuery()",
            "createCriteriaUpdate(Class)", "createCriteriaDelete(Class)", "construct(Class,Selection[])",
            "tuple(Selection[])", "array(Selection[])", "asc(Expression)", "desc(Expression)",
            "function(String,Class,Expression[])", "values(Map)", "keys(Map)", "treat(Join,Class)",
            "treat(CollectionJoin,Class)", "treat(SetJoin,Class)", "treat(ListJoin,Class)", "treat(MapJoin,Class)",
            "treat(Path,Class)", "treat(Root,Class)", "parameter(Class)", "parameter(Class,String)");

    private final List<String> wrong = new ArrayList<>();
    private final Set<String> seen = new TreeSet<>();
    private CriteriaBuilder cb;

    private void value(String method, BiFunction<CriteriaBuilder, Root<Person>, Expression<?>> built, String text) {
        CriteriaQuery<Object[]> query = cb.createQuery(Object[].class);
        Root<Person> p = query.from(Person.class);
        compare(method, () -> query.multiselect(p.get("id"), built.apply(cb, p)), query,
                "SELECT p.id, " + text + " FROM Person p");
    }

    private void group(String method, BiFunction<CriteriaBuilder, Root<Person>, Expression<?>> built, String text) {
        CriteriaQuery<Object[]> query = cb.createQuery(Object[].class);
        Root<Person> p = query.from(Person.class);
        compare(method, () -> query.multiselect(p.get("active"), built.apply(cb, p)).groupBy(p.get("active")), query,
                "SELECT p.active, " + text + " FROM Person p GROUP BY p.active");
    }

    private void test(String method, BiFunction<CriteriaBuilder, Root<Person>, Predicate> built, String text) {
        CriteriaQuery<Object> query = cb.createQuery();
        Root<Person> p = query.from(Person.class);
        compare(method, () -> query.select(p.get("id")).where(built.apply(cb, p)), query,
                "SELECT p.id FROM Person p WHERE " + text);
    }

    private void compare(String method, Runnable build, CriteriaQuery<?> query, String text) {
        seen.add(method);
        String found;
        try {
            build.run();
            found = Told.rows(manager.createQuery(query).getResultList(), false);
        } catch (RuntimeException e) {
            found = e.toString();
        }
        manager.clear();
        String wanted = rows(text);
        if (!found.equals(wanted)) {
            wrong.add(method + ": " + text + "\n  is " + found + "\n  not " + wanted);
        }
    }

    @Test
    void eachMethodHasTheRowsOfItsText() {
        cb = manager.getCriteriaBuilder();
        aggregates();
        arithmetic();
        numbers();
        types();
        texts();
        choices();
        junctions();
        subqueries();
        comparisons();
        collections();
        likes();
        assertEquals(List.of(), wrong);
        Set<String> all = Arrays.stream(CriteriaBuilder.class.getMethods()).map(BuilderTest::told)
                .collect(Collectors.toCollection(TreeSet::new));
        all.removeAll(ELSEWHERE);
        assertEquals(all, seen);
    }

    private static String told(Method method) {
        return method.getName() + Arrays.stream(method.getParameterTypes()).map(Class::getSimpleName)
                .collect(Collectors.joining(",", "(", ")"));
    }

    private static Expression<Integer> age(Root<Person> p) {
        return p.get("age");
    }

    private static Expression<String> name(Root<Person> p) {
        return p.get("name");
    }

    private static Expression<Double> weight(Root<Person> p) {
        return p.get("weight");
    }

    private static Expression<BigDecimal> credit(Root<Person> p) {
        return p.get("credit");
    }

    private void aggregates() {
        group("avg(Expression)", (b, p) -> b.avg(age(p)), "AVG(p.age)");
        group("sum(Expression)", (b, p) -> b.sum(credit(p)), "SUM(p.credit)");
        group("sumAsLong(Expression)", (b, p) -> b.sumAsLong(age(p)), "SUM(p.age)");
        group("max(Expression)", (b, p) -> b.max(age(p)), "MAX(p.age)");
        group("min(Expression)", (b, p) -> b.min(weight(p)), "MIN(p.weight)");
        group("greatest(Expression)", (b, p) -> b.greatest(name(p)), "MAX(p.name)");
        group("least(Expression)", (b, p) -> b.least(p.<LocalDate>get("born")), "MIN(p.born)");
        group("count(Expression)", (b, p) -> b.count(p.get("boss")), "COUNT(p.boss)");
        group("countDistinct(Expression)", (b, p) -> b.countDistinct(age(p)), "COUNT(DISTINCT p.age)");
        seen.add("sumAsDouble(Expression)");
        CriteriaQuery<Double> query = cb.createQuery(Double.class);
        query.select(cb.sumAsDouble(query.from(Shop.Seat.class).get("price")));
        compare("sumAsDouble(Expression)", () -> { }, query, "SELECT SUM(s.price) FROM Seat s");
    }

    private void arithmetic() {
        value("neg(Expression)", (b, p) -> b.neg(age(p)), "-p.age");
        value("sum(Expression,Expression)", (b, p) -> b.sum(age(p), age(p)), "p.age + p.age");
        value("sum(Expression,Number)", (b, p) -> b.sum(age(p), 2), "p.age + 2");
        value("sum(Number,Expression)", (b, p) -> b.sum(3L, p.<Long>get("id")), "3L + p.id");
        value("prod(Expression,Expression)", (b, p) -> b.prod(age(p), age(p)), "p.age * p.age");
        value("prod(Expression,Number)", (b, p) -> b.prod(weight(p), 1.5), "p.weight * 1.5");
        value("prod(Number,Expression)", (b, p) -> b.prod(2, age(p)), "2 * p.age");
        value("diff(Expression,Expression)", (b, p) -> b.diff(credit(p), credit(p)), "p.credit - p.credit");
        value("diff(Expression,Number)", (b, p) -> b.diff(b.diff(age(p), 1), 1), "p.age - 1 - 1");
        value("diff(Number,Expression)", (b, p) -> b.diff(100, age(p)), "100 - p.age");
        value("quot(Expression,Expression)", (b, p) -> b.quot(age(p), b.literal(7)), "p.age / 7");
        value("quot(Expression,Number)", (b, p) -> b.quot(weight(p), 2), "p.weight / 2");
        value("quot(Number,Expression)", (b, p) -> b.quot(100, age(p)), "100 / p.age");
        value("mod(Expression,Expression)", (b, p) -> b.mod(age(p), b.literal(7)), "MOD(p.age, 7)");
        value("mod(Expression,Integer)", (b, p) -> b.mod(age(p), 8), "MOD(p.age, 8)");
        value("mod(Integer,Expression)", (b, p) -> b.mod(100, age(p)), "MOD(100, p.age)");
    }

    private void numbers() {
        value("abs(Expression)", (b, p) -> b.abs(weight(p)), "ABS(p.weight)");
        value("sqrt(Expression)", (b, p) -> b.sqrt(age(p)), "SQRT(p.age)");
        value("sign(Expression)", (b, p) -> b.sign(weight(p)), "SIGN(p.weight)");
        value("ceiling(Expression)", (b, p) -> b.ceiling(weight(p)), "CEILING(p.weight)");
        value("floor(Expression)", (b, p) -> b.floor(credit(p)), "FLOOR(p.credit)");
        value("exp(Expression)", (b, p) -> b.exp(weight(p)), "EXP(p.weight)");
        value("ln(Expression)", (b, p) -> b.ln(age(p)), "LN(p.age)");
        value("power(Expression,Expression)", (b, p) -> b.power(age(p), weight(p)), "POWER(p.age, p.weight)");
        value("power(Expression,Number)", (b, p) -> b.power(age(p), 2), "POWER(p.age, 2)");
        value("round(Expression,Integer)", (b, p) -> b.round(credit(p), 1), "ROUND(p.credit, 1)");
    }

    @SuppressWarnings("unchecked")
    private void types() {
        value("toLong(Expression)", (b, p) -> b.toLong(p.<Long>get("id")), "p.id");
        value("toInteger(Expression)", (b, p) -> b.toInteger(age(p)), "p.age");
        value("toDouble(Expression)", (b, p) -> b.toDouble(weight(p)), "p.weight");
        value("toBigDecimal(Expression)", (b, p) -> b.toBigDecimal(credit(p)), "p.credit");
        value("toString(Expression)", (b, p) -> b.toString((Expression<Character>) (Expression<?>) name(p)), "p.name");
        seen.addAll(List.of("toFloat(Expression)", "toBigInteger(Expression)"));
        CriteriaQuery<Object[]> query = cb.createQuery(Object[].class);
        Root<Person> p = query.from(Person.class);
        query.multiselect(cb.toFloat(weight(p)), cb.toBigInteger(age(p)), cb.toLong(age(p)),
                age(p).as(Long.class)).where(cb.equal(p.get("id"), 1));
        Object[] row = manager.createQuery(query).getSingleResult();
        assertEquals(List.of(1.5f, BigInteger.valueOf(36), 36L, 36L), Arrays.asList(row));
        value("currentDate()", (b, q) -> b.selectCase().when(b.greaterThan(b.currentDate(),
                q.<java.sql.Date>get("born")), 1).otherwise(2), "CASE WHEN CURRENT_DATE > p.born THEN 1 ELSE 2 END");
        test("currentTimestamp()", (b, q) -> b.isNotNull(b.currentTimestamp()), "CURRENT_TIMESTAMP IS NOT NULL");
        test("currentTime()", (b, q) -> b.isNotNull(b.currentTime()), "CURRENT_TIME IS NOT NULL");
        test("localDate()", (b, q) -> b.lessThan(q.<LocalDate>get("born"), b.localDate()), "p.born < LOCAL DATE");
        test("localTime()", (b, q) -> b.isNotNull(b.localTime()), "LOCAL TIME IS NOT NULL");
        test("localDateTime()", (b, q) -> b.isNotNull(b.localDateTime()), "LOCAL DATETIME IS NOT NULL");
    }

    private void texts() {
        value("concat(Expression,Expression)", (b, p) -> b.concat(name(p), name(p)), "CONCAT(p.name, p.name)");
        value("concat(Expression,String)", (b, p) -> b.concat(name(p), "'s"), "CONCAT(p.name, '''s')");
        value("concat(String,Expression)", (b, p) -> b.concat("I, ", name(p)), "CONCAT('I, ', p.name)");
        value("substring(Expression,Expression)", (b, p) -> b.substring(name(p), b.literal(2)),
                "SUBSTRING(p.name, 2)");
        value("substring(Expression,int)", (b, p) -> b.substring(name(p), 2), "SUBSTRING(p.name, 2)");
        value("substring(Expression,Expression,Expression)",
                (b, p) -> b.substring(name(p), b.literal(1), b.literal(2)), "SUBSTRING(p.name, 1, 2)");
        value("substring(Expression,int,int)", (b, p) -> b.substring(name(p), 2, 1), "SUBSTRING(p.name, 2, 1)");
        value("trim(Expression)", (b, p) -> b.trim(b.concat(" ", name(p))), "TRIM(CONCAT(' ', p.name))");
        value("trim(Trimspec,Expression)", (b, p) -> b.trim(Trimspec.LEADING, b.concat(" ", b.concat(name(p), " "))),
                "TRIM(LEADING FROM CONCAT(' ', CONCAT(p.name, ' ')))");
        value("trim(char,Expression)", (b, p) -> b.trim('b', b.lower(name(p))), "TRIM('b' FROM LOWER(p.name))");
        value("trim(Expression,Expression)", (b, p) -> b.trim(b.literal('a'), b.lower(name(p))),
                "TRIM('a' FROM LOWER(p.name))");
        value("trim(Trimspec,Expression,Expression)",
                (b, p) -> b.trim(Trimspec.TRAILING, b.literal('b'), name(p)), "TRIM(TRAILING 'b' FROM p.name)");
        value("trim(Trimspec,char,Expression)", (b, p) -> b.trim(Trimspec.BOTH, 'B', name(p)),
                "TRIM(BOTH 'B' FROM p.name)");
        value("lower(Expression)", (b, p) -> b.lower(name(p)), "LOWER(p.name)");
        value("upper(Expression)", (b, p) -> b.upper(name(p)), "UPPER(p.name)");
        value("length(Expression)", (b, p) -> b.length(name(p)), "LENGTH(p.name)");
        value("locate(Expression,Expression)", (b, p) -> b.locate(name(p), b.literal("b")), "LOCATE('b', p.name)");
        value("locate(Expression,String)", (b, p) -> b.locate(name(p), "d"), "LOCATE('d', p.name)");
        value("locate(Expression,Expression,Expression)",
                (b, p) -> b.locate(name(p), b.literal("a"), b.literal(2)), "LOCATE('a', p.name, 2)");
        value("locate(Expression,String,int)", (b, p) -> b.locate(name(p), "o", 1), "LOCATE('o', p.name, 1)");
    }

    private void choices() {
        value("literal(Object)", (b, p) -> b.literal("it's"), "'it''s'");
        value("nullLiteral(Class)", (b, p) -> b.coalesce(b.nullLiteral(String.class), name(p)),
                "COALESCE(NULL, p.name)");
        value("coalesce(Expression,Expression)", (b, p) -> b.coalesce(name(p), b.literal("none")),
                "COALESCE(p.name, 'none')");
        value("coalesce(Expression,Object)", (b, p) -> b.coalesce(name(p), "none"), "COALESCE(p.name, 'none')");
        value("coalesce()", (b, p) -> b.<String>coalesce().value(name(p)).value(p.<String>get("address").get("city"))
                .value("none"), "COALESCE(p.name, p.address.city, 'none')");
        value("nullif(Expression,Expression)", (b, p) -> b.nullif(age(p), b.literal(36)), "NULLIF(p.age, 36)");
        value("nullif(Expression,Object)", (b, p) -> b.nullif(age(p), 50), "NULLIF(p.age, 50)");
        value("selectCase(Expression)", (b, p) -> b.<Integer, String>selectCase(age(p)).when(36, "a")
                .when(50, b.literal("b")).otherwise(name(p)), "CASE p.age WHEN 36 THEN 'a' WHEN 50 THEN 'b' "
                        + "ELSE p.name END");
        value("selectCase()", (b, p) -> b.<String>selectCase().when(b.gt(age(p), 40), "old")
                .when(b.isNull(name(p)), name(p)).otherwise("young"),
                "CASE WHEN p.age > 40 THEN 'old' WHEN p.name IS NULL THEN p.name ELSE 'young' END");
        value("selectCase()", (b, p) -> b.<Integer>selectCase().when(b.gt(age(p), 40), 1),
                "CASE WHEN p.age > 40 THEN 1 ELSE NULL END");
    }

    private void junctions() {
        test("and(Expression,Expression)", (b, p) -> b.and(b.gt(age(p), 20), b.isNotNull(name(p))),
                "p.age > 20 AND p.name IS NOT NULL");
        test("and(Predicate[])", (b, p) -> b.and(b.gt(age(p), 20), b.isNotNull(name(p)), b.equal(name(p), "Ada")),
                "p.age > 20 AND p.name IS NOT NULL AND p.name = 'Ada'");
        test("or(Expression,Expression)", (b, p) -> b.or(b.lt(age(p), 30), p.<Boolean>get("active")),
                "p.age < 30 OR p.active = TRUE");
        test("or(Predicate[])", (b, p) -> b.or(b.equal(age(p), 20), b.equal(age(p), 50)), "p.age = 20 OR p.age = 50");
        test("not(Expression)", (b, p) -> b.not(b.or(b.equal(age(p), 20), b.equal(name(p), "Ada"))),
                "NOT (p.age = 20 OR p.name = 'Ada')");
        test("conjunction()", (b, p) -> b.conjunction(), "p.id IS NOT NULL");
        test("disjunction()", (b, p) -> b.disjunction(), "p.id IS NULL");
        test("isTrue(Expression)", (b, p) -> b.isTrue(p.get("active")), "p.active = TRUE");
        test("isFalse(Expression)", (b, p) -> b.isFalse(p.get("active")), "p.active = FALSE");
        test("isFalse(Expression)", (b, p) -> b.isFalse(b.like(name(p), "A%")), "p.name NOT LIKE 'A%'");
        test("isNull(Expression)", (b, p) -> b.isNull(p.get("boss")), "p.boss IS NULL");
        test("isNotNull(Expression)", (b, p) -> b.isNotNull(p.get("address").get("city")),
                "p.address.city IS NOT NULL");
    }

    private static Subquery<Integer> amounts(Root<Person> p, CriteriaQuery<?> query) {
        Subquery<Integer> block = query.subquery(Integer.class);
        Root<Shop.Order> o = block.from(Shop.Order.class);
        return block.select(o.get("amount"));
    }

    private void subqueries() {
        CriteriaQuery<Object> outer = cb.createQuery();
        test("exists(Subquery)", (b, p) -> {
            Subquery<Integer> block = amounts(p, outer);
            return b.exists(block.where(b.equal(block.getRoots().iterator().next().get("person"), p)));
        }, "EXISTS (SELECT o.amount FROM Order o WHERE o.person = p)");
        test("all(Subquery)", (b, p) -> b.greaterThan(age(p), b.all(amounts(p, outer))),
                "p.age > ALL (SELECT o.amount FROM Order o)");
        test("some(Subquery)", (b, p) -> b.lessThan(age(p), b.some(amounts(p, outer))),
                "p.age < SOME (SELECT o.amount FROM Order o)");
        test("any(Subquery)", (b, p) -> b.greaterThan(age(p), b.any(amounts(p, outer))),
                "p.age > ANY (SELECT o.amount FROM Order o)");
    }

    private void comparisons() {
        test("equal(Expression,Expression)", (b, p) -> b.equal(age(p), p.get("boss").get("age")),
                "p.age = p.boss.age");
        test("equal(Expression,Object)", (b, p) -> b.equal(p.get("mood"), Mood.GLAD),
                "p.mood = karzhoul.jpa.query.Shop.Mood.GLAD");
        test("notEqual(Expression,Expression)", (b, p) -> b.notEqual(age(p), p.get("boss").get("age")),
                "p.age <> p.boss.age");
        test("notEqual(Expression,Object)", (b, p) -> b.notEqual(name(p), "Ada"), "p.name <> 'Ada'");
        test("greaterThan(Expression,Expression)", (b, p) -> b.greaterThan(name(p), b.literal("B")), "p.name > 'B'");
        test("greaterThan(Expression,Comparable)", (b, p) -> b.greaterThan(name(p), "B"), "p.name > 'B'");
        test("greaterThanOrEqualTo(Expression,Expression)",
                (b, p) -> b.greaterThanOrEqualTo(age(p), p.<Person>get("boss").<Integer>get("age")),
                "p.age >= p.boss.age");
        test("greaterThanOrEqualTo(Expression,Comparable)", (b, p) -> b.greaterThanOrEqualTo(credit(p),
                new BigDecimal("10.5")), "p.credit >= 10.5");
        test("lessThan(Expression,Expression)", (b, p) -> b.lessThan(name(p), b.literal("B")), "p.name < 'B'");
        test("lessThan(Expression,Comparable)", (b, p) -> b.lessThan(p.<LocalDate>get("born"),
                LocalDate.of(1900, 1, 1)), "p.born < {d '1900-01-01'}");
        test("lessThanOrEqualTo(Expression,Expression)", (b, p) -> b.lessThanOrEqualTo(weight(p), b.literal(1.5)),
                "p.weight <= 1.5");
        test("lessThanOrEqualTo(Expression,Comparable)", (b, p) -> b.lessThanOrEqualTo(age(p), 36), "p.age <= 36");
        test("between(Expression,Expression,Expression)",
                (b, p) -> b.between(age(p), b.literal(21), b.literal(40)), "p.age BETWEEN 21 AND 40");
        test("between(Expression,Comparable,Comparable)", (b, p) -> b.between(name(p), "Ada", "Bob"),
                "p.name BETWEEN 'Ada' AND 'Bob'");
        test("gt(Expression,Expression)", (b, p) -> b.gt(age(p), b.prod(2, weight(p))), "p.age > 2 * p.weight");
        test("gt(Expression,Number)", (b, p) -> b.gt(credit(p), 1), "p.credit > 1");
        test("ge(Expression,Expression)", (b, p) -> b.ge(age(p), b.literal(36)), "p.age >= 36");
        test("ge(Expression,Number)", (b, p) -> b.ge(age(p), 35.5), "p.age >= 35.5");
        test("lt(Expression,Expression)", (b, p) -> b.lt(weight(p), b.literal(2)), "p.weight < 2");
        test("lt(Expression,Number)", (b, p) -> b.lt(age(p), 36), "p.age < 36");
        test("le(Expression,Expression)", (b, p) -> b.le(age(p), b.literal(36L)), "p.age <= 36L");
        test("le(Expression,Number)", (b, p) -> b.le(p.<Long>get("id"), 2), "p.id <= 2");
        test("in(Expression)", (b, p) -> b.in(name(p)).value("Ada").value(b.concat("C", "y".equals("") ? name(p)
                : b.literal("y"))), "p.name IN ('Ada', CONCAT('C', 'y'))");
    }

    private void collections() {
        test("isEmpty(Expression)", (b, p) -> b.isEmpty(p.<Collection<Shop.Order>>get("orders")),
                "p.orders IS EMPTY");
        test("isNotEmpty(Expression)", (b, p) -> b.isNotEmpty(p.<Collection<Shop.Order>>get("orders")),
                "p.orders IS NOT EMPTY");
        value("size(Expression)", (b, p) -> b.size(p.<Collection<Shop.Tag>>get("tags")), "SIZE(p.tags)");
        value("size(Collection)", (b, p) -> b.size(List.of(1, 2)), "2");
        test("isMember(Expression,Expression)", (b, p) -> b.isMember(p,
                p.<Shop.Team>get("team").<Collection<Person>>get("members")), "p MEMBER OF p.team.members");
        test("isNotMember(Expression,Expression)", (b, p) -> b.isNotMember(p,
                p.<Shop.Team>get("team").<Collection<Person>>get("members")), "p NOT MEMBER OF p.team.members");
        Shop.Tag a = manager.find(Shop.Tag.class, "a");
        CriteriaQuery<Object> with = cb.createQuery();
        Root<Person> p = with.from(Person.class);
        with.select(p.get("id")).where(cb.isMember(a, p.<Collection<Shop.Tag>>get("tags")));
        assertEquals("[Long 1]", Told.rows(manager.createQuery(with).getResultList(), false));
        with.where(cb.isNotMember(a, p.<Collection<Shop.Tag>>get("tags")));
        assertEquals("[Long 2, Long 3, Long 4]", Told.rows(manager.createQuery(with).getResultList(), false));
        seen.addAll(List.of("isMember(Object,Expression)", "isNotMember(Object,Expression)"));
        assertTrue(manager.contains(a));
    }

    private void likes() {
        test("like(Expression,Expression)", (b, p) -> b.like(name(p), b.literal("A%")), "p.name LIKE 'A%'");
        test("like(Expression,String)", (b, p) -> b.like(name(p), "_o_"), "p.name LIKE '_o_'");
        test("like(Expression,Expression,Expression)",
                (b, p) -> b.like(name(p), b.literal("!_%"), b.literal('!')), "p.name LIKE '!_%' ESCAPE '!'");
        test("like(Expression,Expression,char)", (b, p) -> b.like(name(p), b.literal("A!a%"), '!'),
                "p.name LIKE 'A!a%' ESCAPE '!'");
        test("like(Expression,String,Expression)", (b, p) -> b.like(name(p), "%d%", b.literal('!')),
                "p.name LIKE '%d%' ESCAPE '!'");
        test("like(Expression,String,char)", (b, p) -> b.like(name(p), "A%", '!'), "p.name LIKE 'A%' ESCAPE '!'");
        test("notLike(Expression,Expression)", (b, p) -> b.notLike(name(p), b.literal("A%")), "p.name NOT LIKE 'A%'");
        test("notLike(Expression,String)", (b, p) -> b.notLike(name(p), "_o_"), "p.name NOT LIKE '_o_'");
        test("notLike(Expression,Expression,Expression)",
                (b, p) -> b.notLike(name(p), b.literal("!_%"), b.literal('!')), "p.name NOT LIKE '!_%' ESCAPE '!'");
        test("notLike(Expression,Expression,char)", (b, p) -> b.notLike(name(p), b.literal("A%"), '!'),
                "p.name NOT LIKE 'A%' ESCAPE '!'");
        test("notLike(Expression,String,Expression)", (b, p) -> b.notLike(name(p), "%d%", b.literal('!')),
                "p.name NOT LIKE '%d%' ESCAPE '!'");
        test("notLike(Expression,String,char)", (b, p) -> b.notLike(name(p), "A%", '!'),
                "p.name NOT LIKE 'A%' ESCAPE '!'");
    }
}
