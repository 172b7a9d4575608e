package karzhoul.jpa.criteria;

import static org.junit.jupiter.api.Assertions.assertEquals;
import static org.junit.jupiter.api.Assertions.assertTrue;

import jakarta.persistence.criteria.CriteriaBuilder;
import jakarta.persistence.criteria.CriteriaQuery;
import jakarta.persistence.criteria.Expression;
import jakarta.persistence.criteria.From;
import jakarta.persistence.criteria.Join;
import jakarta.persistence.criteria.JoinType;
import jakarta.persistence.criteria.Predicate;
import jakarta.persistence.criteria.Root;
import jakarta.persistence.criteria.Selection;
import jakarta.persistence.criteria.Subquery;
import java.math.BigDecimal;
import java.util.ArrayList;
import java.util.Collection;
import java.util.List;
import java.util.Random;
import karzhoul.jpa.query.OverShop;
import karzhoul.jpa.query.Shop;
import karzhoul.jpa.query.Shop.Mood;
import karzhoul.jpa.query.Shop.Person;
import karzhoul.jpa.query.Told;
import org.junit.jupiter.params.ParameterizedTest;
import org.junit.jupiter.params.provider.ValueSource;

/** Random queries, each as criteria and as a text: both have the same rows, or both are refused. */
class RandomCriteriaTest extends OverShop {
    private static final int COUNT = Integer.getInteger("karzhoul.criteria", 125);
    private static final String[] NUMBERS = {"p.age", "p.id", "p.credit", "p.weight", "o.amount", "o.price",
            "p.team.limit", "p.boss.age"};
    private static final String[] TEXTS = {"p.name", "p.address.city", "p.team.name", "p.boss.name"};
    private static final String[] WORDS = {"Ada", "Bob", "London", "Red", "o'", "%o%", "A_a"};
    private static final String[] SIGNS = {"=", "<>", "<", "<=", ">", ">="};

    private Random random;
    private CriteriaBuilder cb;
    private CriteriaQuery<Object[]> query;
    private Root<Person> p;
    private From<?, Shop.Order> o;

    /** A part of a query in both forms. */
    private record Both<E>(E built, String text) {}

    @ParameterizedTest
    @ValueSource(longs = {1, 2, 3, 4})
    void haveTheSameRows(long seed) {
        random = new Random(seed);
        cb = manager.getCriteriaBuilder();
        List<String> wrong = new ArrayList<>();
        int found = 0;
        for (int count = 0; count < COUNT; count++) {
            String text = query();
            String byText = told(() -> manager.createQuery(text).getResultList(), text);
            String byCriteria = told(() -> manager.createQuery(query).getResultList(), text);
            manager.clear();
            found += byText.equals("[]") || byText.startsWith("refused") ? 0 : 1;
            if (!byText.equals(byCriteria)) {
                wrong.add(text + "\n text " + byText + "\n criteria " + byCriteria);
            }
        }
        assertEquals(List.of(), wrong);
        assertTrue(found > COUNT / 3, found + " had rows");
    }

    private static String told(java.util.function.Supplier<List<?>> rows, String text) {
        try {
            return Told.rows(rows.get(), false);
        } catch (RuntimeException e) {
            return "refused: " + e.getMessage().replaceFirst("^line \\d+, column \\d+: ", "")
                    .replaceAll("\"[a-z]\\d*\\.", "\"").replaceAll(": SELECT .*", "");
        }
    }

    private String query() {
        query = cb.createQuery(Object[].class);
        p = query.from(Person.class);
        StringBuilder text = new StringBuilder(" FROM Person p");
        switch (random.nextInt(3)) {
            case 0 -> {
                Root<Shop.Order> root = query.from(Shop.Order.class);
                o = root;
                text.append(", Order o");
            }
            case 1 -> {
                o = p.join("orders");
                text.append(" JOIN p.orders o");
            }
            default -> {
                Join<Person, Shop.Order> join = p.join("orders", JoinType.LEFT);
                text.append(" LEFT JOIN p.orders o");
                if (random.nextBoolean()) {
                    join.on(cb.gt(join.get("amount"), 3));
                    text.append(" ON o.amount > 3");
                }
                o = join;
            }
        }
        Both<Predicate> where = condition(3);
        query.where(where.built());
        text.append(" WHERE ").append(where.text());
        if (random.nextInt(4) == 0) {
            return grouped(text);
        }
        Both<? extends Expression<?>> item = random.nextBoolean() ? number(2) : text(1);
        query.multiselect(p.get("id"), o.get("number"), item.built()).distinct(random.nextInt(4) == 0);
        return "SELECT " + (query.isDistinct() ? "DISTINCT " : "") + "p.id, o.number, " + item.text() + text;
    }

    private String grouped(StringBuilder text) {
        Both<? extends Expression<?>> value = number(1);
        List<Selection<?>> items = new ArrayList<>(List.of(p.get("team").get("name"), cb.count(o)));
        @SuppressWarnings("unchecked")
        Expression<Integer> counted = (Expression<Integer>) value.built();
        items.add(cb.max(counted));
        query.multiselect(items).groupBy(p.get("team").get("name"));
        text.append(" GROUP BY p.team.name");
        if (random.nextBoolean()) {
            query.having(cb.gt(cb.count(o), 1L));
            text.append(" HAVING COUNT(o) > 1L");
        }
        return "SELECT p.team.name, COUNT(o), MAX(" + value.text() + ")" + text;
    }

    // ---- conditions

    private Both<Predicate> condition(int depth) {
        if (depth > 0 && random.nextInt(2) == 0) {
            Both<Predicate> a = condition(depth - 1);
            if (random.nextInt(4) == 0) {
                return new Both<>(cb.not(a.built()), "NOT (" + a.text() + ")");
            }
            Both<Predicate> b = condition(depth - 1);
            return random.nextBoolean() ? new Both<>(cb.and(a.built(), b.built()), "(" + a.text() + ") AND (" + b.text()
                    + ")") : new Both<>(cb.or(a.built(), b.built()), "((" + a.text() + ") OR (" + b.text() + "))");
        }
        return switch (random.nextInt(8)) {
            case 0 -> compared(number(1), number(1));
            case 1 -> compared(text(1), text(1));
            case 2 -> like();
            case 3 -> among();
            case 4 -> between();
            case 5 -> block();
            case 6 -> other();
            default -> compared(number(1), constant());
        };
    }

    @SuppressWarnings({"unchecked", "rawtypes"})
    private Both<Predicate> compared(Both<? extends Expression<?>> a, Both<? extends Expression<?>> b) {
        String sign = one(SIGNS);
        Expression x = a.built();
        Expression y = b.built();
        Predicate built = switch (sign) {
            case "=" -> cb.equal(x, y);
            case "<>" -> cb.notEqual(x, y);
            case "<" -> cb.lessThan(x, y);
            case "<=" -> cb.lessThanOrEqualTo(x, y);
            case ">" -> cb.greaterThan(x, y);
            default -> cb.greaterThanOrEqualTo(x, y);
        };
        return new Both<>(built, a.text() + " " + sign + " " + b.text());
    }

    private Both<Predicate> like() {
        Both<Expression<String>> value = text(1);
        String pattern = one(WORDS);
        boolean isNot = random.nextBoolean();
        return new Both<>(isNot ? cb.notLike(value.built(), pattern) : cb.like(value.built(), pattern),
                value.text() + (isNot ? " NOT LIKE " : " LIKE ") + quoted(pattern));
    }

    private Both<Predicate> among() {
        Both<Expression<String>> value = text(0);
        String first = one(WORDS);
        String second = one(WORDS);
        boolean isNot = random.nextBoolean();
        Predicate in = random.nextBoolean() ? value.built().in(first, second)
                : cb.in(value.built()).value(first).value(cb.literal(second));
        return new Both<>(isNot ? in.not() : in, value.text() + (isNot ? " NOT" : "") + " IN (" + quoted(first) + ", "
                + quoted(second) + ")");
    }

    @SuppressWarnings({"unchecked", "rawtypes"})
    private Both<Predicate> between() {
        Both<? extends Expression<?>> value = number(1);
        int low = random.nextInt(40);
        return new Both<>(cb.between((Expression) value.built(), low, low + 10), value.text() + " BETWEEN " + low
                + " AND " + (low + 10));
    }

    private Both<Predicate> other() {
        return switch (random.nextInt(8)) {
            case 0 -> new Both<>(cb.isTrue(p.get("active")), "p.active = TRUE");
            case 1 -> new Both<>(cb.equal(p.get("mood"), Mood.GLAD), "p.mood = karzhoul.jpa.query.Shop.Mood.GLAD");
            case 2 -> new Both<>(cb.isNull(p.get("boss")), "p.boss IS NULL");
            case 3 -> new Both<>(p.get("name").isNotNull(), "p.name IS NOT NULL");
            case 4 -> new Both<>(cb.isEmpty(p.<Collection<Shop.Tag>>get("tags")), "p.tags IS EMPTY");
            case 5 -> new Both<>(cb.isMember(p, p.<Shop.Team>get("team").<Collection<Person>>get("members")),
                    "p MEMBER OF p.team.members");
            case 6 -> new Both<>(cb.equal(p.type(), Shop.Vip.class), "TYPE(p) = Vip");
            default -> new Both<>(cb.equal(o.get("person"), p), "o.person = p");
        };
    }

    private Both<Predicate> block() {
        Subquery<Integer> sub = query.subquery(Integer.class);
        String name = "i" + random.nextInt(1_000_000);
        if (random.nextBoolean()) {
            Join<Person, Shop.Order> inner = sub.correlate(p).join("orders");
            sub.select(inner.get("amount")).where(cb.gt(inner.get("amount"), 4));
            String text = "(SELECT " + name + ".amount FROM p.orders " + name + " WHERE " + name + ".amount > 4)";
            return random.nextBoolean() ? new Both<>(cb.exists(sub), "EXISTS " + text)
                    : new Both<>(p.get("age").in(sub), "p.age IN " + text);
        }
        Root<Shop.Order> inner = sub.from(Shop.Order.class);
        sub.select(inner.get("amount"));
        String text = "(SELECT " + name + ".amount FROM Order " + name + ")";
        return switch (random.nextInt(3)) {
            case 0 -> new Both<>(cb.greaterThan(p.<Integer>get("age"), cb.all(sub)), "p.age > ALL " + text);
            case 1 -> new Both<>(cb.equal(o.get("amount"), cb.any(sub)), "o.amount = ANY " + text);
            default -> {
                sub.select(cb.max(inner.<Integer>get("amount")));
                yield new Both<>(cb.equal(o.get("amount"), sub), "o.amount = (SELECT MAX(" + name
                        + ".amount) FROM Order " + name + ")");
            }
        };
    }

    // ---- values

    private Both<Expression<Number>> path(String text) {
        String[] names = text.split("\\.");
        jakarta.persistence.criteria.Path<?> at = names[0].equals("p") ? p : o;
        for (int place = 1; place < names.length; place++) {
            at = at.get(names[place]);
        }
        @SuppressWarnings("unchecked")
        Expression<Number> built = (Expression<Number>) at;
        return new Both<>(built, text);
    }

    private Both<Expression<Number>> constant() {
        int whole = random.nextInt(60);
        return switch (random.nextInt(4)) {
            case 0 -> new Both<>(cb.literal(new BigDecimal(whole + ".25")), whole + ".25BD");
            case 1 -> new Both<>(cb.literal(whole + 0.5), whole + ".5");
            case 2 -> new Both<>(cb.literal((long) whole), whole + "L");
            default -> new Both<>(cb.literal(whole), String.valueOf(whole));
        };
    }

    private Both<Expression<Number>> number(int depth) {
        if (depth == 0 || random.nextBoolean()) {
            return path(one(NUMBERS));
        }
        Both<Expression<Number>> a = number(depth - 1);
        Both<Expression<Number>> b = random.nextBoolean() ? constant() : number(depth - 1);
        return switch (random.nextInt(6)) {
            case 0 -> new Both<>(cb.sum(a.built(), b.built()), "(" + a.text() + " + " + b.text() + ")");
            case 1 -> new Both<>(cb.diff(a.built(), b.built()), "(" + a.text() + " - " + b.text() + ")");
            case 2 -> new Both<>(cb.prod(a.built(), b.built()), "(" + a.text() + " * " + b.text() + ")");
            case 3 -> new Both<>(cb.neg(a.built()), "-(" + a.text() + ")");
            case 4 -> new Both<>(cb.abs(a.built()), "ABS(" + a.text() + ")");
            default -> new Both<>(cb.coalesce(a.built(), a.built()), "COALESCE(" + a.text() + ", " + a.text() + ")");
        };
    }

    private Both<Expression<String>> text(int depth) {
        if (depth == 0 || random.nextBoolean()) {
            Both<Expression<Number>> path = path(one(TEXTS));
            @SuppressWarnings("unchecked")
            Expression<String> built = (Expression<String>) (Expression<?>) path.built();
            return new Both<>(built, path.text());
        }
        Both<Expression<String>> a = text(depth - 1);
        String word = one(WORDS);
        return switch (random.nextInt(5)) {
            case 0 -> new Both<>(cb.upper(a.built()), "UPPER(" + a.text() + ")");
            case 1 -> new Both<>(cb.concat(a.built(), word), "CONCAT(" + a.text() + ", " + quoted(word) + ")");
            case 2 -> new Both<>(cb.substring(a.built(), 2), "SUBSTRING(" + a.text() + ", 2)");
            case 3 -> new Both<>(cb.nullif(a.built(), word), "NULLIF(" + a.text() + ", " + quoted(word) + ")");
            default -> new Both<>(cb.<String>selectCase().when(cb.isNull(a.built()), word).otherwise(a.built()),
                    "CASE WHEN " + a.text() + " IS NULL THEN " + quoted(word) + " ELSE " + a.text() + " END");
        };
    }

    private static String quoted(String word) {
        return "'" + word.replace("'", "''") + "'";
    }

    private String one(String[] all) {
        return all[random.nextInt(all.length)];
    }
}
