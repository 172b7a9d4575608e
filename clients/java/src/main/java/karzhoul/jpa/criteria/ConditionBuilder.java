package karzhoul.jpa.criteria;

import jakarta.persistence.criteria.Expression;
import jakarta.persistence.criteria.Predicate;
import jakarta.persistence.criteria.Predicate.BooleanOperator;
import jakarta.persistence.criteria.Subquery;
import java.util.Collection;
import java.util.List;

/** Conditions (chapter 4.6). */
abstract class ConditionBuilder extends ValueBuilder {
    // ---- of conditions

    @Override
    public Predicate and(Expression<Boolean> x, Expression<Boolean> y) {
        return Junction.of(BooleanOperator.AND, x, y);
    }

    @Override
    public Predicate and(Predicate... restrictions) {
        return Junction.of(BooleanOperator.AND, restrictions);
    }

    @Override
    public Predicate or(Expression<Boolean> x, Expression<Boolean> y) {
        return Junction.of(BooleanOperator.OR, x, y);
    }

    @Override
    public Predicate or(Predicate... restrictions) {
        return Junction.of(BooleanOperator.OR, restrictions);
    }

    @Override
    public Predicate not(Expression<Boolean> restriction) {
        return Condition.that(restriction).not();
    }

    @Override
    public Predicate conjunction() {
        return and();
    }

    @Override
    public Predicate disjunction() {
        return or();
    }

    @Override
    public Predicate isTrue(Expression<Boolean> x) {
        return Condition.that(x);
    }

    @Override
    public Predicate isFalse(Expression<Boolean> x) {
        return Term.of(x) instanceof Condition condition ? condition.not() : compared("=", x, Boolean.FALSE);
    }

    @Override
    public Predicate isNull(Expression<?> x) {
        return Term.of(x).isNull();
    }

    @Override
    public Predicate isNotNull(Expression<?> x) {
        return Term.of(x).isNotNull();
    }

    // ---- subqueries

    @Override
    public Predicate exists(Subquery<?> subquery) {
        return Test.exists(of(subquery));
    }

    private static SubqueryOf<?> of(Subquery<?> subquery) {
        return (SubqueryOf<?>) Term.of(subquery);
    }

    @Override
    public <Y> Expression<Y> all(Subquery<Y> subquery) {
        return new QuantifiedOf<>(true, of(subquery));
    }

    @Override
    public <Y> Expression<Y> some(Subquery<Y> subquery) {
        return any(subquery);
    }

    @Override
    public <Y> Expression<Y> any(Subquery<Y> subquery) {
        return new QuantifiedOf<>(false, of(subquery));
    }

    // ---- comparisons

    private static Predicate compared(String sign, Expression<?> x, Object y) {
        return Test.compared(sign, Term.of(x), Term.ofValue(y));
    }

    @Override
    public Predicate equal(Expression<?> x, Expression<?> y) {
        return compared("=", x, Term.of(y));
    }

    @Override
    public Predicate equal(Expression<?> x, Object y) {
        return compared("=", x, y);
    }

    @Override
    public Predicate notEqual(Expression<?> x, Expression<?> y) {
        return compared("<>", x, Term.of(y));
    }

    @Override
    public Predicate notEqual(Expression<?> x, Object y) {
        return compared("<>", x, y);
    }

    @Override
    public <Y extends Comparable<? super Y>> Predicate greaterThan(Expression<? extends Y> x,
            Expression<? extends Y> y) {
        return compared(">", x, Term.of(y));
    }

    @Override
    public <Y extends Comparable<? super Y>> Predicate greaterThan(Expression<? extends Y> x, Y y) {
        return compared(">", x, y);
    }

    @Override
    public <Y extends Comparable<? super Y>> Predicate greaterThanOrEqualTo(Expression<? extends Y> x,
            Expression<? extends Y> y) {
        return compared(">=", x, Term.of(y));
    }

    @Override
    public <Y extends Comparable<? super Y>> Predicate greaterThanOrEqualTo(Expression<? extends Y> x, Y y) {
        return compared(">=", x, y);
    }

    @Override
    public <Y extends Comparable<? super Y>> Predicate lessThan(Expression<? extends Y> x, Expression<? extends Y> y) {
        return compared("<", x, Term.of(y));
    }

    @Override
    public <Y extends Comparable<? super Y>> Predicate lessThan(Expression<? extends Y> x, Y y) {
        return compared("<", x, y);
    }

    @Override
    public <Y extends Comparable<? super Y>> Predicate lessThanOrEqualTo(Expression<? extends Y> x,
            Expression<? extends Y> y) {
        return compared("<=", x, Term.of(y));
    }

    @Override
    public <Y extends Comparable<? super Y>> Predicate lessThanOrEqualTo(Expression<? extends Y> x, Y y) {
        return compared("<=", x, y);
    }

    @Override
    public <Y extends Comparable<? super Y>> Predicate between(Expression<? extends Y> x, Expression<? extends Y> low,
            Expression<? extends Y> high) {
        return Test.between(Term.of(x), Term.of(low), Term.of(high));
    }

    @Override
    public <Y extends Comparable<? super Y>> Predicate between(Expression<? extends Y> x, Y low, Y high) {
        return Test.between(Term.of(x), Term.ofValue(low), Term.ofValue(high));
    }

    @Override
    public Predicate gt(Expression<? extends Number> x, Expression<? extends Number> y) {
        return compared(">", x, Term.of(y));
    }

    @Override
    public Predicate gt(Expression<? extends Number> x, Number y) {
        return compared(">", x, y);
    }

    @Override
    public Predicate ge(Expression<? extends Number> x, Expression<? extends Number> y) {
        return compared(">=", x, Term.of(y));
    }

    @Override
    public Predicate ge(Expression<? extends Number> x, Number y) {
        return compared(">=", x, y);
    }

    @Override
    public Predicate lt(Expression<? extends Number> x, Expression<? extends Number> y) {
        return compared("<", x, Term.of(y));
    }

    @Override
    public Predicate lt(Expression<? extends Number> x, Number y) {
        return compared("<", x, y);
    }

    @Override
    public Predicate le(Expression<? extends Number> x, Expression<? extends Number> y) {
        return compared("<=", x, Term.of(y));
    }

    @Override
    public Predicate le(Expression<? extends Number> x, Number y) {
        return compared("<=", x, y);
    }

    // ---- collections

    @Override
    public <T> In<T> in(Expression<? extends T> x) {
        return new InOf<>(Term.of(x));
    }

    @Override
    public <C extends Collection<?>> Predicate isEmpty(Expression<C> collection) {
        return Test.isEmpty(Term.of(collection), false);
    }

    @Override
    public <C extends Collection<?>> Predicate isNotEmpty(Expression<C> collection) {
        return Test.isEmpty(Term.of(collection), true);
    }

    @Override
    public <E, C extends Collection<E>> Predicate isMember(Expression<E> x, Expression<C> collection) {
        return Test.member(Term.of(x), Term.of(collection), false);
    }

    @Override
    public <E, C extends Collection<E>> Predicate isMember(E x, Expression<C> collection) {
        return Test.member(Term.ofValue(x), Term.of(collection), false);
    }

    @Override
    public <E, C extends Collection<E>> Predicate isNotMember(Expression<E> x, Expression<C> collection) {
        return Test.member(Term.of(x), Term.of(collection), true);
    }

    @Override
    public <E, C extends Collection<E>> Predicate isNotMember(E x, Expression<C> collection) {
        return Test.member(Term.ofValue(x), Term.of(collection), true);
    }

    // ---- LIKE

    private static Predicate like(boolean isNot, Expression<String> x, Object pattern) {
        return Test.like(isNot, List.of(Term.of(x), Term.ofValue(pattern)));
    }

    private static Predicate like(boolean isNot, Expression<String> x, Object pattern, Object escape) {
        return Test.like(isNot, List.of(Term.of(x), Term.ofValue(pattern), Term.ofValue(escape)));
    }

    @Override
    public Predicate like(Expression<String> x, Expression<String> pattern) {
        return like(false, x, pattern);
    }

    @Override
    public Predicate like(Expression<String> x, String pattern) {
        return like(false, x, pattern);
    }

    @Override
    public Predicate like(Expression<String> x, Expression<String> pattern, Expression<Character> escape) {
        return like(false, x, pattern, escape);
    }

    @Override
    public Predicate like(Expression<String> x, Expression<String> pattern, char escape) {
        return like(false, x, pattern, escape);
    }

    @Override
    public Predicate like(Expression<String> x, String pattern, Expression<Character> escape) {
        return like(false, x, pattern, escape);
    }

    @Override
    public Predicate like(Expression<String> x, String pattern, char escape) {
        return like(false, x, pattern, escape);
    }

    @Override
    public Predicate notLike(Expression<String> x, Expression<String> pattern) {
        return like(true, x, pattern);
    }

    @Override
    public Predicate notLike(Expression<String> x, String pattern) {
        return like(true, x, pattern);
    }

    @Override
    public Predicate notLike(Expression<String> x, Expression<String> pattern, Expression<Character> escape) {
        return like(true, x, pattern, escape);
    }

    @Override
    public Predicate notLike(Expression<String> x, Expression<String> pattern, char escape) {
        return like(true, x, pattern, escape);
    }

    @Override
    public Predicate notLike(Expression<String> x, String pattern, Expression<Character> escape) {
        return like(true, x, pattern, escape);
    }

    @Override
    public Predicate notLike(Expression<String> x, String pattern, char escape) {
        return like(true, x, pattern, escape);
    }
}
