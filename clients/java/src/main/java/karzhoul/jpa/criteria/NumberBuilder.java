package karzhoul.jpa.criteria;

import jakarta.persistence.criteria.CriteriaBuilder;
import jakarta.persistence.criteria.Expression;
import java.math.BigDecimal;
import java.math.BigInteger;
import java.util.List;
import karzhoul.jpa.query.Function;
import karzhoul.jpa.query.Tree.Aggregate.Kind;

/** Aggregates, arithmetic and functions of numbers (chapters 4.7.2.2 and 4.8.5). */
abstract class NumberBuilder implements CriteriaBuilder {
    // ---- aggregates

    private static <X> Expression<X> aggregate(Class<?> type, Kind kind, boolean isDistinct, Expression<?> of) {
        return new Computed<>(type, List.of(Term.of(of)), Computed.aggregate(kind, isDistinct));
    }

    @Override
    public <N extends Number> Expression<Double> avg(Expression<N> x) {
        return aggregate(Double.class, Kind.AVG, false, x);
    }

    @Override
    public <N extends Number> Expression<N> sum(Expression<N> x) {
        return aggregate(x.getJavaType(), Kind.SUM, false, x);
    }

    @Override
    public Expression<Long> sumAsLong(Expression<Integer> x) {
        return aggregate(Long.class, Kind.SUM, false, x);
    }

    @Override
    public Expression<Double> sumAsDouble(Expression<Float> x) {
        return aggregate(Double.class, Kind.SUM, false, x);
    }

    @Override
    public <N extends Number> Expression<N> max(Expression<N> x) {
        return aggregate(x.getJavaType(), Kind.MAX, false, x);
    }

    @Override
    public <N extends Number> Expression<N> min(Expression<N> x) {
        return aggregate(x.getJavaType(), Kind.MIN, false, x);
    }

    @Override
    public <X extends Comparable<? super X>> Expression<X> greatest(Expression<X> x) {
        return aggregate(x.getJavaType(), Kind.MAX, false, x);
    }

    @Override
    public <X extends Comparable<? super X>> Expression<X> least(Expression<X> x) {
        return aggregate(x.getJavaType(), Kind.MIN, false, x);
    }

    @Override
    public Expression<Long> count(Expression<?> x) {
        return aggregate(Long.class, Kind.COUNT, false, x);
    }

    @Override
    public Expression<Long> countDistinct(Expression<?> x) {
        return aggregate(Long.class, Kind.COUNT, true, x);
    }

    // ---- arithmetic

    private static <X> Expression<X> arithmetic(char sign, Object x, Object y) {
        List<Term<?>> parts = List.of(Term.ofValue(x), Term.ofValue(y));
        return new Computed<>(sign == '/' ? Number.class : Term.common(parts), parts, Computed.arithmetic(sign));
    }

    @Override
    public <N extends Number> Expression<N> neg(Expression<N> x) {
        return new Computed<>(x.getJavaType(), List.of(Term.of(x)), Computed.negative());
    }

    @Override
    public <N extends Number> Expression<N> sum(Expression<? extends N> x, Expression<? extends N> y) {
        return arithmetic('+', x, y);
    }

    @Override
    public <N extends Number> Expression<N> sum(Expression<? extends N> x, N y) {
        return arithmetic('+', x, y);
    }

    @Override
    public <N extends Number> Expression<N> sum(N x, Expression<? extends N> y) {
        return arithmetic('+', x, y);
    }

    @Override
    public <N extends Number> Expression<N> prod(Expression<? extends N> x, Expression<? extends N> y) {
        return arithmetic('*', x, y);
    }

    @Override
    public <N extends Number> Expression<N> prod(Expression<? extends N> x, N y) {
        return arithmetic('*', x, y);
    }

    @Override
    public <N extends Number> Expression<N> prod(N x, Expression<? extends N> y) {
        return arithmetic('*', x, y);
    }

    @Override
    public <N extends Number> Expression<N> diff(Expression<? extends N> x, Expression<? extends N> y) {
        return arithmetic('-', x, y);
    }

    @Override
    public <N extends Number> Expression<N> diff(Expression<? extends N> x, N y) {
        return arithmetic('-', x, y);
    }

    @Override
    public <N extends Number> Expression<N> diff(N x, Expression<? extends N> y) {
        return arithmetic('-', x, y);
    }

    @Override
    public Expression<Number> quot(Expression<? extends Number> x, Expression<? extends Number> y) {
        return arithmetic('/', x, y);
    }

    @Override
    public Expression<Number> quot(Expression<? extends Number> x, Number y) {
        return arithmetic('/', x, y);
    }

    @Override
    public Expression<Number> quot(Number x, Expression<? extends Number> y) {
        return arithmetic('/', x, y);
    }

    // ---- functions

    /** A function of expressions and values. */
    static <X> Expression<X> call(Class<?> type, Function function, Object... arguments) {
        List<Term<?>> parts = java.util.Arrays.stream(arguments).<Term<?>>map(Term::ofValue).toList();
        return new Computed<>(type, parts, Computed.call(function));
    }

    @Override
    public <N extends Number> Expression<N> abs(Expression<N> x) {
        return call(x.getJavaType(), Function.ABS, x);
    }

    @Override
    public Expression<Integer> mod(Expression<Integer> x, Expression<Integer> y) {
        return call(Integer.class, Function.MOD, x, y);
    }

    @Override
    public Expression<Integer> mod(Expression<Integer> x, Integer y) {
        return call(Integer.class, Function.MOD, x, y);
    }

    @Override
    public Expression<Integer> mod(Integer x, Expression<Integer> y) {
        return call(Integer.class, Function.MOD, x, y);
    }

    @Override
    public Expression<Double> sqrt(Expression<? extends Number> x) {
        return call(Double.class, Function.SQRT, x);
    }

    @Override
    public Expression<Integer> sign(Expression<? extends Number> x) {
        return call(Integer.class, Function.SIGN, x);
    }

    @Override
    public <N extends Number> Expression<N> ceiling(Expression<N> x) {
        return call(x.getJavaType(), Function.CEILING, x);
    }

    @Override
    public <N extends Number> Expression<N> floor(Expression<N> x) {
        return call(x.getJavaType(), Function.FLOOR, x);
    }

    @Override
    public Expression<Double> exp(Expression<? extends Number> x) {
        return call(Double.class, Function.EXP, x);
    }

    @Override
    public Expression<Double> ln(Expression<? extends Number> x) {
        return call(Double.class, Function.LN, x);
    }

    @Override
    public Expression<Double> power(Expression<? extends Number> x, Expression<? extends Number> y) {
        return call(Double.class, Function.POWER, x, y);
    }

    @Override
    public Expression<Double> power(Expression<? extends Number> x, Number y) {
        return call(Double.class, Function.POWER, x, y);
    }

    @Override
    public <N extends Number> Expression<N> round(Expression<N> x, Integer places) {
        return call(x.getJavaType(), Function.ROUND, x, places);
    }

    // ---- types

    private static <X> Expression<X> typed(Class<X> type, Expression<?> of) {
        return new Term.Retyped<>(type, Term.of(of));
    }

    @Override
    public Expression<Long> toLong(Expression<? extends Number> x) {
        return typed(Long.class, x);
    }

    @Override
    public Expression<Integer> toInteger(Expression<? extends Number> x) {
        return typed(Integer.class, x);
    }

    @Override
    public Expression<Float> toFloat(Expression<? extends Number> x) {
        return typed(Float.class, x);
    }

    @Override
    public Expression<Double> toDouble(Expression<? extends Number> x) {
        return typed(Double.class, x);
    }

    @Override
    public Expression<BigDecimal> toBigDecimal(Expression<? extends Number> x) {
        return typed(BigDecimal.class, x);
    }

    @Override
    public Expression<BigInteger> toBigInteger(Expression<? extends Number> x) {
        return typed(BigInteger.class, x);
    }

    @Override
    public Expression<String> toString(Expression<Character> x) {
        return typed(String.class, x);
    }
}
