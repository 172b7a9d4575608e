package karzhoul.jpa.criteria;

import jakarta.persistence.criteria.Expression;
import jakarta.persistence.criteria.Predicate;
import java.lang.invoke.MethodType;
import java.util.ArrayList;
import java.util.Arrays;
import java.util.Collection;
import java.util.List;
import karzhoul.jpa.query.Tree;

/** An expression (chapter 6.5.5). */
abstract class Term<X> extends Selected<X> implements Expression<X> {
    Term(Class<?> javaType) {
        super(javaType);
    }

    /** The node of it, once its words are written. */
    abstract Tree.Expression write(Writing to);

    /** The terms of which it is made. */
    abstract List<Term<?>> parts();

    /**
     * An expression of this provider.
     *
     * @throws IllegalArgumentException where it is null, or another provider's
     */
    static Term<?> of(Expression<?> expression) {
        if (expression instanceof Term<?> term) {
            return term;
        }
        throw new IllegalArgumentException(expression == null ? "an expression is null"
                : expression + " isn't an expression of this provider");
    }

    /** A value as an expression; what is one already stays. */
    static Term<?> ofValue(Object value) {
        return value instanceof Expression<?> expression ? of(expression) : new Constant<>(value);
    }

    static List<Term<?>> each(Expression<?>... expressions) {
        List<Term<?>> terms = new ArrayList<>();
        for (Expression<?> expression : expressions) {
            terms.add(of(expression));
        }
        return terms;
    }

    static Class<?> boxed(Class<?> type) {
        return MethodType.methodType(type).wrap().returnType();
    }

    /** The boxed type that all of these have but for nulls; Number of several numbers, else Object. */
    static Class<?> common(List<Term<?>> terms) {
        Class<?> common = null;
        for (Term<?> term : terms) {
            if (term instanceof Constant<?> constant && constant.value() == null) {
                continue;
            }
            Class<?> type = term.getJavaType() == null ? Object.class : boxed(term.getJavaType());
            boolean areNumbers = common != null && Number.class.isAssignableFrom(common)
                    && Number.class.isAssignableFrom(type);
            common = common == null || common == type ? type : areNumbers ? Number.class : Object.class;
        }
        return common == null ? Object.class : common;
    }

    @Override
    public Predicate isNull() {
        return Test.isNull(this, false);
    }

    @Override
    public Predicate isNotNull() {
        return Test.isNull(this, true);
    }

    @Override
    public Predicate in(Object... values) {
        return new InOf<>(this, Arrays.asList(values));
    }

    @Override
    public Predicate in(Expression<?>... values) {
        return new InOf<>(this, each(values));
    }

    @Override
    public Predicate in(Collection<?> values) {
        return new InOf<>(this, values);
    }

    @Override
    public Predicate in(Expression<Collection<?>> values) {
        return new InOf<>(this, each(values));
    }

    /** The expression as one of another type; its values stay as they are, and numbers of an item become of it. */
    @Override
    public <Y> Expression<Y> as(Class<Y> type) {
        return new Retyped<>(type, this);
    }

    /** A term that is told to be of another type. */
    static final class Retyped<X> extends Term<X> {
        private final Term<?> of;

        Retyped(Class<X> type, Term<?> of) {
            super(type);
            this.of = of;
        }

        @Override
        Tree.Expression write(Writing to) {
            return of.write(to);
        }

        @Override
        List<Term<?>> parts() {
            return List.of(of);
        }
    }
}
