package karzhoul.jpa.criteria;

import jakarta.persistence.criteria.CriteriaBuilder.Case;
import jakarta.persistence.criteria.CriteriaBuilder.Coalesce;
import jakarta.persistence.criteria.CriteriaBuilder.SimpleCase;
import jakarta.persistence.criteria.Expression;
import java.util.ArrayList;
import java.util.List;
import karzhoul.jpa.query.Function;
import karzhoul.jpa.query.Tree;

/** CASE of conditions or of an operand, and COALESCE: what is built step by step (chapter 6.5.5). */
abstract class Cases<X> extends Term<X> {
    private final List<Term<?>> tests = new ArrayList<>();
    private final List<Term<?>> results = new ArrayList<>();
    private Term<?> otherwise = new Constant<>(Object.class, null);

    private Cases() {
        super(null);
    }

    @Override
    @SuppressWarnings("unchecked")
    public Class<? extends X> getJavaType() {
        List<Term<?>> all = new ArrayList<>(results);
        all.add(otherwise);
        return (Class<? extends X>) common(all);
    }

    void add(Term<?> test, Term<?> result) {
        tests.add(test);
        results.add(result);
    }

    Expression<X> end(Term<?> value) {
        otherwise = value;
        return this;
    }

    /** What CASE compares; null where it has conditions. */
    abstract Term<?> operand();

    @Override
    Tree.Expression write(Writing to) {
        int at = to.at();
        if (tests.isEmpty()) {
            throw new IllegalStateException("a CASE has no WHEN");
        }
        Tree.Value value = operand() == null ? null : to.add("CASE ").value(operand());
        to.add(value == null ? "CASE" : "");
        List<Tree.When> whens = new ArrayList<>();
        for (int place = 0; place < tests.size(); place++) {
            to.add(" WHEN ");
            Tree.Expression test = value == null ? to.condition(tests.get(place)) : to.value(tests.get(place));
            whens.add(new Tree.When(test, to.add(" THEN ").value(results.get(place))));
        }
        Tree.Value last = to.add(" ELSE ").value(otherwise);
        to.add(" END");
        return new Tree.Case(at, value, whens, last);
    }

    @Override
    List<Term<?>> parts() {
        List<Term<?>> parts = new ArrayList<>(tests);
        parts.addAll(results);
        parts.add(otherwise);
        if (operand() != null) {
            parts.add(operand());
        }
        return parts;
    }

    /** CASE WHEN conditions. */
    static final class General<R> extends Cases<R> implements Case<R> {
        @Override
        Term<?> operand() {
            return null;
        }

        @Override
        public Case<R> when(Expression<Boolean> condition, R result) {
            add(Condition.that(condition), new Constant<>(result));
            return this;
        }

        @Override
        public Case<R> when(Expression<Boolean> condition, Expression<? extends R> result) {
            add(Condition.that(condition), of(result));
            return this;
        }

        @Override
        public Expression<R> otherwise(R result) {
            return end(new Constant<>(result));
        }

        @Override
        public Expression<R> otherwise(Expression<? extends R> result) {
            return end(of(result));
        }
    }

    /** CASE of an operand. */
    static final class Simple<C, R> extends Cases<R> implements SimpleCase<C, R> {
        private final Expression<? extends C> operand;

        Simple(Expression<? extends C> operand) {
            this.operand = operand;
        }

        @Override
        Term<?> operand() {
            return of(operand);
        }

        @Override
        @SuppressWarnings("unchecked")
        public Expression<C> getExpression() {
            return (Expression<C>) operand;
        }

        @Override
        public SimpleCase<C, R> when(C condition, R result) {
            add(new Constant<>(condition), new Constant<>(result));
            return this;
        }

        @Override
        public SimpleCase<C, R> when(C condition, Expression<? extends R> result) {
            add(new Constant<>(condition), of(result));
            return this;
        }

        @Override
        public Expression<R> otherwise(R result) {
            return end(new Constant<>(result));
        }

        @Override
        public Expression<R> otherwise(Expression<? extends R> result) {
            return end(of(result));
        }
    }

    /** The first value that isn't null. */
    static final class CoalesceOf<T> extends Term<T> implements Coalesce<T> {
        private final List<Term<?>> values = new ArrayList<>();

        CoalesceOf() {
            super(null);
        }

        @Override
        @SuppressWarnings("unchecked")
        public Class<? extends T> getJavaType() {
            return (Class<? extends T>) common(values);
        }

        @Override
        public Coalesce<T> value(T value) {
            values.add(ofValue(value));
            return this;
        }

        @Override
        public Coalesce<T> value(Expression<? extends T> value) {
            values.add(of(value));
            return this;
        }

        @Override
        Tree.Expression write(Writing to) {
            if (values.isEmpty()) {
                throw new IllegalStateException("a COALESCE has no values");
            }
            return values.size() == 1 ? to.value(values.get(0))
                    : Computed.call(Function.COALESCE).write(to, to.at(), values);
        }

        @Override
        List<Term<?>> parts() {
            return List.copyOf(values);
        }
    }
}
