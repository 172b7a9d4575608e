package karzhoul.jpa.criteria;

import jakarta.persistence.criteria.Expression;
import jakarta.persistence.criteria.Predicate;
import java.util.List;
import karzhoul.jpa.query.Tree;

/** A condition (chapter 6.5.5). One that isn't made of others is AND of none. */
abstract class Condition extends Term<Boolean> implements Predicate {
    Condition() {
        super(Boolean.class);
    }

    @Override
    abstract Tree.Condition write(Writing to);

    /**
     * A condition of an expression: itself, or that the value is true.
     *
     * @throws IllegalArgumentException where it is null, or another provider's
     */
    static Condition that(Expression<Boolean> expression) {
        Term<?> term = Term.of(expression);
        return term instanceof Condition condition ? condition
                : Test.compared("=", term, new Constant<>(Boolean.TRUE));
    }

    @Override
    public BooleanOperator getOperator() {
        return BooleanOperator.AND;
    }

    @Override
    public boolean isNegated() {
        return false;
    }

    @Override
    public List<Expression<Boolean>> getExpressions() {
        return new java.util.ArrayList<>();
    }

    @Override
    public Predicate not() {
        return new Negated(this);
    }

    /** That another one is false. */
    static final class Negated extends Condition {
        private final Condition of;

        Negated(Condition of) {
            this.of = of;
        }

        @Override
        Tree.Condition write(Writing to) {
            int at = to.at();
            Tree.Condition condition = to.add("NOT (").condition(of);
            to.add(")");
            return new Tree.Not(at, condition);
        }

        @Override
        List<Term<?>> parts() {
            return List.of(of);
        }

        @Override
        public BooleanOperator getOperator() {
            return of.getOperator();
        }

        @Override
        public boolean isNegated() {
            return true;
        }

        @Override
        public List<Expression<Boolean>> getExpressions() {
            return of.getExpressions();
        }

        @Override
        public Predicate not() {
            return of;
        }
    }
}
