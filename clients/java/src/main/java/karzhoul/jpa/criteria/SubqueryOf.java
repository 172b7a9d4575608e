package karzhoul.jpa.criteria;

import jakarta.persistence.criteria.AbstractQuery;
import jakarta.persistence.criteria.CollectionJoin;
import jakarta.persistence.criteria.CommonAbstractCriteria;
import jakarta.persistence.criteria.Expression;
import jakarta.persistence.criteria.Join;
import jakarta.persistence.criteria.ListJoin;
import jakarta.persistence.criteria.MapJoin;
import jakarta.persistence.criteria.Predicate;
import jakarta.persistence.criteria.Root;
import jakarta.persistence.criteria.SetJoin;
import jakarta.persistence.criteria.Subquery;
import java.util.LinkedHashSet;
import java.util.List;
import java.util.Set;
import karzhoul.jpa.query.Tree;

/** A subquery (chapter 6.5.14). */
final class SubqueryOf<T> extends Term<T> implements Subquery<T>, OverClauses<T> {
    private final CommonAbstractCriteria around;
    private final Clauses clauses;
    private Term<?> selection;

    SubqueryOf(Class<T> type, CommonAbstractCriteria around, Clauses clauses) {
        super(type);
        this.around = around;
        this.clauses = clauses;
    }

    @Override
    public Clauses clauses() {
        return clauses;
    }

    /**
     * What is selected; of one root where nothing is said, that.
     *
     * @throws IllegalStateException where it isn't said, and there are several roots or none
     */
    Term<?> selected() {
        if (selection != null) {
            return selection;
        }
        if (clauses.roots.size() != 1) {
            throw new IllegalStateException("a subquery selects nothing, and has " + clauses.roots.size() + " roots");
        }
        return clauses.roots.get(0);
    }

    @Override
    Tree.Value write(Writing to) {
        int at = to.at();
        return new Tree.Scalar(at, writeBlock(to));
    }

    /** The block in its parentheses. */
    Tree.Select writeBlock(Writing to) {
        Tree.Select select = new SelectWriting(to.add("(")).block(this);
        to.add(")");
        return select;
    }

    @Override
    List<Term<?>> parts() {
        return List.of();
    }

    // ---- around it

    @Override
    public AbstractQuery<?> getParent() {
        if (around instanceof AbstractQuery<?> query) {
            return query;
        }
        throw new IllegalStateException("the subquery is of an UPDATE or DELETE; getContainingQuery has it");
    }

    @Override
    public CommonAbstractCriteria getContainingQuery() {
        return around;
    }

    private <F extends FromOf<?, ?>> F added(F correlated) {
        clauses.correlated.add(correlated);
        return correlated;
    }

    @Override
    public <Y> Root<Y> correlate(Root<Y> root) {
        return added(new RootOf<>((RootOf<Y>) root));
    }

    @Override
    public <X, Y> Join<X, Y> correlate(Join<X, Y> join) {
        return added(JoinOf.correlated((JoinOf<X, Y>) join));
    }

    @Override
    public <X, Y> CollectionJoin<X, Y> correlate(CollectionJoin<X, Y> join) {
        return (CollectionJoin<X, Y>) added(JoinOf.correlated((JoinOf<X, Y>) join));
    }

    @Override
    public <X, Y> SetJoin<X, Y> correlate(SetJoin<X, Y> join) {
        return (SetJoin<X, Y>) added(JoinOf.correlated((JoinOf<X, Y>) join));
    }

    @Override
    public <X, Y> ListJoin<X, Y> correlate(ListJoin<X, Y> join) {
        return (ListJoin<X, Y>) added(JoinOf.correlated((JoinOf<X, Y>) join));
    }

    @Override
    public <X, K, V> MapJoin<X, K, V> correlate(MapJoin<X, K, V> join) {
        return (MapJoin<X, K, V>) added(JoinOf.correlated((JoinOf<X, V>) join));
    }

    @Override
    public Set<Join<?, ?>> getCorrelatedJoins() {
        Set<Join<?, ?>> joins = new LinkedHashSet<>();
        for (FromOf<?, ?> from : clauses.correlated) {
            if (from instanceof JoinOf<?, ?> join) {
                joins.add(join);
            }
        }
        return joins;
    }

    // ---- clauses

    @Override
    public Subquery<T> select(Expression<T> expression) {
        selection = of(expression);
        return this;
    }

    @Override
    @SuppressWarnings("unchecked")
    public Expression<T> getSelection() {
        return (Expression<T>) selection;
    }

    @Override
    @SuppressWarnings("unchecked")
    public Class<T> getResultType() {
        return (Class<T>) getJavaType();
    }

    @Override
    public Subquery<T> where(Expression<Boolean> restriction) {
        clauses.where = Condition.that(restriction);
        return this;
    }

    @Override
    public Subquery<T> where(Predicate... restrictions) {
        clauses.where = restrictions.length == 0 ? null : Junction.all(restrictions);
        return this;
    }

    @Override
    public Subquery<T> groupBy(Expression<?>... expressions) {
        return groupBy(List.of(expressions));
    }

    @Override
    public Subquery<T> groupBy(List<Expression<?>> expressions) {
        clauses.group(expressions);
        return this;
    }

    @Override
    public Subquery<T> having(Expression<Boolean> restriction) {
        clauses.having = Condition.that(restriction);
        return this;
    }

    @Override
    public Subquery<T> having(Predicate... restrictions) {
        clauses.having = restrictions.length == 0 ? null : Junction.all(restrictions);
        return this;
    }

    @Override
    public Subquery<T> distinct(boolean isDistinct) {
        clauses.isDistinct = isDistinct;
        return this;
    }
}
