package karzhoul.jpa.criteria;

import jakarta.persistence.criteria.AbstractQuery;
import jakarta.persistence.criteria.Expression;
import jakarta.persistence.criteria.Predicate;
import jakarta.persistence.criteria.Root;
import jakarta.persistence.criteria.Subquery;
import jakarta.persistence.metamodel.EntityType;
import java.util.List;
import java.util.Set;

/** A query or a subquery: what its clauses answer alike (chapter 6.5.1). */
interface OverClauses<T> extends AbstractQuery<T> {
    /** Its clauses. */
    Clauses clauses();

    @Override
    default <X> Root<X> from(Class<X> entity) {
        return clauses().from(entity);
    }

    @Override
    default <X> Root<X> from(EntityType<X> entity) {
        return clauses().from(entity);
    }

    @Override
    default Set<Root<?>> getRoots() {
        return clauses().roots();
    }

    @Override
    default <U> Subquery<U> subquery(Class<U> type) {
        return new SubqueryOf<>(type, this, new Clauses(clauses().metamodel));
    }

    @Override
    default Predicate getRestriction() {
        return clauses().where;
    }

    @Override
    default List<Expression<?>> getGroupList() {
        return clauses().groupList();
    }

    @Override
    default Predicate getGroupRestriction() {
        return clauses().having;
    }

    @Override
    default boolean isDistinct() {
        return clauses().isDistinct;
    }
}
