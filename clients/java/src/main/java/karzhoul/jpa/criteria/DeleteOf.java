package karzhoul.jpa.criteria;

import jakarta.persistence.criteria.CriteriaDelete;
import jakarta.persistence.criteria.Expression;
import jakarta.persistence.criteria.Predicate;
import jakarta.persistence.criteria.Root;
import jakarta.persistence.criteria.Subquery;
import jakarta.persistence.metamodel.EntityType;

/** A DELETE (chapter 6.5.15). */
final class DeleteOf<T> implements CriteriaDelete<T> {
    private final Changed<T> changed;

    DeleteOf(Changed<T> changed) {
        this.changed = changed;
    }

    Changed<T> changed() {
        return changed;
    }

    @Override
    public Root<T> from(Class<T> entity) {
        return changed.from(entity);
    }

    @Override
    public Root<T> from(EntityType<T> entity) {
        return changed.from(entity.getJavaType());
    }

    @Override
    public Root<T> getRoot() {
        return changed.root();
    }

    @Override
    public CriteriaDelete<T> where(Expression<Boolean> restriction) {
        changed.where = Condition.that(restriction);
        return this;
    }

    @Override
    public CriteriaDelete<T> where(Predicate... restrictions) {
        changed.where = restrictions.length == 0 ? null : Junction.all(restrictions);
        return this;
    }

    @Override
    public Predicate getRestriction() {
        return changed.where;
    }

    @Override
    public <U> Subquery<U> subquery(Class<U> type) {
        return new SubqueryOf<>(type, this, new Clauses(changed.metamodel()));
    }
}
