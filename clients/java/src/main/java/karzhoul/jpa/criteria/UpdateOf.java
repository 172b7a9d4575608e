package karzhoul.jpa.criteria;

import jakarta.persistence.criteria.CriteriaUpdate;
import jakarta.persistence.criteria.Expression;
import jakarta.persistence.criteria.Path;
import jakarta.persistence.criteria.Predicate;
import jakarta.persistence.criteria.Root;
import jakarta.persistence.criteria.Subquery;
import jakarta.persistence.metamodel.EntityType;
import jakarta.persistence.metamodel.SingularAttribute;
import java.util.ArrayList;
import java.util.List;

/** An UPDATE (chapter 6.5.15). */
final class UpdateOf<T> implements CriteriaUpdate<T> {
    /** What SET gives a path. */
    record Set(PathOf<?> path, Term<?> value) {}

    private final Changed<T> changed;
    private final List<Set> sets = new ArrayList<>();

    UpdateOf(Changed<T> changed) {
        this.changed = changed;
    }

    Changed<T> changed() {
        return changed;
    }

    List<Set> sets() {
        return sets;
    }

    @Override
    public Root<T> from(Class<T> entity) {
        return changed.from(entity);
    }

    @Override
    public Root<T> from(EntityType<T> entity) {
        return changed.from(entity.getJavaType());
    }

    @Override
    public Root<T> getRoot() {
        return changed.root();
    }

    private CriteriaUpdate<T> give(Path<?> path, Object value) {
        if (!(path instanceof PathOf<?> known)) {
            throw new IllegalArgumentException(path + " is no path of this provider");
        }
        sets.add(new Set(known, Term.ofValue(value)));
        return this;
    }

    @Override
    public <Y, X extends Y> CriteriaUpdate<T> set(SingularAttribute<? super T, Y> attribute, X value) {
        return give(changed.root().get(attribute), value);
    }

    @Override
    public <Y> CriteriaUpdate<T> set(SingularAttribute<? super T, Y> attribute, Expression<? extends Y> value) {
        return give(changed.root().get(attribute), value);
    }

    @Override
    public <Y, X extends Y> CriteriaUpdate<T> set(Path<Y> attribute, X value) {
        return give(attribute, value);
    }

    @Override
    public <Y> CriteriaUpdate<T> set(Path<Y> attribute, Expression<? extends Y> value) {
        return give(attribute, value);
    }

    @Override
    public CriteriaUpdate<T> set(String name, Object value) {
        return give(changed.root().get(name), value);
    }

    @Override
    public CriteriaUpdate<T> where(Expression<Boolean> restriction) {
        changed.where = Condition.that(restriction);
        return this;
    }

    @Override
    public CriteriaUpdate<T> where(Predicate... restrictions) {
        changed.where = restrictions.length == 0 ? null : Junction.all(restrictions);
        return this;
    }

    @Override
    public Predicate getRestriction() {
        return changed.where;
    }

    @Override
    public <U> Subquery<U> subquery(Class<U> type) {
        return new SubqueryOf<>(type, this, new Clauses(changed.metamodel()));
    }
}
