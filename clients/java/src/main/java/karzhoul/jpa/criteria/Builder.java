package karzhoul.jpa.criteria;

import jakarta.persistence.Tuple;
import jakarta.persistence.criteria.CollectionJoin;
import jakarta.persistence.criteria.CompoundSelection;
import jakarta.persistence.criteria.CriteriaDelete;
import jakarta.persistence.criteria.CriteriaQuery;
import jakarta.persistence.criteria.CriteriaUpdate;
import jakarta.persistence.criteria.Expression;
import jakarta.persistence.criteria.Join;
import jakarta.persistence.criteria.ListJoin;
import jakarta.persistence.criteria.MapJoin;
import jakarta.persistence.criteria.Order;
import jakarta.persistence.criteria.Path;
import jakarta.persistence.criteria.Root;
import jakarta.persistence.criteria.Selection;
import jakarta.persistence.criteria.SetJoin;
import jakarta.persistence.metamodel.EntityType;
import jakarta.persistence.metamodel.Metamodel;
import java.util.List;
import karzhoul.jpa.criteria.Compound.Kind;
import karzhoul.jpa.model.UnitModel;
import karzhoul.jpa.query.Built;

/**
 * Builds criteria queries (chapter 6), as the trees that the parser makes of texts: what a text can't say is refused
 * in the same words. Threads may share a builder, and not a query while it is built.
 */
@SuppressWarnings("unchecked")
public final class Builder extends ConditionBuilder {
    private final UnitModel unit;
    private final Metamodel metamodel;

    /** The builder of a unit. */
    public Builder(UnitModel unit, Metamodel metamodel) {
        this.unit = unit;
        this.metamodel = metamodel;
    }

    // ---- statements

    /**
     * A query as a statement.
     *
     * @throws IllegalArgumentException where it is another provider's, or says what the language can't
     * @throws IllegalStateException where it isn't complete
     */
    public Built built(CriteriaQuery<?> query) {
        return SelectWriting.built(new Writing(unit), own(QueryOf.class, query));
    }

    /**
     * An UPDATE as a statement.
     *
     * @throws IllegalArgumentException where it is another provider's, or says what the language can't
     * @throws IllegalStateException where it isn't complete
     */
    public Built built(CriteriaUpdate<?> update) {
        return new ChangeWriting(new Writing(unit)).update(own(UpdateOf.class, update));
    }

    /**
     * A DELETE as a statement.
     *
     * @throws IllegalArgumentException where it is another provider's, or says what the language can't
     * @throws IllegalStateException where it isn't complete
     */
    public Built built(CriteriaDelete<?> delete) {
        return new ChangeWriting(new Writing(unit)).delete(own(DeleteOf.class, delete));
    }

    private static <T> T own(Class<T> type, Object given) {
        if (!type.isInstance(given)) {
            throw new IllegalArgumentException(given == null ? "the query is null"
                    : "the query isn't of this provider's builder");
        }
        return type.cast(given);
    }

    @Override
    public CriteriaQuery<Object> createQuery() {
        return createQuery(Object.class);
    }

    @Override
    public <T> CriteriaQuery<T> createQuery(Class<T> resultType) {
        return new QueryOf<>(resultType, new Clauses(metamodel));
    }

    @Override
    public CriteriaQuery<Tuple> createTupleQuery() {
        return createQuery(Tuple.class);
    }

    @Override
    public <T> CriteriaUpdate<T> createCriteriaUpdate(Class<T> entity) {
        return new UpdateOf<>(new Changed<>(metamodel, entity));
    }

    @Override
    public <T> CriteriaDelete<T> createCriteriaDelete(Class<T> entity) {
        return new DeleteOf<>(new Changed<>(metamodel, entity));
    }

    // ---- selections and order

    @Override
    public <Y> CompoundSelection<Y> construct(Class<Y> type, Selection<?>... selections) {
        return new Compound<>(Kind.CONSTRUCT, type, List.of(selections));
    }

    @Override
    public CompoundSelection<Tuple> tuple(Selection<?>... selections) {
        return new Compound<>(Kind.TUPLE, Tuple.class, List.of(selections));
    }

    @Override
    public CompoundSelection<Object[]> array(Selection<?>... selections) {
        return new Compound<>(Kind.ARRAY, Object[].class, List.of(selections));
    }

    @Override
    public Order asc(Expression<?> x) {
        return new OrderOf(Term.of(x), true);
    }

    @Override
    public Order desc(Expression<?> x) {
        return new OrderOf(Term.of(x), false);
    }

    // ---- TREAT

    private <T> EntityType<T> below(Path<?> path, Class<T> type) {
        if (!path.getJavaType().isAssignableFrom(type)) {
            throw new IllegalArgumentException(type.getName() + " isn't below " + path.getJavaType().getName());
        }
        return metamodel.entity(type);
    }

    private <Z, V> JoinOf<Z, V> treated(Join<?, ?> join, Class<V> type) {
        return JoinOf.treated((JoinOf<?, ?>) join, below(join, type));
    }

    @Override
    public <X, T, V extends T> Join<X, V> treat(Join<X, T> join, Class<V> type) {
        return treated(join, type);
    }

    @Override
    public <X, T, E extends T> CollectionJoin<X, E> treat(CollectionJoin<X, T> join, Class<E> type) {
        return (CollectionJoin<X, E>) this.<X, E>treated(join, type);
    }

    @Override
    public <X, T, E extends T> SetJoin<X, E> treat(SetJoin<X, T> join, Class<E> type) {
        return (SetJoin<X, E>) this.<X, E>treated(join, type);
    }

    @Override
    public <X, T, E extends T> ListJoin<X, E> treat(ListJoin<X, T> join, Class<E> type) {
        return (ListJoin<X, E>) this.<X, E>treated(join, type);
    }

    @Override
    public <X, K, T, V extends T> MapJoin<X, K, V> treat(MapJoin<X, K, T> join, Class<V> type) {
        return (MapJoin<X, K, V>) this.<X, V>treated(join, type);
    }

    @Override
    public <X, T extends X> Path<T> treat(Path<X> path, Class<T> type) {
        return new PathOf.Treated<>((PathOf<?>) path, below(path, type));
    }

    @Override
    public <X, T extends X> Root<T> treat(Root<X> root, Class<T> type) {
        return new RootOf<>((RootOf<?>) root, below(root, type));
    }
}
