package karzhoul.jpa.criteria;

import jakarta.persistence.criteria.CollectionJoin;
import jakarta.persistence.criteria.Fetch;
import jakarta.persistence.criteria.From;
import jakarta.persistence.criteria.Join;
import jakarta.persistence.criteria.JoinType;
import jakarta.persistence.criteria.ListJoin;
import jakarta.persistence.criteria.MapJoin;
import jakarta.persistence.criteria.SetJoin;
import jakarta.persistence.metamodel.Attribute;
import jakarta.persistence.metamodel.CollectionAttribute;
import jakarta.persistence.metamodel.ListAttribute;
import jakarta.persistence.metamodel.ManagedType;
import jakarta.persistence.metamodel.MapAttribute;
import jakarta.persistence.metamodel.PluralAttribute;
import jakarta.persistence.metamodel.SetAttribute;
import jakarta.persistence.metamodel.SingularAttribute;
import java.util.ArrayList;
import java.util.LinkedHashSet;
import java.util.List;
import java.util.Set;

/** A root or a join: what a path begins at (chapter 6.5.2). */
@SuppressWarnings({"unchecked", "rawtypes"})
abstract class FromOf<Z, X> extends PathOf<X> implements From<Z, X> {
    private final List<JoinOf<?, ?>> joins;
    private final List<FetchOf<?, ?>> fetches;
    private final FromOf<Z, X> correlationParent;

    FromOf(PathOf<?> parent, Attribute<?, ?> attribute, ManagedType<?> type, Class<?> javaType) {
        super(javaType, parent, attribute, type);
        this.joins = new ArrayList<>();
        this.fetches = new ArrayList<>();
        this.correlationParent = null;
    }

    /** One of a query around, in a subquery. */
    FromOf(FromOf<Z, X> outer, ManagedType<?> type) {
        super(outer.getJavaType(), (PathOf<?>) outer.getParentPath(), outer.attribute(), type);
        this.joins = new ArrayList<>();
        this.fetches = new ArrayList<>();
        this.correlationParent = outer;
    }

    /** The class below of another one; its joins are those of that. */
    FromOf(FromOf<?, ?> treated, ManagedType<X> below, PathOf<?> parent) {
        super(below.getJavaType(), parent, treated.attribute(), below);
        this.joins = treated.joins;
        this.fetches = treated.fetches;
        this.correlationParent = null;
    }

    List<JoinOf<?, ?>> joins() {
        return joins;
    }

    List<FetchOf<?, ?>> fetches() {
        return fetches;
    }

    @Override
    boolean isVariable() {
        return true;
    }

    @Override
    public Set<Join<X, ?>> getJoins() {
        Set<Join<X, ?>> all = new LinkedHashSet<>();
        joins.forEach(join -> all.add((Join<X, ?>) join));
        return all;
    }

    @Override
    public Set<Fetch<X, ?>> getFetches() {
        Set<Fetch<X, ?>> all = new LinkedHashSet<>();
        fetches.forEach(fetch -> all.add((Fetch<X, ?>) fetch));
        return all;
    }

    @Override
    public boolean isCorrelated() {
        return correlationParent != null;
    }

    @Override
    public From<Z, X> getCorrelationParent() {
        if (correlationParent == null) {
            throw new IllegalStateException("it isn't correlated");
        }
        return correlationParent;
    }

    @Override
    PathOf<?> outer() {
        return correlationParent;
    }

    // ---- joins

    private <J> J joined(Attribute<?, ?> attribute, JoinType type, Class<?> sort) {
        JoinOf<?, ?> join = JoinOf.along(this, attribute, type);
        if (!sort.isInstance(join)) {
            throw new IllegalArgumentException("\"" + attribute.getName() + "\" is of " + attribute.getJavaType()
                    .getName() + ", which is joined by another method");
        }
        joins.add(join);
        return (J) join;
    }

    @Override
    public <Y> Join<X, Y> join(SingularAttribute<? super X, Y> attribute) {
        return join(attribute, JoinType.INNER);
    }

    @Override
    public <Y> Join<X, Y> join(SingularAttribute<? super X, Y> attribute, JoinType type) {
        return joined(attribute(attribute), type, Join.class);
    }

    @Override
    public <Y> CollectionJoin<X, Y> join(CollectionAttribute<? super X, Y> attribute) {
        return join(attribute, JoinType.INNER);
    }

    @Override
    public <Y> SetJoin<X, Y> join(SetAttribute<? super X, Y> attribute) {
        return join(attribute, JoinType.INNER);
    }

    @Override
    public <Y> ListJoin<X, Y> join(ListAttribute<? super X, Y> attribute) {
        return join(attribute, JoinType.INNER);
    }

    @Override
    public <K, V> MapJoin<X, K, V> join(MapAttribute<? super X, K, V> attribute) {
        return join(attribute, JoinType.INNER);
    }

    @Override
    public <Y> CollectionJoin<X, Y> join(CollectionAttribute<? super X, Y> attribute, JoinType type) {
        return joined(attribute(attribute), type, CollectionJoin.class);
    }

    @Override
    public <Y> SetJoin<X, Y> join(SetAttribute<? super X, Y> attribute, JoinType type) {
        return joined(attribute(attribute), type, SetJoin.class);
    }

    @Override
    public <Y> ListJoin<X, Y> join(ListAttribute<? super X, Y> attribute, JoinType type) {
        return joined(attribute(attribute), type, ListJoin.class);
    }

    @Override
    public <K, V> MapJoin<X, K, V> join(MapAttribute<? super X, K, V> attribute, JoinType type) {
        return joined(attribute(attribute), type, MapJoin.class);
    }

    @Override
    public <A, Y> Join<A, Y> join(String name) {
        return join(name, JoinType.INNER);
    }

    @Override
    public <A, Y> CollectionJoin<A, Y> joinCollection(String name) {
        return joinCollection(name, JoinType.INNER);
    }

    @Override
    public <A, Y> SetJoin<A, Y> joinSet(String name) {
        return joinSet(name, JoinType.INNER);
    }

    @Override
    public <A, Y> ListJoin<A, Y> joinList(String name) {
        return joinList(name, JoinType.INNER);
    }

    @Override
    public <A, K, V> MapJoin<A, K, V> joinMap(String name) {
        return joinMap(name, JoinType.INNER);
    }

    @Override
    public <A, Y> Join<A, Y> join(String name, JoinType type) {
        return joined(attribute(name), type, Join.class);
    }

    @Override
    public <A, Y> CollectionJoin<A, Y> joinCollection(String name, JoinType type) {
        return joined(attribute(name), type, CollectionJoin.class);
    }

    @Override
    public <A, Y> SetJoin<A, Y> joinSet(String name, JoinType type) {
        return joined(attribute(name), type, SetJoin.class);
    }

    @Override
    public <A, Y> ListJoin<A, Y> joinList(String name, JoinType type) {
        return joined(attribute(name), type, ListJoin.class);
    }

    @Override
    public <A, K, V> MapJoin<A, K, V> joinMap(String name, JoinType type) {
        return joined(attribute(name), type, MapJoin.class);
    }

    // ---- fetches

    private <Y> Fetch<X, Y> fetched(Attribute<?, ?> attribute, JoinType type) {
        FetchOf<?, ?> fetch = FetchOf.along(this, this, attribute, type);
        fetches.add(fetch);
        return (Fetch<X, Y>) fetch;
    }

    @Override
    public <Y> Fetch<X, Y> fetch(SingularAttribute<? super X, Y> attribute) {
        return fetch(attribute, JoinType.INNER);
    }

    @Override
    public <Y> Fetch<X, Y> fetch(SingularAttribute<? super X, Y> attribute, JoinType type) {
        return fetched(attribute(attribute), type);
    }

    @Override
    public <Y> Fetch<X, Y> fetch(PluralAttribute<? super X, ?, Y> attribute) {
        return fetch(attribute, JoinType.INNER);
    }

    @Override
    public <Y> Fetch<X, Y> fetch(PluralAttribute<? super X, ?, Y> attribute, JoinType type) {
        return fetched(attribute(attribute), type);
    }

    @Override
    public <A, Y> Fetch<A, Y> fetch(String name) {
        return fetch(name, JoinType.INNER);
    }

    @Override
    public <A, Y> Fetch<A, Y> fetch(String name, JoinType type) {
        return (Fetch<A, Y>) (Fetch) fetched(attribute(name), type);
    }
}
