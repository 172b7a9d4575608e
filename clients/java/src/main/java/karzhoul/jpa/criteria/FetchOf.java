package karzhoul.jpa.criteria;

import jakarta.persistence.criteria.Fetch;
import jakarta.persistence.criteria.FetchParent;
import jakarta.persistence.criteria.JoinType;
import jakarta.persistence.metamodel.Attribute;
import jakarta.persistence.metamodel.Attribute.PersistentAttributeType;
import jakarta.persistence.metamodel.ManagedType;
import jakarta.persistence.metamodel.PluralAttribute;
import jakarta.persistence.metamodel.SingularAttribute;
import java.util.ArrayList;
import java.util.LinkedHashSet;
import java.util.List;
import java.util.Set;

/** A fetch join (chapter 6.5.4). */
@SuppressWarnings({"unchecked", "rawtypes"})
final class FetchOf<Z, X> implements Fetch<Z, X> {
    private final FetchParent<?, ?> parent;
    private final Attribute<?, ?> attribute;
    private final ManagedType<?> type;
    private final JoinType joinType;
    private final List<FetchOf<?, ?>> fetches = new ArrayList<>();

    private FetchOf(FetchParent<?, ?> parent, Attribute<?, ?> attribute, ManagedType<?> type, JoinType joinType) {
        this.parent = parent;
        this.attribute = attribute;
        this.type = type;
        this.joinType = joinType;
    }

    /**
     * A fetch of an attribute.
     *
     * @param root the root or the join at which it begins
     * @throws IllegalArgumentException where it is no relation, or nothing that a query fetches
     * @throws UnsupportedOperationException of a right join, which isn't served
     */
    static FetchOf<?, ?> along(FetchParent<?, ?> parent, FromOf<?, ?> root, Attribute<?, ?> attribute,
            JoinType type) {
        JoinOf.needServed(type);
        ManagedType<?> target = PathOf.managed(attribute instanceof PluralAttribute<?, ?, ?> many
                ? many.getElementType() : ((SingularAttribute<?, ?>) attribute).getType());
        if (target == null) {
            throw new IllegalArgumentException("\"" + attribute.getName() + "\" is a value, and no relation");
        }
        if (root != null && root.isCorrelated()) {
            throw new IllegalArgumentException("a subquery fetches nothing");
        }
        return new FetchOf<>(parent, attribute, target, type);
    }

    boolean isEmbedded() {
        return attribute.getPersistentAttributeType() == PersistentAttributeType.EMBEDDED;
    }

    List<FetchOf<?, ?>> fetches() {
        return fetches;
    }

    @Override
    public Attribute<? super Z, ?> getAttribute() {
        return (Attribute<? super Z, ?>) attribute;
    }

    @Override
    public FetchParent<?, Z> getParent() {
        return (FetchParent<?, Z>) parent;
    }

    @Override
    public JoinType getJoinType() {
        return joinType;
    }

    @Override
    public Set<Fetch<X, ?>> getFetches() {
        Set<Fetch<X, ?>> all = new LinkedHashSet<>();
        fetches.forEach(fetch -> all.add((Fetch<X, ?>) fetch));
        return all;
    }

    private <Y> Fetch<X, Y> fetched(String name, JoinType joinType) {
        FetchOf<?, ?> fetch = along(this, null, type.getAttribute(name), joinType);
        fetches.add(fetch);
        return (Fetch<X, Y>) fetch;
    }

    @Override
    public <Y> Fetch<X, Y> fetch(SingularAttribute<? super X, Y> attribute) {
        return fetched(attribute.getName(), JoinType.INNER);
    }

    @Override
    public <Y> Fetch<X, Y> fetch(SingularAttribute<? super X, Y> attribute, JoinType joinType) {
        return fetched(attribute.getName(), joinType);
    }

    @Override
    public <Y> Fetch<X, Y> fetch(PluralAttribute<? super X, ?, Y> attribute) {
        return fetched(attribute.getName(), JoinType.INNER);
    }

    @Override
    public <Y> Fetch<X, Y> fetch(PluralAttribute<? super X, ?, Y> attribute, JoinType joinType) {
        return fetched(attribute.getName(), joinType);
    }

    @Override
    public <A, Y> Fetch<A, Y> fetch(String name) {
        return fetch(name, JoinType.INNER);
    }

    @Override
    public <A, Y> Fetch<A, Y> fetch(String name, JoinType joinType) {
        return (Fetch<A, Y>) (Fetch) fetched(name, joinType);
    }
}
