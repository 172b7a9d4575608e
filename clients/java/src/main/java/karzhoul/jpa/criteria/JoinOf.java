package karzhoul.jpa.criteria;

import jakarta.persistence.criteria.CollectionJoin;
import jakarta.persistence.criteria.Expression;
import jakarta.persistence.criteria.From;
import jakarta.persistence.criteria.Join;
import jakarta.persistence.criteria.JoinType;
import jakarta.persistence.criteria.ListJoin;
import jakarta.persistence.criteria.MapJoin;
import jakarta.persistence.criteria.Path;
import jakarta.persistence.criteria.Predicate;
import jakarta.persistence.criteria.SetJoin;
import jakarta.persistence.metamodel.Attribute;
import jakarta.persistence.metamodel.Attribute.PersistentAttributeType;
import jakarta.persistence.metamodel.CollectionAttribute;
import jakarta.persistence.metamodel.EntityType;
import jakarta.persistence.metamodel.ListAttribute;
import jakarta.persistence.metamodel.ManagedType;
import jakarta.persistence.metamodel.MapAttribute;
import jakarta.persistence.metamodel.PluralAttribute;
import jakarta.persistence.metamodel.SetAttribute;
import jakarta.persistence.metamodel.SingularAttribute;
import java.util.ArrayList;
import java.util.List;
import java.util.Map;
import karzhoul.jpa.query.Tree;

/**
 * A join along a relation or a collection of values (chapter 6.5.3). One along an embedded attribute is no join of its
 * own: paths and joins from it go through the attribute.
 */
@SuppressWarnings("unchecked")
class JoinOf<Z, X> extends FromOf<Z, X> implements Join<Z, X> {
    private final FromOf<?, Z> parent;
    private final JoinType joinType;
    private final JoinOf<?, ?> treated;
    /** The classes below that TREAT has asked of it; of one alone, the join itself is TREAT of it. */
    private final List<EntityType<?>> treats = new ArrayList<>();
    private Condition on;

    private JoinOf(FromOf<?, ?> parent, Attribute<?, ?> attribute, Target type, JoinType joinType) {
        super(parent, attribute, type.type(), type.javaType());
        this.parent = (FromOf<?, Z>) parent;
        this.joinType = joinType;
        this.treated = null;
    }

    private JoinOf(JoinOf<Z, X> outer, Target type) {
        super(outer, type.type());
        this.parent = outer.parent;
        this.joinType = outer.joinType;
        this.treated = null;
    }

    private JoinOf(JoinOf<?, ?> treated, EntityType<X> below) {
        super(treated, below, treated.parent);
        this.parent = (FromOf<?, Z>) treated.parent;
        this.joinType = treated.joinType;
        this.treated = treated;
    }

    /** What a join leads to: the type of a value has no attributes. */
    private record Target(ManagedType<?> type, Class<?> javaType) {
        static Target of(Attribute<?, ?> attribute) {
            boolean isPlural = attribute instanceof PluralAttribute<?, ?, ?>;
            var type = isPlural ? ((PluralAttribute<?, ?, ?>) attribute).getElementType()
                    : ((SingularAttribute<?, ?>) attribute).getType();
            if (managed(type) == null && !isPlural) {
                throw new IllegalArgumentException("\"" + attribute.getName() + "\" is a value, and no relation");
            }
            return new Target(managed(type), type.getJavaType());
        }
    }

    /**
     * A join along an attribute.
     *
     * @throws IllegalArgumentException where it is no relation
     * @throws UnsupportedOperationException of a right join, which isn't served
     */
    static JoinOf<?, ?> along(FromOf<?, ?> parent, Attribute<?, ?> attribute, JoinType type) {
        needServed(type);
        Target target = Target.of(attribute);
        if (attribute instanceof ListAttribute<?, ?>) {
            return new OfList<>(parent, attribute, target, type);
        } else if (attribute instanceof SetAttribute<?, ?>) {
            return new OfSet<>(parent, attribute, target, type);
        } else if (attribute instanceof CollectionAttribute<?, ?>) {
            return new OfCollection<>(parent, attribute, target, type);
        } else if (attribute instanceof MapAttribute<?, ?, ?>) {
            return new OfMap<>(parent, attribute, target, type);
        }
        return new JoinOf<>(parent, attribute, target, type);
    }

    static void needServed(JoinType type) {
        if (type == JoinType.RIGHT) {
            throw new UnsupportedOperationException("right joins aren't served; begin at the other entity, and join"
                    + " from there by LEFT");
        }
    }

    /** A join of the query around a subquery. */
    static <Z, X> JoinOf<Z, X> correlated(JoinOf<Z, X> outer) {
        Target type = new Target(outer.managedType(), outer.getJavaType());
        if (outer instanceof OfList<?, ?>) {
            return (JoinOf<Z, X>) new OfList<>((OfList<Z, X>) outer, type);
        } else if (outer instanceof OfSet<?, ?>) {
            return (JoinOf<Z, X>) new OfSet<>((OfSet<Z, X>) outer, type);
        } else if (outer instanceof OfCollection<?, ?>) {
            return (JoinOf<Z, X>) new OfCollection<>((OfCollection<Z, X>) outer, type);
        } else if (outer instanceof OfMap<?, ?, ?>) {
            return (JoinOf<Z, X>) new OfMap<>((OfMap<Z, ?, X>) outer, type);
        }
        return new JoinOf<>(outer, type);
    }

    /** The class below of a join. */
    static <Z, X> JoinOf<Z, X> treated(JoinOf<?, ?> join, EntityType<X> below) {
        join.treats.add(below);
        if (join instanceof OfList<?, ?>) {
            return new OfList<>(join, below);
        } else if (join instanceof OfSet<?, ?>) {
            return new OfSet<>(join, below);
        } else if (join instanceof OfCollection<?, ?>) {
            return new OfCollection<>(join, below);
        } else if (join instanceof OfMap<?, ?, ?>) {
            return new OfMap<>(join, below);
        }
        return new JoinOf<>(join, below);
    }

    /** Whether it goes along an embedded attribute. */
    boolean isEmbedded() {
        return attribute().getPersistentAttributeType() == PersistentAttributeType.EMBEDDED;
    }

    @Override
    boolean isVariable() {
        return !isEmbedded();
    }

    private boolean isTreatedItself() {
        return treated != null && treated.treats.size() == 1;
    }

    @Override
    PathOf<?> treated() {
        return isTreatedItself() ? null : treated;
    }

    @Override
    PathOf<?> outer() {
        return isTreatedItself() ? treated : super.outer();
    }

    /** The path along which it joins, or TREAT of it. */
    Tree.Value path(Writing to) {
        int at = to.at();
        if (treats.size() != 1) {
            return parent.write(to, new ArrayList<>(List.of(attribute().getName())));
        }
        Tree.Value path = parent.write(to.add("TREAT("), new ArrayList<>(List.of(attribute().getName())));
        String below = treats.get(0).getName();
        to.add(" AS " + below + ")");
        return new Tree.Treated(at, path, below, List.of());
    }

    /** The condition of ON, or null. */
    Condition condition() {
        return on;
    }

    @Override
    public JoinOf<Z, X> on(Expression<Boolean> restriction) {
        return on(Condition.that(restriction));
    }

    @Override
    public JoinOf<Z, X> on(Predicate... restrictions) {
        return on(Junction.all(restrictions));
    }

    private JoinOf<Z, X> on(Condition condition) {
        if (isEmbedded()) {
            throw new IllegalArgumentException("a join along the embedded attribute \"" + attribute().getName()
                    + "\" has no ON; add its condition to WHERE");
        }
        on = condition;
        return this;
    }

    @Override
    public Predicate getOn() {
        return on;
    }

    @Override
    public Attribute<? super Z, ?> getAttribute() {
        return (Attribute<? super Z, ?>) attribute();
    }

    @Override
    public From<?, Z> getParent() {
        return parent;
    }

    @Override
    public JoinType getJoinType() {
        return joinType;
    }

    /** Along a list. */
    static final class OfList<Z, E> extends JoinOf<Z, E> implements ListJoin<Z, E> {
        private OfList(FromOf<?, ?> parent, Attribute<?, ?> attribute, Target type, JoinType joinType) {
            super(parent, attribute, type, joinType);
        }

        private OfList(OfList<Z, E> outer, Target type) {
            super(outer, type);
        }

        private OfList(JoinOf<?, ?> treated, EntityType<E> below) {
            super(treated, below);
        }

        @Override
        public OfList<Z, E> on(Expression<Boolean> restriction) {
            super.on(restriction);
            return this;
        }

        @Override
        public OfList<Z, E> on(Predicate... restrictions) {
            super.on(restrictions);
            return this;
        }

        @Override
        public ListAttribute<? super Z, E> getModel() {
            return (ListAttribute<? super Z, E>) (Object) attribute();
        }

        /** The place; a query with that of a list without {@code @OrderColumn} is refused. */
        @Override
        public Expression<Integer> index() {
            return new PartOf<>(Integer.class, "INDEX", this);
        }
    }

    /** Along a set. */
    static final class OfSet<Z, E> extends JoinOf<Z, E> implements SetJoin<Z, E> {
        private OfSet(FromOf<?, ?> parent, Attribute<?, ?> attribute, Target type, JoinType joinType) {
            super(parent, attribute, type, joinType);
        }

        private OfSet(OfSet<Z, E> outer, Target type) {
            super(outer, type);
        }

        private OfSet(JoinOf<?, ?> treated, EntityType<E> below) {
            super(treated, below);
        }

        @Override
        public OfSet<Z, E> on(Expression<Boolean> restriction) {
            super.on(restriction);
            return this;
        }

        @Override
        public OfSet<Z, E> on(Predicate... restrictions) {
            super.on(restrictions);
            return this;
        }

        @Override
        public SetAttribute<? super Z, E> getModel() {
            return (SetAttribute<? super Z, E>) (Object) attribute();
        }
    }

    /** Along a collection. */
    static final class OfCollection<Z, E> extends JoinOf<Z, E> implements CollectionJoin<Z, E> {
        private OfCollection(FromOf<?, ?> parent, Attribute<?, ?> attribute, Target type,
                JoinType joinType) {
            super(parent, attribute, type, joinType);
        }

        private OfCollection(OfCollection<Z, E> outer, Target type) {
            super(outer, type);
        }

        private OfCollection(JoinOf<?, ?> treated, EntityType<E> below) {
            super(treated, below);
        }

        @Override
        public OfCollection<Z, E> on(Expression<Boolean> restriction) {
            super.on(restriction);
            return this;
        }

        @Override
        public OfCollection<Z, E> on(Predicate... restrictions) {
            super.on(restrictions);
            return this;
        }

        @Override
        public CollectionAttribute<? super Z, E> getModel() {
            return (CollectionAttribute<? super Z, E>) (Object) attribute();
        }
    }

    /** Along a map; the join itself is of its values. */
    static final class OfMap<Z, K, V> extends JoinOf<Z, V> implements MapJoin<Z, K, V> {
        private OfMap(FromOf<?, ?> parent, Attribute<?, ?> attribute, Target type, JoinType joinType) {
            super(parent, attribute, type, joinType);
        }

        private OfMap(OfMap<Z, K, V> outer, Target type) {
            super(outer, type);
        }

        private OfMap(JoinOf<?, ?> treated, EntityType<V> below) {
            super(treated, below);
        }

        @Override
        public OfMap<Z, K, V> on(Expression<Boolean> restriction) {
            super.on(restriction);
            return this;
        }

        @Override
        public OfMap<Z, K, V> on(Predicate... restrictions) {
            super.on(restrictions);
            return this;
        }

        @Override
        public MapAttribute<? super Z, K, V> getModel() {
            return (MapAttribute<? super Z, K, V>) (Object) attribute();
        }

        /** The key; a query with that of a map of entities is refused. */
        @Override
        public Path<K> key() {
            return new PartOf<>(getModel().getKeyJavaType(), "KEY", this);
        }

        @Override
        public Path<V> value() {
            return this;
        }

        /** The entry, with which a query is refused: ask for the key and the value. */
        @Override
        public Expression<Map.Entry<K, V>> entry() {
            return new PartOf<>(Map.Entry.class, "ENTRY", this);
        }
    }
}
