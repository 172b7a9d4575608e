package karzhoul.jpa.criteria;

import jakarta.persistence.criteria.Expression;
import jakarta.persistence.criteria.Path;
import jakarta.persistence.metamodel.Attribute;
import jakarta.persistence.metamodel.Bindable;
import jakarta.persistence.metamodel.EntityType;
import jakarta.persistence.metamodel.ManagedType;
import jakarta.persistence.metamodel.MapAttribute;
import jakarta.persistence.metamodel.PluralAttribute;
import jakarta.persistence.metamodel.SingularAttribute;
import jakarta.persistence.metamodel.Type;
import java.util.ArrayList;
import java.util.Collection;
import java.util.List;
import java.util.Map;
import karzhoul.jpa.query.Tree;

/** A path from a root or a join along attributes (chapter 6.5.4). */
@SuppressWarnings("unchecked")
class PathOf<X> extends Term<X> implements Path<X> {
    private final PathOf<?> parent;
    private final Attribute<?, ?> attribute;
    /** What it leads to, where that has attributes; else null. */
    private final ManagedType<X> type;

    PathOf(Class<?> javaType, PathOf<?> parent, Attribute<?, ?> attribute, ManagedType<?> type) {
        super(javaType);
        this.parent = parent;
        this.attribute = attribute;
        this.type = (ManagedType<X>) type;
    }

    /** The path of an attribute of a path. */
    private static PathOf<?> along(PathOf<?> parent, Attribute<?, ?> attribute) {
        if (attribute instanceof SingularAttribute<?, ?> one) {
            return new PathOf<>(attribute.getJavaType(), parent, attribute, managed(one.getType()));
        }
        return new PathOf<>(attribute.getJavaType(), parent, attribute, null);
    }

    static ManagedType<?> managed(Type<?> type) {
        return type instanceof ManagedType<?> managed ? managed : null;
    }

    /** The path of which this one is the class below, where it is TREAT of one; else null. */
    PathOf<?> treated() {
        return null;
    }

    /** What it stands for of a query around, where it is correlated; else null. */
    PathOf<?> outer() {
        return null;
    }

    /** Whether it is an identification variable, and not a path behind one. */
    boolean isVariable() {
        return false;
    }

    Attribute<?, ?> attribute() {
        return attribute;
    }

    /** What it leads to, where that has attributes; else null. */
    final ManagedType<X> managedType() {
        return type;
    }

    private ManagedType<X> type(String name) {
        if (type == null) {
            throw new IllegalStateException(told() + " has no attributes, and \"" + name + "\" is asked of it");
        }
        return type;
    }

    private String told() {
        return attribute == null ? getJavaType().getName() : "\"" + attribute.getName() + "\"";
    }

    /**
     * An attribute of what it leads to.
     *
     * @throws IllegalArgumentException where there is none of this name
     * @throws IllegalStateException where it leads to a value or a collection
     */
    Attribute<?, ?> attribute(String name) {
        return type(name).getAttribute(name);
    }

    /** The attribute of the metamodel, which may be told by the static one of a class above. */
    Attribute<?, ?> attribute(Attribute<?, ?> given) {
        if (given == null) {
            throw new IllegalArgumentException("an attribute is null; the static metamodel is filled as the entity"
                    + " manager factory is made");
        }
        return attribute(given.getName());
    }

    @Override
    List<Term<?>> parts() {
        return List.of();
    }

    @Override
    Tree.Value write(Writing to) {
        return write(to, new ArrayList<>());
    }

    /** The path with these names behind it. */
    final Tree.Value write(Writing to, List<String> behind) {
        PathOf<?> at = this;
        while (at.treated() == null && (at.outer() != null || !at.isVariable())) {
            if (at.outer() != null) {
                at = at.outer();
            } else {
                behind.add(0, at.attribute.getName());
                at = at.parent;
            }
        }
        if (at.treated() != null) {
            int from = to.at();
            Tree.Value value = to.add("TREAT(").value(at.treated());
            String name = ((EntityType<?>) at.type).getName();
            to.add(" AS " + name + ")");
            behind.forEach(each -> to.add("." + each));
            return new Tree.Treated(from, value, name, behind);
        }
        return to.path((FromOf<?, ?>) at, behind);
    }

    // ---- Path

    @Override
    public Bindable<X> getModel() {
        return (Bindable<X>) attribute;
    }

    @Override
    public Path<?> getParentPath() {
        return parent;
    }

    @Override
    public <Y> Path<Y> get(SingularAttribute<? super X, Y> attribute) {
        return (Path<Y>) along(this, attribute(attribute));
    }

    @Override
    public <E, C extends Collection<E>> Expression<C> get(PluralAttribute<X, C, E> attribute) {
        return (Expression<C>) along(this, attribute(attribute));
    }

    @Override
    public <K, V, M extends Map<K, V>> Expression<M> get(MapAttribute<X, K, V> attribute) {
        return (Expression<M>) along(this, attribute(attribute));
    }

    @Override
    public <Y> Path<Y> get(String name) {
        return (Path<Y>) along(this, attribute(name));
    }

    @Override
    public Expression<Class<? extends X>> type() {
        return new Computed<>(Class.class, List.of(this), Computed.type());
    }

    /** A path of which the class below is asked for by TREAT. */
    static final class Treated<X> extends PathOf<X> {
        private final PathOf<?> of;

        Treated(PathOf<?> of, EntityType<X> below) {
            super(below.getJavaType(), of.parent, of.attribute, below);
            this.of = of;
        }

        @Override
        PathOf<?> treated() {
            return of;
        }
    }
}
