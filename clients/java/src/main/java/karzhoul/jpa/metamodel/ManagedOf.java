package karzhoul.jpa.metamodel;

import jakarta.persistence.metamodel.Attribute;
import jakarta.persistence.metamodel.CollectionAttribute;
import jakarta.persistence.metamodel.EmbeddableType;
import jakarta.persistence.metamodel.ListAttribute;
import jakarta.persistence.metamodel.ManagedType;
import jakarta.persistence.metamodel.MapAttribute;
import jakarta.persistence.metamodel.PluralAttribute;
import jakarta.persistence.metamodel.SetAttribute;
import jakarta.persistence.metamodel.SingularAttribute;
import java.lang.invoke.MethodType;
import java.util.LinkedHashMap;
import java.util.LinkedHashSet;
import java.util.Map;
import java.util.Set;

/**
 * A managed type with its attributes (chapter 5). What isn't there is an IllegalArgumentException that says what is;
 * maps aren't kept, so there is none.
 */
@SuppressWarnings("unchecked")
abstract class ManagedOf<X> extends TypeOf<X> implements ManagedType<X> {
    private final Map<String, AttributeOf<? super X, ?, ?>> all = new LinkedHashMap<>();
    private final Map<String, AttributeOf<X, ?, ?>> declared = new LinkedHashMap<>();

    ManagedOf(Class<X> javaType, PersistenceType persistenceType) {
        super(javaType, persistenceType);
    }

    /** Takes an attribute that is declared here. */
    void declares(AttributeOf<?, ?, ?> attribute) {
        declared.put(attribute.getName(), (AttributeOf<X, ?, ?>) attribute);
        all.put(attribute.getName(), (AttributeOf<X, ?, ?>) attribute);
    }

    /** Takes an attribute that is declared above. */
    void inherits(AttributeOf<?, ?, ?> attribute) {
        all.put(attribute.getName(), (AttributeOf<? super X, ?, ?>) attribute);
    }

    /** The attribute that is declared here, or null. */
    AttributeOf<X, ?, ?> declaredOrNull(String name) {
        return declared.get(name);
    }

    // ---- lookups

    private <A> A found(Map<String, ? extends AttributeOf<?, ?, ?>> among, String name, Class<?> sort, String told,
            Class<?> type) {
        AttributeOf<?, ?, ?> attribute = among.get(name);
        if (attribute == null || !sort.isInstance(attribute)) {
            throw new IllegalArgumentException(this + " has no " + told + " \"" + name + "\"; it has "
                    + among.values().stream().filter(sort::isInstance).map(Attribute::getName).toList());
        }
        if (type != null && boxed(type) != boxed(attribute.getBindableJavaType())) {
            throw new IllegalArgumentException(attribute + " is of " + attribute.getBindableJavaType().getName()
                    + ", and no " + type.getName());
        }
        return (A) attribute;
    }

    static Class<?> boxed(Class<?> type) {
        return MethodType.methodType(type).wrap().returnType();
    }

    private static <A> Set<A> each(Map<String, ? extends AttributeOf<?, ?, ?>> among, Class<?> sort) {
        Set<A> found = new LinkedHashSet<>();
        among.values().stream().filter(sort::isInstance).forEach(attribute -> found.add((A) attribute));
        return found;
    }

    @Override
    public Set<Attribute<? super X, ?>> getAttributes() {
        return each(all, Attribute.class);
    }

    @Override
    public Set<Attribute<X, ?>> getDeclaredAttributes() {
        return each(declared, Attribute.class);
    }

    @Override
    public Attribute<? super X, ?> getAttribute(String name) {
        return found(all, name, Attribute.class, "attribute", null);
    }

    @Override
    public Attribute<X, ?> getDeclaredAttribute(String name) {
        return found(declared, name, Attribute.class, "attribute of its own", null);
    }

    // ---- of one value

    @Override
    public <Y> SingularAttribute<? super X, Y> getSingularAttribute(String name, Class<Y> type) {
        return found(all, name, SingularAttribute.class, "attribute of one value", type);
    }

    @Override
    public <Y> SingularAttribute<X, Y> getDeclaredSingularAttribute(String name, Class<Y> type) {
        return found(declared, name, SingularAttribute.class, "attribute of one value of its own", type);
    }

    @Override
    public Set<SingularAttribute<? super X, ?>> getSingularAttributes() {
        return each(all, SingularAttribute.class);
    }

    @Override
    public Set<SingularAttribute<X, ?>> getDeclaredSingularAttributes() {
        return each(declared, SingularAttribute.class);
    }

    @Override
    public SingularAttribute<? super X, ?> getSingularAttribute(String name) {
        return getSingularAttribute(name, null);
    }

    @Override
    public SingularAttribute<X, ?> getDeclaredSingularAttribute(String name) {
        return getDeclaredSingularAttribute(name, null);
    }

    // ---- of many values

    @Override
    public <E> CollectionAttribute<? super X, E> getCollection(String name, Class<E> type) {
        return found(all, name, CollectionAttribute.class, "Collection", type);
    }

    @Override
    public <E> CollectionAttribute<X, E> getDeclaredCollection(String name, Class<E> type) {
        return found(declared, name, CollectionAttribute.class, "Collection of its own", type);
    }

    @Override
    public <E> SetAttribute<? super X, E> getSet(String name, Class<E> type) {
        return found(all, name, SetAttribute.class, "Set", type);
    }

    @Override
    public <E> SetAttribute<X, E> getDeclaredSet(String name, Class<E> type) {
        return found(declared, name, SetAttribute.class, "Set of its own", type);
    }

    @Override
    public <E> ListAttribute<? super X, E> getList(String name, Class<E> type) {
        return found(all, name, ListAttribute.class, "List", type);
    }

    @Override
    public <E> ListAttribute<X, E> getDeclaredList(String name, Class<E> type) {
        return found(declared, name, ListAttribute.class, "List of its own", type);
    }

    @Override
    public <K, V> MapAttribute<? super X, K, V> getMap(String name, Class<K> key, Class<V> value) {
        return found(all, name, MapAttribute.class, "Map", value);
    }

    @Override
    public <K, V> MapAttribute<X, K, V> getDeclaredMap(String name, Class<K> key, Class<V> value) {
        return found(declared, name, MapAttribute.class, "Map of its own", value);
    }

    @Override
    public Set<PluralAttribute<? super X, ?, ?>> getPluralAttributes() {
        return each(all, PluralAttribute.class);
    }

    @Override
    public Set<PluralAttribute<X, ?, ?>> getDeclaredPluralAttributes() {
        return each(declared, PluralAttribute.class);
    }

    @Override
    public CollectionAttribute<? super X, ?> getCollection(String name) {
        return getCollection(name, null);
    }

    @Override
    public CollectionAttribute<X, ?> getDeclaredCollection(String name) {
        return getDeclaredCollection(name, null);
    }

    @Override
    public SetAttribute<? super X, ?> getSet(String name) {
        return getSet(name, null);
    }

    @Override
    public SetAttribute<X, ?> getDeclaredSet(String name) {
        return getDeclaredSet(name, null);
    }

    @Override
    public ListAttribute<? super X, ?> getList(String name) {
        return getList(name, null);
    }

    @Override
    public ListAttribute<X, ?> getDeclaredList(String name) {
        return getDeclaredList(name, null);
    }

    @Override
    public MapAttribute<? super X, ?, ?> getMap(String name) {
        return getMap(name, null, null);
    }

    @Override
    public MapAttribute<X, ?, ?> getDeclaredMap(String name) {
        return getDeclaredMap(name, null, null);
    }

    /** An embeddable. */
    static final class OfEmbeddable<X> extends ManagedOf<X> implements EmbeddableType<X> {
        OfEmbeddable(Class<X> javaType) {
            super(javaType, PersistenceType.EMBEDDABLE);
        }
    }
}
