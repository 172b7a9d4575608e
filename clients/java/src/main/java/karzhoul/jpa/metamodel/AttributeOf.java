package karzhoul.jpa.metamodel;

import jakarta.persistence.metamodel.Attribute;
import jakarta.persistence.metamodel.Bindable;
import jakarta.persistence.metamodel.CollectionAttribute;
import jakarta.persistence.metamodel.ListAttribute;
import jakarta.persistence.metamodel.ManagedType;
import jakarta.persistence.metamodel.MapAttribute;
import jakarta.persistence.metamodel.PluralAttribute;
import jakarta.persistence.metamodel.SetAttribute;
import jakarta.persistence.metamodel.SingularAttribute;
import jakarta.persistence.metamodel.Type;
import java.lang.reflect.Member;
import java.util.Collection;
import java.util.List;
import java.util.Map;
import java.util.Set;
import karzhoul.jpa.model.ManagedMember;

/**
 * An attribute of a managed type (chapter 5).
 *
 * @param <X> the class that declares it
 * @param <Y> its type
 * @param <B> the type of its value, or of what its collection holds
 */
abstract sealed class AttributeOf<X, Y, B> implements Attribute<X, Y>, Bindable<B> {
    final ManagedMember member;
    private final ManagedType<X> declaring;
    private final Type<B> bound;

    AttributeOf(ManagedType<X> declaring, ManagedMember member, Type<B> bound) {
        this.declaring = declaring;
        this.member = member;
        this.bound = bound;
    }

    @Override
    public String getName() {
        return member.name();
    }

    @Override
    public PersistentAttributeType getPersistentAttributeType() {
        return member.kind();
    }

    @Override
    public ManagedType<X> getDeclaringType() {
        return declaring;
    }

    @Override
    @SuppressWarnings("unchecked")
    public Class<Y> getJavaType() {
        return (Class<Y>) member.javaType();
    }

    @Override
    public Member getJavaMember() {
        return member.javaMember();
    }

    @Override
    public boolean isAssociation() {
        return switch (member.kind()) {
            case BASIC, EMBEDDED, ELEMENT_COLLECTION -> false;
            default -> true;
        };
    }

    @Override
    public boolean isCollection() {
        return this instanceof Plural;
    }

    @Override
    public Class<B> getBindableJavaType() {
        return bound.getJavaType();
    }

    Type<B> bound() {
        return bound;
    }

    @Override
    public String toString() {
        return declaring.getJavaType().getName() + "." + getName();
    }

    /** One of a single value. */
    static final class Singular<X, Y> extends AttributeOf<X, Y, Y> implements SingularAttribute<X, Y> {
        Singular(ManagedType<X> declaring, ManagedMember member, Type<Y> type) {
            super(declaring, member, type);
        }

        @Override
        public boolean isId() {
            return member.isId();
        }

        @Override
        public boolean isVersion() {
            return member.isVersion();
        }

        @Override
        public boolean isOptional() {
            return member.isOptional();
        }

        @Override
        public Type<Y> getType() {
            return bound();
        }

        @Override
        public BindableType getBindableType() {
            return BindableType.SINGULAR_ATTRIBUTE;
        }
    }

    /** One of many values. */
    abstract static sealed class Plural<X, C, E> extends AttributeOf<X, C, E> implements PluralAttribute<X, C, E> {
        Plural(ManagedType<X> declaring, ManagedMember member, Type<E> element) {
            super(declaring, member, element);
        }

        @Override
        public Type<E> getElementType() {
            return bound();
        }

        @Override
        public BindableType getBindableType() {
            return BindableType.PLURAL_ATTRIBUTE;
        }
    }

    /** One that is declared as a Collection. */
    static final class OfCollection<X, E> extends Plural<X, Collection<E>, E> implements CollectionAttribute<X, E> {
        OfCollection(ManagedType<X> declaring, ManagedMember member, Type<E> element) {
            super(declaring, member, element);
        }

        @Override
        public CollectionType getCollectionType() {
            return CollectionType.COLLECTION;
        }
    }

    /** One that is declared as a Map. */
    static final class OfMap<X, K, V> extends Plural<X, Map<K, V>, V> implements MapAttribute<X, K, V> {
        private final Type<K> key;

        OfMap(ManagedType<X> declaring, ManagedMember member, Type<K> key, Type<V> element) {
            super(declaring, member, element);
            this.key = key;
        }

        @Override
        public CollectionType getCollectionType() {
            return CollectionType.MAP;
        }

        @Override
        public Class<K> getKeyJavaType() {
            return key.getJavaType();
        }

        @Override
        public Type<K> getKeyType() {
            return key;
        }
    }

    /** One that is declared as a List. */
    static final class OfList<X, E> extends Plural<X, List<E>, E> implements ListAttribute<X, E> {
        OfList(ManagedType<X> declaring, ManagedMember member, Type<E> element) {
            super(declaring, member, element);
        }

        @Override
        public CollectionType getCollectionType() {
            return CollectionType.LIST;
        }
    }

    /** One that is declared as a Set. */
    static final class OfSet<X, E> extends Plural<X, Set<E>, E> implements SetAttribute<X, E> {
        OfSet(ManagedType<X> declaring, ManagedMember member, Type<E> element) {
            super(declaring, member, element);
        }

        @Override
        public CollectionType getCollectionType() {
            return CollectionType.SET;
        }
    }
}
