package karzhoul.jpa.metamodel;

import jakarta.persistence.metamodel.EntityType;
import jakarta.persistence.metamodel.IdentifiableType;
import jakarta.persistence.metamodel.MappedSuperclassType;
import jakarta.persistence.metamodel.SingularAttribute;
import jakarta.persistence.metamodel.Type;
import java.util.LinkedHashSet;
import java.util.List;
import java.util.Optional;
import java.util.Set;
import java.util.function.Predicate;

/** An entity or a mapped superclass, with its key and its version (chapter 5). */
@SuppressWarnings("unchecked")
abstract class IdentifiableOf<X> extends ManagedOf<X> implements IdentifiableType<X> {
    private final IdentifiableOf<? super X> above;
    private final Type<?> idClass;

    IdentifiableOf(Class<X> javaType, PersistenceType persistenceType, IdentifiableOf<?> above,
            Optional<Type<?>> idClass) {
        super(javaType, persistenceType);
        this.above = (IdentifiableOf<? super X>) above;
        this.idClass = idClass.orElse(above == null ? null : above.idClass);
    }

    private <A extends SingularAttribute<?, ?>> List<A> those(Set<A> among, Predicate<SingularAttribute<?, ?>> test) {
        return among.stream().filter(test).toList();
    }

    private <A extends SingularAttribute<?, ?>> A only(List<A> found, String what, Class<?> type) {
        if (found.size() != 1) {
            throw new IllegalArgumentException(this + " has no " + what + " of one attribute here");
        }
        if (type != null && boxed(type) != boxed(found.get(0).getJavaType())) {
            throw new IllegalArgumentException("the " + what + " of " + this + " is of "
                    + found.get(0).getJavaType().getName() + ", and no " + type.getName());
        }
        return found.get(0);
    }

    private void needNoIdClass() {
        if (idClass != null) {
            throw new IllegalArgumentException("the key of " + this + " is of the class " + idClass
                    + "; getIdClassAttributes has its parts");
        }
    }

    @Override
    public <Y> SingularAttribute<? super X, Y> getId(Class<Y> type) {
        needNoIdClass();
        return (SingularAttribute<? super X, Y>) only(those(getSingularAttributes(), SingularAttribute::isId), "key",
                type);
    }

    @Override
    public <Y> SingularAttribute<X, Y> getDeclaredId(Class<Y> type) {
        needNoIdClass();
        return (SingularAttribute<X, Y>) only(those(getDeclaredSingularAttributes(), SingularAttribute::isId), "key",
                type);
    }

    @Override
    public <Y> SingularAttribute<? super X, Y> getVersion(Class<Y> type) {
        return (SingularAttribute<? super X, Y>) only(those(getSingularAttributes(), SingularAttribute::isVersion),
                "version", type);
    }

    @Override
    public <Y> SingularAttribute<X, Y> getDeclaredVersion(Class<Y> type) {
        return (SingularAttribute<X, Y>) only(
                those(getDeclaredSingularAttributes(), SingularAttribute::isVersion), "version", type);
    }

    @Override
    public IdentifiableType<? super X> getSupertype() {
        return above;
    }

    @Override
    public boolean hasSingleIdAttribute() {
        return idClass == null && those(getSingularAttributes(), SingularAttribute::isId).size() == 1;
    }

    @Override
    public boolean hasVersionAttribute() {
        return !those(getSingularAttributes(), SingularAttribute::isVersion).isEmpty();
    }

    @Override
    public Set<SingularAttribute<? super X, ?>> getIdClassAttributes() {
        if (idClass == null) {
            throw new IllegalArgumentException(this + " has no class of its keys; getId has its key");
        }
        return new LinkedHashSet<>(those(getSingularAttributes(), SingularAttribute::isId));
    }

    @Override
    public Type<?> getIdType() {
        if (idClass != null) {
            return idClass;
        }
        List<SingularAttribute<? super X, ?>> ids = those(getSingularAttributes(), SingularAttribute::isId);
        return ids.size() == 1 ? ids.get(0).getType() : null;
    }

    /** A mapped superclass. */
    static final class OfSuperclass<X> extends IdentifiableOf<X> implements MappedSuperclassType<X> {
        OfSuperclass(Class<X> javaType, IdentifiableOf<?> above, Optional<Type<?>> idClass) {
            super(javaType, PersistenceType.MAPPED_SUPERCLASS, above, idClass);
        }
    }

    /** An entity. */
    static final class OfEntity<X> extends IdentifiableOf<X> implements EntityType<X> {
        private final String name;

        OfEntity(Class<X> javaType, String name, IdentifiableOf<?> above, Optional<Type<?>> idClass) {
            super(javaType, PersistenceType.ENTITY, above, idClass);
            this.name = name;
        }

        @Override
        public String getName() {
            return name;
        }

        @Override
        public BindableType getBindableType() {
            return BindableType.ENTITY_TYPE;
        }

        @Override
        public Class<X> getBindableJavaType() {
            return getJavaType();
        }
    }
}
