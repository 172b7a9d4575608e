package karzhoul.jpa.metamodel;

import jakarta.persistence.metamodel.BasicType;
import jakarta.persistence.metamodel.Type;

/** A type of the metamodel (chapter 5). */
abstract class TypeOf<X> implements Type<X> {
    private final Class<X> javaType;
    private final PersistenceType persistenceType;

    TypeOf(Class<X> javaType, PersistenceType persistenceType) {
        this.javaType = javaType;
        this.persistenceType = persistenceType;
    }

    @Override
    public Class<X> getJavaType() {
        return javaType;
    }

    @Override
    public PersistenceType getPersistenceType() {
        return persistenceType;
    }

    @Override
    public String toString() {
        return javaType.getName();
    }

    /** The type of values that are kept as they are. */
    static final class Basic<X> extends TypeOf<X> implements BasicType<X> {
        Basic(Class<X> javaType) {
            super(javaType, PersistenceType.BASIC);
        }

        @Override
        public boolean equals(Object other) {
            return other instanceof Basic<?> basic && basic.getJavaType() == getJavaType();
        }

        @Override
        public int hashCode() {
            return getJavaType().hashCode();
        }
    }
}
