package karzhoul.jpa.metamodel;

import jakarta.persistence.metamodel.EmbeddableType;
import jakarta.persistence.metamodel.EntityType;
import jakarta.persistence.metamodel.ManagedType;
import jakarta.persistence.metamodel.Metamodel;
import jakarta.persistence.metamodel.Type;
import java.util.LinkedHashMap;
import java.util.LinkedHashSet;
import java.util.List;
import java.util.Map;
import java.util.Optional;
import java.util.Set;
import karzhoul.jpa.model.ManagedClass;
import karzhoul.jpa.model.ManagedClasses;
import karzhoul.jpa.model.ManagedMember;
import karzhoul.jpa.model.Relation;
import karzhoul.jpa.model.UnitModel;

/** The metamodel of a unit (chapter 5). It doesn't change, and threads may share it. */
public final class UnitMetamodel implements Metamodel {
    private final Map<Class<?>, ManagedOf<?>> types = new LinkedHashMap<>();

    /** The metamodel of a unit, whose classes' static metamodels are filled (chapter 6.2.1). */
    public UnitMetamodel(UnitModel unit) {
        List<ManagedClass> classes = ManagedClasses.of(unit);
        classes.forEach(managed -> types.put(managed.javaClass(), type(managed)));
        classes.forEach(this::addAttributes);
        types.values().forEach(StaticFields::fill);
    }

    private ManagedOf<?> type(ManagedClass managed) {
        ManagedOf<?> above = managed.above().<ManagedOf<?>>map(types::get).orElse(null);
        Optional<Type<?>> idClass = managed.idClass().map(this::typeOf);
        return switch (managed.sort()) {
            case EMBEDDABLE -> new ManagedOf.OfEmbeddable<>(managed.javaClass());
            case MAPPED_SUPERCLASS -> new IdentifiableOf.OfSuperclass<>(managed.javaClass(), (IdentifiableOf<?>) above,
                    idClass);
            case ENTITY -> new IdentifiableOf.OfEntity<>(managed.javaClass(), managed.name(),
                    (IdentifiableOf<?>) above, idClass);
        };
    }

    private Type<?> typeOf(Class<?> javaClass) {
        ManagedOf<?> managed = types.get(javaClass);
        return managed != null ? managed : new TypeOf.Basic<>(javaClass);
    }

    private void addAttributes(ManagedClass managed) {
        ManagedOf<?> type = types.get(managed.javaClass());
        for (ManagedMember member : managed.all()) {
            if (member.declaring() == managed.javaClass()) {
                type.declares(attribute(type, member));
            } else {
                type.inherits(inherited(member));
            }
        }
    }

    /** The attribute of the class above; one of its own where a type variable stands for another type here. */
    private AttributeOf<?, ?, ?> inherited(ManagedMember member) {
        ManagedOf<?> declaring = types.get(member.declaring());
        AttributeOf<?, ?, ?> above = declaring.declaredOrNull(member.name());
        boolean isSame = above != null && above.member.javaType() == member.javaType()
                && above.member.element() == member.element();
        return isSame ? above : attribute(declaring, member);
    }

    private AttributeOf<?, ?, ?> attribute(ManagedOf<?> declaring, ManagedMember member) {
        if (member.container() == Relation.Container.ONE) {
            return new AttributeOf.Singular<>(declaring, member, typeOf(member.javaType()));
        }
        Type<?> element = typeOf(member.element());
        return switch (member.container()) {
            case LIST -> new AttributeOf.OfList<>(declaring, member, element);
            case MAP -> new AttributeOf.OfMap<>(declaring, member, typeOf(member.key()), element);
            case SET -> new AttributeOf.OfSet<>(declaring, member, element);
            default -> new AttributeOf.OfCollection<>(declaring, member, element);
        };
    }

    private <T> T found(Class<?> javaClass, Class<?> sort, String told) {
        ManagedOf<?> type = types.get(javaClass);
        if (!sort.isInstance(type)) {
            throw new IllegalArgumentException((javaClass == null ? "null" : javaClass.getName()) + " is no " + told
                    + " of this persistence unit");
        }
        @SuppressWarnings("unchecked")
        T found = (T) type;
        return found;
    }

    /**
     * The entity of a class.
     *
     * @throws IllegalArgumentException where it is none
     */
    @Override
    public <X> EntityType<X> entity(Class<X> javaClass) {
        return found(javaClass, EntityType.class, "entity");
    }

    /**
     * The entity, the mapped superclass or the embeddable of a class.
     *
     * @throws IllegalArgumentException where it is none
     */
    @Override
    public <X> ManagedType<X> managedType(Class<X> javaClass) {
        return found(javaClass, ManagedType.class, "entity, mapped superclass or embeddable");
    }

    /**
     * The embeddable of a class.
     *
     * @throws IllegalArgumentException where it is none
     */
    @Override
    public <X> EmbeddableType<X> embeddable(Class<X> javaClass) {
        return found(javaClass, EmbeddableType.class, "embeddable");
    }

    @Override
    public Set<ManagedType<?>> getManagedTypes() {
        return new LinkedHashSet<>(types.values());
    }

    @Override
    public Set<EntityType<?>> getEntities() {
        return those(EntityType.class);
    }

    @Override
    public Set<EmbeddableType<?>> getEmbeddables() {
        return those(EmbeddableType.class);
    }

    private <T> Set<T> those(Class<?> sort) {
        Set<T> found = new LinkedHashSet<>();
        for (ManagedOf<?> type : types.values()) {
            if (sort.isInstance(type)) {
                @SuppressWarnings("unchecked")
                T one = (T) type;
                found.add(one);
            }
        }
        return found;
    }
}
