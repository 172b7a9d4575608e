package karzhoul.jpa.model;

import jakarta.persistence.AccessType;
import jakarta.persistence.Basic;
import jakarta.persistence.ElementCollection;
import jakarta.persistence.Embeddable;
import jakarta.persistence.Embedded;
import jakarta.persistence.EmbeddedId;
import jakarta.persistence.Entity;
import jakarta.persistence.Id;
import jakarta.persistence.IdClass;
import jakarta.persistence.MapKeyClass;
import jakarta.persistence.MappedSuperclass;
import jakarta.persistence.Version;
import jakarta.persistence.metamodel.Attribute.PersistentAttributeType;
import java.lang.reflect.ParameterizedType;
import java.lang.reflect.Type;
import java.lang.reflect.TypeVariable;
import java.util.ArrayList;
import java.util.HashMap;
import java.util.LinkedHashMap;
import java.util.List;
import java.util.Map;
import java.util.Optional;
import java.util.Set;
import karzhoul.jpa.model.ManagedClass.Sort;
import karzhoul.jpa.model.Relation.Container;

/** Finds the managed classes of a unit: its entities, and the mapped superclasses and embeddables that these use. */
public final class ManagedClasses {
    private final Members members = new Members(new Faults());
    private final RelationReader relations = new RelationReader(new Faults());
    private final Map<Class<?>, ManagedClass> found = new LinkedHashMap<>();

    private ManagedClasses() {}

    /** The managed classes of a unit, each after those above it. */
    public static List<ManagedClass> of(UnitModel unit) {
        ManagedClasses classes = new ManagedClasses();
        unit.entities().forEach(entity -> classes.addIdentifiable(entity.javaClass(), unit,
                Members.accessOf(entity.javaClass())));
        return List.copyOf(classes.found.values());
    }

    private void addIdentifiable(Class<?> javaClass, UnitModel unit, AccessType access) {
        if (found.containsKey(javaClass)) {
            return;
        }
        List<Class<?>> chain = chain(javaClass, ManagedClasses::isIdentifiable);
        for (Class<?> above : chain.subList(0, chain.size() - 1)) {
            addIdentifiable(above, unit, access);
        }
        boolean isEntity = javaClass.isAnnotationPresent(Entity.class);
        put(javaClass, isEntity ? Sort.ENTITY : Sort.MAPPED_SUPERCLASS,
                isEntity ? unit.of(javaClass).name() : javaClass.getSimpleName(), chain, access,
                Types.arguments(javaClass));
    }

    private static boolean isIdentifiable(Class<?> javaClass) {
        return javaClass.isAnnotationPresent(Entity.class) || javaClass.isAnnotationPresent(MappedSuperclass.class);
    }

    private static boolean isEmbedded(Class<?> javaClass) {
        return javaClass.isAnnotationPresent(Embeddable.class)
                || javaClass.isAnnotationPresent(MappedSuperclass.class);
    }

    /** The managed classes above a class and itself, from above. */
    private static List<Class<?>> chain(Class<?> javaClass, java.util.function.Predicate<Class<?>> isManaged) {
        List<Class<?>> chain = new ArrayList<>();
        for (Class<?> at = javaClass; at != null && at != Object.class; at = at.getSuperclass()) {
            if (isManaged.test(at)) {
                chain.add(0, at);
            }
        }
        return chain;
    }

    private void put(Class<?> javaClass, Sort sort, String name, List<Class<?>> chain, AccessType access,
            Map<TypeVariable<?>, Type> known) {
        Map<String, ManagedMember> all = new LinkedHashMap<>();
        List<ManagedMember> declared = new ArrayList<>();
        for (Class<?> at : chain) {
            for (Member member : members.of(at, access, known)) {
                ManagedMember told = told(member, access, known);
                all.put(told.name(), told);
                if (at == javaClass) {
                    declared.add(told);
                }
            }
        }
        Optional<Class<?>> above = chain.size() == 1 ? Optional.empty() : Optional.of(chain.get(chain.size() - 2));
        IdClass idClass = javaClass.getAnnotation(IdClass.class);
        found.put(javaClass, new ManagedClass(javaClass, sort, name, above,
                Optional.ofNullable(idClass).map(IdClass::value), declared, List.copyOf(all.values())));
    }

    private ManagedMember told(Member member, AccessType access, Map<TypeVariable<?>, Type> known) {
        if (RelationReader.isRelation(member)) {
            PlainRelation.Said said = relations.read(member).orElseThrow();
            return new ManagedMember(member.name(), member.declaring(), member.javaType(), javaMember(member),
                    PersistentAttributeType.valueOf(said.kind().name()), said.container(), said.target(), keyOf(member),
                    member.has(Id.class), false, !said.isRequired() && !member.has(Id.class));
        }
        if (member.has(ElementCollection.class)) {
            return elements(member, access, known);
        }
        boolean isEmbedded = member.has(Embedded.class) || member.has(EmbeddedId.class)
                || member.javaType().isAnnotationPresent(Embeddable.class);
        if (isEmbedded) {
            addEmbeddable(member, access, known);
        }
        boolean isId = member.has(Id.class) || member.has(EmbeddedId.class);
        boolean isOptional = !isId && !member.has(Version.class) && !member.javaType().isPrimitive()
                && member.find(Basic.class).map(Basic::optional).orElse(true);
        return new ManagedMember(member.name(), member.declaring(), member.javaType(), javaMember(member),
                isEmbedded ? PersistentAttributeType.EMBEDDED : PersistentAttributeType.BASIC, Container.ONE,
                Types.boxed(member.javaType()), null, isId, member.has(Version.class), isOptional);
    }

    private ManagedMember elements(Member member, AccessType access, Map<TypeVariable<?>, Type> known) {
        Container container = Map.class.isAssignableFrom(member.javaType()) ? Container.MAP
                : member.javaType() == List.class ? Container.LIST
                : Set.class.isAssignableFrom(member.javaType()) ? Container.SET : Container.COLLECTION;
        Class<?> named = member.find(ElementCollection.class).orElseThrow().targetClass();
        Type type = named != void.class ? named
                : ((ParameterizedType) member.type()).getActualTypeArguments()[container == Container.MAP ? 1 : 0];
        Member element = new Member(member.name(), member.declaring(), type, member.annotated(), member.accessor());
        if (element.javaType().isAnnotationPresent(Embeddable.class)) {
            addEmbeddable(element, access, known);
        }
        return new ManagedMember(member.name(), member.declaring(), member.javaType(), javaMember(member),
                PersistentAttributeType.ELEMENT_COLLECTION, container, element.javaType(), keyOf(member), false, false,
                true);
    }

    private static Class<?> keyOf(Member member) {
        MapKeyClass named = member.find(MapKeyClass.class).orElse(null);
        return !Map.class.isAssignableFrom(member.javaType()) ? null : named != null ? named.value()
                : Types.argument(member.type(), 0).orElse(null);
    }

    private static java.lang.reflect.Member javaMember(Member member) {
        return (java.lang.reflect.Member) member.annotated();
    }

    private void addEmbeddable(Member holder, AccessType access, Map<TypeVariable<?>, Type> around) {
        Class<?> type = holder.javaType();
        if (found.containsKey(type)) {
            return;
        }
        Map<TypeVariable<?>, Type> known = new HashMap<>(around);
        known.putAll(Types.arguments(type));
        if (holder.type() instanceof ParameterizedType applied) {
            for (int place = 0; place < type.getTypeParameters().length; place++) {
                known.put(type.getTypeParameters()[place], applied.getActualTypeArguments()[place]);
            }
        }
        List<Class<?>> chain = chain(type, ManagedClasses::isEmbedded);
        for (int place = 0; place < chain.size(); place++) {
            Class<?> at = chain.get(place);
            if (!found.containsKey(at)) {
                put(at, at.isAnnotationPresent(Embeddable.class) ? Sort.EMBEDDABLE : Sort.MAPPED_SUPERCLASS,
                        at.getSimpleName(), chain.subList(0, place + 1), access, known);
            }
        }
    }
}
