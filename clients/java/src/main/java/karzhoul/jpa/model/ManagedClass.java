package karzhoul.jpa.model;

import java.util.List;
import java.util.Optional;

/**
 * A class whose members are persistent, as the metamodel tells it (chapter 5).
 *
 * @param name of an entity, its name in queries; else that of the class
 * @param above the nearest managed class above it
 * @param idClass the class of its keys, where it has an IdClass
 * @param declared the members that it declares itself
 * @param all these and those of the classes above, with the types that they have here
 */
public record ManagedClass(Class<?> javaClass, Sort sort, String name, Optional<Class<?>> above,
        Optional<Class<?>> idClass, List<ManagedMember> declared, List<ManagedMember> all) {
    /** What a managed class is. */
    public enum Sort { ENTITY, MAPPED_SUPERCLASS, EMBEDDABLE }
}
