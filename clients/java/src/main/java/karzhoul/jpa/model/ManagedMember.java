package karzhoul.jpa.model;

import jakarta.persistence.metamodel.Attribute.PersistentAttributeType;
import java.lang.reflect.Member;

/**
 * A persistent field or property of a managed class, as the metamodel tells it (chapter 5).
 *
 * @param declaring the class that declares it
 * @param javaType its type, with the variables of a mapped superclass replaced as far as they are known
 * @param javaMember the field or the getter
 * @param container in what it holds its values
 * @param element the class of what a collection holds; else the boxed type
 * @param key the class of a map's keys; else null
 */
public record ManagedMember(String name, Class<?> declaring, Class<?> javaType, Member javaMember,
        PersistentAttributeType kind, Relation.Container container, Class<?> element, Class<?> key, boolean isId, boolean isVersion,
        boolean isOptional) {}
