package karzhoul.jpa.model;

import jakarta.persistence.Access;
import jakarta.persistence.AccessType;
import jakarta.persistence.Basic;
import jakarta.persistence.Column;
import jakarta.persistence.Convert;
import jakarta.persistence.ElementCollection;
import jakarta.persistence.Embedded;
import jakarta.persistence.EmbeddedId;
import jakarta.persistence.Enumerated;
import jakarta.persistence.GeneratedValue;
import jakarta.persistence.Id;
import jakarta.persistence.JoinColumn;
import jakarta.persistence.JoinTable;
import jakarta.persistence.Lob;
import jakarta.persistence.ManyToMany;
import jakarta.persistence.ManyToOne;
import jakarta.persistence.MapsId;
import jakarta.persistence.OneToMany;
import jakarta.persistence.OneToOne;
import jakarta.persistence.Temporal;
import jakarta.persistence.Transient;
import jakarta.persistence.Version;
import java.lang.annotation.Annotation;
import java.lang.reflect.AnnotatedElement;
import java.lang.reflect.Field;
import java.lang.reflect.Method;
import java.lang.reflect.Modifier;
import java.lang.reflect.Type;
import java.lang.reflect.TypeVariable;
import java.util.ArrayList;
import java.util.Arrays;
import java.util.List;
import java.util.Map;
import java.util.Optional;

/** Finds the persistent fields and properties of classes (chapter 2.3). */
final class Members {
    private static final List<Class<? extends Annotation>> MAPPING = List.of(
            Id.class, EmbeddedId.class, Version.class, Basic.class, Column.class, Convert.class, Embedded.class,
            ElementCollection.class, Enumerated.class, GeneratedValue.class, JoinColumn.class, JoinTable.class,
            Lob.class, ManyToMany.class, ManyToOne.class, MapsId.class, OneToMany.class, OneToOne.class,
            Temporal.class);
    private static final String OPEN = "Open the package %s to karzhoul.jpa in its module-info, as `opens %1$s;`";

    private final Faults faults;

    Members(Faults faults) {
        this.faults = faults;
    }

    /** By what the classes of a hierarchy that say nothing themselves are accessed (chapter 2.3.1). */
    static AccessType accessOf(Class<?> entity) {
        AccessType byKey = placed(entity, List.of(Id.class, EmbeddedId.class));
        AccessType byAny = byKey != null ? byKey : placed(entity, MAPPING);
        return byAny != null ? byAny : AccessType.FIELD;
    }

    private static AccessType placed(Class<?> entity, List<Class<? extends Annotation>> annotations) {
        for (Class<?> at = entity; at != null && at != Object.class; at = at.getSuperclass()) {
            if (at.isAnnotationPresent(Access.class)) {
                continue;
            }
            if (Arrays.stream(at.getDeclaredFields()).anyMatch(field -> hasAny(field, annotations))) {
                return AccessType.FIELD;
            }
            if (Arrays.stream(at.getDeclaredMethods()).anyMatch(method -> hasAny(method, annotations))) {
                return AccessType.PROPERTY;
            }
        }
        return null;
    }

    private static boolean hasAny(AnnotatedElement element, List<Class<? extends Annotation>> annotations) {
        return annotations.stream().anyMatch(element::isAnnotationPresent);
    }

    /** By what this class is accessed, in a hierarchy of this access. */
    static AccessType accessOf(Class<?> javaClass, AccessType hierarchy) {
        Access own = javaClass.getAnnotation(Access.class);
        return own != null ? own.value() : hierarchy;
    }

    /** The persistent members that a class declares, in the order in which it does. */
    List<Member> of(Class<?> javaClass, AccessType hierarchy, Map<TypeVariable<?>, Type> known) {
        AccessType access = accessOf(javaClass, hierarchy);
        List<Member> members = new ArrayList<>();
        for (Field field : javaClass.getDeclaredFields()) {
            if (isPersistent(field, access)) {
                read(field, known).ifPresent(members::add);
            }
        }
        for (Method getter : javaClass.getDeclaredMethods()) {
            if (isPersistent(getter, access)) {
                read(getter, known).ifPresent(members::add);
            }
        }
        tellTwice(javaClass, members);
        return members;
    }

    private boolean isPersistent(Field field, AccessType access) {
        if (field.isSynthetic() || Modifier.isStatic(field.getModifiers())) {
            return false;
        }
        Access own = field.getAnnotation(Access.class);
        boolean isAccessed = own == null ? access == AccessType.FIELD : own.value() == AccessType.FIELD;
        if (!isAccessed && hasAny(field, MAPPING)) {
            tellStray(field.getDeclaringClass(), field.getName(), "getter", "@Access(FIELD)");
        }
        boolean isKept = !Modifier.isTransient(field.getModifiers()) && !field.isAnnotationPresent(Transient.class);
        return isAccessed && isKept;
    }

    private boolean isPersistent(Method method, AccessType access) {
        if (method.isSynthetic() || Modifier.isStatic(method.getModifiers())) {
            return false;
        }
        Access own = method.getAnnotation(Access.class);
        boolean isAccessed = own == null ? access == AccessType.PROPERTY : own.value() == AccessType.PROPERTY;
        if (!isAccessed && hasAny(method, MAPPING)) {
            tellStray(method.getDeclaringClass(), method.getName(), "field", "@Access(PROPERTY)");
        }
        if (!isAccessed || method.isAnnotationPresent(Transient.class)) {
            return false;
        }
        boolean isGetter = method.getParameterCount() == 0 && propertyOf(method).isPresent();
        if (!isGetter && hasAny(method, MAPPING)) {
            faults.add(method.getDeclaringClass(), method.getName(), "it is annotated, and no getter",
                    "Annotate the method get.. without parameters");
        }
        return isGetter;
    }

    private void tellStray(Class<?> javaClass, String name, String other, String access) {
        faults.add(javaClass, name, "its annotations aren't looked at, since the class is accessed by its "
                + (other.equals("field") ? "fields" : "properties"),
                "Move them to the " + other + ", or add " + access);
    }

    private Optional<Member> read(Field field, Map<TypeVariable<?>, Type> known) {
        Class<?> javaClass = field.getDeclaringClass();
        if (Modifier.isFinal(field.getModifiers())) {
            faults.add(javaClass, field.getName(), "a persistent field can't be final",
                    "Leave out final, or add @Transient");
            return Optional.empty();
        }
        try {
            Type type = Types.resolve(field.getGenericType(), known);
            return Optional.of(new Member(field.getName(), javaClass, type, field, Accessor.of(field)));
        } catch (IllegalAccessException closed) {
            tellClosed(javaClass);
            return Optional.empty();
        }
    }

    private Optional<Member> read(Method getter, Map<TypeVariable<?>, Type> known) {
        Class<?> javaClass = getter.getDeclaringClass();
        String name = propertyOf(getter).orElseThrow();
        Optional<Method> setter = setterOf(getter);
        if (setter.isEmpty()) {
            if (hasAny(getter, MAPPING)) {
                faults.add(javaClass, getter.getName(), "the property " + name + " has no setter", "Add one");
            }
            return Optional.empty();
        }
        try {
            Type type = Types.resolve(getter.getGenericReturnType(), known);
            return Optional.of(new Member(name, javaClass, type, getter, Accessor.of(getter, setter.get())));
        } catch (IllegalAccessException closed) {
            tellClosed(javaClass);
            return Optional.empty();
        }
    }

    static String openWords(Class<?> javaClass) {
        return OPEN.formatted(javaClass.getPackageName());
    }

    private void tellClosed(Class<?> javaClass) {
        faults.add(javaClass, "its module doesn't open its package", openWords(javaClass));
    }

    /** The setter of a getter, in its class or in one above. */
    private static Optional<Method> setterOf(Method getter) {
        String name = "set" + getter.getName().substring(getter.getName().startsWith("is") ? 2 : 3);
        for (Class<?> at = getter.getDeclaringClass(); at != null; at = at.getSuperclass()) {
            for (Method method : at.getDeclaredMethods()) {
                if (method.getName().equals(name) && method.getParameterCount() == 1
                        && method.getParameterTypes()[0] == getter.getReturnType() && !method.isSynthetic()) {
                    return Optional.of(method);
                }
            }
        }
        return Optional.empty();
    }

    /** The name of the property of which this method would be the getter. */
    private static Optional<String> propertyOf(Method method) {
        String name = method.getName();
        Class<?> type = method.getReturnType();
        int cut = name.startsWith("get") && type != void.class ? 3
                : name.startsWith("is") && (type == boolean.class || type == Boolean.class) ? 2 : 0;
        if (cut == 0 || name.length() == cut) {
            return Optional.empty();
        }
        String rest = name.substring(cut);
        boolean isShout = rest.length() > 1 && Character.isUpperCase(rest.charAt(0))
                && Character.isUpperCase(rest.charAt(1));
        return Optional.of(isShout ? rest : Character.toLowerCase(rest.charAt(0)) + rest.substring(1));
    }

    private void tellTwice(Class<?> javaClass, List<Member> members) {
        for (int i = 0; i < members.size(); i++) {
            for (Member earlier : members.subList(0, i)) {
                if (earlier.name().equals(members.get(i).name())) {
                    faults.add(javaClass, earlier.name(), "it is persistent as a field and as a property",
                            "Add @Transient to one of them");
                }
            }
        }
    }
}
