package karzhoul.jpa.model;

import java.lang.reflect.Field;
import java.lang.reflect.Method;
import java.util.Optional;

/** Finds members by their names, whatever annotations they have: of id classes (chapter 2.4), and of any instance. */
public final class NamedMembers {
    private NamedMembers() {}

    /**
     * What an instance has in a field, else in a property, of this name; empty where it has neither, its module is
     * closed, or it is null there. A getter that raises raises here.
     */
    public static Optional<Object> value(Object instance, String name) {
        return find(instance.getClass(), name).map(member -> member.accessor().get(instance));
    }

    /** The class of what stands in a field, else in a property, of this name; empty where there is neither. */
    public static Optional<Class<?>> type(Class<?> javaClass, String name) {
        return find(javaClass, name).map(Member::javaType);
    }

    /** The field of this name, else the property; empty where there is neither, or its module is closed. */
    static Optional<Member> find(Class<?> javaClass, String name) {
        for (Class<?> at = javaClass; at != null && at != Object.class; at = at.getSuperclass()) {
            try {
                Field field = at.getDeclaredField(name);
                return Optional.of(new Member(name, at, field.getGenericType(), field, Accessor.of(field)));
            } catch (NoSuchFieldException | IllegalAccessException elsewhere) {
                Optional<Member> property = property(at, name);
                if (property.isPresent()) {
                    return property;
                }
            }
        }
        return Optional.empty();
    }

    private static Optional<Member> property(Class<?> javaClass, String name) {
        String end = Character.toUpperCase(name.charAt(0)) + name.substring(1);
        try {
            Method getter = javaClass.getDeclaredMethod("get" + end);
            Method setter = javaClass.getDeclaredMethod("set" + end, getter.getReturnType());
            return Optional.of(new Member(name, javaClass, getter.getGenericReturnType(), getter,
                    Accessor.of(getter, setter)));
        } catch (NoSuchMethodException | IllegalAccessException none) {
            return Optional.empty();
        }
    }
}
