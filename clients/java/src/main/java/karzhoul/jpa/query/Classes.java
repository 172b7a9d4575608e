package karzhoul.jpa.query;

import java.lang.invoke.MethodType;
import karzhoul.jpa.model.EntityModel;
import karzhoul.jpa.model.UnitModel;

/** Classes that a query names. */
final class Classes {
    private Classes() {}

    /** The class of a qualified name, a nested one by dots too; null where there is none. */
    static Class<?> find(UnitModel unit, String name) {
        Class<?> found = find(name, Thread.currentThread().getContextClassLoader());
        for (EntityModel entity : unit.entities()) {
            if (found != null) {
                break;
            }
            found = find(name, entity.javaClass().getClassLoader());
        }
        return found;
    }

    private static Class<?> find(String name, ClassLoader loader) {
        String tried = name;
        while (true) {
            try {
                return Class.forName(tried, false, loader);
            } catch (ClassNotFoundException | LinkageError e) {
                int dot = tried.lastIndexOf('.');
                if (dot < 0) {
                    return null;
                }
                tried = tried.substring(0, dot) + "$" + tried.substring(dot + 1);
            }
        }
    }

    /** The class of a value of a primitive type. */
    static Class<?> boxed(Class<?> type) {
        return type.isPrimitive() ? MethodType.methodType(type).wrap().returnType() : type;
    }
}
