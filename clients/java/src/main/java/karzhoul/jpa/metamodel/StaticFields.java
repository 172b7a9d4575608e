package karzhoul.jpa.metamodel;

import jakarta.persistence.PersistenceException;
import jakarta.persistence.metamodel.Attribute;
import jakarta.persistence.metamodel.StaticMetamodel;
import java.lang.reflect.Field;
import java.lang.reflect.InaccessibleObjectException;
import java.lang.reflect.Modifier;

/** Fills the static metamodel class of a managed class, where there is one (chapter 6.2.1). */
final class StaticFields {
    private StaticFields() {}

    /**
     * Sets the fields of {@code Person_} to the attributes of {@code Person}.
     *
     * @throws PersistenceException where a field's type isn't that of the attribute, or it can't be set
     */
    static void fill(ManagedOf<?> type) {
        Class<?> fields = find(type.getJavaType());
        if (fields == null || !isOf(fields, type.getJavaType())) {
            return;
        }
        for (Field field : fields.getDeclaredFields()) {
            if (Modifier.isStatic(field.getModifiers()) && !Modifier.isFinal(field.getModifiers())) {
                AttributeOf<?, ?, ?> attribute = type.declaredOrNull(field.getName());
                if (attribute != null) {
                    set(field, attribute);
                }
            }
        }
    }

    private static Class<?> find(Class<?> managed) {
        for (String name : new String[] {managed.getName() + "_", managed.getName().replace('$', '_') + "_"}) {
            try {
                return Class.forName(name, true, managed.getClassLoader());
            } catch (ClassNotFoundException | LinkageError e) {
                continue;
            }
        }
        return null;
    }

    private static boolean isOf(Class<?> fields, Class<?> managed) {
        StaticMetamodel annotation = fields.getAnnotation(StaticMetamodel.class);
        return annotation != null && annotation.value() == managed;
    }

    private static void set(Field field, Attribute<?, ?> attribute) {
        if (!field.getType().isInstance(attribute)) {
            if (Attribute.class.isAssignableFrom(field.getType())) {
                throw new PersistenceException(field + " isn't of the attribute " + attribute
                        + "; make the static metamodel again");
            }
            return;
        }
        try {
            field.setAccessible(true);
            field.set(null, attribute);
        } catch (IllegalAccessException | InaccessibleObjectException e) {
            throw new PersistenceException(field + " can't be set: open its package to karzhoul.jpa", e);
        }
    }
}
