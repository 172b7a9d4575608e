package karzhoul.jpa.model;

import jakarta.persistence.Embeddable;
import jakarta.persistence.MappedSuperclass;
import jakarta.persistence.NamedNativeQuery;
import jakarta.persistence.NamedStoredProcedureQuery;
import jakarta.persistence.SqlResultSetMapping;
import java.util.Arrays;

/** What classes of a unit must be, and what annotations on them can't be kept. */
final class Classes {
    private Classes() {}

    /** How many classes are above a class. */
    static int depth(Class<?> javaClass) {
        int depth = 0;
        for (Class<?> at = javaClass; at != null; at = at.getSuperclass()) {
            depth++;
        }
        return depth;
    }

    /** Whether this can be an entity at all. */
    static boolean isClass(Class<?> javaClass) {
        return !javaClass.isInterface() && !javaClass.isEnum() && !javaClass.isRecord();
    }

    static void checkEntity(Faults faults, Class<?> javaClass) {
        if (!isClass(javaClass)) {
            faults.add(javaClass, "an interface, an enum or a record is no entity", "Make it a class");
        }
        if (javaClass.isAnnotationPresent(Embeddable.class) || javaClass.isAnnotationPresent(MappedSuperclass.class)) {
            faults.add(javaClass, "it is an entity, and an embeddable or a mapped superclass too", "Leave one of them");
        }
        if (Repeated.of(javaClass, NamedNativeQuery.class).length > 0
                || Repeated.of(javaClass, NamedStoredProcedureQuery.class).length > 0
                || Repeated.of(javaClass, SqlResultSetMapping.class).length > 0) {
            faults.add(javaClass, "there is no SQL", "Write the query in JPQL, as @NamedQuery");
        }
    }

    /** Tells a listed class that is nothing of a unit. */
    static void tellUnknown(Faults faults, Class<?> javaClass) {
        boolean isOld = Arrays.stream(javaClass.getAnnotations())
                .anyMatch(it -> it.annotationType().getName().startsWith("javax.persistence."));
        faults.add(javaClass, isOld ? "its annotations are those of javax.persistence"
                : "it has none of @Entity, @Embeddable, @MappedSuperclass and @Converter",
                isOld ? "Import jakarta.persistence" : "Annotate it, or leave it out of the unit");
    }
}
