package karzhoul.jpa.model;

import java.lang.annotation.Annotation;
import java.lang.annotation.Repeatable;
import java.lang.reflect.AnnotatedElement;
import java.lang.reflect.Array;
import java.lang.reflect.Method;
import java.util.ArrayList;
import java.util.List;

/** Annotations that may stand several times at an element, or in one that holds them (chapter 11.1.2 and others). */
public final class Repeated {
    private Repeated() {}

    /**
     * Those of a kind at an element, in their order. Before version 2.2 of the standard they weren't repeatable in Java's
     * sense, so there what holds them is known by what it has.
     */
    public static <A extends Annotation> A[] of(AnnotatedElement element, Class<A> kind) {
        return kind.isAnnotationPresent(Repeatable.class) ? element.getAnnotationsByType(kind) : held(element, kind);
    }

    @SuppressWarnings("unchecked")
    private static <A extends Annotation> A[] held(AnnotatedElement element, Class<A> kind) {
        List<A> all = new ArrayList<>();
        for (Annotation annotation : element.getAnnotations()) {
            if (kind.isInstance(annotation)) {
                all.add(kind.cast(annotation));
            } else if (annotation.annotationType().getPackage() == kind.getPackage()) {
                all.addAll(values(annotation, kind));
            }
        }
        return all.toArray((A[]) Array.newInstance(kind, 0));
    }

    @SuppressWarnings("unchecked")
    private static <A extends Annotation> List<A> values(Annotation holder, Class<A> kind) {
        try {
            Method value = holder.annotationType().getMethod("value");
            return value.getReturnType() == kind.arrayType() ? List.of((A[]) value.invoke(holder)) : List.of();
        } catch (NoSuchMethodException none) {
            return List.of();
        } catch (ReflectiveOperationException odd) {
            throw new IllegalStateException(holder + " can't be read", odd);
        }
    }
}
