package karzhoul.jpa.model;

import java.lang.annotation.Annotation;
import java.lang.reflect.AnnotatedElement;
import java.lang.reflect.Type;
import java.util.Optional;

/**
 * A persistent field or property of a class (chapter 2.2).
 *
 * @param type its type, with the variables of a mapped superclass replaced
 * @param annotated the field or the getter
 */
record Member(String name, Class<?> declaring, Type type, AnnotatedElement annotated, Accessor accessor) {
    Class<?> javaType() {
        return Types.raw(type);
    }

    boolean has(Class<? extends Annotation> annotation) {
        return annotated.isAnnotationPresent(annotation);
    }

    <A extends Annotation> Optional<A> find(Class<A> annotation) {
        return Optional.ofNullable(annotated.getAnnotation(annotation));
    }
}
