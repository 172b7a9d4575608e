package karzhoul.jpa.processor;

import java.util.List;
import java.util.Set;
import javax.lang.model.element.AnnotationMirror;
import javax.lang.model.element.Element;

/** The standard's annotations by their names: the processor needs no library. */
final class Annotations {
    static final String PACKAGE = "jakarta.persistence.";
    static final String ENTITY = "jakarta.persistence.Entity";
    static final String MAPPED_SUPERCLASS = "jakarta.persistence.MappedSuperclass";
    static final String EMBEDDABLE = "jakarta.persistence.Embeddable";
    /** Those by whose place a class says whether its fields or its getters are persistent (chapter 2.3.1). */
    static final Set<String> KEYS = Set.of("Id", "EmbeddedId");
    static final Set<String> MAPPING = Set.of("Id", "EmbeddedId", "Version", "Basic", "Column", "Convert", "Embedded",
            "ElementCollection", "Enumerated", "GeneratedValue", "JoinColumn", "JoinTable", "Lob", "ManyToMany",
            "ManyToOne", "MapsId", "OneToMany", "OneToOne", "Temporal");
    /** Those of what holds many values. */
    static final List<String> MANY = List.of("OneToMany", "ManyToMany", "ElementCollection");

    private Annotations() {}

    /** The annotation of a simple name of the standard's, or null. */
    static AnnotationMirror find(Element element, String name) {
        for (AnnotationMirror annotation : element.getAnnotationMirrors()) {
            if (annotation.getAnnotationType().toString().equals(PACKAGE + name)) {
                return annotation;
            }
        }
        return null;
    }

    static boolean has(Element element, String name) {
        return find(element, name) != null;
    }

    static boolean hasAny(Element element, Set<String> names) {
        return names.stream().anyMatch(name -> has(element, name));
    }

    /** What an annotation says of this name, or null where it says nothing. */
    static Object value(AnnotationMirror annotation, String name) {
        return annotation.getElementValues().entrySet().stream()
                .filter(entry -> entry.getKey().getSimpleName().contentEquals(name))
                .map(entry -> entry.getValue().getValue()).findFirst().orElse(null);
    }

    /** Whether it is an entity, a mapped superclass or an embeddable. */
    static boolean isManaged(Element element) {
        return has(element, "Entity") || has(element, "MappedSuperclass") || has(element, "Embeddable");
    }
}
