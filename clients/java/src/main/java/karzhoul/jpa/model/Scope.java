package karzhoul.jpa.model;

import jakarta.persistence.AssociationOverride;
import jakarta.persistence.AttributeOverride;
import jakarta.persistence.Column;
import jakarta.persistence.Convert;
import java.lang.reflect.AnnotatedElement;
import java.util.Arrays;
import java.util.Optional;
import java.util.function.BiFunction;
import java.util.function.Predicate;

/**
 * The overrides that count for the members of a class or an embeddable: those of an element, and of what is around it,
 * which come first (chapters 2.5, 11.1.2, 11.1.4, 11.1.10).
 *
 * @param outer what is around it, or null
 * @param prefix how paths from here begin there
 */
record Scope(Scope outer, String prefix, AnnotatedElement element) {
    Optional<Column> column(String path) {
        return inOuter(path, Scope::column)
                .or(() -> first(Repeated.of(element, AttributeOverride.class), it -> it.name().equals(path))
                        .map(AttributeOverride::column));
    }

    Optional<AssociationOverride> association(String path) {
        return inOuter(path, Scope::association)
                .or(() -> first(Repeated.of(element, AssociationOverride.class), it -> it.name().equals(path)));
    }

    Optional<Convert> convert(String path) {
        return inOuter(path, Scope::convert)
                .or(() -> first(Repeated.of(element, Convert.class), it -> it.attributeName().equals(path)));
    }

    private <A> Optional<A> inOuter(String path, BiFunction<Scope, String, Optional<A>> find) {
        return outer == null ? Optional.empty() : find.apply(outer, prefix + path);
    }

    private static <A> Optional<A> first(A[] annotations, Predicate<A> wanted) {
        return Arrays.stream(annotations).filter(wanted).findFirst();
    }
}
