package karzhoul.jpa.model;

import jakarta.persistence.AttributeOverride;
import jakarta.persistence.Column;
import jakarta.persistence.Convert;
import jakarta.persistence.ElementCollection;
import jakarta.persistence.Embedded;
import jakarta.persistence.EmbeddedId;
import jakarta.persistence.Enumerated;
import jakarta.persistence.GeneratedValue;
import jakarta.persistence.Id;
import jakarta.persistence.JoinColumn;
import jakarta.persistence.ManyToMany;
import jakarta.persistence.ManyToOne;
import jakarta.persistence.OneToMany;
import jakarta.persistence.OneToOne;
import jakarta.persistence.PrimaryKeyJoinColumn;
import jakarta.persistence.Temporal;
import jakarta.persistence.Version;
import java.lang.annotation.Annotation;
import java.lang.reflect.AnnotatedElement;
import java.util.Calendar;
import java.util.Date;
import java.util.LinkedHashMap;
import java.util.List;
import java.util.Map;
import java.util.Set;

/** Tells annotations that can't be kept, or that don't go together: none is passed over. */
final class MemberCheck {
    /** A member is one of these, or a plain value. */
    private static final List<Class<? extends Annotation>> SORTS = List.of(
            EmbeddedId.class, Version.class, ManyToOne.class, OneToOne.class, OneToMany.class, ManyToMany.class,
            ElementCollection.class, Embedded.class);
    private final Faults faults;

    MemberCheck(Faults faults) {
        this.faults = faults;
    }

    void check(Member member) {
        List<String> sorts = SORTS.stream().filter(member::has).map(it -> "@" + it.getSimpleName()).toList();
        if (sorts.size() > 1) {
            faults.add(member, "it has " + String.join(" and ", sorts), "Leave one of them");
        }
        if (member.has(Enumerated.class) && !member.javaType().isEnum() && sorts.isEmpty()) {
            faults.add(member, "it has @Enumerated, and is no enum", "Leave @Enumerated out");
        }
        boolean isDated = Date.class.isAssignableFrom(member.javaType())
                || Calendar.class.isAssignableFrom(member.javaType());
        if (member.has(Temporal.class) && !isDated && sorts.isEmpty()) {
            faults.add(member, "it has @Temporal, and is no Date or Calendar", "Leave @Temporal out");
        }
        if (member.has(GeneratedValue.class) && !member.has(Id.class) && !member.has(EmbeddedId.class)) {
            faults.add(member, "it is generated, and is no key",
                    "Leave @GeneratedValue out, and give it in @PrePersist");
        }
        if (member.has(PrimaryKeyJoinColumn.class)) {
            faults.add(member, "@PrimaryKeyJoinColumn isn't kept", "Use @MapsId, with the relation set");
        }
        checkJoinColumns(member);
    }

    private void checkJoinColumns(Member member) {
        for (JoinColumn column : Repeated.of(member.annotated(), JoinColumn.class)) {
            if (!column.insertable() || !column.updatable()) {
                faults.add(member, "a relation whose column isn't written isn't kept",
                        "Let the relation be written, and the attribute beside it be insertable = false and"
                                + " updatable = false; or add @Transient");
            }
        }
    }

    void check(Member member, Column column) {
        if (!column.insertable() && column.updatable()) {
            faults.add(member, "a column that is updated, and isn't inserted, isn't kept",
                    "Write updatable = false too, leave insertable out, or add @Transient");
        }
    }

    /** Tells what an embedded member overrides or converts, and doesn't have. */
    void checkOverrides(Member member, Set<String> paths) {
        unknown(member.annotated(), paths).forEach((annotation, name) -> faults.add(member, annotation + " names \"" + name
                + "\", which " + member.javaType().getName() + " doesn't have", "Name one of its attributes"));
    }

    /** Tells what a class overrides or converts, and doesn't have of itself or of a mapped superclass. */
    void checkOverrides(Class<?> javaClass, Set<String> paths) {
        unknown(javaClass, paths).forEach((annotation, name) -> faults.add(javaClass, annotation + " names \"" + name
                + "\", which it doesn't have", "Name one of its attributes, or of those of its mapped superclasses"));
    }

    /** By annotation the first attribute that it names, and that isn't there. */
    private static Map<String, String> unknown(AnnotatedElement element, Set<String> paths) {
        Map<String, String> unknown = new LinkedHashMap<>();
        for (AttributeOverride override : Repeated.of(element, AttributeOverride.class)) {
            if (!paths.contains(override.name())) {
                unknown.putIfAbsent("@AttributeOverride", override.name());
            }
        }
        for (Convert convert : Repeated.of(element, Convert.class)) {
            if (!paths.contains(convert.attributeName())) {
                unknown.putIfAbsent("@Convert", convert.attributeName());
            }
        }
        return unknown;
    }
}
