package karzhoul.jpa.model;

import java.util.List;
import java.util.Optional;

/** The key of an entity (chapter 2.4): one attribute, an embedded id, or an id class. */
public interface KeyModel {
    /**
     * Who gives the key of a new object: the application, the program by the hierarchy's own counter, or the door by a
     * UUID or out of a {@link #sequence()}.
     */
    enum Generation { ASSIGNED, COUNTER, UUID, SEQUENCE }

    /** A key, or a part of it, that is the key of another entity (chapter 2.4.1: derived identities). */
    record Derived(Relation from, List<Attribute> parts) {}

    /** Its parts, which are the first of {@link EntityModel#attributes()}. */
    List<Attribute> parts();

    Generation generation();

    /** Out of what keys are given, where that is a sequence. */
    Optional<Sequence> sequence();

    /** The class of what {@code find} takes. */
    Class<?> javaClass();

    /** The key of an instance, of {@link #javaClass()}; null where it has none. */
    Object of(Object instance);

    /** Sets the key of an instance. */
    void assign(Object instance, Object key);

    /**
     * The parts as they are kept.
     *
     * @throws IllegalArgumentException in words, where the key is null, of another class, or has a part that is
     *     null or can't be kept
     */
    List<Object> columnsOf(Object key);

    /** The key of which these are the parts. */
    Object fromColumns(List<Object> columns);

    /** The relations whose target's key is part of this one. */
    List<Derived> derived();

    /** The name of the embedded attribute in Java, where the key is one. */
    Optional<String> embedded();
}
