package karzhoul.jpa.model;

import jakarta.persistence.CascadeType;
import java.util.List;
import java.util.Optional;
import java.util.Set;

/** A relation of an entity to another one (chapters 2.9 and 2.10). */
public interface Relation {
    /** How many there are on each side. */
    enum Kind { MANY_TO_ONE, ONE_TO_ONE, ONE_TO_MANY, MANY_TO_MANY }

    /** In what an instance holds its members. */
    enum Container { ONE, COLLECTION, LIST, SET, MAP }

    /** A path of the target by which a list is sorted as it is read. */
    record Order(Attribute by, boolean isDescending) {}

    String path();

    /** Its name in the program's mapping. */
    String member();

    /** Its place in {@link EntityModel#relations()}. */
    int place();

    Kind kind();

    Container container();

    EntityModel target();

    /** The owning relation of the target, where this is the inverse side. */
    Optional<Relation> mappedBy();

    /** Whether this side is the one that is stored. */
    boolean isOwner();

    default boolean isMany() {
        return container() != Container.ONE;
    }

    /** What cascades along it; ALL as each of them. */
    Set<CascadeType> cascades();

    boolean removesOrphans();

    /**
     * Whether the program keeps it as a many-to-many, though it is a one-to-many without mappedBy: then the
     * program knows of no orphans, and the door removes them.
     */
    boolean isJoined();

    boolean isLazy();

    boolean isRequired();

    List<Order> orders();

    /** Where the order of a list of entities is kept; empty where it has none of its own. */
    default Optional<ListOrder> listOrder() {
        return Optional.empty();
    }

    /** What a collection of values has, whose rows this leads to; empty of a relation to entities. */
    default Optional<Elements> elements() {
        return Optional.empty();
    }

    /**
     * Of a map of entities, by what of its members it is kept: the path of an attribute, or empty for their key; nothing
     * of any other relation.
     */
    default Optional<String> mapKey() {
        return Optional.empty();
    }

    /** What an instance holds: the other instance, a collection, or null. */
    Object get(Object instance);

    void set(Object instance, Object value);

    /** What the application has there: the other instance, its own collection or map, or null. */
    Object held(Object instance);

    /** As that of an attribute. */
    Object holder(Object instance);

    /** Puts there what the application had there. */
    void hold(Object instance, Object held);
}
