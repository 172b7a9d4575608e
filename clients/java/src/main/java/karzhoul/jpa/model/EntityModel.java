package karzhoul.jpa.model;

import java.util.List;
import java.util.Optional;

/** An entity of a unit, as its annotations say (chapters 2 and 11). */
public interface EntityModel {
    /** Its name in queries. */
    String name();

    /** Its name in the program's mapping and in its replies; another one where Java's isn't ASCII, or is too long. */
    String mappedName();

    Class<?> javaClass();

    boolean isAbstract();

    Optional<EntityModel> superEntity();

    /** The entity at the top of its hierarchy. */
    EntityModel root();

    /** Those right below it. */
    List<EntityModel> subEntities();

    KeyModel key();

    Optional<Attribute> version();

    /**
     * All values in the order of the program's answer to {@code values}: key, version, attributes, superclass first.
     */
    List<Attribute> attributes();

    /** All relations in the order of the program's answer to {@code values}: superclass first. */
    List<Relation> relations();

    /** What reads the columns of relations: superclass first. */
    List<KeyCopy> copies();

    /** What no two of its objects have alike: superclass first. */
    List<Unique> uniques();

    Callbacks callbacks();

    /** What the collection of values has, of whose rows this is; empty of an entity of the application. */
    Optional<Elements> rowsOf();

    /**
     * What the fields of an instance have: the values of {@link #attributes()}, and then what {@link #relations()} hold;
     * null where one of these is a property, which its getter alone tells.
     */
    Object[] fieldsOf(Object instance);

    /** Whether an attribute or a relation of it stands in an embeddable. */
    boolean hasEmbeddables();

    /** A new instance by the constructor without parameters. */
    Object newInstance();

    /** Whether this is that entity or one below it. */
    default boolean isA(EntityModel other) {
        for (EntityModel at = this; at != null; at = at.superEntity().orElse(null)) {
            if (at == other) {
                return true;
            }
        }
        return false;
    }
}
