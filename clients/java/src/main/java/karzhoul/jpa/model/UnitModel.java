package karzhoul.jpa.model;

import java.util.List;
import java.util.Map;

/** The entities of a persistence unit, with the mapping that the program is given. */
public interface UnitModel {
    /** A query that is named by an annotation or an orm file. */
    record Named(String name, String text, Map<String, Object> hints) {}

    List<EntityModel> entities();

    /** Those of which the rows of collections of values are; no application sees them. */
    List<EntityModel> hidden();

    /** What no two objects of an entity have alike. */
    List<Unique> uniques();

    /** What indexes of tables say will be looked up. */
    List<Indexed> indexes();

    /**
     * The entity of a class, also of a proxy's.
     *
     * @throws IllegalArgumentException where it is none of the unit's
     */
    EntityModel of(Class<?> javaClass);

    /** The entity of a name in queries, or null. */
    EntityModel named(String name);

    /** The mapping of the program, as JSON. */
    String mapping();

    /**
     * The tables of SQL that the annotations say, with this mapping, as JSON: those that another provider looks for.
     *
     * @throws IllegalArgumentException with a line for each that can't be written
     */
    String tables();

    /**
     * What the rows of a store mean, by the names of tables and columns: a line for each, its name before a tab. Two
     * units may share a store where this is the same.
     */
    String description();

    /** How a store gets to this from other classes, as a unit's properties say. */
    Transition transition(Map<String, Object> properties);

    Map<String, Named> namedQueries();
}
