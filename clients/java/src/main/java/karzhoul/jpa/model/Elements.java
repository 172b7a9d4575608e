package karzhoul.jpa.model;

import java.util.List;
import java.util.Optional;

/** What a collection of values holds, whose rows the relation leads to (chapters 2.6 and 2.7). */
public interface Elements {
    /** In what an instance holds them. */
    Relation.Container container();

    /** The class of an element, or of a value of a map. */
    Class<?> javaClass();

    /** The attribute of a row that is the element itself; empty where elements are embeddables. */
    Optional<Attribute> basic();

    /** The attributes of a row that an element is made of. */
    List<Attribute> attributes();

    /** The attribute of a row that is the key of a map. */
    Optional<Attribute> key();

    /** The attribute of a row that is the place in an ordered list, from 0. */
    Optional<Attribute> index();

    /** The element of a row. */
    Object element(Object row);

    /**
     * Takes these rows as those of which an instance's elements are made, as far as they are the same; the others get
     * new ones.
     */
    void adopt(Object instance, List<?> rows);
}
