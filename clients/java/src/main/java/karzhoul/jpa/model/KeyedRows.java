package karzhoul.jpa.model;

import java.util.List;

/** An entity of the mapping that no application sees, whose rows the door finds by their keys: each has one text. */
public interface KeyedRows {
    /** Its name in the mapping. */
    String mappedName();

    /** The names in the mapping of its key's parts. */
    List<String> keyMembers();

    /** The name in the mapping of the text. */
    String content();
}
