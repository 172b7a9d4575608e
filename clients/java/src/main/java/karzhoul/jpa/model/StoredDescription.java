package karzhoul.jpa.model;

import java.util.List;
import java.util.Map;

/** The entity, in the mapping alone, whose rows are a store's description, in parts. */
public final class StoredDescription {
    /** Its name in the mapping. */
    public static final String ENTITY = "karzhoul_description";

    /** Its key: the number of a part, from 1. */
    public static final String PART = "part";

    /** Its attribute: the part's bytes of UTF-8. */
    public static final String TEXT = "text";

    /** How the lines of a description begin that tell of rows which the door makes of what the others tell. */
    public static final List<String> HIDDEN = List.of("the unique ", "the order ");

    private static final int TABLE = 1_000_000;

    private StoredDescription() {}

    /** A mapping of it alone, as JSON. */
    public static String mapping() {
        return Json.write(Json.object("revision", 1, "entities", List.of(mapped())));
    }

    static Map<String, Object> mapped() {
        return Json.object("name", ENTITY, "table", TABLE, "key", List.of(Json.object("name", PART, "type", "int")),
                "attributes", List.of(Json.object("name", TEXT, "type", "bytes", "column", 1, "required", true)));
    }
}
