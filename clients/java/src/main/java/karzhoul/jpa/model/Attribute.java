package karzhoul.jpa.model;

/** A value of an entity: a part of its key, its version, or a plain attribute (chapters 2.2, 2.4, 3.4). */
public interface Attribute {
    /** What a value is for its entity. */
    enum Role { KEY, VERSION, PLAIN }

    /** Its path in Java and in queries, through embeddables: {@code name}, {@code address.city}, {@code id.row}. */
    String path();

    /** Its name in the program's mapping: {@code name}, {@code address__city}. */
    String member();

    Role role();

    Codec codec();

    /** Whether null is refused at a flush. */
    boolean isRequired();

    /** Whether a new row is written with its value (chapter 11.1.9). */
    boolean isInsertable();

    /** Whether a row that is there is written with another value of it. */
    boolean isUpdatable();

    /** Its place in {@link EntityModel#attributes()} of the entity that declares it and of each below. */
    int place();

    /** What its column has room for: what is stored is held to it. */
    default Width width() {
        return Width.ANY;
    }

    /** The value in an instance, of the attribute's Java type; null also where an embeddable on the way is null. */
    Object get(Object instance);

    /**
     * The embeddable in whose field it stands; null where it stands in the instance itself, where there is none, and
     * where a getter on the way may answer a copy.
     */
    Object holder(Object instance);

    /** Sets it, and makes embeddables on the way; a null of a primitive is its zero. */
    void set(Object instance, Object value);
}
