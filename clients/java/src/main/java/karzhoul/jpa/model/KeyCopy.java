package karzhoul.jpa.model;

import java.util.List;

/**
 * An attribute that reads the column of a relation beside it, and writes nothing: it has the key of what the relation
 * led to as the instance was read (chapter 11.1.9: insertable and updatable false). It is no column of its own.
 */
public final class KeyCopy {
    private final Member declared;
    private final String path;
    private final Codec codec;
    private final Place where;
    private final PlainRelation relation;

    KeyCopy(Member declared, String path, Codec codec, Place where, PlainRelation relation) {
        this.declared = declared;
        this.path = path;
        this.codec = codec;
        this.where = where;
        this.relation = relation;
    }

    Member declared() {
        return declared;
    }

    Codec codec() {
        return codec;
    }

    /** Its path in Java. */
    public String path() {
        return path;
    }

    /** The relation whose column it reads. */
    public Relation relation() {
        return relation;
    }

    /** Gives an instance the key, as it is kept, of what the relation leads to; null where it leads to nothing. */
    public void fill(Object instance, List<Object> key) {
        where.set(instance, key == null ? null : codec.toAttribute(key.get(0)));
    }
}
