package karzhoul.jpa.model;

import java.util.ArrayList;
import java.util.HexFormat;
import java.util.List;
import java.util.stream.Collectors;
import java.util.stream.Stream;

/**
 * Values that no two objects of an entity have alike (chapters 11.1.9 and 11.1.54). An entity of the mapping, which no
 * application sees, has a row for each of them that an object has, and they are its key: so two transactions that take
 * one value meet at the commit.
 */
public final class Unique implements KeyedRows {
    /** The attribute of a row that says who has the value. */
    public static final String OWNER = "owner";

    /** The most columns that a key has. */
    static final int MOST_COLUMNS = 4;

    /** An attribute, or else a relation to one, whose key counts; the other one is null. */
    public record Part(Attribute attribute, Relation relation) {
        /** Its path in Java. */
        public String path() {
            return attribute != null ? attribute.path() : relation.path();
        }

        /** Its path in words: a value of a collection is its element. */
        private String words() {
            return path().replace("#", "");
        }

        /** The attributes that are its columns: itself, or those of the key to which it leads. */
        public List<Attribute> columns() {
            return attribute != null ? List.of(attribute) : relation.target().key().parts();
        }

        private Stream<String> paths(String variable) {
            return attribute != null ? Stream.of(variable + "." + attribute.member())
                    : columns().stream().map(it -> variable + "." + relation.member() + "." + it.member());
        }
    }

    private final EntityModel entity;
    private final PlainEntity keys;
    private final List<Part> parts;

    Unique(EntityModel entity, PlainEntity keys, List<Part> parts) {
        this.entity = entity;
        this.keys = keys;
        this.parts = List.copyOf(parts);
    }

    /** Whose objects differ in it. */
    public EntityModel entity() {
        return entity;
    }

    public List<Part> parts() {
        return parts;
    }

    @Override
    public String mappedName() {
        return keys.mappedName();
    }

    @Override
    public List<String> keyMembers() {
        return keys.key().parts().stream().map(Attribute::member).toList();
    }

    @Override
    public String content() {
        return OWNER;
    }

    /** The columns, as a statement of the program's names them. */
    public List<String> paths(String variable) {
        return parts.stream().flatMap(part -> part.paths(variable)).toList();
    }

    /** An object's key in one text, another one for each key: what {@link #OWNER} is. */
    public static String owner(List<?> key) {
        return key.size() == 1 ? part(key.get(0), false)
                : key.stream().map(part -> part(part, true)).collect(Collectors.joining(", ", "[", "]"));
    }

    private static String part(Object part, boolean isQuoted) {
        if (part instanceof byte[] bytes) {
            return HexFormat.of().formatHex(bytes);
        }
        return isQuoted && part instanceof String text
                ? '"' + text.replace("\\", "\\\\").replace("\"", "\\\"") + '"' : part.toString();
    }

    /** An object in words, by its key in one text. */
    public String words(String owner) {
        return entity.name() + " " + owner;
    }

    /** The name of its line in a store's description. */
    public String description() {
        return DescriptionWriter.inOneLine("the " + keys.table());
    }

    PlainEntity keys() {
        return keys;
    }

    /** Says in words that one object can't have these values, since another one has them. */
    public String refusal(String taker, List<Object> columns, String other) {
        List<String> values = new ArrayList<>();
        int place = 0;
        for (Part part : parts) {
            List<String> shown = new ArrayList<>();
            for (Attribute column : part.columns()) {
                shown.add(String.valueOf(column.codec().toAttribute(columns.get(place++))));
            }
            String value = shown.size() == 1 ? shown.get(0) : shown.toString();
            values.add(part.words() + " " + value);
        }
        return "Persistence(unique), " + taker + ": it would have the " + String.join(" and the ", values) + " of "
                + other + (parts.size() == 1 ? ", and that is unique" : ", and they are unique together");
    }

    @Override
    public String toString() {
        return entity.name() + parts.stream().map(Part::path).collect(Collectors.joining(", ", " (", ")"));
    }
}
