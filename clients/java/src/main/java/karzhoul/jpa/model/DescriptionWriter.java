package karzhoul.jpa.model;

import java.util.List;
import java.util.Locale;
import java.util.SortedMap;
import java.util.TreeMap;
import java.util.stream.Collectors;

/**
 * Describes what the rows of a store mean, by the names of tables and columns: a line for each of them, its name before
 * a tab and what it is after it. A store remembers this, so that other classes aren't taken for it.
 */
final class DescriptionWriter {
    private final SortedMap<String, String> lines = new TreeMap<>();

    private DescriptionWriter() {}

    static String write(List<PlainEntity> entities) {
        DescriptionWriter writer = new DescriptionWriter();
        entities.forEach(writer::entity);
        return writer.lines.entrySet().stream().map(line -> line.getKey() + "\t" + line.getValue() + "\n")
                .collect(Collectors.joining());
    }

    private void entity(PlainEntity entity) {
        String table = entity.table();
        if (entity.javaClass() == Unique.class || entity.javaClass() == ListOrder.class) {
            put("the " + table, "number " + Names.number(table) + ", " + kept(entity.key()));
            return;
        } else if (entity.sequence() != null) {
            put("the " + table, "number " + Names.number(table) + ", from " + entity.sequence().first() + " on, "
                    + entity.sequence().size() + " at a time");
            return;
        }
        if (entity.above() == null) {
            KeyModel key = entity.key();
            put("the table " + table, "number " + Names.number(table) + ", with the key " + kept(key)
                    + (key.generation() == KeyModel.Generation.COUNTER ? ", generated" : "")
                    + key.sequence().map(it -> ", given by " + it.mappedName()).orElse("")
                    + (entity.version().isPresent() ? ", versioned" : ""));
            entity.version().ifPresent(it -> column(table, (PlainAttribute) it));
        }
        put("the discriminator " + entity.discriminator() + " of the table " + table,
                entity.above() == null ? "of the class at the top" : "below " + entity.above().discriminator());
        entity.ownAttributes().forEach(it -> column(table, it));
        entity.ownRelations().stream().filter(Relation::isOwner).forEach(it -> relation(table, it));
    }

    private void column(String table, PlainAttribute attribute) {
        put("the column " + attribute.columnName() + " of the table " + table, "number " + attribute.column() + ", "
                + kept(attribute.codec()) + (attribute.isRequired() ? ", never null" : ""));
    }

    private void relation(String table, PlainRelation relation) {
        String target = ((PlainEntity) relation.target()).table();
        if (relation.isMany()) {
            put("the join table " + relation.storedName(), "number " + relation.number() + ", from " + table + " to "
                    + target);
        } else {
            put("the column " + relation.storedName() + " of the table " + table, "number " + relation.number()
                    + ", a row of "
                    + target + (relation.isRequired() ? ", never null" : "")
                    + (relation.kind() == Relation.Kind.ONE_TO_ONE ? ", at most one to each" : ""));
        }
    }

    private static String kept(KeyModel key) {
        return key.parts().stream().map(it -> kept(it.codec())).collect(Collectors.joining(", "));
    }

    static String kept(Codec codec) {
        return codec.sort().name().toLowerCase(Locale.ROOT) + " (" + codec.meaning() + ")";
    }

    private void put(String name, String meaning) {
        lines.put(inOneLine(name), inOneLine(meaning));
    }

    static String inOneLine(String words) {
        return words.replace('\t', ' ').replace('\n', ' ').replace('\r', ' ');
    }
}
