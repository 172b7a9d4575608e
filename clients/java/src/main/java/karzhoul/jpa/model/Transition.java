package karzhoul.jpa.model;

import java.util.ArrayList;
import java.util.HashSet;
import java.util.LinkedHashMap;
import java.util.List;
import java.util.Map;
import java.util.Optional;
import java.util.Set;
import java.util.SortedMap;
import java.util.regex.Matcher;
import java.util.regex.Pattern;

/**
 * How a store gets from its classes of before to those of a unit, as the properties {@code karzhoul.defaults},
 * {@code karzhoul.dropped} and {@code karzhoul.moved} say: a mapping that has the columns of both, and statements.
 */
public final class Transition {
    /** A statement of the program's, whose only parameter, {@code to}, is this value; null where it has none. */
    public record Statement(String text, Object to) {}

    private static final Pattern COLUMN = Pattern.compile("the column (.*) of the table (.*)");
    private static final Pattern KEPT = Pattern.compile("number (\\d+), ((int|text|bytes) \\(.*?\\))(, never null)?");

    private final List<PlainEntity> entities;
    private final Map<String, String> defaults;
    private final Set<String> dropped;
    private final Map<String, String> moved;
    private final Map<PlainEntity, List<Map<String, Object>>> more = new LinkedHashMap<>();
    private final Set<PlainAttribute> nullable = new HashSet<>();
    private final List<Statement> statements = new ArrayList<>();

    Transition(List<PlainEntity> entities, Map<String, Object> properties) {
        this.entities = entities;
        defaults = pairs(properties.get("karzhoul.defaults"));
        dropped = pairs(properties.get("karzhoul.dropped")).keySet();
        moved = pairs(properties.get("karzhoul.moved"));
    }

    private static Map<String, String> pairs(Object property) {
        Map<String, String> pairs = new LinkedHashMap<>();
        for (String pair : property == null ? new String[0] : property.toString().split(";")) {
            String[] halves = pair.split("=", 2);
            pairs.put(halves[0].trim(), halves.length == 2 ? halves[1].trim() : "");
        }
        return pairs;
    }

    /**
     * Plans it.
     *
     * @param lost the lines of the store's description that the classes have not
     * @param needed the lines of columns that are new in rows that are there, and never null
     * @return whether the properties say what is to be done with all of them
     */
    public boolean plan(SortedMap<String, String> lost, SortedMap<String, String> needed) {
        Set<String> given = new HashSet<>();
        for (Map.Entry<String, String> line : lost.entrySet()) {
            if (!goes(line.getKey(), line.getValue(), given)) {
                return false;
            }
        }
        for (PlainEntity entity : entities) {
            for (PlainAttribute attribute : entity.ownAttributes()) {
                String value = defaults.get(entity.name() + "." + attribute.path());
                String line = line(entity, attribute);
                if (needed.containsKey(line) && value != null && given.add(line)) {
                    nullable.add(attribute);
                    statements.add(new Statement("UPDATE " + entity.mappedName() + " e SET e." + attribute.member()
                            + " = :to", column(attribute, value)));
                }
            }
        }
        return given.containsAll(needed.keySet());
    }

    private static Object column(PlainAttribute attribute, String text) {
        Object value = WrittenValue.of(attribute.codec().javaType(), text);
        Object column = attribute.codec().toColumn(value);
        attribute.width().check(value, column);
        return column;
    }

    private static String line(PlainEntity entity, PlainAttribute attribute) {
        return "the column " + attribute.columnName() + " of the table " + entity.table();
    }

    private boolean goes(String name, String meaning, Set<String> given) {
        Matcher column = COLUMN.matcher(name);
        Matcher kept = KEPT.matcher(meaning);
        if (!column.matches() || !kept.matches()) {
            return false;
        }
        String path = column.group(2) + "." + column.group(1);
        Optional<PlainEntity> entity = entity(column.group(2), column.group(1));
        if (entity.isEmpty() || !dropped.contains(path) && !moved.containsKey(path)) {
            return false;
        }
        String old = "before_" + kept.group(1);
        more.computeIfAbsent(entity.get(), none -> new ArrayList<>()).add(Json.object("name", old, "type", kept.group(3),
                "column", Integer.parseInt(kept.group(1))));
        String update = "UPDATE " + entity.get().mappedName() + " e SET e.";
        if (moved.containsKey(path)) {
            Optional<PlainAttribute> to = entity.get().ownAttributes().stream()
                    .filter(it -> it.columnName().equalsIgnoreCase(moved.get(path))).findFirst();
            if (to.isEmpty() || !DescriptionWriter.kept(to.get().codec()).equals(kept.group(2))) {
                return false;
            }
            nullable.add(to.get());
            given.add(line(entity.get(), to.get()));
            statements.add(new Statement(update + to.get().member() + " = e." + old, null));
        }
        statements.add(new Statement(update + old + " = NULL", null));
        return true;
    }

    /** The class whose column it was: one below the top by its name, else that at the top. */
    private Optional<PlainEntity> entity(String table, String column) {
        List<PlainEntity> all = entities.stream().filter(it -> it.table().equals(table)).toList();
        return all.stream().filter(it -> it.above() != null && column.startsWith(it.name() + ".")).findFirst()
                .or(() -> all.stream().filter(it -> it.above() == null).findFirst());
    }

    /** The mapping that has the columns of before and of now. */
    public String mapping() {
        return MappingWriter.write(entities, more, nullable);
    }

    /** What is done in it, in this order. */
    public List<Statement> statements() {
        return statements;
    }
}
