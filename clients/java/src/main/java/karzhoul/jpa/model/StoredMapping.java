package karzhoul.jpa.model;

import java.util.ArrayList;
import java.util.HashMap;
import java.util.LinkedHashMap;
import java.util.List;
import java.util.Map;
import java.util.Optional;
import java.util.SortedMap;
import java.util.TreeMap;
import java.util.regex.Matcher;
import java.util.regex.Pattern;

/**
 * The mapping by which the program reads a store, made of what the store says of itself. Its names are those of tables
 * and columns: names of Java aren't kept. Columns of classes below stand at the top, and may be null there.
 */
public final class StoredMapping {
    private static final Pattern TABLE = Pattern.compile("the table (.*)");
    private static final Pattern DISCRIMINATOR = Pattern.compile("the discriminator (.*) of the table (.*)");
    private static final Pattern COLUMN = Pattern.compile("the column (.*) of the table (.*)");
    private static final Pattern JOIN_TABLE = Pattern.compile("the join table (.*)");
    private static final Pattern UNIQUE = Pattern.compile("the (unique .*)");
    private static final Pattern ORDER = Pattern.compile("the (order .*)");
    private static final Pattern GENERATOR = Pattern.compile("the (generator .*)");
    private static final Pattern NUMBER = Pattern.compile("number (\\d+), (.*)");
    private static final Pattern SORT = Pattern.compile("(?:^|, )(int|text|bytes) \\(");
    private static final Pattern LINK = Pattern.compile("a row of (.*?)(, never null)?(, at most one to each)?");
    private static final Pattern PAIRS = Pattern.compile("from (.*) to (.*)");
    private static final String NEVER_NULL = ", never null";
    private static final String AT_THE_TOP = "of the class at the top";
    private static final String BELOW = "below ";

    /** A table, while it is read. */
    private static final class Table {
        private final Names names = new Names();
        private final Map<String, Object> top;
        private final Map<String, Map<String, Object>> classes = new LinkedHashMap<>();
        private final List<Object> attributes = new ArrayList<>();
        private final List<Object> relations = new ArrayList<>();

        Table(Map<String, Object> top) {
            this.top = top;
        }
    }

    private final Names names = new Names();
    private final SortedMap<String, String> lines;
    private final Map<String, Table> tables = new LinkedHashMap<>();
    private final List<Object> others = new ArrayList<>();

    private StoredMapping(SortedMap<String, String> lines) {
        this.lines = lines;
        names.give(StoredDescription.ENTITY);
    }

    /**
     * The mapping of a store, as JSON.
     *
     * @param description what the store says of itself
     * @throws IllegalArgumentException where a line of it isn't known
     */
    public static String ofStore(String description) {
        List<Object> entities = read(description);
        entities.add(StoredDescription.mapped());
        return Json.write(Json.object("revision", 1, "entities", entities));
    }

    /** As {@link #ofStore}, of what classes say: of a store that doesn't say it yet. */
    public static String ofClasses(String description) {
        return Json.write(Json.object("revision", 1, "entities", read(description)));
    }

    private static List<Object> read(String description) {
        SortedMap<String, String> lines = new TreeMap<>();
        for (String line : description.split("\n")) {
            String[] halves = line.split("\t", 2);
            lines.put(halves[0], halves.length == 2 ? halves[1] : "");
        }
        return new StoredMapping(lines).entities();
    }

    private List<Object> entities() {
        lines.forEach((name, meaning) -> match(TABLE, name).ifPresent(it -> table(it.group(1), meaning)));
        lines.forEach((name, meaning) -> match(DISCRIMINATOR, name).filter(it -> meaning.equals(AT_THE_TOP))
                .ifPresent(it -> top(table(it.group(2)), it.group(1))));
        lines.forEach((name, meaning) -> match(DISCRIMINATOR, name).filter(it -> meaning.startsWith(BELOW))
                .ifPresent(it -> below(table(it.group(2)), it.group(1))));
        lines.forEach(this::member);
        List<Object> all = new ArrayList<>();
        tables.values().forEach(table -> all.addAll(classes(table)));
        all.addAll(others);
        return all;
    }

    private static Optional<Matcher> match(Pattern pattern, String text) {
        Matcher matcher = pattern.matcher(text);
        return matcher.matches() ? Optional.of(matcher) : Optional.empty();
    }

    private void table(String name, String meaning) {
        Matcher said = number(name, meaning);
        Table table = new Table(Json.object("name", names.give(name), "table", Integer.parseInt(said.group(1))));
        String key = said.group(2).replaceFirst("^with the key ", "");
        putKey(table.top, key, table.names);
        if (key.contains(", generated")) {
            table.top.put("generated", true);
        }
        tables.put(name, table);
    }

    private static Matcher number(String name, String meaning) {
        return match(NUMBER, meaning).orElseThrow(() -> new IllegalArgumentException(
                "what the store says of " + name + " isn't known: " + meaning));
    }

    /** The key, whose name and parts aren't kept: of several parts it is an embedded one. */
    private static void putKey(Map<String, Object> entity, String kept, Names names) {
        List<String> sorts = new ArrayList<>();
        for (Matcher sort = SORT.matcher(kept); sort.find(); ) {
            sorts.add(sort.group(1));
        }
        String name = names.give("key");
        List<Object> parts = new ArrayList<>();
        for (String sort : sorts) {
            parts.add(Json.object("name", sorts.size() == 1 ? name : "part" + (parts.size() + 1), "type", sort));
        }
        if (parts.size() > 1) {
            entity.put("embedded", name);
        }
        entity.put("key", parts);
    }

    private Table table(String name) {
        Table table = tables.get(name);
        if (table == null) {
            throw new IllegalArgumentException("the store says nothing of the table " + name + " itself");
        }
        return table;
    }

    private static void top(Table table, String discriminator) {
        table.top.put("discriminator", discriminator);
        table.classes.put(discriminator, table.top);
    }

    /** One below another one, which may come later. */
    private void below(Table table, String discriminator) {
        String name = names.give(table.top.get("name") + "_" + discriminator);
        table.classes.put(discriminator, Json.object("name", name, "discriminator", discriminator));
    }

    /** Columns, join tables, and what the door keeps beside the application's rows. */
    private void member(String name, String meaning) {
        match(COLUMN, name).ifPresent(it -> column(table(it.group(2)), it.group(1), number(name, meaning)));
        match(JOIN_TABLE, name).ifPresent(it -> joinTable(it.group(1), number(name, meaning)));
        match(UNIQUE, name).ifPresent(it -> hidden(it.group(1), number(name, meaning), "unique", Unique.OWNER));
        match(ORDER, name).ifPresent(it -> hidden(it.group(1), number(name, meaning), "order", ListOrder.MEMBERS));
        match(GENERATOR, name).ifPresent(it -> others.add(Json.object("name", names.give(it.group(1)), "table",
                Integer.parseInt(number(name, meaning).group(1)), "key",
                List.of(Json.object("name", Sequence.KEY, "type", "int")), "generated", true)));
    }

    private void column(Table table, String column, Matcher said) {
        int number = Integer.parseInt(said.group(1));
        var link = match(LINK, said.group(2));
        boolean isRequired = table.classes.size() == 1 && said.group(2).contains(NEVER_NULL);
        Map<String, Object> written = Json.object("name", table.names.give(column));
        if (link.isPresent()) {
            written.put("kind", link.get().group(3) == null ? "manyToOne" : "oneToOne");
            written.put("target", table(link.get().group(1)).top.get("name"));
            written.put("column", number);
            table.relations.add(written);
        } else {
            Matcher sort = SORT.matcher(said.group(2));
            if (!sort.find()) {
                throw new IllegalArgumentException("the column " + column + " is kept as " + said.group(2) + ", which isn't known");
            }
            written.put("type", sort.group(1));
            written.put("column", number);
            table.attributes.add(written);
        }
        if (isRequired) {
            written.put("required", true);
        }
    }

    private void joinTable(String name, Matcher said) {
        Matcher pairs = match(PAIRS, said.group(2)).orElseThrow(() -> new IllegalArgumentException(
                "what the store says of the join table " + name + " isn't known: " + said.group(2)));
        Table owner = table(pairs.group(1));
        boolean isOfValues = name.equals(pairs.group(2) + " of " + pairs.group(1));
        owner.relations.add(Json.object("name", owner.names.give(isOfValues ? pairs.group(2) : name), "kind", "manyToMany", "target",
                table(pairs.group(2)).top.get("name"), "joinTable", Integer.parseInt(said.group(1))));
    }

    private void hidden(String name, Matcher said, String discriminator, String content) {
        Map<String, Object> entity = Json.object("name", names.give(name), "discriminator", discriminator, "table",
                Integer.parseInt(said.group(1)));
        putKey(entity, said.group(2), new Names());
        entity.put("attributes", List.of(Json.object("name", content, "type", "text", "column", Names.number(content), "required", true)));
        others.add(entity);
    }

    /** The classes of a table, those above before those below. */
    private List<Object> classes(Table table) {
        if (!table.attributes.isEmpty()) {
            table.top.put("attributes", table.attributes);
        }
        if (!table.relations.isEmpty()) {
            table.top.put("relations", table.relations);
        }
        Map<String, String> above = new HashMap<>();
        lines.forEach((name, meaning) -> match(DISCRIMINATOR, name).filter(it -> tables.get(it.group(2)) == table)
                .filter(it -> meaning.startsWith(BELOW)).ifPresent(it -> above.put(it.group(1), meaning.substring(BELOW.length()))));
        above.forEach((below, its) -> table.classes.get(below).put("extends", table.classes.get(its).get("name")));
        return new ArrayList<>(table.classes.values());
    }
}
