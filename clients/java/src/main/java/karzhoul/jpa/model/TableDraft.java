package karzhoul.jpa.model;

import jakarta.persistence.OrderColumn;
import java.util.ArrayList;
import java.util.LinkedHashMap;
import java.util.List;
import java.util.Locale;
import java.util.Map;

/** A table of SQL as it is put together: its columns, what these have of which entity, and to what they lead. */
final class TableDraft {
    private static final String PART = "part";
    private static final String TYPE = "type";
    private static final String REQUIRED = "required";
    private static final String CONVERTED = " by a converter";

    private final Map<String, Object> written;
    private final List<String> faults;
    private final String name;
    private final Map<String, Map<String, Object>> columns = new LinkedHashMap<>();
    private final List<String> key = new ArrayList<>();
    private final List<Object> leads = new ArrayList<>();
    private final List<Object> uniques = new ArrayList<>();

    /**
     * @param entity the name in the mapping of that whose rows it has, or that has the list
     * @param faults take what doesn't go
     */
    TableDraft(String name, String entity, List<String> faults) {
        this.name = name;
        this.faults = faults;
        this.written = Json.object("name", name, "entity", entity);
        if (name.contains(".")) {
            faults.add("the table " + name + " is in a schema or a catalog: such tables aren't written");
        }
    }

    Map<String, Object> written() {
        written.put("columns", List.copyOf(columns.values()));
        written.put("leads", leads);
        written.put("unique", uniques);
        return written;
    }

    boolean hasKey(List<String> names) {
        return key.containsAll(names.stream().map(TableDraft::plain).toList());
    }

    boolean hasAll(List<String> names) {
        return names.stream().allMatch(it -> columns.containsKey(plain(it)));
    }

    private static String plain(String name) {
        return name.toLowerCase(Locale.ROOT);
    }

    // ---- columns

    void key(String name, int part, Codec codec) {
        key.add(plain(name));
        add(name, "key", Json.object(PART, part, TYPE, type(codec), REQUIRED, true));
    }

    void version(String name, Codec codec) {
        add(name, "version", Json.object(TYPE, type(codec), REQUIRED, true));
    }

    /** @param classes the value of each class, by its name in the mapping */
    void discriminator(String name, boolean isNumber, Map<String, Object> classes) {
        add(name, "class", Json.object(TYPE, isNumber ? "integer 32" : "text", REQUIRED, true));
        written.put("classes", classes);
    }

    /** @param isEverywhere whether each row has it, also those of the classes above */
    void value(String name, PlainEntity declaring, PlainAttribute attribute, boolean isEverywhere) {
        of(name, "value", declaring, attribute.member(), Json.object(TYPE, type(attribute.codec()),
                REQUIRED, isEverywhere && attribute.isRequired()));
    }

    void link(List<String> names, PlainEntity declaring, PlainRelation relation, boolean isEverywhere) {
        List<Attribute> parts = relation.target().key().parts();
        for (int i = 0; i < names.size(); i++) {
            of(names.get(i), "link", declaring, relation.member(), Json.object(PART, i, TYPE, type(parts.get(i).codec()),
                    REQUIRED, isEverywhere && relation.isRequired()));
        }
    }

    /** The owner of a list, which its members have. */
    void held(List<String> names, PlainEntity owner, PlainRelation relation) {
        List<Attribute> parts = owner.key().parts();
        for (int i = 0; i < names.size(); i++) {
            of(names.get(i), "held", owner, relation.member(),
                    Json.object(PART, i, TYPE, type(parts.get(i).codec()), REQUIRED, false));
        }
    }

    /** The place of a member in an ordered list. */
    void place(PlainRelation relation, PlainEntity owner) {
        String said = relation.said().declared().find(OrderColumn.class).map(OrderColumn::name).orElse("");
        Map<String, Object> column = Json.object(TYPE, "integer 32", REQUIRED, false, "order",
                relation.listOrder().orElseThrow().mappedName());
        relation.mappedBy().ifPresent(it -> column.put("by", it.member()));
        of(said.isEmpty() ? ColumnNames.last(relation.path()) + "_ORDER" : said, "place", owner, relation.member(), column);
    }

    void owner(List<String> names, PlainEntity owner) {
        List<Attribute> parts = owner.key().parts();
        for (int i = 0; i < names.size(); i++) {
            add(names.get(i), "owner", Json.object(PART, i, TYPE, type(parts.get(i).codec()), REQUIRED, true));
        }
    }

    void sides(List<String> own, PlainEntity owner, List<String> others, PlainEntity target) {
        owner(own, owner);
        List<Attribute> parts = target.key().parts();
        for (int i = 0; i < others.size(); i++) {
            add(others.get(i), "member", Json.object(PART, i, TYPE, type(parts.get(i).codec()), REQUIRED, true));
        }
    }

    /** Takes a column that a member has; classes beside each other may have one of the same name and type. */
    private void of(String name, String sort, PlainEntity declaring, String member, Map<String, Object> more) {
        List<Object> place = List.of(declaring.mappedName(), member);
        Map<String, Object> there = columns.get(plain(name));
        if (there != null && sort.equals(there.get("is")) && more.get(TYPE).equals(there.get(TYPE))
                && "value link".contains(sort)) {
            there.put("of", append((List<?>) there.get("of"), place));
            there.put(REQUIRED, false);
            return;
        }
        more.put("of", List.of(place));
        add(name, sort, more);
    }

    private static List<Object> append(List<?> list, Object more) {
        List<Object> longer = new ArrayList<>(list);
        longer.add(more);
        return longer;
    }

    private void add(String name, String sort, Map<String, Object> more) {
        Map<String, Object> column = Json.object("name", name, "is", sort);
        column.putAll(more);
        if (columns.putIfAbsent(plain(name), column) != null) {
            faults.add("two members are kept in the column " + name + " of the table " + this.name
                    + ": name one of them by @Column or @JoinColumn");
        }
    }

    // ---- what it has beside columns

    void isList(PlainRelation relation) {
        written.put("list", relation.member());
    }

    void isElements(PlainRelation relation, PlainEntity rows) {
        isList(relation);
        written.put("rows", rows.mappedName());
    }

    void leads(List<String> names, String table, List<String> targets) {
        leads.add(Json.object("columns", names, "table", table, "targets", targets));
    }

    /** @param marks the discriminators of those whose rows differ; none of all */
    void unique(List<String> names, List<Object> marks) {
        uniques.add(Json.object("columns", names, "marks", marks));
    }

    /** What is kept, in words of tables. */
    private static String type(Codec codec) {
        String meaning = codec.meaning().endsWith(CONVERTED)
                ? codec.meaning().substring(0, codec.meaning().length() - CONVERTED.length()) : codec.meaning();
        Class<?> type = codec.javaType();
        if (meaning.startsWith("places of ")) {
            return "integer 32";
        } else if (meaning.equals("whole")) {
            return type == Short.class || type == Byte.class ? "integer 16" : type == Integer.class ? "integer 32" : "integer 64";
        }
        return meaning;
    }
}
