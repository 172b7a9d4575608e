package karzhoul.jpa.model;

import jakarta.persistence.DiscriminatorColumn;
import jakarta.persistence.DiscriminatorType;
import jakarta.persistence.Inheritance;
import jakarta.persistence.InheritanceType;
import jakarta.persistence.JoinColumn;
import jakarta.persistence.JoinTable;
import jakarta.persistence.PrimaryKeyJoinColumn;
import jakarta.persistence.SecondaryTable;
import jakarta.persistence.Table;
import java.time.ZoneId;
import java.util.ArrayList;
import java.util.LinkedHashMap;
import java.util.List;
import java.util.Map;
import java.util.Optional;
import java.util.stream.Stream;

/**
 * Writes the tables of SQL that the annotations of a unit say, by the standard's names where they say none: those that
 * another provider of the standard looks for.
 */
final class TablesWriter {
    private final List<PlainEntity> entities;
    private final ColumnNames names;
    private final List<String> faults = new ArrayList<>();

    private TablesWriter(List<PlainEntity> entities) {
        this.entities = entities;
        this.names = new ColumnNames(entities);
    }

    /**
     * The tables, as JSON, with the mapping of the rows that they have.
     *
     * @param entities those that an application sees
     * @param stored all that the mapping has
     * @param description what a store says of itself that they wrote
     * @throws IllegalArgumentException with a line for each that can't be tables
     */
    static String write(List<PlainEntity> entities, List<PlainEntity> stored, String description) {
        TablesWriter writer = new TablesWriter(entities);
        List<Object> tables = new ArrayList<>();
        for (PlainEntity entity : entities) {
            writer.look(entity);
            if (entity.above() == null || isJoined(entity)) {
                tables.add(writer.table(entity).written());
            }
        }
        for (PlainEntity entity : entities) {
            for (PlainRelation relation : entity.ownRelations()) {
                writer.between(entity, relation).ifPresent(it -> tables.add(it.written()));
            }
        }
        if (!writer.faults.isEmpty()) {
            throw new IllegalArgumentException(String.join("\n", writer.faults));
        }
        return Json.write(Json.object("tables", tables, "generators", GeneratorsWriter.write(entities), "zone",
                ZoneId.systemDefault().getId(), "description", description, "mapping", JsonReader.read(MappingWriter.write(stored))));
    }

    private void look(PlainEntity entity) {
        tell(entity, Repeated.of(entity.javaClass(), SecondaryTable.class).length > 0, "has a @SecondaryTable");
        tell(entity, strategy(entity) == InheritanceType.TABLE_PER_CLASS, "has a table for each class (TABLE_PER_CLASS)");
        for (PlainRelation relation : entity.ownRelations()) {
            tell(entity, !relation.isMany() && relation.isOwner() && hasJoinTable(relation),
                    "has a @JoinTable for " + relation.path() + ", which leads to one");
        }
    }

    private void tell(PlainEntity entity, boolean isWrong, String what) {
        if (isWrong) {
            faults.add(entity.name() + " " + what + ": such tables aren't written");
        }
    }

    private static boolean hasJoinTable(PlainRelation relation) {
        return relation.said().declared().has(JoinTable.class);
    }

    private static InheritanceType strategy(PlainEntity entity) {
        Inheritance said = entity.root().javaClass().getAnnotation(Inheritance.class);
        return said == null ? InheritanceType.SINGLE_TABLE : said.strategy();
    }

    private static boolean isJoined(PlainEntity entity) {
        return strategy(entity) == InheritanceType.JOINED;
    }

    // ---- tables of entities

    /** The name of the table in which an entity's own columns stand. */
    private static String tableOf(PlainEntity entity) {
        Table said = entity.javaClass().getAnnotation(Table.class);
        boolean isNamed = said != null && !said.name().isEmpty();
        return entity.above() == null || !isJoined(entity) ? entity.table() : isNamed ? said.name() : entity.name();
    }

    private TableDraft table(PlainEntity top) {
        List<PlainEntity> classes = isJoined(top) ? List.of(top) : entities.stream().filter(it -> it.isA(top)).toList();
        TableDraft table = new TableDraft(tableOf(top), top.mappedName(), faults);
        List<String> key = keyOf(top);
        for (int i = 0; i < key.size(); i++) {
            table.key(key.get(i), i, top.key().parts().get(i).codec());
        }
        if (top.above() != null) {
            table.leads(key, top.table(), names.ofKey(top));
        } else {
            discriminate(top, table);
            top.version().ifPresent(it -> table.version(names.of(top, (PlainAttribute) it), it.codec()));
        }
        for (PlainEntity each : classes) {
            boolean isEverywhere = each == top;
            each.ownAttributes().forEach(it -> table.value(names.of(each, it), each, it, isEverywhere));
            each.ownRelations().stream().filter(it -> it.isOwner() && !it.isMany())
                    .forEach(it -> link(each, it, isEverywhere, table));
            each.ownUniques().forEach(it -> unique(top, it, table));
        }
        entities.forEach(owner -> owner.ownRelations().forEach(it -> list(owner, it, top, classes, table)));
        return table;
    }

    /** The names of the key's columns; in a table that is joined its own. */
    private List<String> keyOf(PlainEntity entity) {
        PrimaryKeyJoinColumn[] said = Repeated.of(entity.javaClass(), PrimaryKeyJoinColumn.class);
        List<String> named = Stream.of(said).map(PrimaryKeyJoinColumn::name).filter(it -> !it.isEmpty()).toList();
        List<String> key = names.ofKey(entity);
        return entity.above() != null && named.size() == key.size() ? named : key;
    }

    private void discriminate(PlainEntity top, TableDraft table) {
        DiscriminatorColumn said = top.javaClass().getAnnotation(DiscriminatorColumn.class);
        boolean isAlone = top.subEntities().isEmpty() && said == null && !top.javaClass().isAnnotationPresent(Inheritance.class);
        if (isAlone) {
            return;
        }
        Map<String, Object> classes = new LinkedHashMap<>();
        entities.stream().filter(it -> it.root() == top).forEach(it -> classes.put(it.mappedName(), it.discriminator()));
        table.discriminator(said == null ? "DTYPE" : said.name(),
                said != null && said.discriminatorType() == DiscriminatorType.INTEGER, classes);
    }

    private void link(PlainEntity declaring, PlainRelation relation, boolean isEverywhere, TableDraft table) {
        List<String> columns = names.ofRelation(declaring, relation);
        PlainEntity target = (PlainEntity) relation.target();
        if (columns.size() != target.key().parts().size()) {
            faults.add(declaring.name() + "." + relation.path() + " names " + columns.size() + " of the "
                    + target.key().parts().size() + " columns of its key: name all of them");
            return;
        }
        if (!table.hasKey(columns)) {
            table.link(columns, declaring, relation, isEverywhere);
        }
        table.leads(columns, target.table(), names.ofKey(target));
        if (relation.kind() == Relation.Kind.ONE_TO_ONE) {
            table.unique(columns, List.of());
        }
    }

    /** A list whose owner or whose order is kept in the table of its members. */
    private void list(PlainEntity owner, PlainRelation relation, PlainEntity top, List<PlainEntity> classes, TableDraft table) {
        if (relation.kind() != Relation.Kind.ONE_TO_MANY || relation.elements().isPresent()
                || !isIn((PlainEntity) relation.target(), top, classes)) {
            return;
        }
        if (isKeptByMembers(relation)) {
            List<String> columns = names.ofHeld(owner, relation);
            table.held(columns, owner, relation);
            table.leads(columns, owner.table(), names.ofKey(owner));
        }
        boolean isOrdered = relation.listOrder().isPresent() && (relation.mappedBy().isPresent() || isKeptByMembers(relation));
        if (isOrdered) {
            table.place(relation, owner);
        }
    }

    private static boolean isIn(PlainEntity entity, PlainEntity top, List<PlainEntity> classes) {
        return isJoined(entity) ? entity == top : classes.contains(entity);
    }

    private static boolean isKeptByMembers(PlainRelation relation) {
        return relation.isJoined() && !hasJoinTable(relation) && Repeated.of(relation.said().declared().annotated(), JoinColumn.class).length > 0;
    }

    private void unique(PlainEntity top, Unique unique, TableDraft table) {
        List<String> columns = new ArrayList<>();
        for (Unique.Part part : unique.parts()) {
            columns.addAll(columnsOf((PlainEntity) unique.entity(), part));
        }
        List<Object> marks = new ArrayList<>();
        if (unique.entity() != top) {
            entities.stream().filter(it -> it.isA(unique.entity())).forEach(it -> marks.add(it.discriminator()));
        }
        // (what stands in two tables that are joined no constraint can hold)
        if (table.hasAll(columns)) {
            table.unique(columns, marks);
        }
    }

    private List<String> columnsOf(PlainEntity entity, Unique.Part part) {
        for (PlainEntity at = entity; at != null; at = at.above()) {
            if (part.attribute() != null && at.ownAttributes().contains(part.attribute())) {
                return List.of(names.of(at, (PlainAttribute) part.attribute()));
            } else if (part.relation() != null && at.ownRelations().contains(part.relation())) {
                return names.ofRelation(at, (PlainRelation) part.relation());
            }
        }
        return List.of(names.ofKey(entity).get(entity.key().parts().indexOf(part.attribute())));
    }

    // ---- tables between two, and of collections of values

    private Optional<TableDraft> between(PlainEntity owner, PlainRelation relation) {
        if (!relation.isOwner() || !relation.isMany() || isKeptByMembers(relation)) {
            return Optional.empty();
        }
        return Optional.of(relation.elements().isPresent() ? elements(owner, relation) : joined(owner, relation));
    }

    private TableDraft joined(PlainEntity owner, PlainRelation relation) {
        PlainEntity target = (PlainEntity) relation.target();
        boolean isNamed = relation.said().declared().find(JoinTable.class).filter(it -> !it.name().isEmpty()).isPresent();
        boolean isDefault = !isNamed && relation.storedName().equals(owner.table() + "_" + relation.path());
        String name = isDefault ? owner.table() + "_" + target.table() : relation.storedName();
        TableDraft table = new TableDraft(name, owner.mappedName(), faults);
        table.isList(relation);
        List<String> own = names.ofOwner(owner, relation);
        List<String> others = names.ofMembers(relation);
        table.sides(own, owner, others, target);
        relation.listOrder().ifPresent(it -> table.place(relation, owner));
        table.leads(own, owner.table(), names.ofKey(owner));
        table.leads(others, target.table(), names.ofKey(target));
        return table;
    }

    private TableDraft elements(PlainEntity owner, PlainRelation relation) {
        PlainEntity rows = (PlainEntity) relation.target();
        String name = rows.table().equals(owner.name() + "_" + relation.path())
                ? owner.name() + "_" + ColumnNames.last(relation.path()) : rows.table();
        TableDraft table = new TableDraft(name, owner.mappedName(), faults);
        table.isElements(relation, rows);
        List<String> own = names.ofElements(owner, relation);
        table.owner(own, owner);
        rows.ownAttributes().forEach(it -> table.value(names.of(rows, it), rows, it, true));
        table.leads(own, owner.table(), names.ofKey(owner));
        for (Unique unique : rows.ownUniques()) {
            table.unique(unique.parts().stream().flatMap(part -> columnsOf(rows, part).stream()).toList(), List.of());
        }
        return table;
    }
}
