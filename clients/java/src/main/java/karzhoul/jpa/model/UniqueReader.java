package karzhoul.jpa.model;

import jakarta.persistence.JoinColumn;
import jakarta.persistence.SecondaryTable;
import jakarta.persistence.Table;
import java.util.ArrayList;
import java.util.Comparator;
import java.util.HashSet;
import java.util.LinkedHashMap;
import java.util.List;
import java.util.Locale;
import java.util.Map;
import java.util.Optional;
import java.util.Set;
import java.util.stream.Collectors;
import karzhoul.jpa.model.Columns.Found;

/** Reads which values are unique (chapters 11.1.9, 11.1.25 and 11.1.54), once relations lead to their targets. */
final class UniqueReader {
    private final Faults faults;
    private final Names entityNames;
    private final List<Unique> all = new ArrayList<>();
    private final Map<PlainEntity, Set<Set<String>>> known = new LinkedHashMap<>();

    /** @param entityNames the names that entities of the mapping have already */
    UniqueReader(Faults faults, Names entityNames) {
        this.faults = faults;
        this.entityNames = entityNames;
    }

    /** Those of these entities, which are given them. */
    List<Unique> read(List<PlainEntity> entities) {
        for (PlainEntity entity : entities) {
            if (entity.plainKey() != null) {
                ofMembers(entity);
                ofTables(entity);
            }
        }
        return all;
    }

    private void ofMembers(PlainEntity entity) {
        for (PlainAttribute attribute : entity.ownAttributes()) {
            if (attribute.isUnique()) {
                add(List.of(Columns.found(entity, attribute)));
            }
        }
        for (PlainRelation relation : entity.ownRelations()) {
            TableConstraints tables = new TableConstraints(faults, entity, relation);
            if (tables.ofJoinTable() || isUnique(relation)) {
                add(List.of(Columns.found(entity, relation)));
            }
            tables.ofCollectionTable((rows, columns) -> ofConstraint(rows, columns, ""));
        }
        if (entity.above() == null && entity.key().parts().size() > 1) {
            for (Attribute part : entity.key().parts()) {
                if (((PlainAttribute) part).isUnique()) {
                    add(List.of(Columns.found(entity, (PlainAttribute) part)));
                }
            }
        }
    }

    /** Whether the join column is unique; that of a one-to-one is anyhow. */
    private boolean isUnique(PlainRelation relation) {
        if (relation.kind() != Relation.Kind.MANY_TO_ONE || relation.target() == null) {
            return false;
        }
        Member member = relation.said().declared();
        JoinColumn[] columns = Repeated.of(member.annotated(), JoinColumn.class);
        boolean isAny = false;
        for (JoinColumn column : columns) {
            isAny |= column.unique();
        }
        if (isAny && columns.length > 1) {
            faults.add(member, "one of several join columns isn't unique by itself",
                    "Name all of them in @UniqueConstraint of @Table");
        }
        return isAny && columns.length == 1;
    }

    private void ofTables(PlainEntity entity) {
        Table table = entity.javaClass().getAnnotation(Table.class);
        if (table != null) {
            for (List<String> columns : TableConstraints.of(table.uniqueConstraints(), table.indexes())) {
                ofConstraint(entity, columns, "");
            }
        }
        for (SecondaryTable secondary : Repeated.of(entity.javaClass(), SecondaryTable.class)) {
            for (List<String> columns : TableConstraints.of(secondary.uniqueConstraints(), secondary.indexes())) {
                ofConstraint(entity, columns, secondary.name() + ".");
            }
        }
    }

    private void ofConstraint(PlainEntity entity, List<String> columns, String before) {
        List<Found> found = new ArrayList<>();
        Set<String> names = new HashSet<>();
        for (String name : columns) {
            names.add((before + name).toLowerCase(Locale.ROOT));
        }
        for (String name : columns) {
            Optional<Found> part = Columns.find(entity, before + name, names::containsAll).stream().findFirst();
            if (part.isEmpty()) {
                faults.add(entity.declaredAt(), "@UniqueConstraint names the column \"" + name
                        + "\", which it doesn't have, or has only beside others that aren't named",
                        "Name columns of its attributes, and all columns of a relation to one");
                return;
            }
            if (found.stream().noneMatch(it -> it.part().path().equals(part.get().part().path()))) {
                found.add(part.get());
            }
        }
        if (!found.isEmpty()) {
            add(found);
        }
    }

    private void add(List<Found> found) {
        PlainEntity entity = found.get(0).entity();
        for (Found part : found) {
            entity = part.entity().isA(entity) ? part.entity() : entity;
        }
        for (Found part : found) {
            if (!entity.isA(part.entity())) {
                faults.add(entity.javaClass(), "a unique constraint is of columns of classes beside each other",
                        "Name columns of one class, and of those above it");
                return;
            }
        }
        Set<String> paths = found.stream().map(it -> it.part().path()).collect(Collectors.toSet());
        if (!isKept(entity, found, paths) && known.computeIfAbsent(entity, none -> new HashSet<>()).add(paths)) {
            make(entity, found.stream().sorted(Comparator.comparing(Found::column)).toList());
        }
    }

    /** Whether the program keeps it by itself: the whole key is in it, or a one-to-one relation. */
    private static boolean isKept(PlainEntity entity, List<Found> found, Set<String> paths) {
        return entity.key().parts().stream().allMatch(part -> paths.contains(part.path()))
                || found.stream().anyMatch(it -> it.part().relation() != null
                        && it.part().relation().kind() == Relation.Kind.ONE_TO_ONE);
    }

    private void make(PlainEntity entity, List<Found> found) {
        String columns = found.stream().map(Found::column).collect(Collectors.joining(", "));
        String place = entity.declaredAt() + "." + found.get(0).part().path();
        List<Attribute> parts = found.stream().flatMap(it -> it.part().columns().stream()).toList();
        if (parts.size() > Unique.MOST_COLUMNS) {
            faults.add(place, "a unique constraint of " + parts.size() + " columns isn't kept",
                    "Let it have at most " + Unique.MOST_COLUMNS);
            return;
        } else if (parts.stream().anyMatch(it -> it.codec().meaning().equals("serialized"))) {
            faults.add(place, "what is kept as Java writes it isn't unique", "Use a number, a String, a date or an enum");
            return;
        }
        String name = entity.name() + " (" + columns + ")";
        PlainEntity keys = new PlainEntity(Unique.class, name, entityNames.give("unique_" + entity.name() + "_" + columns), null,
                "unique " + columns + " of the table " + entity.table(), "unique");
        keys.isDeclaredAt(place);
        List<PlainAttribute> key = new ArrayList<>();
        for (int i = 0; i < parts.size(); i++) {
            String path = (parts.size() == 1 ? "" : "id.") + "part" + (i + 1);
            key.add(new PlainAttribute(path, path, Attribute.Role.KEY, parts.get(i).codec(), true, null, path));
        }
        keys.isKnownBy(new PlainKey(key, KeyModel.Generation.ASSIGNED, null, null, null, false),
                parts.size() == 1 ? null : "id");
        keys.has(new PlainAttribute(Unique.OWNER, Unique.OWNER, Attribute.Role.PLAIN, BasicCodecs.fixed(String.class), true,
                null, Unique.OWNER));
        Unique unique = new Unique(entity, keys, found.stream().map(Found::part).toList());
        entity.has(unique);
        all.add(unique);
    }
}
