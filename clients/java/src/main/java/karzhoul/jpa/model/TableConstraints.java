package karzhoul.jpa.model;

import jakarta.persistence.CollectionTable;
import jakarta.persistence.Index;
import jakarta.persistence.JoinColumn;
import jakarta.persistence.JoinTable;
import jakarta.persistence.UniqueConstraint;
import java.util.ArrayList;
import java.util.Arrays;
import java.util.List;
import java.util.Locale;
import java.util.Optional;
import java.util.Set;
import java.util.TreeSet;
import java.util.function.BiConsumer;
import java.util.stream.Collectors;

/**
 * What the tables of relations and of collections of values say to be unique (chapters 11.1.8 and 11.1.27): what
 * always is so is left, what can't be looked at is told.
 */
final class TableConstraints {
    private final Faults faults;
    private final PlainEntity owner;
    private final PlainRelation relation;
    private final Member member;

    /** @param relation one that the entity owns */
    TableConstraints(Faults faults, PlainEntity owner, PlainRelation relation) {
        this.faults = faults;
        this.owner = owner;
        this.relation = relation;
        this.member = relation.said().declared();
    }

    /** The columns of each unique constraint, and of each index that is unique. */
    static List<List<String>> of(UniqueConstraint[] constraints, Index[] indexes) {
        List<List<String>> all = new ArrayList<>();
        Arrays.stream(constraints).forEach(it -> all.add(List.of(it.columnNames())));
        Arrays.stream(indexes).filter(Index::unique).forEach(it -> all.add(Arrays.stream(it.columnList().split(","))
                .map(column -> column.trim().split("\\s+")[0]).toList()));
        return all;
    }

    /**
     * Those of its join table: a pair is kept once, whatever is said.
     *
     * @return whether the column of a relation to one is unique
     */
    boolean ofJoinTable() {
        JoinTable table = member.find(JoinTable.class).orElse(null);
        boolean isKeyed = relation.target() != null && ((PlainEntity) relation.target()).plainKey() != null;
        if (table == null || !isKeyed || relation.elements().isPresent()) {
            return false;
        }
        Set<String> own = names(table.joinColumns(), owner.name(), owner);
        Set<String> inverse = names(table.inverseJoinColumns(), member.name(), (PlainEntity) relation.target());
        boolean isUnique = false;
        for (List<String> columns : of(table.uniqueConstraints(), table.indexes())) {
            Set<String> named = lower(columns);
            boolean isOfOwner = named.containsAll(own);
            if (!relation.isMany() && !isOfOwner && named.equals(inverse)) {
                isUnique = true;
            } else if (!isOfOwner || relation.isMany() && !named.containsAll(inverse)) {
                faults.add(member, "a unique constraint of its join table isn't kept: it is of " + columns
                        + ", and a pair of " + own + " and " + inverse + " is kept once",
                        "Leave it out, or make the table an entity with the constraint");
            }
        }
        return isUnique;
    }

    /**
     * Those of its collection table.
     *
     * @param take is given the entity of the rows, and the columns of a constraint of elements alone
     */
    void ofCollectionTable(BiConsumer<PlainEntity, List<String>> take) {
        Optional<CollectionTable> table = member.find(CollectionTable.class);
        if (table.isEmpty() || relation.elements().isEmpty()) {
            return;
        }
        PlainEntity rows = (PlainEntity) relation.target();
        Set<String> own = names(table.get().joinColumns(), owner.name(), owner);
        for (List<String> columns : of(table.get().uniqueConstraints(), table.get().indexes())) {
            Set<String> named = lower(columns);
            if (named.stream().noneMatch(own::contains)) {
                take.accept(rows, columns);
            } else if (!named.containsAll(own) || !isApart(rows, named)) {
                faults.add(member, "a unique constraint of its collection table isn't kept: it is of " + columns
                        + ", where " + own + " is the owner", "Declare a Set of basic values, or make the elements entities");
            }
        }
    }

    /** Whether the elements of one owner differ in these columns anyhow: by a place, by a key, or as those of a set. */
    private boolean isApart(PlainEntity rows, Set<String> named) {
        List<PlainAttribute> columns = rows.ownAttributes();
        boolean isPlaced = columns.stream().filter(it -> it.path().equals(ElementReader.INDEX)
                || it.path().equals(ElementReader.KEY)).anyMatch(it -> isNamed(it, named));
        boolean isPlainSet = member.javaType() == Set.class && columns.size() == 1
                && columns.get(0).path().equals(ElementReader.VALUE);
        return isPlaced || isPlainSet && isNamed(columns.get(0), named);
    }

    private static boolean isNamed(PlainAttribute attribute, Set<String> named) {
        return named.contains(attribute.columnName().toLowerCase(Locale.ROOT));
    }

    /** The names of join columns; without annotations a name with those of the key there (chapter 11.1.25). */
    static Set<String> names(JoinColumn[] said, String before, PlainEntity to) {
        List<String> names = new ArrayList<>();
        List<Attribute> key = to.key().parts();
        for (int i = 0; i < key.size(); i++) {
            String name = i < said.length ? said[i].name() : "";
            names.add(name.isEmpty() ? before + "_" + ((PlainAttribute) key.get(i)).columnName() : name);
        }
        return lower(names);
    }

    private static Set<String> lower(List<String> names) {
        return names.stream().map(name -> name.toLowerCase(Locale.ROOT)).collect(Collectors.toCollection(TreeSet::new));
    }
}
