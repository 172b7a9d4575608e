package karzhoul.jpa.model;

import jakarta.persistence.CollectionTable;
import jakarta.persistence.DiscriminatorColumn;
import jakarta.persistence.Index;
import jakarta.persistence.JoinColumn;
import jakarta.persistence.OrderColumn;
import jakarta.persistence.PrimaryKeyJoinColumn;
import jakarta.persistence.Table;
import java.util.Arrays;
import java.util.LinkedHashSet;
import java.util.List;
import java.util.Locale;
import java.util.Optional;
import java.util.Set;
import java.util.function.Predicate;
import karzhoul.jpa.model.Columns.Found;

/** Reads what the indexes of tables say will be looked up (chapter 11.1.23), once relations lead to their targets. */
final class IndexReader {
    private static final Set<String> DIRECTIONS = Set.of("asc", "desc");

    private final Faults faults;
    private final Set<Indexed> all = new LinkedHashSet<>();
    private List<PlainEntity> entities = List.of();

    IndexReader(Faults faults) {
        this.faults = faults;
    }

    /** The attributes and parts of keys of these entities that indexes name, each once. */
    List<Indexed> read(List<PlainEntity> entities) {
        this.entities = entities.stream().filter(it -> it.plainKey() != null).toList();
        for (PlainEntity entity : this.entities) {
            Table table = entity.javaClass().getAnnotation(Table.class);
            if (table != null) {
                ofTable(entity, entity.declaredAt(), "@Table", table.indexes(), column -> isOfTable(entity, column));
            }
            entity.ownRelations().forEach(relation -> ofCollection(entity, relation));
        }
        return List.copyOf(all);
    }

    private void ofCollection(PlainEntity owner, PlainRelation relation) {
        if (relation.elements().isEmpty() || relation.target() == null) {
            return;
        }
        Member member = relation.said().declared();
        Optional<CollectionTable> table = member.find(CollectionTable.class);
        if (table.isPresent()) {
            Set<String> ofOwner = TableConstraints.names(table.get().joinColumns(), owner.name(), owner);
            ofTable((PlainEntity) relation.target(), ((PlainEntity) relation.target()).declaredAt(),
                    "@CollectionTable", table.get().indexes(), ofOwner::contains);
        }
    }

    /**
     * Those of one table.
     *
     * @param isOther whether a column, in small letters, is the table's beside those of attributes and relations
     */
    private void ofTable(PlainEntity entity, String place, String annotation, Index[] indexes,
            Predicate<String> isOther) {
        for (Index index : indexes) {
            for (String said : index.columnList().split(",", -1)) {
                String[] words = said.trim().split("\\s+");
                boolean isDirected = words.length == 2 && DIRECTIONS.contains(words[1].toLowerCase(Locale.ROOT));
                if (words.length > 1 && !isDirected) {
                    faults.add(place, "@Index of " + annotation + " has \"" + said.trim() + "\" in its columnList",
                            "Write a column's name, and ASC or DESC behind it or nothing");
                } else if (!take(entity, words[0]) && !isOther.test(words[0].toLowerCase(Locale.ROOT))
                        && !index.unique()) {        // of those UniqueReader tells it
                    faults.add(place, "@Index of " + annotation + " names the column \"" + words[0]
                            + "\", which it doesn't have", "Name columns of its attributes and relations");
                }
            }
        }
    }

    /** Takes what has the column; references have their index without being told. Answers whether anything has it. */
    private boolean take(PlainEntity entity, String column) {
        List<Found> found = Columns.find(entity, column, any -> true);
        for (Found each : found) {
            if (each.part().attribute() != null) {
                all.add(new Indexed(each.entity(), each.part().attribute()));
            }
        }
        return !found.isEmpty();
    }

    /** The version, what tells classes apart, the key of a joined table, and what lists of other entities have here. */
    private boolean isOfTable(PlainEntity entity, String column) {
        return entity.version().filter(it -> ((PlainAttribute) it).columnName().equalsIgnoreCase(column)).isPresent()
                || discriminator(entity).filter(column::equalsIgnoreCase).isPresent()
                || Arrays.stream(Repeated.of(entity.javaClass(), PrimaryKeyJoinColumn.class))
                        .anyMatch(it -> it.name().equalsIgnoreCase(column))
                || entities.stream().anyMatch(owner -> owner.ownRelations().stream()
                        .anyMatch(relation -> isOfList(owner, relation, entity, column)));
    }

    /** The name of the column by which classes of a hierarchy are told apart (chapter 11.1.12). */
    private static Optional<String> discriminator(PlainEntity entity) {
        DiscriminatorColumn said = entity.root().javaClass().getAnnotation(DiscriminatorColumn.class);
        boolean isAlone = entity.above() == null && entity.subEntities().isEmpty();
        return said != null ? Optional.of(said.name()) : isAlone ? Optional.empty() : Optional.of("DTYPE");
    }

    /** Whether a list keeps its owner or its order in this column of its members' table. */
    private static boolean isOfList(PlainEntity owner, PlainRelation relation, PlainEntity entity, String column) {
        if (relation.kind() != Relation.Kind.ONE_TO_MANY || relation.elements().isPresent()
                || relation.target() == null || ((PlainEntity) relation.target()).root() != entity.root()) {
            return false;
        }
        Member member = relation.said().declared();
        JoinColumn[] joins = Repeated.of(member.annotated(), JoinColumn.class);
        String order = member.find(OrderColumn.class)
                .map(it -> it.name().isEmpty() ? member.name() + "_ORDER" : it.name()).orElse("");
        return order.equalsIgnoreCase(column)
                || joins.length > 0 && TableConstraints.names(joins, member.name(), owner).contains(column);
    }
}
