package karzhoul.jpa.model;

import java.util.ArrayList;
import java.util.List;
import java.util.Locale;
import java.util.Optional;
import java.util.Set;
import java.util.function.Predicate;
import java.util.stream.Collectors;
import java.util.stream.Stream;

/** Finds what has a column, by the names that annotations of tables say (chapters 11.1.23 and 11.1.54). */
final class Columns {
    /** A part, where it was declared. */
    record Found(PlainEntity entity, Unique.Part part, String column) {}

    private Columns() {}

    /**
     * What has the column: in this class or in one above, or else in those below.
     *
     * @param isWhole whether these are all columns of a relation to one: it isn't found by some of them
     */
    static List<Found> find(PlainEntity entity, String column, Predicate<Set<String>> isWhole) {
        for (PlainEntity at = entity; at != null; at = at.above()) {
            Optional<Found> own = findOwn(at, column, isWhole);
            if (own.isPresent()) {
                return List.of(own.get());
            }
        }
        return findBelow(entity, column, isWhole).toList();
    }

    private static Stream<Found> findBelow(PlainEntity entity, String column, Predicate<Set<String>> isWhole) {
        return entity.subEntities().stream().map(it -> (PlainEntity) it).flatMap(below -> {
            Optional<Found> own = findOwn(below, column, isWhole);
            return own.isPresent() ? own.stream() : findBelow(below, column, isWhole);
        });
    }

    private static Optional<Found> findOwn(PlainEntity entity, String column, Predicate<Set<String>> isWhole) {
        List<PlainAttribute> attributes = new ArrayList<>(entity.ownAttributes());
        if (entity.above() == null) {
            entity.key().parts().forEach(part -> attributes.add((PlainAttribute) part));
        }
        for (PlainAttribute attribute : attributes) {
            if (isNamed(plain(entity, attribute.columnName()), attribute.path(), column)) {
                return Optional.of(found(entity, attribute));
            }
        }
        for (PlainRelation relation : entity.ownRelations()) {
            boolean isOne = relation.isOwner() && !relation.isMany() && relation.target() != null;
            if (isOne && of(entity, relation).contains(column.toLowerCase(Locale.ROOT))
                    && isWhole.test(of(entity, relation))) {
                return Optional.of(found(entity, relation));
            }
        }
        return Optional.empty();
    }

    /** Where no annotation names the column of an embedded attribute, it has the name of that (chapter 2.13). */
    private static boolean isNamed(String columnName, String path, String column) {
        return columnName.equalsIgnoreCase(column)
                || columnName.equals(path) && path.endsWith("." + column);
    }

    private static String plain(PlainEntity entity, String column) {
        String before = entity.name() + ".";
        return entity.above() != null && column.startsWith(before) ? column.substring(before.length()) : column;
    }

    /** The names of a relation's columns; without annotations its own, with those of the key there (chapter 11.1.25). */
    private static Set<String> of(PlainEntity entity, PlainRelation relation) {
        String stored = plain(entity, relation.storedName());
        if (!stored.equals(relation.path())) {
            return Set.of(stored.toLowerCase(Locale.ROOT).split(" "));
        }
        String before = relation.path().substring(relation.path().lastIndexOf('.') + 1);
        return relation.target().key().parts().stream()
                .map(part -> (before + "_" + ((PlainAttribute) part).columnName()).toLowerCase(Locale.ROOT))
                .collect(Collectors.toSet());
    }

    static Found found(PlainEntity entity, PlainAttribute attribute) {
        return new Found(entity, new Unique.Part(attribute, null), plain(entity, attribute.columnName()));
    }

    static Found found(PlainEntity entity, PlainRelation relation) {
        return new Found(entity, new Unique.Part(null, relation), plain(entity, relation.storedName()));
    }
}
