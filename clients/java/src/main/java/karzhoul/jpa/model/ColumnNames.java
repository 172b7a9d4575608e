package karzhoul.jpa.model;

import jakarta.persistence.CollectionTable;
import jakarta.persistence.JoinColumn;
import jakarta.persistence.JoinTable;
import java.util.ArrayList;
import java.util.Arrays;
import java.util.List;
import java.util.Optional;
import java.util.stream.Stream;

/** The names that columns have in tables of SQL: those of annotations, or else the standard's own (chapters 2.4 and 11.1). */
final class ColumnNames {
    private final List<PlainEntity> entities;

    /** @param entities all of the unit, among which inverse sides are */
    ColumnNames(List<PlainEntity> entities) {
        this.entities = entities;
    }

    /** The name of an attribute's column; without an annotation that of the attribute alone, also of an embedded one. */
    String of(PlainEntity declaring, PlainAttribute attribute) {
        String name = plain(declaring, attribute.columnName());
        return name.equals(attribute.path()) ? last(name) : name;
    }

    /** The names of the columns of a key; those of a relation that gives a part are the relation's. */
    List<String> ofKey(PlainEntity entity) {
        PlainEntity root = entity.root();
        List<String> names = new ArrayList<>();
        for (Attribute part : root.key().parts()) {
            names.add(given(root, part).orElseGet(() -> last(((PlainAttribute) part).columnName())));
        }
        return names;
    }

    private Optional<String> given(PlainEntity root, Attribute part) {
        for (KeyModel.Derived derived : root.key().derived()) {
            int at = derived.parts().indexOf(part);
            if (at >= 0) {
                return Optional.of(ofRelation(root, (PlainRelation) derived.from()).get(at));
            }
        }
        return Optional.empty();
    }

    /** The names of the columns of a relation to one, in the order of the key to which it leads. */
    List<String> ofRelation(PlainEntity declaring, PlainRelation relation) {
        String stored = plain(declaring, relation.storedName());
        if (stored.equals(relation.path())) {
            return led(last(relation.path()), (PlainEntity) relation.target());
        }
        return inOrder(List.of(stored.split(" ")), Repeated.of(relation.said().declared().annotated(), JoinColumn.class),
                (PlainEntity) relation.target());
    }

    /** The columns of the members' table that lead to a list's owner. */
    List<String> ofHeld(PlainEntity owner, PlainRelation relation) {
        JoinColumn[] said = Repeated.of(relation.said().declared().annotated(), JoinColumn.class);
        return said(said, last(relation.path()), owner);
    }

    /** The columns of a join table that lead to a list's owner. */
    List<String> ofOwner(PlainEntity owner, PlainRelation relation) {
        JoinColumn[] said = relation.said().declared().find(JoinTable.class).map(JoinTable::joinColumns)
                .orElse(new JoinColumn[0]);
        String inverse = entities.stream().flatMap(it -> it.ownRelations().stream())
                .filter(it -> it.mappedBy().filter(relation::equals).isPresent()).map(PlainRelation::path).findFirst()
                .map(ColumnNames::last).orElse(owner.name());
        return said(said, inverse, owner);
    }

    /** The columns of a collection's table that lead to its owner. */
    List<String> ofElements(PlainEntity owner, PlainRelation relation) {
        JoinColumn[] said = relation.said().declared().find(CollectionTable.class).map(CollectionTable::joinColumns)
                .orElse(new JoinColumn[0]);
        return said(said, owner.name(), owner);
    }

    /** The columns of a join table that lead to its members. */
    List<String> ofMembers(PlainRelation relation) {
        JoinColumn[] said = relation.said().declared().find(JoinTable.class).map(JoinTable::inverseJoinColumns)
                .orElse(new JoinColumn[0]);
        return said(said, last(relation.path()), (PlainEntity) relation.target());
    }

    private List<String> said(JoinColumn[] said, String before, PlainEntity target) {
        List<String> names = Arrays.stream(said).map(JoinColumn::name).filter(it -> !it.isEmpty()).toList();
        return names.isEmpty() ? led(before, target) : inOrder(names, said, target);
    }

    private List<String> led(String before, PlainEntity target) {
        return ofKey(target).stream().map(it -> before + "_" + it).toList();
    }

    /** Annotations may stand in any order where each names the column to which it refers. */
    private List<String> inOrder(List<String> names, JoinColumn[] said, PlainEntity target) {
        List<String> referenced = Stream.of(said).map(JoinColumn::referencedColumnName).toList();
        List<String> key = ofKey(target);
        boolean isSaid = said.length == names.size() && referenced.stream().noneMatch(String::isEmpty);
        if (!isSaid) {
            return names;
        }
        List<String> found = new ArrayList<>();
        for (String column : key) {
            for (int i = 0; i < names.size(); i++) {
                if (referenced.get(i).equalsIgnoreCase(column)) {
                    found.add(names.get(i));
                }
            }
        }
        return found.size() == names.size() ? found : names;
    }

    /** Without the class that stands in front of columns below the root. */
    private static String plain(PlainEntity declaring, String column) {
        String before = declaring.name() + ".";
        return declaring.above() != null && column.startsWith(before) ? column.substring(before.length()) : column;
    }

    static String last(String path) {
        return path.substring(path.lastIndexOf('.') + 1);
    }
}
