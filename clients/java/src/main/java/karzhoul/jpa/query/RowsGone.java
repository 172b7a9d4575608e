package karzhoul.jpa.query;

import java.util.ArrayList;
import java.util.List;
import karzhoul.jpa.model.EntityModel;
import karzhoul.jpa.model.Relation;

/**
 * The rows of one collection of values, which go with what a DELETE deletes.
 *
 * @param entity of which the rows are
 * @param keys a SELECT of the keys of those that will go
 * @param delete what deletes some, up to their key
 */
record RowsGone(EntityModel entity, Text keys, String delete) {
    /**
     * Those of an entity and of the entities below it.
     *
     * @param name the statement's variable
     */
    static List<RowsGone> of(EntityModel entity, String name, Text where) {
        List<RowsGone> all = new ArrayList<>();
        for (Relation relation : entity.relations()) {
            if (relation.elements().isPresent()) {
                all.add(of(entity, relation, name, where));
            }
        }
        for (EntityModel below : entity.subEntities()) {
            of(below, name, where).stream().filter(rows -> all.stream().noneMatch(known -> known.delete.equals(rows.delete)))
                    .toList().forEach(all::add);
        }
        return all;
    }

    private static RowsGone of(EntityModel entity, Relation relation, String name, Text where) {
        String key = relation.target().key().parts().get(0).member();
        String row = "row_of_" + name;
        return new RowsGone(relation.target(), Text.of("SELECT " + row + "." + key + " FROM " + entity.mappedName() + " " + name + " JOIN " + name
                + "." + relation.member() + " " + row).add(where),
                "DELETE FROM " + relation.target().mappedName() + " r WHERE r." + key);
    }

    /** The keys of those that will go. */
    List<Object> found(Binding binding) {
        binding.clear();
        String written = keys.written(binding);
        List<Object> found = new ArrayList<>();
        binding.asking.rows(written, binding.parameters(), null, null, false).forEach(row -> found.add(row[0]));
        return found;
    }

    void delete(Binding binding, List<Object> found) {
        int most = Grammar.PROGRAM.list();
        for (int from = 0; from < found.size(); from += most) {
            binding.clear();
            String some = ConditionWriter.among(binding, delete, false, found.subList(from, Math.min(found.size(), from + most)));
            binding.asking.update(some, binding.parameters());
        }
    }
}
