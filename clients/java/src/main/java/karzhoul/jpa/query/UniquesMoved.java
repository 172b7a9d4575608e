package karzhoul.jpa.query;

import java.nio.ByteBuffer;
import java.util.ArrayList;
import java.util.Arrays;
import java.util.HashMap;
import java.util.LinkedHashSet;
import java.util.List;
import java.util.Map;
import java.util.Set;
import java.util.function.Predicate;
import java.util.stream.Collectors;
import karzhoul.jpa.model.Attribute;
import karzhoul.jpa.model.EntityModel;
import karzhoul.jpa.model.Unique;

/**
 * The unique values of what an UPDATE or a DELETE changes: they are read before it and after it.
 *
 * @param keys a SELECT of the keys of those that will be changed
 */
record UniquesMoved(Unique unique, Text keys) {
    private static final int MOST_KEYS = 500;
    private static final int MOST_WHOLE_KEYS = 50;

    /** Who had what before the change. */
    record Before(UniquesMoved of, List<List<Object>> keys, Map<List<Object>, List<Object>> values) {
        /** What the change moved. */
        List<Asking.Moved> after(Binding binding) {
            Map<List<Object>, List<Object>> now = of.values(binding, keys);
            return keys.stream().map(key -> new Asking.Moved(of.unique, key, values.get(comparable(key)),
                    now.get(comparable(key)))).toList();
        }
    }

    /**
     * Those of an entity and of the entities below it.
     *
     * @param name the statement's variable
     * @param isConcerned whether the statement changes its columns
     */
    static List<UniquesMoved> of(EntityModel entity, String name, Text where, Predicate<Unique> isConcerned) {
        Map<Unique, EntityModel> found = new HashMap<>();
        Set<Unique> ordered = new LinkedHashSet<>();
        collect(entity, found, ordered);
        return ordered.stream().filter(isConcerned).map(unique -> new UniquesMoved(unique, Text.of("SELECT "
                + key(unique, name) + " FROM " + found.get(unique).mappedName() + " " + name).add(where))).toList();
    }

    private static void collect(EntityModel entity, Map<Unique, EntityModel> found, Set<Unique> ordered) {
        for (Unique unique : entity.uniques()) {
            found.putIfAbsent(unique, entity);
            ordered.add(unique);
        }
        entity.subEntities().forEach(below -> collect(below, found, ordered));
    }

    private static String key(Unique unique, String name) {
        return unique.entity().key().parts().stream().map(part -> name + "." + part.member())
                .collect(Collectors.joining(", "));
    }

    /** Reads who will be changed, and what they have. */
    Before before(Binding binding) {
        binding.clear();
        String written = keys.written(binding);
        return before(binding, binding.asking.rows(written, binding.parameters(), null, null, false).stream()
                .map(Arrays::asList).toList());
    }

    private Before before(Binding binding, List<List<Object>> found) {
        return new Before(this, found, values(binding, found));
    }

    /** What a DELETE of rows by their keys takes along. */
    static List<Before> of(EntityModel rows, Binding binding, List<Object> keys) {
        List<List<Object>> found = keys.stream().map(List::of).toList();
        return rows.uniques().stream().map(unique -> new UniquesMoved(unique, null).before(binding, found)).toList();
    }

    private Map<List<Object>, List<Object>> values(Binding binding, List<List<Object>> found) {
        int parts = unique.entity().key().parts().size();
        int most = parts == 1 ? MOST_KEYS : MOST_WHOLE_KEYS;
        Map<List<Object>, List<Object>> values = new HashMap<>();
        for (int from = 0; from < found.size(); from += most) {
            List<Asking.Parameter> parameters = new ArrayList<>();
            String text = "SELECT " + key(unique, "u") + ", " + String.join(", ", unique.paths("u")) + " FROM "
                    + unique.entity().mappedName() + " u WHERE "
                    + where(found.subList(from, Math.min(found.size(), from + most)), parameters);
            for (Object[] row : binding.asking.rows(text, parameters, null, null, false)) {
                List<Object> columns = Arrays.asList(row).subList(parts, row.length);
                if (!columns.contains(null)) {
                    values.put(comparable(Arrays.asList(row).subList(0, parts)), columns);
                }
            }
        }
        return values;
    }

    private String where(List<List<Object>> some, List<Asking.Parameter> parameters) {
        List<Attribute> key = unique.entity().key().parts();
        List<String> each = new ArrayList<>();
        for (List<Object> one : some) {
            List<String> equal = new ArrayList<>();
            for (int i = 0; i < key.size(); i++) {
                String name = "k" + parameters.size();
                parameters.add(new Asking.Parameter(name, one.get(i)));
                equal.add(key.size() == 1 ? ":" + name : "u." + key.get(i).member() + " = :" + name);
            }
            each.add(String.join(" AND ", equal));
        }
        return key.size() == 1 ? "u." + key.get(0).member() + " IN (" + String.join(", ", each) + ")"
                : "(" + String.join(") OR (", each) + ")";
    }

    private static List<Object> comparable(List<Object> key) {
        return key.stream().map(part -> part instanceof byte[] bytes ? (Object) ByteBuffer.wrap(bytes) : part).toList();
    }
}
