package karzhoul.jpa.query;

import java.util.ArrayList;
import java.util.Arrays;
import java.util.List;
import java.util.stream.Collectors;
import karzhoul.jpa.model.EntityModel;
import karzhoul.jpa.model.ListOrder;
import karzhoul.jpa.model.Relation;
import karzhoul.jpa.model.Unique;

/**
 * The orders of one list of entities, which go with the owners that a DELETE deletes.
 *
 * @param keys a SELECT of the keys of those that will go
 */
record OrdersGone(ListOrder order, Text keys) {
    /**
     * Those of an entity and of the entities below it.
     *
     * @param name the statement's variable
     */
    static List<OrdersGone> of(EntityModel entity, String name, Text where) {
        List<OrdersGone> all = new ArrayList<>();
        for (Relation relation : entity.relations()) {
            relation.listOrder().ifPresent(order -> all.add(new OrdersGone(order, keys(entity, name).add(where))));
        }
        for (EntityModel below : entity.subEntities()) {
            of(below, name, where).stream().filter(gone -> all.stream().noneMatch(known -> known.order == gone.order))
                    .toList().forEach(all::add);
        }
        return all;
    }

    private static Text keys(EntityModel entity, String name) {
        return Text.of("SELECT " + entity.key().parts().stream().map(part -> name + "." + part.member())
                .collect(Collectors.joining(", ")) + " FROM " + entity.mappedName() + " " + name);
    }

    /** The keys of those that will go, each in one text. */
    List<String> owners(Binding binding) {
        binding.clear();
        String written = keys.written(binding);
        return binding.asking.rows(written, binding.parameters(), null, null, false).stream()
                .map(key -> Unique.owner(Arrays.asList(key))).toList();
    }
}
