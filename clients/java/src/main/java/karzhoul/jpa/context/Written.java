package karzhoul.jpa.context;

import java.util.ArrayList;
import java.util.Collection;
import java.util.List;
import java.util.Map;
import karzhoul.jpa.model.Attribute;
import karzhoul.jpa.model.Relation;

/** What was written to the fields of a proxy before it was read: it is written again over what its row has. */
final class Written {
    private record Value(Attribute attribute, Object value) {}

    /**
     * What stands in a relation.
     *
     * @param added what was added to the collection that its class gives a new instance; null where it was replaced
     */
    record Held(Relation relation, Object held, List<Object> added) {}

    private final List<Value> values = new ArrayList<>();
    private final List<Held> relations = new ArrayList<>();

    void add(Attribute attribute, Object value) {
        values.add(new Value(attribute, value));
    }

    void add(Held held) {
        relations.add(held);
    }

    /** Writes it over what an instance has been read with. */
    void over(Object instance) {
        values.forEach(each -> each.attribute().set(instance, each.value()));
        relations.forEach(each -> over(instance, each));
    }

    @SuppressWarnings("unchecked")
    private static void over(Object instance, Held each) {
        Object read = each.added() == null ? null : each.relation().held(instance);
        if (read instanceof Map<?, ?>) {
            each.added().forEach(one -> ((Map<Object, Object>) read)
                .put(((Map.Entry<?, ?>) one).getKey(), ((Map.Entry<?, ?>) one).getValue()));
        } else if (read != null) {
            ((Collection<Object>) read).addAll(each.added());
        } else {
            each.relation().hold(instance, each.held());
        }
    }

    /** Whether it leads to other instances. */
    boolean leadsOn() {
        return relations.stream().anyMatch(each -> each.held() != null);
    }

    /** The paths of what was written: {@code name}, or {@code name, place.city and orders}. */
    String paths() {
        List<String> paths = new ArrayList<>();
        values.forEach(each -> paths.add(each.attribute().path()));
        relations.forEach(each -> paths.add(each.relation().path()));
        int last = paths.size() - 1;
        return last == 0 ? paths.get(0) : String.join(", ", paths.subList(0, last)) + " and " + paths.get(last);
    }
}
