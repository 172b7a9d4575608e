package karzhoul.jpa.context;

import java.nio.ByteBuffer;
import java.util.ArrayList;
import java.util.Collection;
import java.util.HashMap;
import java.util.List;
import java.util.Map;
import karzhoul.jpa.model.Attribute;
import karzhoul.jpa.model.EntityModel;
import karzhoul.jpa.model.Relation;

/** Detached copies of one entity in one merged graph: one of them would overwrite what another has, without a word. */
final class MergedCopies {
    /** What stands for a new entity, which equals itself alone. */
    private record Itself(Object instance) {
        @Override
        public boolean equals(Object other) {
            return other instanceof Itself it && it.instance == instance;
        }

        @Override
        public int hashCode() {
            return System.identityHashCode(instance);
        }
    }

    private final Context context;

    MergedCopies(Context context) {
        this.context = context;
    }

    /**
     * Refuses copies of which each has something else.
     *
     * @param sources what is merged, each with its instance
     */
    void check(Map<Entry, Object> sources) {
        Map<List<Object>, Object> first = new HashMap<>();
        sources.forEach((source, instance) -> {
            Object other = source.key() == null ? null
                : first.putIfAbsent(List.of(source.model().root(), Identities.comparable(source.key())), instance);
            String path = other == null ? null : difference(source.model(), other, instance);
            if (path != null) {
                throw new IllegalStateException("Multiple representations of the same entity are being merged: two copies of "
                    + source + " differ in " + path + "; let the merged graph lead to one of them");
            }
        });
    }

    /** The path of what is stored of both, and isn't the same; null where all is. */
    private String difference(EntityModel model, Object one, Object other) {
        if (context.modelOf(one) != context.modelOf(other)) {
            return "their class";
        }
        for (Attribute attribute : model.attributes()) {
            if (attribute.role() == Attribute.Role.PLAIN && attribute.isUpdatable()
                    && !Values.isSame(attribute, attribute.get(one), Values.kept(attribute, attribute.get(other)))) {
                return attribute.path();
            }
        }
        for (Relation relation : model.relations()) {
            if ((relation.isOwner() || relation.removesOrphans())
                    && !Unread.is(relation.get(one)) && !Unread.is(relation.get(other))
                    && !counted(relation, one).equals(counted(relation, other))) {
                return relation.path();
            }
        }
        return null;
    }

    /** How often a relation has each member; where it keeps an order, each with its place. */
    private Map<Object, Integer> counted(Relation relation, Object owner) {
        Object value = relation.get(owner);
        Collection<?> members = value == null ? List.of() : value instanceof Collection<?> many ? many : List.of(value);
        Map<Object, Integer> counted = new HashMap<>();
        int place = 0;
        for (Object member : members) {
            Object identity = member == null ? List.of() : relation.elements().isPresent() ? columns(member) : identity(member);
            counted.merge(relation.listOrder().isPresent() ? List.of(place++, identity) : identity, 1, Integer::sum);
        }
        return counted;
    }

    private Object identity(Object member) {
        EntityModel model = context.modelOf(member);
        List<Object> key = Targets.keyOf(model, member);
        return key == null ? new Itself(member) : List.of(model.root(), Identities.comparable(key));
    }

    private List<Object> columns(Object element) {
        List<Object> columns = new ArrayList<>();
        for (Attribute attribute : context.modelOf(element).attributes()) {
            if (attribute.role() == Attribute.Role.PLAIN) {
                Object column = Values.column(attribute, attribute.get(element));
                columns.add(column instanceof byte[] bytes ? ByteBuffer.wrap(bytes) : column);
            }
        }
        return columns;
    }
}
