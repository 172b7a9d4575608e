package karzhoul.jpa.context;

import java.util.ArrayDeque;
import java.util.Collection;
import java.util.Collections;
import java.util.Deque;
import java.util.IdentityHashMap;
import java.util.LinkedHashSet;
import java.util.List;
import java.util.Set;
import java.util.function.Predicate;
import karzhoul.jpa.model.Relation;
import karzhoul.jpa.model.UnkeptElements;

/** Walks instances along relations, as far as they were read; each instance once, the nearest first. */
final class Graph {
    private final Context context;
    private final Set<Object> seen = Collections.newSetFromMap(new IdentityHashMap<>());

    Graph(Context context) {
        this.context = context;
    }

    /** Whether it is met for the first time. */
    boolean add(Object instance) {
        return seen.add(instance);
    }

    /** Adds what a relation of an instance leads to, and that wasn't met. */
    void along(Object instance, Relation relation, Collection<Object> work) {
        Entry entry = context.entryOf(instance);
        if (entry == null ? isForeignProxy(instance) : entry.isHollow()) {
            return;
        }
        for (Object member : members(relation.get(instance))) {
            if (relation.isMany() && !WrongMembers.isFit(relation, member)) {
                throw context.marked(new IllegalArgumentException(
                    WrongMembers.told(entry == null ? "a new " + context.modelOf(instance).name() : entry, relation, member)));
            }
            if (seen.add(member)) {
                work.add(member);
            }
        }
    }

    static boolean isForeignProxy(Object instance) {
        Object known = Proxies.known(instance);
        return known instanceof Plain.Key || known instanceof Entry entry && entry.isHollow();
    }

    /** What stands in a relation, as far as it was read. */
    static Collection<?> members(Object value) {
        if (value == null || Unread.is(value)) {
            return List.of();
        }
        return value instanceof Collection<?> members ? List.copyOf(asList(members)) : List.of(value);
    }

    private static Collection<?> asList(Collection<?> members) {
        return members.stream().filter(member -> member != null).toList();
    }

    /** The entries that this operation goes on to from a managed one, itself first. */
    Set<Entry> entries(Entry root, Predicate<Relation> cascades) {
        Set<Entry> reached = new LinkedHashSet<>();
        Deque<Object> work = new ArrayDeque<>(List.of(root.instance()));
        seen.add(root.instance());
        for (Object instance; (instance = work.poll()) != null; ) {
            Entry entry = context.entryOf(instance);
            if (entry != null) {
                reached.add(entry);
            }
            for (Relation relation : context.modelOf(instance).relations()) {
                if (cascades.test(relation)) {
                    alongWhatFits(instance, relation, work);
                }
            }
        }
        return reached;
    }

    /** Elements that can't be kept are no objects of the program: nothing goes on to them. */
    private void alongWhatFits(Object instance, Relation relation, Collection<Object> work) {
        try {
            along(instance, relation, work);
        } catch (UnkeptElements unkept) {
            System.getLogger("karzhoul").log(System.Logger.Level.TRACE, "they go with what the program has", unkept);
        }
    }
}
