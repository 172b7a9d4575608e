package karzhoul.jpa.context;

import java.util.ArrayList;
import java.util.Collection;
import java.util.Collections;
import java.util.IdentityHashMap;
import java.util.Iterator;
import java.util.LinkedHashSet;
import java.util.List;
import java.util.Map;
import java.util.Set;
import karzhoul.jpa.graph.AttributeGraph;
import karzhoul.jpa.graph.RootGraph;
import karzhoul.jpa.model.EntityModel;
import karzhoul.jpa.model.Relation;

/** Reads relations of instances that are there: what entity graphs name (chapter 3.7), and JOIN FETCH. */
final class Fetching {
    private final Context context;
    private final Map<AttributeGraph<?>, Set<Object>> done = new IdentityHashMap<>();

    Fetching(Context context) {
        this.context = context;
    }

    /** Reads a relation of these instances in one trip, where it isn't read; the members of all, each once. */
    List<Object> relation(Collection<?> owners, Relation relation) {
        Set<Entry> entries = new LinkedHashSet<>();
        for (Object owner : owners) {
            Entry entry = owner == null ? null : context.entryOf(owner);
            if (entry != null) {
                entries.add(entry);
            }
        }
        new Fill(context).fetch(entries, relation);
        return members(owners, relation);
    }

    private static List<Object> members(Collection<?> owners, Relation relation) {
        Set<Object> seen = Collections.newSetFromMap(new IdentityHashMap<>());
        List<Object> members = new ArrayList<>();
        for (Object owner : owners) {
            Object held = owner == null ? null : relation.get(owner);
            if (!LoadStates.isReadMember(held)) {
                continue;       // of an instance that was detached meanwhile
            }
            for (Object member : held instanceof Collection<?> many ? many : Collections.singletonList(held)) {
                if (member != null && seen.add(member)) {
                    members.add(member);
                }
            }
        }
        return members;
    }

    /** The instances with these keys, what isn't managed read in one trip; null for each without a row, and for null. */
    List<Object> found(EntityModel entity, List<Object> keys) {
        List<List<Object>> asked = new ArrayList<>();
        List<Entry> entries = new ArrayList<>();
        for (Object key : keys) {
            List<Object> columns = key == null ? null : entity.key().columnsOf(key);
            Entry known = columns == null ? null : context.identities().of(entity, columns);
            entries.add(known);
            if (columns != null && (known == null || known.isHollow())) {
                entries.set(entries.size() - 1, null);
                asked.add(columns);
            }
        }
        Iterator<Entry> read = asked.isEmpty() ? List.<Entry>of().iterator()
            : new Fill(context).found(Collections.nCopies(asked.size(), entity), asked).iterator();
        List<Object> found = new ArrayList<>(keys.size());
        for (int i = 0; i < entries.size(); i++) {
            Entry entry = entries.get(i) == null && keys.get(i) != null ? read.next() : entries.get(i);
            found.add(entry == null || entry.state() == Entry.State.REMOVED ? null : entry.instance());
        }
        return found;
    }

    /** Reads what a graph names of these instances, a relation after the other, each of all of them in one trip. */
    void graph(Collection<?> instances, RootGraph<?> graph) {
        within(graph, instances);
        graph.subclasses().forEach(below -> within(below, instances));
    }

    private void within(AttributeGraph<?> graph, Collection<?> instances) {
        Set<Object> seen = done.computeIfAbsent(graph, g -> Collections.newSetFromMap(new IdentityHashMap<>()));
        List<Object> owners = new ArrayList<>();
        for (Object instance : instances) {
            if (context.modelOf(instance).isA(graph.entity()) && seen.add(instance)) {
                owners.add(instance);
            }
        }
        if (owners.isEmpty()) {
            return;
        }
        for (AttributeGraph.Step step : graph.steps()) {
            List<Object> members = step.relation() == null ? owners : relation(owners, step.relation());
            step.subgraphs().forEach(part -> within(part, members));
        }
    }
}
