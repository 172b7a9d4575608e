package karzhoul.jpa.context;

import java.nio.charset.StandardCharsets;
import java.util.ArrayList;
import java.util.Collection;
import java.util.Comparator;
import java.util.HashMap;
import java.util.LinkedHashMap;
import java.util.LinkedHashSet;
import java.util.List;
import java.util.Map;
import java.util.Set;
import karzhoul.jpa.context.HiddenRows.Key;
import karzhoul.jpa.context.HiddenRows.Row;
import karzhoul.jpa.engine.Event;
import karzhoul.jpa.model.Callbacks;
import karzhoul.jpa.model.EntityModel;
import karzhoul.jpa.model.ListOrder;
import karzhoul.jpa.model.Relation;
import karzhoul.jpa.model.Unique;

/**
 * Keeps the orders of lists of entities (chapter 11.1.43). The program knows who is a member; in which order is told
 * by rows that follow a flush. Members of which these don't tell are at the end. One for each context.
 */
final class ListOrders {
    private static final int PART_BYTES = 60_000;
    private static final int MOST_OWNERS = 500;

    /** A list whose order may have changed. */
    private record Changed(Entry owner, Relation relation) {}

    private final Context context;
    private final Set<Changed> changed = new LinkedHashSet<>();
    private final List<Entry> gone = new ArrayList<>();

    ListOrders(Context context) {
        this.context = context;
    }

    /** Whether the entity has lists with an order. */
    static boolean isOrdered(EntityModel model) {
        return model.relations().stream().anyMatch(relation -> relation.listOrder().isPresent());
    }

    /** The members of a list are others, or in another order. */
    void changed(Entry owner, Relation relation) {
        if (relation.listOrder().isPresent()) {
            changed.add(new Changed(owner, relation));
        }
    }

    /** Takes what a flush wrote: with an owner the orders of its lists go. */
    void note(Event event, Entry entry) {
        if (event.kind() == Callbacks.Event.PostRemove && isOrdered(entry.model())) {
            gone.add(entry);
        }
    }

    /** The owners of these keys, each in one text, were deleted by a statement. */
    void gone(ListOrder order, List<String> owners) {
        Map<String, List<String>> wanted = new LinkedHashMap<>();
        owners.forEach(owner -> wanted.put(owner, List.of()));
        write(order, wanted);
    }

    /** Lets the rows follow what a flush wrote; their own flush is still to come. */
    void settle() {
        if (changed.isEmpty() && gone.isEmpty()) {
            return;
        }
        Map<ListOrder, Map<String, List<String>>> wanted = new LinkedHashMap<>();
        for (Changed each : changed) {
            if (each.owner().isManaged() && each.owner().key() != null && !each.owner().isUnread(each.relation())) {
                wanted.computeIfAbsent(each.relation().listOrder().get(), none -> new LinkedHashMap<>())
                    .put(Unique.owner(each.owner().key()), parts(each.owner(), each.relation()));
            }
        }
        for (Entry owner : gone) {
            for (Relation relation : owner.model().relations()) {
                relation.listOrder().ifPresent(order -> wanted.computeIfAbsent(order, none -> new LinkedHashMap<>())
                    .put(Unique.owner(owner.key()), List.of()));
            }
        }
        changed.clear();
        gone.clear();
        wanted.forEach(this::write);
    }

    @SuppressWarnings("unchecked")
    private static List<String> parts(Entry owner, Relation relation) {
        List<String> parts = new ArrayList<>();
        StringBuilder part = new StringBuilder();
        int bytes = 0;
        for (Entry member : (List<Entry>) owner.relations[relation.place()]) {
            String text = text(member) + "\n";
            int more = text.getBytes(StandardCharsets.UTF_8).length;
            if (bytes + more > PART_BYTES && bytes > 0) {
                parts.add(part.toString());
                part.setLength(0);
                bytes = 0;
            }
            part.append(text);
            bytes += more;
        }
        if (bytes > 0) {
            parts.add(part.toString());
        }
        return parts;
    }

    private static String text(Entry member) {
        return member.key() == null ? "" : Unique.owner(member.key()).replace("\\", "\\\\").replace("\n", "\\n");
    }

    private void write(ListOrder order, Map<String, List<String>> wanted) {
        Map<String, Map<Long, String>> there = read(order, wanted.keySet());
        Map<Key<ListOrder>, String> puts = new LinkedHashMap<>();
        wanted.forEach((owner, parts) -> {
            Map<Long, String> before = there.getOrDefault(owner, Map.of());
            for (long part = 0; part < Math.max(parts.size(), before.size()); part++) {
                String now = part < parts.size() ? parts.get((int) part) : null;
                if (now == null || !now.equals(before.get(part))) {
                    puts.put(new Key<>(order, List.of(owner, part)), now);
                }
            }
        });
        Map<Key<ListOrder>, Row> rows = context.hiddenRows().find(puts.keySet());
        puts.forEach((key, content) -> {
            if (content != null) {
                context.hiddenRows().put(key, rows.get(key), content);
            } else if (rows.containsKey(key)) {
                context.hiddenRows().remove(key, rows.get(key));
            }
        });
    }

    /** The parts of these owners' orders, by their numbers. */
    private Map<String, Map<Long, String>> read(ListOrder order, Collection<String> owners) {
        List<String> all = new ArrayList<>(owners);
        Map<String, Map<Long, String>> parts = new HashMap<>();
        for (int from = 0; from < all.size(); from += MOST_OWNERS) {
            List<Object> parameters = new ArrayList<>();
            List<String> names = new ArrayList<>();
            for (String owner : all.subList(from, Math.min(all.size(), from + MOST_OWNERS))) {
                String name = "k" + names.size();
                parameters.add(name);
                parameters.add(owner);
                names.add(":" + name);
            }
            String text = "SELECT o." + String.join(", o.", order.keyMembers()) + ", o." + order.content() + " FROM "
                + order.mappedName() + " o WHERE o." + order.keyMembers().get(0) + " IN (" + String.join(", ", names) + ")";
            int before = context.queue().count();
            context.queue().statement("query", context.manager(), text, parameters, null, null).about(order);
            for (Object row : context.ask(before)[0].list()) {
                List<?> items = (List<?>) row;
                parts.computeIfAbsent((String) items.get(0), none -> new HashMap<>())
                    .put((Long) items.get(1), (String) items.get(2));
            }
        }
        return parts;
    }

    /** The members of a list in their order. */
    List<Entry> sorted(Entry owner, Relation relation, List<Entry> members) {
        if (relation.listOrder().isEmpty() || members.size() < 2) {
            return members;
        }
        return places(relation.listOrder().get(), List.of(owner)).sorted(owner, members);
    }

    /** Who is where in the lists of some owners. */
    record Places(Map<String, Map<String, Integer>> byOwner) {
        List<Entry> sorted(Entry owner, List<Entry> members) {
            Map<String, Integer> places = byOwner.getOrDefault(Unique.owner(owner.key()), Map.of());
            List<Entry> sorted = new ArrayList<>(members);
            sorted.sort(Comparator.comparing(member -> places.getOrDefault(text(member), Integer.MAX_VALUE)));
            return sorted;
        }
    }

    /** Reads the orders of these owners in one trip. */
    Places places(ListOrder order, Collection<Entry> owners) {
        Map<String, Map<String, Integer>> places = new HashMap<>();
        read(order, owners.stream().map(owner -> Unique.owner(owner.key())).distinct().toList()).forEach((owner, parts) -> {
            Map<String, Integer> ofOwner = places.computeIfAbsent(owner, none -> new HashMap<>());
            for (long part = 0; parts.containsKey(part); part++) {
                for (String member : parts.get(part).split("\n")) {
                    ofOwner.putIfAbsent(member, ofOwner.size());
                }
            }
        });
        return new Places(places);
    }

    /** The transaction has ended, or its manager was cleared. */
    void forget() {
        if (!changed.isEmpty() || !gone.isEmpty()) {
            changed.clear();
            gone.clear();
        }
    }
}
