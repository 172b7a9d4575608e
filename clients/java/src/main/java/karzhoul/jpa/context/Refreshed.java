package karzhoul.jpa.context;

import java.util.ArrayList;
import java.util.Collection;
import java.util.LinkedHashMap;
import java.util.List;
import java.util.Map;
import karzhoul.jpa.model.Attribute;
import karzhoul.jpa.model.Relation;

/** What instances have before they are read anew (chapter 3.2.5): where that fails, they have it again. */
final class Refreshed {
    /** What a relation holds, and the members of a collection, or null where these aren't read. */
    private record Held(Object held, Object members) {}

    private record Kept(Entry entry, Object[] values, List<Held> relations, Entry.Told told) {}

    private final List<Kept> kept = new ArrayList<>();

    Refreshed(Collection<Entry> entries) {
        for (Entry entry : entries) {
            Object[] values = entry.model().attributes().stream().map(it -> it.get(entry.instance())).toArray();
            List<Held> relations = entry.model().relations().stream().map(it -> held(it.held(entry.instance()))).toList();
            kept.add(new Kept(entry, values, relations, entry.told()));
        }
    }

    private static Held held(Object held) {
        return new Held(held, Unread.is(held) ? null : held instanceof Map<?, ?> map ? new LinkedHashMap<>(map)
            : held instanceof Collection<?> all ? new ArrayList<>(all) : null);
    }

    /** The program has read them: it is told anew of what was changed, and what another commit changed is stale. */
    void takeBack(Context context, Throwable failed) {
        try {
            kept.forEach(Refreshed::back);
            if (!context.isMarked() && context.engine().isRunning()) {
                new Carry(context).overFailedRefresh(kept.stream().map(Kept::entry).toList());
            }
        } catch (RuntimeException e) {
            failed.addSuppressed(e);
        }
    }

    private static void back(Kept before) {
        Entry entry = before.entry();
        for (Attribute attribute : entry.model().attributes()) {
            if (attribute.role() != Attribute.Role.KEY) {
                attribute.set(entry.instance(), before.values()[attribute.place()]);
            }
        }
        for (Relation relation : entry.model().relations()) {
            Held held = before.relations().get(relation.place());
            relation.hold(entry.instance(), held.held());
            fill(held);
        }
        entry.told(before.told());
    }

    @SuppressWarnings("unchecked")
    private static void fill(Held before) {
        if (before.held() instanceof Lazy lazy && before.members() != null) {
            lazy.fill((Collection<?>) before.members());
        } else if (before.members() instanceof Map<?, ?> members && !members.equals(before.held())) {
            ((Map<?, ?>) before.held()).clear();
            ((Map<Object, Object>) before.held()).putAll(members);
        } else if (before.members() instanceof List<?> members && !members.equals(List.copyOf((Collection<?>) before.held()))) {
            ((Collection<?>) before.held()).clear();
            ((Collection<Object>) before.held()).addAll(members);
        }
    }
}
