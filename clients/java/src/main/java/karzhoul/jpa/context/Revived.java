package karzhoul.jpa.context;

import jakarta.persistence.CascadeType;
import java.util.ArrayDeque;
import java.util.Deque;
import java.util.HashSet;
import java.util.List;
import java.util.Set;
import karzhoul.jpa.model.Relation;

/**
 * What is removed, and is managed again by the flush, since a relation that cascades PERSIST leads to it (chapter
 * 3.2.4). The others are not stored, so what they have need not fit.
 */
final class Revived {
    private Revived() {}

    static Set<Entry> of(Context context) {
        return of(context, Set.of());
    }

    /**
     * Also those of these, which would be removed, that stand in a relation of others: one that cascades PERSIST, or that
     * removes orphans itself.
     */
    static Set<Entry> of(Context context, Set<Entry> leaving) {
        Deque<Entry> work = new ArrayDeque<>();
        for (Entry entry : context.identities().numbered()) {
            if ((entry.isManaged() || entry.state() == Entry.State.NEW) && !leaving.contains(entry)) {
                work.add(entry);
            }
        }
        Set<Entry> revived = new HashSet<>();
        for (Entry at; (at = work.poll()) != null; ) {
            for (Relation relation : at.model().relations()) {
                boolean persists = relation.cascades().contains(CascadeType.PERSIST);
                if (persists || relation.removesOrphans()) {
                    for (Entry member : members(at, relation)) {
                        boolean isRemoved = member.state() == Entry.State.REMOVED;
                        if ((isRemoved ? persists : leaving.contains(member)) && revived.add(member)) {
                            work.add(member);
                        }
                    }
                }
            }
        }
        return revived;
    }

    /** What a relation has, as far as it was read. */
    @SuppressWarnings("unchecked")
    static List<Entry> members(Entry owner, Relation relation) {
        Object told = owner.relations[relation.place()];
        return told instanceof Entry one ? List.of(one) : told instanceof List<?> many ? (List<Entry>) many : List.of();
    }
}
