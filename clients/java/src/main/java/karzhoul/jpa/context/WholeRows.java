package karzhoul.jpa.context;

import jakarta.persistence.CascadeType;
import java.util.ArrayList;
import java.util.Collection;
import java.util.HashSet;
import java.util.LinkedHashMap;
import java.util.List;
import java.util.Map;
import java.util.Set;
import karzhoul.jpa.model.Relation;

/** Reads what goes with rows that are to be dropped, while it is there: where they are put back, it comes with them. */
final class WholeRows {
    private final Context context;

    WholeRows(Context context) {
        this.context = context;
    }

    /** Reads what these haven't read, and what their removal reaches. */
    void read(Collection<Entry> entries) {
        Set<Entry> seen = new HashSet<>(entries);
        Collection<Entry> level = entries;
        while (!level.isEmpty()) {
            readUnread(level);
            List<Entry> next = new ArrayList<>();
            for (Entry entry : level) {
                for (Relation relation : entry.model().relations()) {
                    if (removes(relation)) {
                        Revived.members(entry, relation).stream().filter(seen::add).forEach(next::add);
                    }
                }
            }
            level = next;
        }
    }

    private void readUnread(Collection<Entry> entries) {
        Map<Relation, List<Entry>> unread = new LinkedHashMap<>();
        for (Entry entry : entries) {
            if (entry.isStored() && entry.state() != Entry.State.DETACHED) {
                for (Relation relation : entry.model().relations()) {
                    if (relation.isMany() && (relation.isOwner() || removes(relation)) && entry.isUnread(relation)) {
                        unread.computeIfAbsent(relation, none -> new ArrayList<>()).add(entry);
                    }
                }
            }
        }
        unread.forEach((relation, owners) -> new Fill(context).fetch(owners, relation));
    }

    private static boolean removes(Relation relation) {
        return relation.removesOrphans() || relation.cascades().contains(CascadeType.REMOVE);
    }
}
