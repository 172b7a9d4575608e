package karzhoul.jpa.context;

import java.util.ArrayList;
import java.util.HashSet;
import java.util.LinkedHashMap;
import java.util.LinkedHashSet;
import java.util.List;
import java.util.Map;
import java.util.Set;
import karzhoul.jpa.model.Relation;

/** What a merge takes out of relations that remove orphans (chapter 2.9). */
final class MergedOrphans {
    private final Context context;
    private final Map<Entry, Map<Relation, List<Entry>>> before = new LinkedHashMap<>();

    MergedOrphans(Context context) {
        this.context = context;
    }

    /** Keeps what the images of these sources have, where the sources have read it. */
    void before(Map<Entry, Entry> images) {
        Map<Relation, Set<Entry>> merged = new LinkedHashMap<>();
        images.forEach((source, image) -> {
            for (Relation relation : image.model().relations()) {
                if (relation.removesOrphans() && (relation.isMany() || !relation.isOwner()) && source.model().isA(image.model())
                        && !Unread.is(relation.get(source.instance()))) {
                    merged.computeIfAbsent(relation, none -> new LinkedHashSet<>()).add(image);
                }
            }
        });
        merged.forEach(this::keep);
    }

    private void keep(Relation relation, Set<Entry> images) {
        List<Entry> unread = images.stream().filter(image -> image.isUnread(relation)).toList();
        if (!unread.isEmpty()) {
            new Fill(context).fetch(unread, relation);
        }
        for (Entry image : images) {
            if (image.isUnread(relation)) {         // the application has another list there
                new Targets(context).read(image, relation);
            }
            before.computeIfAbsent(image, none -> new LinkedHashMap<>()).put(relation, Revived.members(image, relation));
        }
    }

    /** Removes elements that they don't have any more; what else they have lost the flush looks at. */
    void settle() {
        List<Entry> elements = new ArrayList<>();
        before.forEach((image, had) -> {
            for (Relation relation : had.keySet()) {
                List<Entry> lost = new ArrayList<>(had.get(relation));
                lost.removeAll(new HashSet<>(Revived.members(image, relation)));
                if (image.isUnread(relation)) {
                    continue;
                } else if (relation.elements().isPresent()) {
                    lost.stream().filter(Entry::isManaged).forEach(elements::add);
                } else {
                    lost.forEach(member -> context.orphans().left(image, relation, member));
                }
            }
        });
        elements.forEach(element -> new Operations(context).remove(element));
    }
}
