package karzhoul.jpa.context;

import jakarta.persistence.CascadeType;
import java.util.ArrayList;
import java.util.List;
import karzhoul.jpa.engine.Lines;
import karzhoul.jpa.model.Relation;

/**
 * Collections of values that are to be read anew while the program was told of others: rows that the database doesn't
 * have can't be read again, so they go, and those that were taken out come back (chapter 3.2.5).
 */
final class ToldElements {
    private final Context context;
    private final Lines queue;

    ToldElements(Context context) {
        this.context = context;
        queue = context.queue();
    }

    /** Takes back what was told of this one's collections, and of those that refresh goes on to. */
    void takeBack(Entry root) {
        for (Entry entry : new Graph(context).entries(root, it -> it.cascades().contains(CascadeType.REFRESH))) {
            if (entry.isTouched() && entry.isManaged()) {
                entry.model().relations().stream().filter(it -> it.elements().isPresent())
                    .forEach(relation -> takeBack(entry, relation));
            }
        }
    }

    @SuppressWarnings("unchecked")
    private void takeBack(Entry owner, Relation relation) {
        Object row = owner.rowRelations()[relation.place()];
        Object told = owner.relations[relation.place()];
        if (row == told || !(row instanceof List<?>) || !(told instanceof List<?>)) {
            return;
        }
        List<Entry> before = (List<Entry>) row;
        List<Entry> now = (List<Entry>) told;
        for (Entry element : now) {
            if (!before.contains(element)) {
                queue.takeOut(owner.number(), relation.member(), element.number()).about(owner);
                if (!element.isStored()) {
                    queue.detach(context.manager(), element.number()).about(owner);
                    context.forget(element);
                }
            }
        }
        for (Entry element : before) {
            if (!now.contains(element) && element.isManaged()) {        // what a merge has removed comes back by itself
                queue.add(owner.number(), relation.member(), element.number()).about(owner);
            }
        }
        owner.relations[relation.place()] = new ArrayList<>(before);
    }
}
