package karzhoul.jpa.criteria;

import java.util.ArrayList;
import java.util.List;
import karzhoul.jpa.query.Built;
import karzhoul.jpa.query.Tree;

/** Writes an UPDATE or a DELETE. */
final class ChangeWriting {
    private final Writing to;

    ChangeWriting(Writing to) {
        this.to = to;
    }

    /** The statement of an UPDATE. */
    Built update(UpdateOf<?> update) {
        int at = to.at();
        Tree.Range range = range("UPDATE ", update.changed());
        if (update.sets().isEmpty()) {
            throw new IllegalStateException("an UPDATE sets nothing");
        }
        List<Tree.Assignment> assignments = new ArrayList<>();
        for (UpdateOf.Set set : update.sets()) {
            Tree.Value path = to.add(assignments.isEmpty() ? " SET " : ", ").value(set.path());
            assignments.add(new Tree.Assignment(path, to.add(" = ").value(set.value())));
        }
        return to.built(new Tree.Update(at, range, assignments, where(update.changed())), null);
    }

    /** The statement of a DELETE. */
    Built delete(DeleteOf<?> delete) {
        int at = to.at();
        Tree.Range range = range("DELETE FROM ", delete.changed());
        return to.built(new Tree.Delete(at, range, where(delete.changed())), null);
    }

    private Tree.Range range(String word, Changed<?> changed) {
        RootOf<?> root = changed.root();
        if (!root.joins().isEmpty() || !root.fetches().isEmpty()) {
            throw new IllegalArgumentException("an UPDATE or DELETE has no joins; ask by a subquery");
        }
        int at = to.add(word).at();
        String name = to.declare(root);
        to.add(root.getModel().getName() + " " + name);
        return new Tree.Range(at, root.getModel().getName(), name, null);
    }

    private Tree.Condition where(Changed<?> changed) {
        return changed.where == null ? null : to.add(" WHERE ").condition(changed.where);
    }
}
