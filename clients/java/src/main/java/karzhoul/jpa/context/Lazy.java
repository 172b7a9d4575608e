package karzhoul.jpa.context;

import jakarta.persistence.PersistenceException;
import java.util.Collection;
import java.util.List;
import karzhoul.jpa.model.ReadLater;
import karzhoul.jpa.model.Relation;

/** A collection of the door's: it reads its members when it is first looked at (chapter 11.1.6: LAZY). */
interface Lazy extends ReadLater {
    /** Whose relation it is; null once it was serialized. */
    Entry owner();

    @Override
    default boolean isReadable() {
        return isRead() || owner() != null && owner().context() != null;
    }

    /** Whether its members were changed since {@link #clean}. */
    boolean isChanged();

    void clean();

    /** What the program knows of its members may be another now. */
    void change();

    /** Gives it its members. */
    void fill(Collection<?> members);

    /** Lets it read its members anew when it is next looked at. */
    void forget();

    /** A collection of a relation, not read yet. */
    static Lazy of(Entry owner, Relation relation) {
        return relation.container() == Relation.Container.SET
            ? new LazySet(owner, relation) : new LazyList(owner, relation);
    }

    /** Reads the members of a relation. */
    static List<Object> read(Entry owner, Relation relation) {
        if (owner == null || owner.context() == null) {
            throw new PersistenceException((owner == null ? "" : owner + ".") + relation.path()
                + " wasn't read before its owner was detached: read it, or fetch it by JOIN FETCH, while its entity"
                + " manager has it");
        }
        return owner.context().readMembers(owner, relation);
    }
}
