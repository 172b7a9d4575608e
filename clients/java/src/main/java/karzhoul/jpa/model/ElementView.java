package karzhoul.jpa.model;

import java.io.Serializable;
import java.util.List;

/** What a collection of the door's has of the rows that its elements are made of. Serialized, it is of nobody. */
final class ElementView implements Serializable {
    private static final long serialVersionUID = 1;

    private final transient Object owner;
    private final transient Maker maker;
    private List<?> rows;
    private transient boolean isLookedAt;

    /** What makes elements of rows. */
    interface Maker {
        /** The elements of an instance, of which these are the rows: a list, or a map. */
        Object shown(Object owner, List<?> rows);
    }

    /** A collection of the door's: its elements are made of rows when it is first looked at. */
    interface Shown {
        ElementView view();

        /** Reads it, where nobody has looked at it. */
        void look();

        /** Its rows are others: it is as one that nobody has looked at. */
        void forget();
    }

    ElementView(Object owner, Maker maker, List<?> rows) {
        this.owner = owner;
        this.maker = maker;
        this.rows = rows;
    }

    /** That of a collection of this instance; null of any other collection. */
    static ElementView of(Object held, Object instance) {
        return held instanceof Shown shown && shown.view().isOf(instance) ? shown.view() : null;
    }

    private boolean isOf(Object instance) {
        return owner == instance || owner == null;
    }

    boolean isLookedAt() {
        return isLookedAt;
    }

    List<?> rows() {
        return rows;
    }

    void rows(List<?> now, boolean isLookedAtNow) {
        rows = now;
        isLookedAt = isLookedAtNow;
    }

    boolean isUnread() {
        return !isLookedAt && (owner == null || rows instanceof ReadLater later && !later.isRead());
    }

    /** Whether nobody has looked at it, and it can be read still. */
    boolean canBeRead() {
        return !isLookedAt && !(rows instanceof ReadLater later && !later.isReadable());
    }

    /** The elements of the rows, which are read now: a list, or a map. */
    Object read() {
        List<?> read = List.copyOf(rows);
        isLookedAt = true;
        return maker.shown(owner, read);
    }
}
