package karzhoul.jpa.context;

import jakarta.persistence.PersistenceException;
import java.io.Serializable;
import java.util.AbstractList;
import java.util.AbstractSet;
import java.util.Iterator;

/**
 * A collection that was serialized before it was read: whoever looks at it is refused, and a merge takes it as what
 * its image has.
 */
interface Unread {
    private static PersistenceException refused() {
        return new PersistenceException("the collection wasn't read before its owner was serialized");
    }

    /** Whether this is a collection that wasn't read: one of these, or a lazy one. */
    static boolean is(Object collection) {
        return collection instanceof Unread || collection instanceof Lazy lazy && !lazy.isRead();
    }

    /** In the place of a list or a collection. */
    final class OfList extends AbstractList<Object> implements Unread, Serializable {
        private static final long serialVersionUID = 1;

        @Override
        public Object get(int index) {
            throw refused();
        }

        @Override
        public int size() {
            throw refused();
        }
    }

    /** In the place of a set. */
    final class OfSet extends AbstractSet<Object> implements Unread, Serializable {
        private static final long serialVersionUID = 1;

        @Override
        public Iterator<Object> iterator() {
            throw refused();
        }

        @Override
        public int size() {
            throw refused();
        }
    }
}
