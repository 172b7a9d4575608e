package karzhoul.jpa.context;

import java.io.Serializable;
import java.util.AbstractSet;
import java.util.Collection;
import java.util.Iterator;
import java.util.LinkedHashSet;
import java.util.List;
import karzhoul.jpa.model.Relation;

/** A set of a relation, which reads its members when it is first looked at. */
final class LazySet extends AbstractSet<Object> implements Lazy, Serializable {
    private static final long serialVersionUID = 1;

    private final transient Entry owner;
    private final transient Relation relation;
    private LinkedHashSet<Object> members;
    private transient boolean isChanged;

    LazySet(Entry owner, Relation relation) {
        this.owner = owner;
        this.relation = relation;
    }

    private LinkedHashSet<Object> members() {
        if (members == null) {
            List<Object> read = Lazy.read(owner, relation);
            if (members == null) {
                fill(read);
            }
        }
        return members;
    }

    @Override
    public Entry owner() {
        return owner;
    }

    @Override
    public boolean isRead() {
        return members != null;
    }

    @Override
    public boolean isChanged() {
        return isChanged;
    }

    @Override
    public void clean() {
        isChanged = false;
    }

    @Override
    public void change() {
        isChanged = true;
    }

    @Override
    public void fill(Collection<?> now) {
        members = new LinkedHashSet<>(now);
        isChanged = false;
    }

    @Override
    public void forget() {
        members = null;
    }

    @Override
    public Iterator<Object> iterator() {
        Iterator<Object> inside = members().iterator();
        return new Iterator<>() {
            @Override
            public boolean hasNext() {
                return inside.hasNext();
            }

            @Override
            public Object next() {
                return inside.next();
            }

            @Override
            public void remove() {
                inside.remove();
                isChanged = true;
            }
        };
    }

    @Override
    public int size() {
        return members().size();
    }

    @Override
    public boolean add(Object member) {
        boolean isNew = members().add(member);
        isChanged |= isNew;
        return isNew;
    }

    @Override
    public boolean remove(Object member) {
        boolean wasThere = members().remove(member);
        isChanged |= wasThere;
        return wasThere;
    }

    @Override
    public boolean contains(Object member) {
        return members().contains(member);
    }

    @Override
    public void clear() {
        isChanged |= !members().isEmpty();
        members.clear();
    }

    private Object writeReplace() {
        return isRead() ? new LinkedHashSet<>(members) : new Unread.OfSet();
    }
}
