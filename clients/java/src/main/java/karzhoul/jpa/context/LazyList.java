package karzhoul.jpa.context;

import java.io.Serializable;
import java.util.AbstractList;
import java.util.ArrayList;
import java.util.Collection;
import java.util.List;
import java.util.RandomAccess;
import karzhoul.jpa.model.Relation;

/** A list or a collection of a relation, which reads its members when it is first looked at. */
final class LazyList extends AbstractList<Object> implements Lazy, RandomAccess, Serializable {
    private static final long serialVersionUID = 1;

    private final transient Entry owner;
    private final transient Relation relation;
    private ArrayList<Object> members;
    private transient boolean isChanged;

    LazyList(Entry owner, Relation relation) {
        this.owner = owner;
        this.relation = relation;
    }

    private ArrayList<Object> members() {
        if (members == null) {
            List<Object> read = Lazy.read(owner, relation);
            if (members == null) {
                fill(read);
            }
        }
        return members;
    }

    @Override
    public Entry owner() {
        return owner;
    }

    @Override
    public boolean isRead() {
        return members != null;
    }

    @Override
    public boolean isChanged() {
        return isChanged;
    }

    @Override
    public void clean() {
        isChanged = false;
    }

    @Override
    public void change() {
        isChanged = true;
    }

    @Override
    public void fill(Collection<?> now) {
        if (members != null) {
            modCount++;
        }
        members = new ArrayList<>(now);
        isChanged = false;
    }

    @Override
    public void forget() {
        members = null;
        modCount++;
    }

    @Override
    public Object get(int index) {
        return members().get(index);
    }

    @Override
    public int size() {
        return members().size();
    }

    @Override
    public boolean contains(Object member) {
        return members().contains(member);
    }

    @Override
    public Object set(int index, Object member) {
        Object before = members().set(index, member);
        isChanged = true;
        return before;
    }

    @Override
    public void add(int index, Object member) {
        members().add(index, member);
        modCount++;
        isChanged = true;
    }

    @Override
    public Object remove(int index) {
        Object before = members().remove(index);
        modCount++;
        isChanged = true;
        return before;
    }

    @Override
    protected void removeRange(int from, int to) {
        members().subList(from, to).clear();
        modCount++;
        isChanged = true;
    }

    @Override
    public Object[] toArray() {
        return members().toArray();
    }

    private Object writeReplace() {
        return isRead() ? new ArrayList<>(members) : new Unread.OfList();
    }
}
