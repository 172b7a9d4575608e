package karzhoul.jpa.model;

import java.io.Serializable;
import java.util.AbstractList;
import java.util.ArrayList;
import java.util.Collection;
import java.util.RandomAccess;

/** A list or a collection of values, which are read when it is first looked at. */
final class ElementList extends AbstractList<Object> implements ElementView.Shown, RandomAccess, Serializable {
    private static final long serialVersionUID = 1;

    private final ElementView view;
    private transient ArrayList<Object> elements;

    ElementList(ElementView view) {
        this.view = view;
    }

    private ArrayList<Object> elements() {
        if (elements == null) {
            elements = new ArrayList<>((Collection<?>) view.read());
        }
        return elements;
    }

    @Override
    public ElementView view() {
        return view;
    }

    @Override
    public void look() {
        elements();
    }

    @Override
    public void forget() {
        elements = null;
        modCount++;
    }

    @Override
    public Object get(int index) {
        return elements().get(index);
    }

    @Override
    public int size() {
        return elements().size();
    }

    @Override
    public Object set(int index, Object element) {
        return elements().set(index, element);
    }

    @Override
    public void add(int index, Object element) {
        elements().add(index, element);
        modCount++;
    }

    @Override
    public Object remove(int index) {
        Object before = elements().remove(index);
        modCount++;
        return before;
    }

    @Override
    protected void removeRange(int from, int to) {
        elements().subList(from, to).clear();
        modCount++;
    }

    private Object writeReplace() {
        return view.isUnread() ? this : new ArrayList<>(elements());
    }
}
