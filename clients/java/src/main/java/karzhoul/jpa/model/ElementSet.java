package karzhoul.jpa.model;

import java.io.Serializable;
import java.util.AbstractSet;
import java.util.Collection;
import java.util.Iterator;
import java.util.LinkedHashSet;

/** A set of values, which are read when it is first looked at. */
final class ElementSet extends AbstractSet<Object> implements ElementView.Shown, Serializable {
    private static final long serialVersionUID = 1;

    private final ElementView view;
    private transient LinkedHashSet<Object> elements;

    ElementSet(ElementView view) {
        this.view = view;
    }

    private LinkedHashSet<Object> elements() {
        if (elements == null) {
            elements = new LinkedHashSet<>((Collection<?>) view.read());
        }
        return elements;
    }

    @Override
    public ElementView view() {
        return view;
    }

    @Override
    public void look() {
        elements();
    }

    @Override
    public void forget() {
        elements = null;
    }

    @Override
    public Iterator<Object> iterator() {
        return elements().iterator();
    }

    @Override
    public int size() {
        return elements().size();
    }

    @Override
    public boolean contains(Object element) {
        return elements().contains(element);
    }

    @Override
    public boolean add(Object element) {
        return elements().add(element);
    }

    @Override
    public boolean remove(Object element) {
        return elements().remove(element);
    }

    @Override
    public void clear() {
        elements().clear();
    }

    private Object writeReplace() {
        return view.isUnread() ? this : new LinkedHashSet<>(elements());
    }
}
