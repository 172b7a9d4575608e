package karzhoul.jpa.model;

import java.io.Serializable;
import java.util.AbstractMap;
import java.util.LinkedHashMap;
import java.util.Map;
import java.util.Set;

/** A map of values, which are read when it is first looked at. */
final class ElementMap extends AbstractMap<Object, Object> implements ElementView.Shown, Serializable {
    private static final long serialVersionUID = 1;

    private final ElementView view;
    private transient LinkedHashMap<Object, Object> elements;

    ElementMap(ElementView view) {
        this.view = view;
    }

    private LinkedHashMap<Object, Object> elements() {
        if (elements == null) {
            elements = new LinkedHashMap<>((Map<?, ?>) view.read());
        }
        return elements;
    }

    @Override
    public ElementView view() {
        return view;
    }

    @Override
    public void look() {
        elements();
    }

    @Override
    public void forget() {
        elements = null;
    }

    @Override
    public Set<Entry<Object, Object>> entrySet() {
        return elements().entrySet();
    }

    @Override
    public Set<Object> keySet() {
        return elements().keySet();
    }

    @Override
    public Object get(Object key) {
        return elements().get(key);
    }

    @Override
    public boolean containsKey(Object key) {
        return elements().containsKey(key);
    }

    @Override
    public Object put(Object key, Object value) {
        return elements().put(key, value);
    }

    @Override
    public Object remove(Object key) {
        return elements().remove(key);
    }

    private Object writeReplace() {
        return view.isUnread() ? this : new LinkedHashMap<>(elements());
    }
}
