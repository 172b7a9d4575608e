package karzhoul.jpa.model;

import jakarta.persistence.PersistenceException;
import java.util.ArrayList;
import java.util.LinkedHashMap;
import java.util.List;
import java.util.Map;
import java.util.function.Function;

/** Where a map of entities stands in an instance: to the mapping it is a relation to its values (chapter 2.7). */
final class MapPlace extends ShownPlace {
    private final String path;
    private Function<Object, Object> keyOf;

    MapPlace(Place where, String path) {
        super(where);
        this.path = path;
    }

    /** Members are found by this, which their attributes say. */
    void isKeyedBy(Function<Object, Object> key) {
        keyOf = key;
    }

    @Override
    Object looked(Object instance, Object held, ElementView view) {
        ((Map<?, ?>) held).forEach(this::checkKey);
        return new ArrayList<>(((Map<?, ?>) held).values());
    }

    private void checkKey(Object key, Object member) {
        Object own = member == null ? null : keyOf.apply(member);
        if (own != null && !own.equals(key)) {
            throw new PersistenceException(path + " has a member under the key " + key + ", and @MapKey says that it is "
                    + own + ": it would come back under that");
        }
    }

    @Override
    ElementView.Shown collection(Object instance, List<?> rows) {
        return new ElementMap(new ElementView(instance, this, rows));
    }

    @Override
    public Object shown(Object owner, List<?> members) {
        Map<Object, Object> map = new LinkedHashMap<>();
        members.forEach(member -> map.put(keyOf.apply(member), member));
        return map;
    }
}
