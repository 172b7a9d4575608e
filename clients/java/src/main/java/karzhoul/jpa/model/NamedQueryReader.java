package karzhoul.jpa.model;

import jakarta.persistence.NamedQuery;
import jakarta.persistence.QueryHint;
import java.util.Collection;
import java.util.HashMap;
import java.util.LinkedHashMap;
import java.util.LinkedHashSet;
import java.util.Map;
import java.util.Set;

/** Reads the named queries of entities and mapped superclasses (chapter 10.4). */
final class NamedQueryReader {
    private final Faults faults;

    NamedQueryReader(Faults faults) {
        this.faults = faults;
    }

    Map<String, UnitModel.Named> read(Collection<Class<?>> classes) {
        Map<String, UnitModel.Named> all = new HashMap<>();
        Map<String, Class<?>> places = new HashMap<>();
        for (Class<?> javaClass : withSuperclasses(classes)) {
            for (NamedQuery query : Repeated.of(javaClass, NamedQuery.class)) {
                Map<String, Object> hints = new LinkedHashMap<>();
                for (QueryHint hint : query.hints()) {
                    hints.put(hint.name(), hint.value());
                }
                Class<?> other = places.putIfAbsent(query.name(), javaClass);
                if (other != null) {
                    faults.add(javaClass, "its query " + query.name() + " has the name of one of " + other.getName(),
                            "Name one of them otherwise");
                }
                all.put(query.name(), new UnitModel.Named(query.name(), query.query(), hints));
            }
        }
        return all;
    }

    private static Set<Class<?>> withSuperclasses(Collection<Class<?>> classes) {
        Set<Class<?>> all = new LinkedHashSet<>();
        for (Class<?> javaClass : classes) {
            for (Class<?> at = javaClass; at != null && at != Object.class; at = at.getSuperclass()) {
                all.add(at);
            }
        }
        return all;
    }
}
