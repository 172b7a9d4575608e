package karzhoul.jpa.context;

import java.nio.ByteBuffer;
import java.util.ArrayList;
import java.util.Collection;
import java.util.Collections;
import java.util.HashMap;
import java.util.IdentityHashMap;
import java.util.LinkedHashMap;
import java.util.List;
import java.util.Map;
import java.util.Set;
import karzhoul.jpa.model.EntityModel;

/** The identity map of a context: its entries by number, by instance, and by hierarchy and key (chapter 3.1). */
final class Identities {
    private Map<Long, Entry> byNumber = new LinkedHashMap<>();
    private Map<Object, Entry> byInstance = new IdentityHashMap<>();
    private final Map<EntityModel, Map<List<Object>, Entry>> byKey = new IdentityHashMap<>();
    private final Set<EntityModel> models = Collections.newSetFromMap(new IdentityHashMap<>());

    Entry of(long number) {
        return byNumber.get(number);
    }

    Entry of(Object instance) {
        return byInstance.get(instance);
    }

    Entry of(EntityModel model, List<Object> key) {
        Map<List<Object>, Entry> keys = byKey.get(model.root());
        return keys == null ? null : keys.get(comparable(key));
    }

    /** Keeps an entry by all that it has: a number, an instance, a key. */
    void put(Entry entry) {
        if (entry.number() != 0) {
            byNumber.put(entry.number(), entry);
            models.add(entry.model());
        }
        if (entry.instance() != null) {
            byInstance.put(entry.instance(), entry);
        }
        if (entry.key() != null && (entry.isManaged() || entry.state() == Entry.State.REMOVED)) {
            byKey.computeIfAbsent(entry.model().root(), root -> new HashMap<>()).put(comparable(entry.key()), entry);
        }
    }

    void remove(Entry entry) {
        byNumber.remove(entry.number(), entry);
        byInstance.remove(entry.instance(), entry);
        if (entry.key() != null) {
            Map<List<Object>, Entry> keys = byKey.get(entry.model().root());
            if (keys != null) {
                keys.remove(comparable(entry.key()), entry);
            }
        }
    }

    /** A key whose equality is that of its parts, also where one of them is bytes. */
    static List<Object> comparable(List<Object> key) {
        for (int i = 0; i < key.size(); i++) {
            if (key.get(i) instanceof byte[]) {
                List<Object> parts = new ArrayList<>(key);
                parts.replaceAll(each -> each instanceof byte[] bytes ? ByteBuffer.wrap(bytes) : each);
                return parts;
            }
        }
        return key;
    }

    /** All that have a number, in the order in which they got it; a copy. */
    List<Entry> numbered() {
        return new ArrayList<>(byNumber.values());
    }

    /** All that have an instance, in no order. */
    Collection<Entry> all() {
        return byInstance.values();
    }

    boolean hasNumbers() {
        return !byNumber.isEmpty();
    }

    /** The entities of all that have, or had, a number. */
    Set<EntityModel> models() {
        return models;
    }

    /** Forgets all numbers, which are of a run that has ended. */
    void forgetNumbers() {
        byNumber = new LinkedHashMap<>();
    }

    /** Forgets all, with tables that may have grown great: to clear one takes as long as it is, each time anew. */
    void clear() {
        if (!byInstance.isEmpty() || !byNumber.isEmpty()) {
            byNumber = new LinkedHashMap<>();
            byInstance = new IdentityHashMap<>();
        }
        byKey.clear();
        models.clear();
    }
}
