package karzhoul.jpa.model;

import java.lang.ref.Reference;
import java.lang.ref.ReferenceQueue;
import java.lang.ref.WeakReference;
import java.util.List;
import java.util.Map;
import java.util.concurrent.ConcurrentHashMap;

/** Which rows instances have of one collection, as long as somebody has both. Safe for all threads. */
final class RowMemory {
    private final Map<Object, WeakReference<List<ElementRow>>> known = new ConcurrentHashMap<>();
    private final Map<Object, WeakReference<ElementView.Shown>> given = new ConcurrentHashMap<>();
    private final ReferenceQueue<Object> gone = new ReferenceQueue<>();

    /** An instance by its identity; two of one instance are equal while it is there. */
    private static final class Held extends WeakReference<Object> {
        private final int hash;

        Held(Object instance, ReferenceQueue<Object> gone) {
            super(instance, gone);
            hash = System.identityHashCode(instance);
        }

        @Override
        public int hashCode() {
            return hash;
        }

        @Override
        public boolean equals(Object other) {
            return this == other || other instanceof Held held && get() != null && get() == held.get();
        }
    }

    List<ElementRow> of(Object instance) {
        WeakReference<List<ElementRow>> rows = known.get(new Held(instance, null));
        List<ElementRow> there = rows == null ? null : rows.get();
        return there == null ? List.of() : there;
    }

    /** The collection that the instance was given last, or null. */
    ElementView.Shown given(Object instance) {
        WeakReference<ElementView.Shown> last = given.get(new Held(instance, null));
        return last == null ? null : last.get();
    }

    void give(Object instance, ElementView.Shown collection) {
        given.put(new Held(instance, gone), new WeakReference<>(collection));
    }

    void keep(Object instance, List<ElementRow> rows) {
        for (Reference<?> each; (each = gone.poll()) != null; ) {
            known.remove(each);
            given.remove(each);
        }
        rows.forEach(row -> row.isAmong(rows));
        known.put(new Held(instance, gone), new WeakReference<>(rows));
    }
}
