package karzhoul.jpa.context;

import java.lang.ref.Reference;
import java.lang.ref.ReferenceQueue;
import java.lang.ref.WeakReference;
import java.util.Set;
import java.util.concurrent.ConcurrentHashMap;

/**
 * Instances that transactions made and rolled back: the keys that they were given, and keep (chapter 3.3.3), are those of
 * no row, so persist and merge take them as new. They are known as long as somebody has them. Safe for all threads.
 */
final class NeverStored {
    private final Set<Held> known = ConcurrentHashMap.newKeySet();
    private final ReferenceQueue<Object> gone = new ReferenceQueue<>();

    /** An instance by its identity; two of one instance are equal while it is there. */
    private static final class Held extends WeakReference<Object> {
        private final int hash;

        Held(Object instance, ReferenceQueue<Object> gone) {
            super(instance, gone);
            hash = System.identityHashCode(instance);
        }

        @Override
        public int hashCode() {
            return hash;
        }

        @Override
        public boolean equals(Object other) {
            return this == other || other instanceof Held held && get() != null && get() == held.get();
        }
    }

    /** A transaction that made it was rolled back. */
    void add(Object instance) {
        for (Reference<?> each; (each = gone.poll()) != null; ) {
            known.remove(each);
        }
        known.add(new Held(instance, gone));
    }

    /** It is persisted another time. */
    void remove(Object instance) {
        if (!known.isEmpty()) {
            known.remove(new Held(instance, null));
        }
    }

    boolean has(Object instance) {
        return !known.isEmpty() && known.contains(new Held(instance, null));
    }
}
