package karzhoul.jpa.context;

import jakarta.persistence.PersistenceException;
import java.io.Serializable;
import java.util.List;

/** What is serialized in the place of a proxy, so that any JVM with the entity's class reads it. */
final class Plain {
    private Plain() {}

    /** An instance of the entity's own class with what the proxy has; of one that wasn't read, its key. */
    static Object of(Object proxy, Object known) {
        if (!(known instanceof Entry entry)) {
            return known;
        }
        if (entry.isHollow() && entry.context() == null) {
            Written lost = entry.written();
            if (lost != null) {
                throw new PersistenceException(entry + " wasn't read before it was detached, and its " + lost.paths()
                    + " was written since: it can't be serialized with that");
            }
            return new Key(entry.model().javaClass(), entry.key());
        }
        if (entry.isHollow()) {
            entry.fill();
        }
        Object plain = entry.plain();
        entry.model().attributes().forEach(a -> a.set(plain, a.get(proxy)));
        entry.model().relations().forEach(r -> r.set(plain, r.get(proxy)));
        return plain;
    }

    /** A detached proxy that wasn't read: it is one again where it is read back, and leads to what has this key. */
    static final class Key implements Serializable {
        private static final long serialVersionUID = 0;       // as that of the record that it was

        private final Class<?> entity;
        private final List<Object> parts;
        private transient Object twin;

        Key(Class<?> entity, List<Object> parts) {
            this.entity = entity;
            this.parts = parts;
        }

        Class<?> entity() {
            return entity;
        }

        List<Object> parts() {
            return parts;
        }

        /** An instance that has in its fields what the proxy had as it was read back. */
        Object twin() {
            return twin;
        }

        private Object readResolve() {
            Object proxy = Proxies.ofKey(this);
            twin = Proxies.twin(proxy);
            return proxy;
        }
    }
}
