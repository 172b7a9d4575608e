package karzhoul.jpa.engine;

import java.util.List;

/**
 * What can be read of an object without loading anything.
 *
 * @param entity the name of its own class
 * @param relations for each relation null, a {@link Ref}, a {@link KeyOf}, {@link #UNREAD}, or a list of refs
 * @param values its key's parts, its version where there is one, and its attributes
 */
public record Shown(String entity, Object[] relations, Object[] values) {
    /** A collection that wasn't read. */
    public static final Object UNREAD = new Object() {
        @Override
        public String toString() {
            return "unread";
        }
    };

    /** A link that wasn't read: the key of its target. */
    public record KeyOf(List<Object> parts) {}
}
