package karzhoul.jpa.context;

import java.util.Optional;
import karzhoul.jpa.model.EntityModel;
import karzhoul.jpa.model.Relation;

/** Which values of an instance were read (chapters 7.11 and 9.8). Safe for all threads. */
public final class LoadStates {
    private LoadStates() {}

    /** Whether this instance's values are read: it is no proxy that nobody looked at. */
    public static boolean isRead(Object instance) {
        Object known = Proxies.known(instance);
        return known == null || known instanceof Entry entry && !entry.isHollow();
    }

    /** Whether what stands in a relation is read. */
    public static boolean isReadMember(Object value) {
        return value == null || !Unread.is(value) && isRead(value);
    }

    /** Whether an instance is read with each EAGER relation of it. */
    static boolean isLoaded(Object instance, EntityModel model) {
        return isRead(instance) && model.relations().stream()
            .filter(relation -> !relation.isLazy())
            .allMatch(relation -> isReadMember(relation.get(instance)));
    }

    /** Whether an attribute of an instance is read; plain ones are, with the instance. */
    static boolean isLoaded(Object instance, Optional<Relation> relation) {
        return isRead(instance) && (relation.isEmpty() || isReadMember(relation.get().get(instance)));
    }
}
