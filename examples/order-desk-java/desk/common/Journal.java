package desk.common;

import jakarta.persistence.PostPersist;
import jakarta.persistence.PostRemove;
import jakarta.persistence.PostUpdate;
import java.util.function.Consumer;

/** A listener that tells what was written, to whoever wants to hear it. */
public class Journal {
    private static volatile Consumer<String> reader = line -> {};

    /** Has each line read by this reader from now on. */
    public static void readBy(Consumer<String> next) {
        reader = next;
    }

    @PostPersist
    void persisted(Object entity) {
        tell("PostPersist", entity);
    }

    @PostUpdate
    void updated(Object entity) {
        tell("PostUpdate", entity);
    }

    @PostRemove
    void removed(Object entity) {
        tell("PostRemove", entity);
    }

    private static void tell(String event, Object entity) {
        reader.accept(event + " of " + entity.getClass().getSimpleName());
    }
}
