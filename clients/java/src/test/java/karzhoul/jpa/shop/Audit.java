package karzhoul.jpa.shop;

import jakarta.persistence.PostLoad;
import jakarta.persistence.PostPersist;
import jakarta.persistence.PostRemove;
import jakarta.persistence.PostUpdate;
import jakarta.persistence.PrePersist;
import jakarta.persistence.PreRemove;
import jakarta.persistence.PreUpdate;
import java.util.ArrayList;
import java.util.List;
import java.util.function.BiConsumer;

/** Notes the callbacks of each thread, and does what a test asks of them. */
public class Audit {
    private static final ThreadLocal<List<String>> LOG = ThreadLocal.withInitial(ArrayList::new);
    private static final ThreadLocal<BiConsumer<String, Base>> ALSO = new ThreadLocal<>();

    @PrePersist
    void prePersist(Base entity) {
        entity.created = "created";
        note("PrePersist", entity);
    }

    @PreUpdate
    void preUpdate(Base entity) {
        entity.updated = "updated";
        note("PreUpdate", entity);
    }

    @PreRemove
    void preRemove(Base entity) {
        note("PreRemove", entity);
    }

    @PostPersist
    void postPersist(Base entity) {
        note("PostPersist", entity);
    }

    @PostUpdate
    void postUpdate(Base entity) {
        note("PostUpdate", entity);
    }

    @PostRemove
    void postRemove(Base entity) {
        note("PostRemove", entity);
    }

    @PostLoad
    void postLoad(Base entity) {
        note("PostLoad", entity);
    }

    private static void note(String event, Base entity) {
        LOG.get().add(event + " " + entity);
        if (ALSO.get() != null) {
            ALSO.get().accept(event, entity);
        }
    }

    /** Lets each callback of this thread do this too; null for nothing. */
    public static void also(BiConsumer<String, Base> done) {
        if (done == null) {
            ALSO.remove();
        } else {
            ALSO.set(done);
        }
    }

    /** What this thread's callbacks were since it was asked last. */
    public static List<String> told() {
        List<String> told = List.copyOf(LOG.get());
        LOG.get().clear();
        return told;
    }
}
