package karzhoul.jpa.context;

import jakarta.persistence.EntityManager;
import java.util.function.Consumer;
import java.util.function.Function;
import karzhoul.jpa.shop.Audit;
import karzhoul.jpa.shop.Shop;
import org.junit.jupiter.api.AfterEach;
import org.junit.jupiter.api.BeforeEach;

/** What tests over a shop of their own have in common. */
abstract class Tried {
    Factory factory;
    EntityManager manager;

    @BeforeEach
    void open() {
        factory = Shop.open();
        manager = factory.createEntityManager();
        Audit.told();
    }

    @AfterEach
    void close() {
        Audit.also(null);
        if (manager.getTransaction().isActive()) {
            manager.getTransaction().rollback();
        }
        factory.close();
    }

    /** Commits what is done. */
    void commit(Runnable done) {
        manager.getTransaction().begin();
        done.run();
        manager.getTransaction().commit();
    }

    /** Persists and commits these, and lets them go. */
    void store(Object... instances) {
        commit(() -> {
            for (Object instance : instances) {
                manager.persist(instance);
            }
        });
        manager.clear();
        Audit.told();
    }

    /** Commits what another manager does. */
    void other(Consumer<EntityManager> done) {
        try (EntityManager other = factory.createEntityManager()) {
            other.getTransaction().begin();
            done.accept(other);
            other.getTransaction().commit();
        }
    }

    /** What another manager reads of the last commit. */
    <T> T read(Function<EntityManager, T> read) {
        try (EntityManager other = factory.createEntityManager()) {
            return read.apply(other);
        }
    }
}
