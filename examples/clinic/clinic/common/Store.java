package clinic.common;

import jakarta.persistence.EntityManager;
import jakarta.persistence.EntityManagerFactory;
import jakarta.persistence.OptimisticLockException;
import jakarta.persistence.Persistence;
import jakarta.persistence.PersistenceException;
import java.util.Map;
import java.util.function.Function;

/** The clinic's store: each piece of work has an entity manager and a transaction of its own. */
public final class Store implements AutoCloseable {
    private final EntityManagerFactory factory;

    private Store(EntityManagerFactory factory) {
        this.factory = factory;
    }

    /** Opens the store of a url, as {@code karzhoul:clinic.db}. */
    public static Store open(String url) {
        return new Store(Persistence.createEntityManagerFactory("clinic", Map.of("jakarta.persistence.jdbc.url", url)));
    }

    /**
     * Does work in a transaction, which is rolled back where the work throws.
     *
     * @throws PersistenceException where it can't be committed, or it isn't known whether it was
     */
    public <T> T within(Function<EntityManager, T> work) {
        var manager = factory.createEntityManager();
        try {
            var transaction = manager.getTransaction();
            transaction.begin();
            try {
                var result = work.apply(manager);
                transaction.commit();
                return result;
            } finally {
                if (transaction.isActive()) {
                    transaction.rollback();
                }
            }
        } finally {
            manager.close();
        }
    }

    /** Whether work failed because another transaction had changed what it changes. */
    public static boolean isStale(PersistenceException failed) {
        return failed instanceof OptimisticLockException || failed.getCause() instanceof OptimisticLockException;
    }

    /** The entity of this key; a {@link Refusal} where there is none. */
    public static <T> T found(EntityManager manager, Class<T> type, Object key) {
        var entity = manager.find(type, key);
        if (entity == null) {
            throw Refusal.missing(type, key);
        }
        return entity;
    }

    @Override
    public void close() {
        factory.close();
    }
}
