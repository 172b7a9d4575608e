package desk.common;

import jakarta.persistence.EntityManager;
import java.util.function.Supplier;

/** Work within a transaction. */
public final class Transactions {
    private Transactions() {}

    /** Does work in a transaction of its own, which is rolled back where the work throws. */
    public static <T> T within(EntityManager manager, Supplier<T> work) {
        var transaction = manager.getTransaction();
        transaction.begin();
        try {
            var result = work.get();
            transaction.commit();
            return result;
        } finally {
            if (transaction.isActive()) {
                transaction.rollback();
            }
        }
    }

    /** The entity of this key; a {@link DeskException} where there is none. */
    public static <T> T found(EntityManager manager, Class<T> type, Object key) {
        var entity = manager.find(type, key);
        if (entity == null) {
            throw new DeskException("there is no " + type.getSimpleName().toLowerCase() + " " + key);
        }
        return entity;
    }
}
