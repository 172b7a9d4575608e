package karzhoul.jpa.context;

import jakarta.persistence.Cache;
import jakarta.persistence.PersistenceException;

/** The cache beyond entity managers (chapter 7.10): there is none, since the program has all in memory. */
final class NoCache implements Cache {
    private final Factory factory;

    NoCache(Factory factory) {
        this.factory = factory;
    }

    @Override
    public boolean contains(Class cls, Object primaryKey) {
        factory.needOpen();
        return false;
    }

    @Override
    public void evict(Class cls, Object primaryKey) {
        factory.needOpen();
    }

    @Override
    public void evict(Class cls) {
        factory.needOpen();
    }

    @Override
    public void evictAll() {
        factory.needOpen();
    }

    @Override
    public <T> T unwrap(Class<T> cls) {
        if (cls.isInstance(this)) {
            return cls.cast(this);
        }
        throw new PersistenceException("there is no cache that is a " + cls.getName());
    }
}
