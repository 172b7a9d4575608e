package karzhoul.jpa.engine;

import jakarta.persistence.PersistenceException;

/**
 * The disk failed as a commit was written: what it was to store may stand there, whole, or not at all. The program has
 * shut the store, and tells which where it opens it again.
 */
public final class StoreFault extends PersistenceException {
    private static final long serialVersionUID = 1;

    StoreFault(String message) {
        super(message);
    }
}
