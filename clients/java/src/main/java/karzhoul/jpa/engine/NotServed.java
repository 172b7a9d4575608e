package karzhoul.jpa.engine;

import jakarta.persistence.PersistenceException;

/** Nobody serves at an address, at this moment. */
final class NotServed extends PersistenceException {
    private static final long serialVersionUID = 1;

    NotServed(String message, Throwable cause) {
        super(message, cause);
    }
}
