package karzhoul.jpa;

import jakarta.persistence.PersistenceException;

/**
 * A server that is ending begins no transaction any more: those that have begun may end within its time. Nothing was done;
 * what is begun once the connection has ended is served by the server that comes next, for which
 * {@link Karzhoul#retry(java.util.function.Function)} waits.
 */
public final class ServerEndingException extends PersistenceException {
    private static final long serialVersionUID = 1;

    /** One of these words. */
    public ServerEndingException(String message) {
        super(message);
    }
}
