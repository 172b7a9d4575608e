package karzhoul.jpa;

import jakarta.persistence.PersistenceException;

/**
 * Nobody answered a commit: the program, or the connection to a server, ended after it was sent, or the disk failed as it
 * was written. It stands whole, or not at all, and the application looks which before it does it again. No
 * {@code RollbackException}, since it may stand.
 */
public final class CommitUnknownException extends PersistenceException {
    private static final long serialVersionUID = 1;

    /** One of this cause. */
    public CommitUnknownException(String message, Throwable cause) {
        super(message, cause);
    }
}
