package karzhoul.jpa.engine;

import jakarta.persistence.PersistenceException;

/**
 * The program, or the connection to a server, has ended while it was asked; what was not committed is lost, and the next
 * manager starts the program again, or connects again.
 */
public final class ProgramEnded extends PersistenceException {
    private static final long serialVersionUID = 1;

    private final String what;
    private final String status;
    private final String again;
    private final boolean isAsked;

    ProgramEnded(String what, String status, String again, boolean isAsked, Throwable cause) {
        super(what + status + "; what was not committed is rolled back, and " + again, cause);
        this.what = what;
        this.status = status;
        this.again = again;
        this.isAsked = isAsked;
    }

    /** How it ended, in parentheses behind a space; empty where that isn't known. */
    public String status() {
        return status;
    }

    /** Whether it was sent what it was asked: then it may have done that, and have ended before it said so. */
    public boolean isAsked() {
        return isAsked;
    }

    /** What to say of a commit that it didn't answer. */
    public String ofCommit() {
        return what + status + " before it answered the commit: all of it is stored, or nothing."
            + " Look which before it is done again; " + again;
    }
}
