package karzhoul.jpa;

import jakarta.persistence.EntityManager;
import jakarta.persistence.PersistenceException;
import java.nio.file.Path;
import java.util.Iterator;
import java.util.function.Function;

/**
 * What an entity manager factory of this provider does beside the standard:
 * {@code factory.unwrap(Karzhoul.class).statistics()}. Safe for all threads.
 */
public interface Karzhoul {
    /** How often {@link #retry(Function)} does work at most. */
    int ATTEMPTS = 10;

    /** How many objects {@link #load(Iterator)} stores together. */
    int TOGETHER = 5_000;

    /**
     * What was asked of the program since the store was opened, by all factories of this JVM with one url.
     *
     * @param calls how many calls it answered
     * @param refusals how many of them it refused
     * @param trips how many times calls were written to it; a trip may have many calls
     * @param objects how many objects it has made since its numbers began at 1; it begins anew at half of 1,000,000
     * @param managers how many of its sixteen managers are in use: for an operation, or for a whole transaction
     * @param idle how many beside these are held by entity managers that have objects, and no transaction
     * @param waiting how many threads wait for one
     * @param runs how often its numbers began at 1
     * @param programs how often the program was started, or the server connected to
     */
    record Statistics(long calls, long refusals, long trips, long objects, int managers, int idle, int waiting, int runs,
            int programs) {
        @Override
        public String toString() {
            return calls + " calls in " + trips + " trips, " + refusals + " of them refused; " + objects + " objects in run "
                + runs + " of program " + programs + "; " + managers + " managers in use, " + idle + " idle, " + waiting
                + " waited for";
        }
    }

    /** What was asked of the program, as of now. */
    Statistics statistics();

    /** As {@link #retry(int, Function)}, {@link #ATTEMPTS} times at most. */
    default <T> T retry(Function<EntityManager, T> work) {
        return retry(ATTEMPTS, work);
    }

    /**
     * Does work in a transaction of an entity manager of its own, and commits it; and does it again, where another commit
     * came first, or the program ended before it was asked to commit, or the server is ending: the next one is waited for
     * then, for {@code karzhoul.pool.wait} at most. A {@link CommitUnknownException} isn't done again.
     *
     * @param attempts how often it is done at most
     * @return what the work gives
     * @throws PersistenceException the last refusal
     */
    <T> T retry(int attempts, Function<EntityManager, T> work);

    /** As {@link #load(Iterator, int)}, {@link #TOGETHER} at a time. */
    default long load(Iterator<?> instances) {
        return load(instances, TOGETHER);
    }

    /**
     * Persists many new instances, so many to a commit, and lets each go once it is stored.
     *
     * @return how many there were
     * @throws PersistenceException that says how many are stored, where one is refused
     */
    long load(Iterator<?> instances, int together);

    /**
     * Copies the store as it stands between two commits, while other threads wait, and opens the copy, which looks at each
     * row.
     *
     * @param file of the copy, which isn't there yet
     * @return how many bytes it has
     * @throws PersistenceException where it can't be made or opened, so that none is left; over a server, which has the file
     */
    long backup(Path file);
}
