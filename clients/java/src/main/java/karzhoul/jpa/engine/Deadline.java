package karzhoul.jpa.engine;

import java.util.concurrent.TimeUnit;

/**
 * The moment until which something is waited for.
 *
 * @param nanos that moment
 * @param millis how long it was then, for those who are told
 */
record Deadline(long nanos, long millis) {
    static Deadline in(long millis) {
        return new Deadline(System.nanoTime() + TimeUnit.MILLISECONDS.toNanos(millis), millis);
    }

    /** How many milliseconds are left; none, or fewer, where it has passed. */
    long left() {
        return TimeUnit.NANOSECONDS.toMillis(nanos - System.nanoTime());
    }

    @Override
    public String toString() {
        return millis % 1_000 != 0 ? millis + " milliseconds" : millis == 1_000 ? "a second" : millis / 1_000 + " seconds";
    }
}
