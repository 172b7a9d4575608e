package karzhoul.jpa.engine;

import java.nio.charset.StandardCharsets;
import java.util.function.Consumer;

/**
 * Tells of calls: each with its answer to who takes it, by {@code karzhoul.log}, else to the logger at DEBUG; and trips that
 * take long, by {@code karzhoul.slow}.
 */
final class Journal {
    private static final int LONGEST = 500;
    private static final String NAME = "karzhoul.jpa";

    private final Consumer<String> to;
    private final boolean isSilent;
    private final long slow;

    /**
     * @param to takes each call; null for the logger
     * @param isSilent whether even the logger isn't told
     * @param slow as many milliseconds, from which on a trip is told; 0 for none
     */
    Journal(Consumer<String> to, boolean isSilent, long slow) {
        this.to = to;
        this.isSilent = isSilent;
        this.slow = slow * 1_000_000;
    }

    /** Whether calls are told. */
    boolean isTold() {
        return to != null || !isSilent && logger().isLoggable(System.Logger.Level.DEBUG);
    }

    /** Whether trips are timed. */
    boolean isTimed() {
        return slow > 0;
    }

    void note(Lines lines, int place, Reply reply) {
        String told = call(lines, place) + "  ->  " + (reply.isRefused() ? Refusals.words(reply) : reply.ok()) + " " + reply.events();
        if (to != null) {
            to.accept(told);
        } else {
            logger().log(System.Logger.Level.DEBUG, told);
        }
    }

    /**
     * Tells of a trip where it took long.
     *
     * @param longest the place of the call whose answer took longest behind the one before
     * @param waited how many nanoseconds it took
     * @param nanos how many all of it took
     */
    void slow(Lines lines, int longest, long waited, long nanos) {
        if (nanos >= slow) {
            String call = call(lines, longest);
            String told = "slow: " + lines.count() + " calls took " + nanos / 1_000_000 + " ms, and " + waited / 1_000_000
                + " of them went by before the answer to " + (call.length() > LONGEST ? call.substring(0, LONGEST) + ".." : call);
            logger().log(System.Logger.Level.WARNING, told);
            if (to != null) {
                to.accept(told);
            }
        }
    }

    private static System.Logger logger() {
        return Loggers.OF_CALLS;
    }

    /** Looked for when it is needed first: to set logging up takes a JVM that starts some time. */
    private static final class Loggers {
        static final System.Logger OF_CALLS = System.getLogger(NAME);
    }

    private static String call(Lines lines, int place) {
        int from = place == 0 ? 0 : lines.end(place - 1);
        return new String(lines.bytes(), from, lines.end(place) - 1 - from, StandardCharsets.UTF_8);
    }
}
