package karzhoul.jpa.engine;

import java.io.IOException;
import java.io.InterruptedIOException;
import java.nio.ByteBuffer;

/** A connection to a server, of which no end is an interrupted thread's. Not for several threads at a time. */
sealed interface Pipe permits ChannelPipe, TlsPipe {
    /** Reads what comes next, one byte at least; answers -1 at the end. */
    int read(ByteBuffer buffer) throws IOException;

    /** Writes all of these. */
    void write(ByteBuffer bytes) throws IOException;

    /** Whether nothing has come, not even the end: so it is where no reply is waited for. */
    boolean isQuiet();

    /**
     * Waits until something can be read, or the end.
     *
     * @throws InterruptedIOException where the thread is interrupted
     * @throws Unanswered where the time is over
     */
    void await(Deadline until) throws IOException;

    /**
     * As {@link #await}, also where the thread is interrupted: it stays so.
     *
     * @throws Unanswered where the time is over
     */
    default void awaitAlways(Deadline until) throws IOException {
        boolean isInterrupted = Thread.interrupted();
        try {
            for (;;) {
                try {
                    await(until);
                    return;
                } catch (InterruptedIOException e) {
                    isInterrupted |= Thread.interrupted();
                }
            }
        } finally {
            if (isInterrupted) {
                Thread.currentThread().interrupt();
            }
        }
    }

    /** Ends it; by any thread. */
    void close();
}
