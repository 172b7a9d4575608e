package karzhoul.jpa.engine;

import jakarta.persistence.PersistenceException;
import java.io.IOException;
import java.io.InputStream;
import java.io.OutputStream;
import java.util.ArrayDeque;
import java.util.Deque;
import java.util.concurrent.atomic.LongAdder;
import java.util.concurrent.locks.ReentrantLock;
import java.util.function.ObjLongConsumer;

/**
 * A running program behind two pipes, or behind a server: lines go out, replies come in, one batch at a time. Safe for
 * all threads.
 *
 * <p>At most {@link #WINDOW} bytes are unanswered, less than a pipe holds: so neither side waits for the other for
 * ever, and no thread that reads is needed.
 */
public final class Engine implements AutoCloseable {
    /** A batch, and what its last lines are once the number that the next object gets is known. */
    @FunctionalInterface
    public interface Tail extends ObjLongConsumer<Lines> {}

    /** How many bytes are unanswered at most. */
    public static final int WINDOW = 60_000;

    /** What a call is about that stands behind a commit, which is done whatever becomes of the call. */
    public static final Object BEHIND = "what is let go";

    /** What a call is about that only looks whether its number is of the present run. */
    private static final Object PROBE = "the present run";

    /** Calls that were sent ahead. */
    public static final class Sent {
        private final Lines lines = new Lines();
        private Reply refused;

        private Sent(Lines sent) {
            lines.addAll(sent);
        }

        /** The first of their replies that is a refusal, once the next {@link #ask} was answered; else null. */
        public Reply refused() {
            return refused;
        }
    }

    private final ReentrantLock lock = new ReentrantLock();
    private final Transport transport;
    private final OutputStream out;
    private final InputStream in;
    private final Replies replies;
    private final Journal journal;
    private final Deque<Sent> unread = new ArrayDeque<>();
    private int unreadBytes;
    private volatile IOException end;
    private volatile long made;
    /** The last number that is known to be of before a new run of the server. */
    private volatile long before;
    private boolean isTold;
    private final LongAdder calls = new LongAdder();
    private final LongAdder refusals = new LongAdder();
    private final LongAdder trips = new LongAdder();

    Engine(Transport transport, Journal journal) {
        this.transport = transport;
        this.journal = journal;
        out = transport.out();
        in = transport.in();
        replies = new Replies(in);
    }

    /** How many objects the program has made in this run. */
    public long made() {
        return made;
    }

    /** How many calls were answered. */
    public long calls() {
        return calls.sum();
    }

    /** How many of them were refused. */
    public long refusals() {
        return refusals.sum();
    }

    /** How many times calls were written to the program. */
    public long trips() {
        return trips.sum();
    }

    /** Whether it runs still, as far as is known. */
    public boolean isRunning() {
        if (!isShared()) {
            return end == null && transport.isOpen();
        }
        if (end != null || !lock.tryLock()) {
            return end == null;             // who asks it at this moment finds out
        }
        try {
            while (!unread.isEmpty()) {
                readOldest();
            }
            return transport.isOpen();
        } catch (IOException e) {
            broken(e);
            return false;
        } finally {
            lock.unlock();
        }
    }

    /** The process of the program; 0 where a server has it. */
    public long pid() {
        return transport.pid();
    }

    /** Whether other processes have managers of the same program, since a server has it. */
    public boolean isShared() {
        return transport instanceof ServerConnection;
    }

    /**
     * Waits until a manager of the server is kept free for this one.
     *
     * @return null, or why none became free in so many milliseconds
     * @throws IOException where the server has ended, or the thread was interrupted
     */
    String turn(long millis) throws IOException {
        return ((ServerConnection) transport).turn(millis);
    }

    /** Whether the numbers that were told are of a run that the server has ended. */
    boolean isRunOver() {
        Lines lines = new Lines();
        long probed = probe(lines);
        return probed > 0 && isOver(ask(lines)[0], probed);
    }

    /** Adds a call that is refused where the server has begun a new run; answers its number, or 0 where it adds none. */
    long probe(Lines lines) {
        long last = made;
        if (!isShared() || last <= before) {
            return 0;
        }
        lines.values(new long[] {last}, 0, 1).about(PROBE);
        return last;
    }

    /** Whether the reply to a {@link #probe} of this number tells a new run. */
    boolean isOver(Reply reply, long probed) {
        if (reply.isOfBefore()) {
            lock.lock();
            try {
                before = Math.max(before, probed);
            } finally {
                lock.unlock();
            }
        }
        return reply.isOfBefore();
    }

    /**
     * Begins the transaction of a manager of the server, during which it begins no new run.
     *
     * @return false where a new run came before: then none is begun
     */
    boolean begin(long manager) {
        Lines lines = new Lines().begin(manager).about(PROBE);
        long probed = probe(lines);
        Reply[] replies = ask(lines);
        if (replies[0].isOfBefore()) {
            return false;
        } else if (replies[0].isRefused()) {
            throw Refusals.of(Refusals.words(replies[0]), null);
        } else if (probed > 0 && isOver(replies[1], probed)) {
            ask(new Lines().rollback(manager));
            return false;
        }
        return true;
    }

    /**
     * Reads what the store says of itself, before anything else is asked.
     *
     * @throws ProgramEnded where the program didn't open the store
     * @throws PersistenceException where the store was written with other classes
     */
    void check(StoreDescription description) {
        lock.lock();
        try {
            description.check(out, in);
        } catch (IOException e) {
            end = e;
            throw transport.ended(e, true);
        } finally {
            lock.unlock();
        }
    }

    /**
     * Sends these calls, and answers their replies in order, refused or not.
     *
     * @throws ProgramEnded where the program has ended
     */
    public Reply[] ask(Lines lines) {
        return ask(lines, null);
    }

    /**
     * As {@link #ask(Lines)}; the tail adds lines that name the object which the program makes next, if one of the
     * lines before makes one. Nobody comes between.
     */
    public Reply[] ask(Lines lines, Tail tail) {
        lock.lock();
        try {
            if (end != null) {
                throw transport.ended(end, false);
            }
            while (!unread.isEmpty()) {
                readOldest();
            }
            if (tail != null) {
                tail.accept(lines, made + 1);
            }
            isTold = journal.isTold();
            return exchange(lines);
        } catch (IOException e) {
            throw broken(e);
        } finally {
            lock.unlock();
        }
    }

    /** What isn't to be done while calls are under way. */
    interface Copying {
        void copy() throws IOException;
    }

    /**
     * Does this while no call is under way: so between two commits.
     *
     * @throws IOException where it does
     */
    void still(Copying work) throws IOException {
        lock.lock();
        try {
            ask(new Lines());
            work.copy();
        } finally {
            lock.unlock();
        }
    }

    private ProgramEnded broken(IOException e) {
        end = e;
        transport.destroy();
        return transport.ended(e, true);
    }

    /**
     * Sends these calls and waits for no reply: the program works on them meanwhile. Their replies are read by the next
     * {@link #ask}, whoever asks, or before so much is sent that a pipe could be full.
     *
     * @param lines at most {@link #WINDOW} bytes
     * @throws ProgramEnded where the program has ended
     */
    public Sent send(Lines lines) {
        lock.lock();
        try {
            if (end != null) {
                throw transport.ended(end, false);
            }
            Sent sent = new Sent(lines);
            while (!unread.isEmpty() && unreadBytes + lines.length() > WINDOW) {
                readOldest();
            }
            isTold = journal.isTold();
            unread.add(sent);
            unreadBytes += lines.length();
            trips.increment();
            out.write(lines.bytes(), 0, lines.length());
            out.flush();
            return sent;
        } catch (IOException e) {
            throw broken(e);
        } finally {
            lock.unlock();
        }
    }

    private void readOldest() throws IOException {
        Sent oldest = unread.remove();
        unreadBytes -= oldest.lines.length();
        for (int i = 0; i < oldest.lines.count(); i++) {
            Reply reply = told(oldest.lines, i);
            if (reply.isRefused() && oldest.refused == null) {
                oldest.refused = reply;
            }
        }
        oldest.lines.clear();
        made = replies.made();
    }

    /** All managers and objects are gone after this. */
    void restart() {
        lock.lock();
        try {
            Reply reply = ask(new Lines().restart())[0];
            if (reply.isRefused()) {
                throw Refusals.of(reply);
            }
            replies.restarted();
            made = 0;
            before = 0;
        } finally {
            lock.unlock();
        }
    }

    private Reply[] exchange(Lines lines) throws IOException {
        Reply[] told = new Reply[lines.count()];
        Timing timing = journal.isTimed() ? new Timing(lines) : null;
        Object recorded = Recording.isOn() ? TripEvent.begun() : null;
        byte[] bytes = lines.bytes();
        int sent = 0;
        int from = 0;
        for (int done = 0; done < told.length; ) {
            int to = from;
            while (sent < told.length && (to == from || lines.end(sent) - from <= WINDOW)) {
                to = lines.end(sent++);
            }
            trips.increment();
            out.write(bytes, from, to - from);
            out.flush();
            from = to;
            while (done < sent) {
                told[done] = told(lines, done);
                if (timing != null) {
                    timing.answered(done);
                }
                if (isShared() && told[done].isRefused()) {
                    ServerConnection.check(told[done], done == 0);
                }
                done++;
            }
        }
        made = replies.made();
        if (timing != null) {
            timing.end(journal);
        }
        if (recorded != null) {
            TripEvent.ended(recorded, lines, told);
        }
        checkRun(told);
        return told;
    }

    private void checkRun(Reply[] told) {
        for (Reply reply : told) {
            if (isShared() && reply.isOfBefore() && reply.about() != PROBE && reply.about() != BEHIND) {
                throw ((ServerConnection) transport).restarted(reply.why());
            }
        }
    }

    private Reply told(Lines lines, int place) throws IOException {
        try {
            Reply reply = replies.next(lines.about(place));
            calls.increment();
            if (reply.isRefused()) {
                refusals.increment();
            }
            if (isTold) {
                journal.note(lines, place, reply);
            }
            return reply;
        } catch (IllegalStateException | IndexOutOfBoundsException | ClassCastException e) {
            throw new IOException("a reply can't be read", e);
        }
    }

    /** Ends the program, once what is being asked was answered. */
    @Override
    public void close() {
        lock.lock();
        try {
            end = new IOException("it was closed");
            transport.close();
        } catch (IOException e) {
            transport.destroy();
        } finally {
            lock.unlock();
        }
    }
}
