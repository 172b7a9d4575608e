package karzhoul.jpa.engine;

import jakarta.persistence.PersistenceException;
import java.io.IOException;
import java.io.InterruptedIOException;
import java.util.ArrayDeque;
import java.util.Deque;
import java.util.Iterator;
import java.util.LinkedHashSet;
import java.util.List;
import java.util.Set;
import java.util.concurrent.TimeUnit;
import java.util.concurrent.locks.Condition;
import java.util.concurrent.locks.ReentrantLock;
import java.util.function.LongFunction;
import karzhoul.jpa.Karzhoul;

/**
 * The program's managers, given to the entity managers that need one, and the program's runs. Safe for all threads.
 *
 * <p>An entity manager is busy from {@link #enter} to {@link #leave}: for one operation, or for a whole transaction.
 * While one is busy its numbers stay names. A run ends, by {@code restart}, while none is busy, once it has made half
 * of the objects that it may; who wants to begin then waits, but not longer than {@link #PATIENCE}, since a thread
 * may wait for itself; then nobody waits until so many more objects are made. Where all managers of the program are held, one that isn't busy is taken from its holder, who
 * finds its objects again at its next use.
 *
 * <p>Over a server the managers are shared with other processes: so one is closed as soon as it is given back, and where
 * it was idle for {@link #IDLE} or another thread needs one, and who needs one waits in the server's queue.
 */
public final class Pool implements AutoCloseable {
    /** How many managers the program opens at a time. */
    public static final int MANAGERS = 16;

    /** How many objects a run may make before it is ended, and how many the program makes at most. */
    static final int HIGH = 500_000;
    static final int MOST = 990_000;
    private static final int STEP = 50_000;

    /** As many objects that were made again for idle managers may be in a run. */
    private static final int MOST_HIGH = 800_000;
    private static final long PATIENCE = TimeUnit.MILLISECONDS.toNanos(200);

    /** For how long a manager of a server is kept by who has objects and no transaction. */
    private static final long IDLE = TimeUnit.SECONDS.toNanos(1);

    /** How many milliseconds a server is waited for at least that has been reached before. */
    static final long LEAST = 5_000;

    /** How many milliseconds pass between two looks at a server that is ending. */
    private static final long LOOK = 50;

    private final LongFunction<Engine> starting;
    private final ReentrantLock lock = new ReentrantLock();
    private final Condition changed = lock.newCondition();
    private final Condition idled = lock.newCondition();
    private final Deque<Session> free = new ArrayDeque<>();
    private final Set<Session> idle = new LinkedHashSet<>();
    private final Numbers numbers = new Numbers();
    private final Sequences sequences = new Sequences();
    private Engine engine;
    private int run = 1;
    private int opened;
    private int busy;
    /** How many wait in the server's queue, and why it refused a manager. */
    private int queued;
    /** How many wait for a manager in any way; and what the programs before the present one were asked. */
    private int waiting;
    private long calls;
    private long refusals;
    private long trips;
    private int programs = 1;
    private String refusal;
    /** Whether a thread starts the program, or connects; and why the last one didn't reach the server. */
    private boolean isStarting;
    private NotServed unreached;
    private long high = HIGH;
    private long gate = HIGH;
    private boolean isClosed;

    /** @param starting starts the program, or waits so many milliseconds for its server */
    Pool(LongFunction<Engine> starting) {
        this.starting = starting;
        engine = starting.apply(ServerWay.PATIENCE);
        if (engine.isShared()) {
            Thread thread = new Thread(null, this::giveUpIdle, "karzhoul idle managers", 0, false);
            thread.setContextClassLoader(ClassLoader.getSystemClassLoader());
            thread.setDaemon(true);
            thread.start();
        }
    }

    /** The numbers of new objects, of the present run. */
    public Numbers numbers() {
        return numbers;
    }

    /** The keys of sequences, of blocks that the present run gave. */
    public Sequences sequences() {
        return sequences;
    }

    /** The present run. */
    public int run() {
        lock.lock();
        try {
            return run;
        } finally {
            lock.unlock();
        }
    }

    /** What was asked of all programs of this pool, and how its managers stand. */
    public Karzhoul.Statistics statistics() {
        lock.lock();
        try {
            return new Karzhoul.Statistics(calls + engine.calls(), refusals + engine.refusals(), trips + engine.trips(),
                engine.made(), busy, idle.size(), waiting, run, programs);
        } finally {
            lock.unlock();
        }
    }

    private void replaced() {
        calls += engine.calls();
        refusals += engine.refusals();
        trips += engine.trips();
        programs++;
    }

    /** The running program. */
    public Engine engine() {
        lock.lock();
        try {
            return engine;
        } finally {
            lock.unlock();
        }
    }

    /**
     * Makes an entity manager busy.
     *
     * @param held what it holds, or null
     * @param waitMillis how long it waits for one of the program's managers
     * @return what it holds now: the same, or another one where it had none or lost it
     * @throws PersistenceException where none was given back in this time, or the program can't be started
     */
    public Session enter(Session held, long waitMillis) {
        lock.lock();
        try {
            long start = System.nanoTime();
            NotServed before = unreached;
            for (;;) {
                awaitStart();
                long passed = System.nanoTime() - start;
                Session session = isReached(passed, waitMillis, before) && isAdmitted(passed) ? sessionFor(held) : null;
                if (session != null) {
                    session.isBusy = true;
                    idle.remove(session);
                    busy++;
                    return session;
                }
                waiting++;
                try {
                    if (refusal != null) {
                        queue(TimeUnit.MILLISECONDS.toNanos(waitMillis) - passed);
                    } else {
                        await(passed, TimeUnit.MILLISECONDS.toNanos(waitMillis));
                    }
                } finally {
                    waiting--;
                }
            }
        } finally {
            lock.unlock();
        }
    }

    /** Ends what {@link #enter} began; the manager keeps its objects. */
    public void leave(Session session) {
        lock.lock();
        try {
            if (session.isBusy) {
                session.isBusy = false;
                busy--;
                if (isThere(session)) {
                    session.idleSince = System.nanoTime();
                    idle.add(session);
                    idled.signal();
                    if (queued > 0) {
                        giveUp(session);
                    }
                }
            }
            if (busy == 0 && engine.made() >= high && engine.isRunning()) {
                restartLater();
            }
            changed.signalAll();
        } finally {
            lock.unlock();
        }
    }

    /**
     * Takes back what isn't needed any more, from a busy one or an idle one.
     *
     * @param needsClear whether the program's manager may still hold objects; it has no transaction
     */
    public void giveBack(Session session, boolean needsClear) {
        lock.lock();
        try {
            if (session.isBusy) {
                session.isBusy = false;
                busy--;
            }
            idle.remove(session);
            if (engine.isShared()) {
                closeManager(session);
            } else if (isThere(session)) {
                session.isLost = true;
                free.push(new Session(session.engine(), session.manager(), session.run(), needsClear));
            }
        } finally {
            changed.signalAll();
            lock.unlock();
        }
        leave(session);
    }

    /** So many objects were made again for a manager that lived over the end of a run: they count for no end of this one. */
    public void carried(int objects) {
        lock.lock();
        try {
            high = Math.min(MOST_HIGH, high + objects);
            gate = Math.max(gate, high);
        } finally {
            lock.unlock();
        }
    }

    /** Takes back what was forgotten: a transaction that is open is rolled back. */
    public void abandon(Session session) {
        boolean mayBeOpen;
        lock.lock();
        try {
            // one that is idle has no transaction, and may be another's by the time that a line is sent
            mayBeOpen = session.isBusy && isThere(session) && !isClosed && session.engine().isRunning();
        } finally {
            lock.unlock();
        }
        try {
            if (mayBeOpen) {
                session.engine().ask(new Lines().rollback(session.manager()));      // refused where none is open
            }
        } finally {
            giveBack(session, true);
        }
    }

    /** Ends the run now, where no entity manager is busy; else not at all. Answers whether it did. */
    public boolean restartIfIdle() {
        lock.lock();
        try {
            if (busy > 0 || !engine.isRunning()) {
                return false;
            }
            restart();
            return true;
        } finally {
            lock.unlock();
        }
    }

    /** Ends the program. */
    @Override
    public void close() {
        lock.lock();
        try {
            isClosed = true;
            changed.signalAll();
            idled.signal();
            awaitStart();
        } finally {
            lock.unlock();
        }
        engine.close();
    }

    /**
     * Whether the program runs, which is started again where it doesn't; a server may be starting meanwhile.
     *
     * @param before why it wasn't reached before the thread came: where its time is over, it has been tried since
     */
    private boolean isReached(long passed, long waitMillis, NotServed before) {
        if (isClosed) {
            throw new IllegalStateException("the entity manager factory is closed");
        } else if (engine.isRunning()) {
            return true;
        } else if (unreached != before && passed > TimeUnit.MILLISECONDS.toNanos(waitMillis)) {
            throw new NotServed(unreached.getMessage(), unreached);
        }
        engine.close();
        try {
            long left = waitMillis - TimeUnit.NANOSECONDS.toMillis(passed);
            Engine next = started(Math.min(ServerWay.PATIENCE, Math.max(LEAST, left)));
            replaced();
            engine = next;
        } catch (NotServed e) {
            unreached = e;
            if (passed > TimeUnit.MILLISECONDS.toNanos(waitMillis)) {
                throw e;
            }
            return false;
        }
        forgetRun();
        return true;
    }

    /** Starts the program, while other threads let go what they have. */
    private Engine started(long millis) {
        isStarting = true;
        lock.unlock();
        try {
            return starting.apply(millis);
        } finally {
            lock.lock();
            isStarting = false;
            changed.signalAll();
        }
    }

    /** One thread at a time starts the program. */
    private void awaitStart() {
        while (isStarting) {
            changed.awaitUninterruptibly();
        }
    }

    private boolean isAdmitted(long passed) {
        if (engine.made() >= high && busy == 0) {
            restart();
        }
        if (engine.made() >= gate && passed > PATIENCE && engine.made() < MOST) {
            gate = Math.min(MOST, engine.made() + STEP);
        }
        return engine.made() < gate;
    }

    private Session sessionFor(Session held) {
        refusal = null;
        if (held != null && isThere(held)) {
            if (!engine.isRunOver()) {
                return held;
            }
            List.copyOf(idle).forEach(this::giveUp);
            forgetRun();
        }
        if (!free.isEmpty()) {
            return free.pop();
        }
        Session made = opened < MANAGERS ? open() : null;
        return made == null ? takeIdle() : made;
    }

    private boolean isThere(Session session) {
        return !session.isLost && session.run() == run;
    }

    /** Null where other processes have the managers of a server. */
    private Session open() {
        Lines lines = new Lines();
        long probed = engine.probe(lines);
        Reply[] replies = engine.ask(lines.createEntityManager());
        if (probed > 0 && engine.isOver(replies[0], probed)) {
            List.copyOf(idle).forEach(this::giveUp);
            forgetRun();
        }
        Reply reply = replies[replies.length - 1];
        if (reply.isRefused() && engine.isShared() && reply.error().equals("Limit")) {
            refusal = reply.why();
            return null;
        } else if (reply.isRefused()) {
            throw Refusals.of(reply);
        }
        long manager = (Long) reply.ok();
        engine.ask(new Lines().flushAtCommit(manager));
        opened++;
        return new Session(engine, manager, run, false);
    }

    /** The manager of who was idle for the longest time; null where all are busy. */
    private Session takeIdle() {
        Iterator<Session> idles = idle.iterator();
        if (!idles.hasNext()) {
            return null;
        }
        Session taken = idles.next();
        idles.remove();
        taken.isLost = true;
        refusal = null;
        return new Session(engine, taken.manager(), run, true);
    }

    // ---- over a server ---------------------------------------------------------------------------------------------

    /**
     * Waits until the server that is ending has let the connection go: other threads may end what they have open.
     *
     * @return whether it has, in so many milliseconds
     * @throws InterruptedException where the thread is interrupted meanwhile
     */
    public boolean awaitEnd(long millis) throws InterruptedException {
        Engine ending = engine();
        long start = System.nanoTime();
        while (ending.isRunning()) {
            if (System.nanoTime() - start > TimeUnit.MILLISECONDS.toNanos(millis)) {
                return false;
            }
            TimeUnit.MILLISECONDS.sleep(LOOK);
        }
        return true;
    }

    /**
     * Begins the transaction of one that is busy, so that the server begins no new run until it ends.
     *
     * @return false where a new run came before: then what it holds is lost, and it is to {@link #enter} again
     */
    public boolean begin(Session session) {
        try {
            if (session.engine().begin(session.manager())) {
                return true;
            }
        } catch (RuntimeException e) {
            giveBack(session, true);
            throw e;
        }
        endRun(session);
        return false;
    }

    /** It isn't busy any more, and its run is over. */
    private void endRun(Session session) {
        lock.lock();
        try {
            boolean isOver = isThere(session) && session.engine() == engine;
            giveBack(session, true);
            if (isOver) {
                List.copyOf(idle).forEach(this::giveUp);
                forgetRun();
            }
        } finally {
            lock.unlock();
        }
    }

    /** Lets a manager of the server go; also one that was kept over the beginning of a new run. */
    private void closeManager(Session session) {
        if (session.isLost || session.engine() != engine) {
            return;
        }
        if (isThere(session)) {
            opened--;
        }
        session.isLost = true;
        try {
            engine.send(new Lines().close(session.manager()));
        } catch (ProgramEnded ended) {
            System.getLogger("karzhoul").log(System.Logger.Level.DEBUG, "a manager ended with its connection", ended);
        }
    }

    private void giveUp(Session session) {
        idle.remove(session);
        closeManager(session);
    }

    /** Waits for a manager in the server's queue, while others go on. */
    private void queue(long nanos) {
        String why = refusal;
        Engine asked = engine;
        long millis = TimeUnit.NANOSECONDS.toMillis(nanos);
        queued++;
        lock.unlock();
        try {
            why = millis <= 0 ? why : asked.turn(millis);
        } catch (InterruptedIOException e) {
            Thread.currentThread().interrupt();
            throw new PersistenceException("interrupted while it waited for a manager of the server", e);
        } catch (IOException | NotServed e) {
            why = null;                     // the next look at the engine finds that it has ended
        } finally {
            lock.lock();
            queued--;
        }
        if (why != null) {
            throw new PersistenceException("Limit: " + why + " (karzhoul.pool.wait): close or commit sooner, or wait longer");
        }
    }

    /** Managers of who has objects and no transaction are others' after a while; the objects are found again. */
    private void giveUpIdle() {
        lock.lock();
        try {
            while (!isClosed) {
                long now = System.nanoTime();
                List.copyOf(idle).stream().filter(it -> now - it.idleSince >= IDLE).forEach(this::giveUp);
                if (idle.isEmpty()) {
                    idled.await();
                } else {
                    idled.awaitNanos(IDLE);
                }
            }
        } catch (InterruptedException e) {
            Thread.currentThread().interrupt();
        } finally {
            lock.unlock();
        }
    }

    /** Ends the run, or leaves that to who enters next: what is left may be a commit, which stands. */
    private void restartLater() {
        try {
            restart();
        } catch (PersistenceException later) {
            System.getLogger("karzhoul").log(System.Logger.Level.DEBUG, "the run goes on", later);
        }
    }

    private void restart() {
        engine.restart();
        forgetRun();
    }

    private void forgetRun() {
        run++;
        numbers.forget();
        sequences.forget();
        free.clear();
        idle.clear();
        opened = 0;
        high = HIGH;
        gate = HIGH;
    }

    private void await(long passed, long wait) {
        if (passed > wait) {
            throw new PersistenceException((busy >= MANAGERS
                ? "all " + MANAGERS + " managers of the program have a transaction"
                : "the program has made " + engine.made() + " objects and can't begin anew while a transaction is open")
                + ", and none of them ended in " + TimeUnit.NANOSECONDS.toMillis(wait)
                + " ms (karzhoul.pool.wait): close or commit sooner, or wait longer");
        }
        try {
            changed.awaitNanos(Math.min(wait - passed + 1, PATIENCE));
        } catch (InterruptedException e) {
            Thread.currentThread().interrupt();
            throw new PersistenceException("interrupted while it waited for a manager of the program", e);
        }
    }
}
