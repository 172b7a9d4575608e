package karzhoul.jpa.context;

import jakarta.persistence.LockModeType;
import jakarta.persistence.TransactionRequiredException;
import java.lang.ref.Cleaner;
import java.lang.ref.WeakReference;
import java.util.ArrayList;
import java.util.Arrays;
import java.util.BitSet;
import java.util.EnumSet;
import java.util.HashMap;
import java.util.IdentityHashMap;
import java.util.List;
import java.util.Map;
import java.util.Set;
import java.util.function.Supplier;
import karzhoul.jpa.engine.Engine;
import karzhoul.jpa.engine.Event;
import karzhoul.jpa.engine.Lines;
import karzhoul.jpa.engine.Pool;
import karzhoul.jpa.engine.ProgramEnded;
import karzhoul.jpa.engine.Refusals;
import karzhoul.jpa.engine.Reply;
import karzhoul.jpa.engine.Session;
import karzhoul.jpa.model.Callbacks;
import karzhoul.jpa.model.ElementRow;
import karzhoul.jpa.model.EntityModel;
import karzhoul.jpa.model.KeyModel;
import karzhoul.jpa.model.Relation;
import karzhoul.jpa.model.UnitModel;

/**
 * A persistence context (chapter 3.1) beside one of the program's managers: which instance is which object, what waits
 * to be sent, and the transaction. What the program decides is asked of it. For one thread at a time.
 */
final class Context {
    private static final Entry.Row NO_ROW = new Entry.Row(new Object[0], new Object[0]);
    private static final int AHEAD = 8_000;
    private static final Cleaner CLEANER = Cleaner.create();

    private final Factory factory;
    private final long waitMillis;
    private final Held held;
    private final Cleaner.Cleanable cleaning;
    private final UnitModel unit;
    private final Identities identities = new Identities();
    private final Lines queue = new Lines();
    private final List<Engine.Sent> sentAhead = new ArrayList<>();
    private final Map<Entry, Set<Callbacks.Event>> heard = new IdentityHashMap<>();
    private final BitSet detached = new BitSet();
    private final Map<Long, WeakReference<Object>> lost = new HashMap<>();
    private final List<Entry> touched = new ArrayList<>();
    private final List<Entry> locked = new ArrayList<>();
    private final List<Entry> made = new ArrayList<>();
    private final Orphans orphans = new Orphans(this);
    private final Map<Entry, Entry.Row> written = new IdentityHashMap<>();
    private final HiddenRows hiddenRows = new HiddenRows(this);
    private final UniqueValues uniques = new UniqueValues(this);
    private final ListOrders listOrders = new ListOrders(this);
    private final UnreadProxies unreadProxies = new UnreadProxies(this);
    private Session session;
    private Reading reading;
    private int depth;
    private boolean isActive;
    private boolean hasBegun;
    private boolean isBeginSent;
    private boolean isMarked;
    /** What marked it; null where setRollbackOnly did. */
    private Throwable markedBy;
    private boolean isTouched;
    private boolean isStoring;
    private boolean hasStale;
    private boolean hasRemoved;
    private boolean isClosing;

    Context(Factory factory) {
        this(factory, factory.waitMillis());
    }

    /** One that waits so long for one of the program's managers. */
    Context(Factory factory, long waitMillis) {
        this.factory = factory;
        this.waitMillis = waitMillis;
        unit = factory.unit();
        held = new Held(factory.pool());
        cleaning = CLEANER.register(this, held);
    }

    /** What nobody gives back, since its entity manager was forgotten with a transaction open. */
    private static final class Held implements Runnable {
        private final Pool pool;
        private volatile Session session;

        Held(Pool pool) {
            this.pool = pool;
        }

        @Override
        public void run() {
            if (session != null) {
                pool.abandon(session);
            }
        }
    }

    private void hold(Session now) {
        session = now;
        held.session = now;
        if (now == null && isClosing) {
            cleaning.clean();
        }
    }

    Factory factory() {
        return factory;
    }

    UnitModel unit() {
        return unit;
    }

    Identities identities() {
        return identities;
    }

    HiddenRows hiddenRows() {
        return hiddenRows;
    }

    UniqueValues uniques() {
        return uniques;
    }

    ListOrders listOrders() {
        return listOrders;
    }

    UnreadProxies unreadProxies() {
        return unreadProxies;
    }

    /** The calls that wait for the next one that is answered. */
    Lines queue() {
        return queue;
    }

    /** The number of the program's manager; within {@link #within} alone. */
    long manager() {
        return session.manager();
    }

    Engine engine() {
        return session.engine();
    }

    // ---- operations and transactions -------------------------------------------------------------------------------

    /** Does one operation that asks the program: it is busy meanwhile, and what it left waiting is sent at its end. */
    <T> T within(Supplier<T> operation) {
        if (depth > 0 || hasBegun) {
            T done = deeper(operation);
            sendAhead();
            return done;
        }
        enter();
        T done;
        try {
            done = deeper(operation);
        } catch (RuntimeException | Error e) {
            try {
                finish();
            } catch (RuntimeException second) {
                e.addSuppressed(second);
            }
            throw e;
        }
        finish();
        return done;
    }

    private <T> T deeper(Supplier<T> operation) {
        depth++;
        try {
            return operation.get();
        } finally {
            depth--;
        }
    }

    /** In a transaction what waits goes on its way once there is much of it, so that the program works meanwhile. */
    private void sendAhead() {
        if (depth == 0 && hasBegun && queue.length() >= AHEAD && queue.length() <= Engine.WINDOW) {
            try {
                isBeginSent = true;
                sentAhead.add(session.engine().send(queue));
            } catch (ProgramEnded e) {
                throw marked(e);
            } finally {
                queue.clear();
            }
        }
    }

    /** What was sent ahead, and was refused, must not be missing from a commit. */
    private void checkSentAhead() {
        for (Engine.Sent sent : sentAhead) {
            if (sent.refused() != null) {
                sentAhead.clear();
                throw marked(Refusals.of(sent.refused()));
            }
        }
        sentAhead.clear();
    }

    /** What is told of instances must reach the program, also where the operation was refused then. */
    private void finish() {
        if (hasBegun) {
            return;
        }
        try {
            if (session != null && session.engine().isRunning()) {
                send();
            }
        } finally {
            leave();
        }
    }

    /** Takes a manager of the program; where none is to be had, the transaction can only roll back. */
    private void enter() {
        try {
            take();
        } catch (RuntimeException e) {
            throw marked(e);
        }
    }

    private void take() {
        Session now = factory.pool().enter(session, waitMillis);
        boolean isBegun = isActive && now.engine().isShared();
        while (isBegun && !factory.pool().begin(now)) {
            now = factory.pool().enter(session, waitMillis);
        }
        boolean isOther = now != session;
        hold(now);
        try {
            if (isOther) {
                renumbered(now);
            }
            if (isActive && !isBegun) {
                queue.begin(now.manager());
            }
            hasBegun = isActive;
            isBeginSent = isBegun;
        } catch (RuntimeException e) {
            hold(null);
            if (isBegun) {
                factory.pool().abandon(now);
            } else {
                factory.pool().leave(now);
            }
            throw e;
        }
    }

    private void renumbered(Session now) {
        queue.clear();
        detached.clear();
        lost.clear();
        if (now.needsClear()) {
            queue.clearAll(now.manager());
        }
        if (identities.hasNumbers()) {
            try {
                int carried = new Carry(this).overNewRun();
                factory.pool().carried(carried);
            } catch (RuntimeException e) {
                letAllGo();         // half carried over it would lose changes without a word
                throw e;
            }
        }
    }

    /** Ends what {@link #enter} began; a manager that holds nothing goes back to the pool. */
    private void leave() {
        sentAhead.clear();
        if (session == null) {
            return;
        }
        queue.clear();
        if (identities.hasNumbers()) {
            factory.pool().leave(session);
        } else {
            factory.pool().giveBack(session, true);
            hold(null);
        }
    }

    boolean isActive() {
        return isActive;
    }

    void begin() {
        isActive = true;
        unmark();
    }

    private void unmark() {
        isMarked = false;
        markedBy = null;
    }

    boolean isMarked() {
        return isMarked;
    }

    /** What marked the transaction, as the application met it; null where it asked for that itself. */
    Throwable markedBy() {
        return markedBy;
    }

    /** The transaction can only roll back from now on, since the application asks for it. */
    void mark() {
        isMarked = isActive;
    }

    /** Marks the transaction, and answers what is to be thrown: the first one, or what tells more of it. */
    <E extends Throwable> E marked(E refusal) {
        if (isActive && (!isMarked || markedBy != null && isOf(refusal, markedBy))) {
            isMarked = true;
            markedBy = refusal;
        }
        return refusal;
    }

    private static boolean isOf(Throwable refusal, Throwable first) {
        Throwable cause = refusal;
        while (cause != null && cause != first) {
            cause = cause.getCause();
        }
        return cause == first;
    }

    void needTransaction() {
        if (!isActive) {
            throw new TransactionRequiredException("no transaction is active: begin one");
        }
    }

    /** Whether the program's manager has a transaction, as far as it was told. */
    boolean isBegunThere() {
        return isBeginSent;
    }

    /** Sends what waits. */
    void send() {
        if (!queue.isEmpty() || !sentAhead.isEmpty()) {
            ask(queue.count());
        }
    }

    /** A push of this context's changes. */
    Push push() {
        return factory.pushing().apply(this);
    }

    /** The program was told of a change of it, since its row was read or written. */
    void hasTouched(Entry entry) {
        touched.add(entry);
    }

    /** What left relations that remove orphans, since the last flush. */
    Orphans orphans() {
        return orphans;
    }

    /** All that was told is written. */
    void cleanTouched() {
        for (Entry entry : touched) {
            written.putIfAbsent(entry, entry.row());
            entry.clean();
        }
        touched.clear();
    }

    /** What flushes of this transaction have written, with its row before; one without values where there was none. */
    Map<Entry, Entry.Row> written() {
        return written;
    }

    /**
     * What was removed, and whose row a flush has not dropped, is managed again: a relation that cascades PERSIST led
     * to it still (chapter 3.2.4).
     */
    void revive() {
        if (!hasRemoved) {
            return;
        }
        for (Entry entry : identities.numbered()) {
            if (entry.state() == Entry.State.REMOVED && entry.isStored()) {
                entry.state(Entry.State.MANAGED);
            }
        }
    }

    boolean hasStale() {
        return hasStale;
    }

    void setStale(Entry entry) {
        entry.stale(true);
        hasStale = true;
    }

    /** Whether the program was told of a change since the last flush. */
    boolean isTouched() {
        return isTouched;
    }

    boolean hasRemoved() {
        return hasRemoved;
    }

    void touched(boolean is) {
        isTouched = is;
    }

    /** The program was told of what a commit is to store. */
    void storing() {
        isTouched = true;
        isStoring = true;
    }

    /** Whether the transaction has something to store, flushed or not. */
    boolean isStoring() {
        return isStoring;
    }

    /** Whether a commit is to find something as it was. */
    boolean isChecking() {
        return !locked.isEmpty();
    }

    /** The transaction has ended at the program, by a commit that was done. */
    void committed() {
        isActive = false;
        unmark();
        isStoring = false;
        hasBegun = false;
        isBeginSent = false;
        forgetRemoved();
        locked.forEach(entry -> entry.lock(LockModeType.NONE));
        locked.clear();
        made.clear();
        forgetRunAhead();
        clear(written);
        forgetHidden();
        if (isClosing) {
            letAllGo();
        }
        leave();
    }

    private void forgetRemoved() {
        if (!hasRemoved) {
            return;
        }
        for (Entry entry : identities.numbered()) {
            if (entry.state() == Entry.State.REMOVED) {
                forget(entry);
            }
        }
        hasRemoved = false;
    }

    /** Keeps how an entry is locked until the transaction ends. */
    void lock(Entry entry, LockModeType mode) {
        entry.lock(mode);
        locked.add(entry);
    }

    /** A new instance is managed from now on: its key is that of a row if this transaction is committed. */
    void isMade(Entry entry) {
        made.add(entry);
        factory.neverStored().remove(entry.instance());
    }

    /** Whether a transaction made the instance, and was rolled back. */
    boolean isNeverStored(Object instance) {
        return factory.neverStored().has(instance);
    }

    /** Whether the transaction's instances were stored isn't known. */
    void forgetMade() {
        made.clear();
    }

    /** The transaction ends without a commit: all is detached (chapter 3.3.3). */
    void rolledBack(boolean isOverThere) {
        boolean isOpenThere = isBeginSent && !isOverThere;
        isActive = false;
        unmark();
        isStoring = false;
        hasBegun = false;
        isBeginSent = false;
        queue.clear();
        sentAhead.clear();
        made.forEach(entry -> factory.neverStored().add(entry.instance()));
        letAllGo();
        if (session == null) {
            return;
        }
        try {
            if (isOpenThere && session.engine().isRunning()) {
                session.engine().ask(queue.rollback(session.manager()));
            }
        } catch (ProgramEnded ended) {
            System.getLogger("karzhoul").log(System.Logger.Level.DEBUG, "it is rolled back by that", ended);
        } finally {
            queue.clear();
            factory.pool().giveBack(session, true);
            hold(null);
        }
    }

    // ---- asking ----------------------------------------------------------------------------------------------------

    /** Sends what waits; the replies from this place on. The first refusal is thrown. */
    Reply[] ask(int from) {
        return ask(from, null);
    }

    /** As {@link #ask(int)}; what the tail adds may be refused, and stands at the end of what is answered. */
    Reply[] ask(int from, Engine.Tail tail) {
        int main = queue.count();
        Reply[] replies;
        try {
            isBeginSent = hasBegun;
            replies = session.engine().ask(queue, tail);
        } catch (ProgramEnded e) {
            throw marked(e);
        } finally {
            queue.clear();
        }
        checkSentAhead();
        for (int i = 0; i < main; i++) {
            if (replies[i].isRefused()) {
                RuntimeException refusal = Refusals.of(replies[i]);
                // what waited, and was refused, must not be missing from a commit
                throw i < from || Refusals.marks(replies[i]) ? marked(refusal) : refusal;
            }
        }
        return from == 0 ? replies : Arrays.copyOfRange(replies, from, replies.length);
    }

    // ---- callbacks -------------------------------------------------------------------------------------------------

    /** Runs the callbacks of an event; what one throws marks the transaction. */
    void run(Callbacks.Event event, Entry entry) {
        if (entry.model().callbacks().hears(event)) {
            try {
                entry.model().callbacks().run(event, entry.instance());
            } catch (RuntimeException | Error e) {
                marked(e);
                throw e;
            }
        }
    }

    /** Runs them before the program tells the event; they don't run again when it does. */
    void runAhead(Callbacks.Event event, Entry entry) {
        if (entry.model().callbacks().hears(event)
                && heard.computeIfAbsent(entry, e -> EnumSet.noneOf(Callbacks.Event.class)).add(event)) {
            run(event, entry);
        }
    }

    /** They ran in an earlier run, and don't run again. */
    void hush(Callbacks.Event event, Entry entry) {
        heard.computeIfAbsent(entry, e -> EnumSet.noneOf(Callbacks.Event.class)).add(event);
    }

    /**
     * Takes what an event tells of an entry's state and version.
     *
     * @return whether it is managed by that
     */
    boolean told(Event event, Entry entry) {
        switch (event.kind()) {
            case PrePersist:
                if (entry.key() == null && entry.model().key().generation() != KeyModel.Generation.COUNTER) {
                    entry.key(Targets.keyOf(entry.model(), entry.instance()));
                }
                entry.state(Entry.State.MANAGED);
                identities.put(entry);
                return true;
            case PreRemove:
                entry.state(Entry.State.REMOVED);
                hasRemoved = true;
                return false;
            case PostPersist:
                entry.state(Entry.State.MANAGED);
                entry.stored(true);
                entry.version(0);
                written.put(entry, NO_ROW);
                return false;
            case PostUpdate:
                written.putIfAbsent(entry, entry.rowBefore());
                entry.raiseVersion();
                return false;
            case PostRemove:
                entry.stored(false);
                return false;
            default:
                return false;
        }
    }

    /** Whether they ran already; asked once for each time that they did. */
    boolean wasRunAhead(Callbacks.Event event, Entry entry) {
        Set<Callbacks.Event> events = heard.get(entry);
        return events != null && events.remove(event);
    }

    void forgetRunAhead() {
        clear(heard);
    }

    // ---- instances -------------------------------------------------------------------------------------------------

    /**
     * The entity of an instance.
     *
     * @throws IllegalArgumentException where it is none of the unit's
     */
    EntityModel modelOf(Object instance) {
        if (instance == null) {
            throw marked(new IllegalArgumentException("null is no entity"));
        }
        if (instance instanceof ElementRow row) {
            return row.entity();
        }
        Object known = Proxies.known(instance);
        if (known instanceof Entry entry && entry.model().root() != null && unit.entities().contains(entry.model())) {
            return entry.model();
        }
        try {
            return unit.of(known instanceof Plain.Key key ? key.entity() : instance.getClass());
        } catch (IllegalArgumentException e) {
            throw marked(e);
        }
    }

    /** What is known of an instance here, or null. */
    Entry entryOf(Object instance) {
        return identities.of(instance);
    }

    /** Lets an entry go, as it is: it is detached. */
    void forget(Entry entry) {
        heard.remove(entry);
        identities.remove(entry);
        if (entry.number() != 0) {
            detached.set((int) entry.number());
            lost.put(entry.number(), new WeakReference<>(entry.instance()));
        }
        entry.letGo();
    }

    boolean isDetached(long number) {
        return detached.get((int) number);
    }

    /** The instance that was detached and had this number, or null where it is gone. */
    Object lost(long number) {
        WeakReference<Object> instance = lost.get(number);
        return instance == null ? null : instance.get();
    }

    void lose(long number, WeakReference<Object> instance) {
        lost.put(number, instance);
    }

    /** The instance that was to be it was never given to anybody. */
    void unlose(long number) {
        lost.remove(number);
    }

    /** The reading whose callbacks run now; null where none do. */
    Reading reading() {
        return reading;
    }

    void reading(Reading now) {
        reading = now;
    }

    /** The program's object is a detached one of this instance. */
    void setDetached(long number, WeakReference<Object> instance) {
        detached.set((int) number);
        lost.put(number, instance);
    }

    /** The number of a new object of this entity. */
    long newNumber(EntityModel model) {
        return factory.pool().numbers().take(session.engine(), model.mappedName());
    }

    /** A proxy of this key, which this context manages from now on. */
    Entry proxyOf(EntityModel model, List<Object> key) {
        Entry entry = new Entry(model, this, Entry.State.MANAGED);
        entry.key(key);
        entry.hollow(true);
        entry.stored(true);
        entry.instance(Proxies.make(entry));
        identities.put(entry);
        unreadProxies.add(entry);
        return entry;
    }

    private void letAllGo() {
        identities.all().forEach(Entry::letGo);
        identities.clear();
        unreadProxies.forget();
        detached.clear();
        lost.clear();
        clear(heard);
        touched.clear();
        locked.clear();
        made.clear();
        clear(written);
        forgetHidden();
        isTouched = false;
        hasStale = false;
        hasRemoved = false;
    }

    private void forgetHidden() {
        orphans.forget();
        hiddenRows.forget();
        uniques.forget();
        listOrders.forget();
    }

    /** To clear a table of identities takes as long as it is, though nothing is in it. */
    private static void clear(Map<?, ?> map) {
        if (!map.isEmpty()) {
            map.clear();
        }
    }

    /** Detaches all (chapter 3.2.7); an open transaction goes on. */
    void clear() {
        letAllGo();
        isStoring &= isActive;
        if (session == null) {
            return;
        }
        if (hasBegun || depth > 0) {
            queue.clearAll(session.manager());
        } else {
            factory.pool().giveBack(session, true);
            hold(null);
        }
    }

    /** Its entity manager is closed: what it has is let go now, or once its transaction ends. */
    void close() {
        isClosing = true;
        if (!isActive) {
            clear();
            if (session == null) {
                cleaning.clean();
            }
        }
    }

    /** Reads the members of a collection that is looked at. */
    List<Object> readMembers(Entry owner, Relation relation) {
        return within(() -> new Fill(this).members(owner, relation));
    }

    /** Reads the values of a proxy that is looked at. */
    void fillProxy(Entry entry) {
        within(() -> {
            new Fill(this).proxy(entry);
            return null;
        });
    }
}
