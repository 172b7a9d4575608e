package karzhoul.jpa.context;

import jakarta.persistence.LockModeType;
import jakarta.persistence.OptimisticLockException;
import jakarta.persistence.PersistenceException;
import java.util.ArrayList;
import java.util.Collection;
import java.util.HashSet;
import java.util.List;
import java.util.Set;
import karzhoul.jpa.CommitUnknownException;
import karzhoul.jpa.engine.Event;
import karzhoul.jpa.engine.Lines;
import karzhoul.jpa.engine.ProgramEnded;
import karzhoul.jpa.engine.Ref;
import karzhoul.jpa.engine.Reply;
import karzhoul.jpa.engine.StoreFault;
import karzhoul.jpa.model.Callbacks;

/**
 * The flush (chapters 3.2.4 and 3.5). What changed is told, the program is asked which callbacks are due, and these
 * run, until nothing new is due; only then does it write. One for each flush or commit.
 */
final class Flush {
    private static final int MOST_ROUNDS = 100;

    private final Context context;
    private final Lines queue;
    /** What the last push didn't tell, since it can't be kept. */
    private List<Push.Unfit> unfit = List.of();
    /** Whether the transaction goes on behind it. */
    private boolean goesOn;
    /** Those that heard PreUpdate for such a value. */
    private final Set<Entry> unfitHeard = new HashSet<>();

    Flush(Context context) {
        this.context = context;
        queue = context.queue();
    }

    /** Flushes, where anything changed. */
    void flush() {
        goesOn = true;
        prepare();
        if (context.isTouched()) {
            write();
            context.hiddenRows().flush();
        }
    }

    /**
     * Flushes and commits; nothing is asked where nothing changed since the begin. What only read is done, also where the
     * program has ended meanwhile: nothing of it was to be stored.
     */
    void commit() {
        prepare();
        if (hasChanged() && writesFirst()) {
            write();        // nothing is asked behind the commit: an end there would tell as refused what stands
        }
        if (!context.isTouched() && !context.isBegunThere()) {
            context.committed();
            return;
        }
        try {
            context.send();             // a change that were refused must not be behind a commit that is done
            queue.commit(context.manager());
            take(commitNow().events(), false);
        } catch (ProgramEnded e) {
            if (context.isStoring() || context.isChecking()) {
                throw e;
            }
        }
        context.committed();
    }

    /** What is to be asked or told behind the writes is done before the commit. */
    private boolean writesFirst() {
        return context.orphans().hasMoved() || !keyless().isEmpty()
            || context.factory().writesFirst(context.identities().models());
    }

    /** Whether there is something to store since the last flush: what is only read again or locked hears and writes nothing. */
    private boolean hasChanged() {
        return context.isTouched() && context.isStoring();
    }

    private Reply commitNow() {
        try {
            return context.ask(0, (lines, number) -> context.hiddenRows().letGo(lines))[0];
        } catch (ProgramEnded e) {
            throw e.isAsked() && context.isStoring() ? new CommitUnknownException(e.ofCommit(), e) : e;
        } catch (StoreFault e) {
            context.engine().close();       // its store is shut for good: the next entity manager has another one open it
            throw new CommitUnknownException(e.getMessage() + " The program shut it as the commit was written: all of it is"
                + " stored, or nothing. Look which before it is done again; the next entity manager starts the program", e);
        }
    }

    /** Tells what changed, and runs what is due before the writes; what can't be kept then is refused. */
    private void prepare() {
        push();
        if (isReviving()) {
            context.storing();
        }
        if ((hasChanged() || !unfit.isEmpty()) && context.factory().hearsBefore(context.identities().models())) {
            runBefore();
        }
        if (!unfit.isEmpty()) {
            throw unfit.get(0).refusal();
        } else if (context.hasStale()) {
            checkStale();
        }
    }

    /** Whether the next flush manages again what one has removed: that hears its callbacks before it is written. */
    private boolean isReviving() {
        return context.hasRemoved() && !Revived.of(context).isEmpty();
    }

    private void runBefore() {
        Set<Event> due = new HashSet<>();
        for (int round = 0; runUnfit() | (hasChanged() && runDue(due)); round++) {
            if (round == MOST_ROUNDS) {
                throw new PersistenceException("callbacks before the writes set each other off: after "
                    + MOST_ROUNDS + " rounds each still changed something");
            }
            int before = queue.count();
            push();
            if (queue.count() == before && unfit.stream().noneMatch(value -> isToHear(value.entry()))) {
                break;
            }
        }
        for (Entry entry : unfitHeard) {
            if (!entry.isTouched()) {
                context.wasRunAhead(Callbacks.Event.PreUpdate, entry);      // nothing of it is written: it may hear again
            }
        }
    }

    /** Who has a value that can't be kept hears PreUpdate, of which the program can't tell: it doesn't have that value. */
    private boolean runUnfit() {
        boolean isNew = false;
        for (Push.Unfit value : unfit) {
            Entry entry = value.entry();
            if (isToHear(entry)) {
                unfitHeard.add(entry);
                isNew = true;
                context.runAhead(Callbacks.Event.PreUpdate, entry);
            }
        }
        return isNew;
    }

    private boolean isToHear(Entry entry) {
        return entry.isManaged() && entry.isStored() && entry.model().callbacks().hears(Callbacks.Event.PreUpdate)
            && !unfitHeard.contains(entry);
    }

    private void push() {
        context.unreadProxies().readWritten();
        Push push = context.push();
        push.waits();
        push.all();
        unfit = push.unfit();
        context.orphans().settle();
        readWhole();
        if (unfit.stream().anyMatch(value -> isRemoved(value.entry()))) {
            Set<Entry> revived = Revived.of(context);
            unfit = unfit.stream().filter(value -> !isRemoved(value.entry()) || revived.contains(value.entry())).toList();
        }
        if (!unfit.isEmpty()) {
            Set<Event> due = new HashSet<>(pending());
            unfit = unfit.stream().filter(value -> !due.contains(removalOf(value.entry()))).toList();
        }
    }

    /** What is put back by this flush, or may be before the transaction ends, is to come back with all that its row has. */
    private void readWhole() {
        List<Entry> entries = new ArrayList<>(goesOn ? context.orphans().leaving() : List.of());
        if (context.hasRemoved()) {
            Collection<Entry> removed = goesOn ? context.identities().numbered() : Revived.of(context);
            removed.stream().filter(Flush::isRemoved).forEach(entries::add);
        }
        new WholeRows(context).read(entries);
    }

    /** What the program tells of an orphan that the flush is going to remove. */
    private static Event removalOf(Entry entry) {
        return new Event(Callbacks.Event.PreRemove, entry.number());
    }

    private static boolean isRemoved(Entry entry) {
        return entry.state() == Entry.State.REMOVED;
    }

    /** Asks which callbacks are due, and runs those that didn't; answers whether there were any. */
    private boolean runDue(Set<Event> before) {
        List<Event> due = pending();
        boolean isNew = false;
        List<Object> unknown = new ArrayList<>();
        due.stream().filter(event -> context.identities().of(event.number()) == null)
            .forEach(event -> unknown.add(new Ref(event.number())));
        if (!unknown.isEmpty()) {
            new Fill(context).entries(unknown);
        }
        for (Event event : due) {
            Entry entry = context.identities().of(event.number());
            if (entry != null && before.add(event)) {
                isNew = true;
                if (entry.isHollow()) {
                    new Fill(context).proxy(entry);
                }
                context.runAhead(event.kind(), entry);
            }
        }
        return isNew;
    }

    private List<Event> pending() {
        context.orphans().lend();
        int from = queue.count();
        queue.pending(context.manager());
        context.orphans().takeBack();
        return events(context.ask(from)[0].list());
    }

    private static List<Event> events(List<Object> told) {
        List<Event> events = new ArrayList<>(told.size());
        for (Object one : told) {
            List<?> pair = (List<?>) one;
            events.add(new Event(Callbacks.Event.valueOf((String) pair.get(0)), (Long) pair.get(1)));
        }
        return events;
    }

    /** What is to be written over a row that another commit changed while this manager lived over the end of a run. */
    private void checkStale() {
        for (Entry entry : context.identities().numbered()) {
            boolean isWritten = entry.isTouched() || entry.state() == Entry.State.REMOVED
                || entry.lock() != LockModeType.NONE;
            if (entry.isStale() && isWritten) {
                throw context.marked(new OptimisticLockException("OptimisticLock, " + entry
                    + ": another commit changed or removed the row meanwhile; find it again, apply the change, commit",
                    null, entry.instance()));
            }
        }
    }

    /** What may be persisted by the flush, and gets its key there. */
    private List<Entry> keyless() {
        List<Entry> keyless = new ArrayList<>();
        for (Entry entry : context.identities().numbered()) {
            if (entry.state() == Entry.State.NEW && Persist.isKeyless(entry)) {
                keyless.add(entry);
            }
        }
        return keyless;
    }

    private void write() {
        context.send();
        context.orphans().lend();
        int from = queue.count();
        queue.flush(context.manager());
        List<Event> events = context.ask(from)[0].events();
        take(events, true);
        context.uniques().settle();
        context.listOrders().settle();
        context.orphans().written();
        after(events);
    }

    /** Takes what the flush tells: states, keys, versions. What it loaded and removed is read where that is possible. */
    private void take(List<Event> events, boolean isOpen) {
        context.touched(false);
        if (isOpen) {
            readRemoved(events);
        }
        List<Entry> persisted = new ArrayList<>();
        for (Event event : events) {
            Entry entry = context.identities().of(event.number());
            if (entry != null && isOpen) {
                context.uniques().note(event, entry);
                context.listOrders().note(event, entry);
            }
            if (entry != null && context.told(event, entry) && Persist.isKeyless(entry)) {
                persisted.add(entry);
            }
        }
        context.revive();
        Persist.manage(context, persisted);
        context.cleanTouched();
    }

    private void readRemoved(List<Event> events) {
        List<Object> unknown = new ArrayList<>();
        for (Event event : events) {
            if (event.kind() == Callbacks.Event.PreRemove && context.identities().of(event.number()) == null) {
                unknown.add(new Ref(event.number()));
            }
        }
        if (!unknown.isEmpty()) {
            new Fill(context).entries(unknown);
        }
    }

    /** Runs the callbacks that the flush told, and that didn't run before it. */
    private void after(List<Event> events) {
        for (Event event : events) {
            Entry entry = context.identities().of(event.number());
            if (entry != null && event.kind() != Callbacks.Event.PostLoad && !context.wasRunAhead(event.kind(), entry)) {
                context.run(event.kind(), entry);
            }
        }
        context.forgetRunAhead();
    }
}
