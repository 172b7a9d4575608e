package karzhoul.jpa.context;

import jakarta.persistence.CascadeType;
import jakarta.persistence.EntityNotFoundException;
import jakarta.persistence.LockModeType;
import jakarta.persistence.PersistenceException;
import java.util.ArrayList;
import java.util.Collection;
import java.util.LinkedHashSet;
import java.util.List;
import java.util.Set;
import java.util.function.Predicate;
import karzhoul.jpa.engine.Event;
import karzhoul.jpa.engine.Lines;
import karzhoul.jpa.engine.Ref;
import karzhoul.jpa.model.Callbacks;
import karzhoul.jpa.model.EntityModel;
import karzhoul.jpa.model.Relation;

/** find, remove, refresh, detach and lock (chapters 3.2 and 3.4), each within {@link Context#within}. */
final class Operations {
    /** How the program calls a lock that raises the version. */
    private static final String RAISING = "WRITE";

    private final Context context;
    private final Lines queue;

    Operations(Context context) {
        this.context = context;
        queue = context.queue();
    }

    /** The managed instance of a key, or null; asks nothing where it is managed already. */
    Object find(EntityModel model, List<Object> key) {
        Entry entry = context.identities().of(model, key);
        if (entry == null) {
            entry = context.within(() -> new Fill(context).found(model, key));
        }
        if (entry == null || entry.state() == Entry.State.REMOVED || !entry.model().isA(model)) {
            return null;
        }
        if (entry.isHollow() && !fill(entry)) {
            context.forget(entry);      // a reference to nothing: another instance may be persisted with its key
            return null;
        }
        return entry.instance();
    }

    private boolean fill(Entry proxy) {
        return context.within(() -> proxy.number() != 0
            ? !new Fill(context).entries(List.of(new Ref(proxy.number()))).isEmpty()
            : new Fill(context).found(proxy.model(), proxy.key()) != null);
    }

    /** The instance of a key, perhaps a proxy; of a row that isn't there EntityNotFoundException now or at its first call. */
    Object reference(EntityModel model, List<Object> key) {
        Entry entry = context.identities().of(model, key);
        if (entry == null && Proxies.isPossible(model)) {
            return context.proxyOf(model, key).instance();
        }
        if (entry != null && entry.isHollow() && entry.model().isA(model)) {
            return entry.instance();
        }
        Object found = find(model, key);
        if (found == null) {
            throw context.marked(new EntityNotFoundException("EntityNotFound, " + model.name() + " " + key
                + ": there is no row of this identity"));
        }
        return found;
    }

    /** Removes an instance, and what remove goes on to; a new one is left as it is (chapter 3.2.3). */
    void remove(Object instance) {
        Entry entry = context.entryOf(instance);
        if (entry == null || entry.state() == Entry.State.NEW) {
            removeNew(instance);
            return;
        }
        if (entry.state() == Entry.State.DETACHED) {
            throw context.marked(new IllegalArgumentException("IllegalArgument(state), " + entry
                + ": a detached instance can't be removed; merge it first"));
        }
        remove(entry);
    }

    void remove(Entry entry) {
        if (entry.isHollow()) {
            new Fill(context).proxy(entry);
        }
        Predicate<Relation> cascades =
            relation -> relation.cascades().contains(CascadeType.REMOVE) || relation.removesOrphans();
        Set<Entry> reached = new Graph(context).entries(entry, cascades);
        Push push = context.push();
        push.waits();           // what is removed isn't judged; what else doesn't fit is met by the flush
        push.relationsOf(reached);
        int from = queue.count();
        queue.remove(context.manager(), entry.number()).about(entry);
        context.storing();
        removed(context.ask(from)[0].events()).forEach(this::removeJoined);
    }

    /** A joined relation that removes orphans goes on with remove, of which the program doesn't know but for elements. */
    private void removeJoined(Entry owner) {
        for (Relation relation : owner.model().relations()) {
            if (relation.isJoined() && relation.removesOrphans() && relation.elements().isEmpty()) {
                Collection<?> members = (Collection<?>) relation.get(owner.instance());
                for (Object member : members == null ? List.of() : List.copyOf(members)) {
                    Entry entry = context.entryOf(member);
                    if (entry != null && entry.isManaged()) {
                        remove(entry);
                    }
                }
            }
        }
    }

    private List<Entry> removed(List<Event> events) {
        List<Object> unknown = new ArrayList<>();
        for (Event event : events) {
            if (event.kind() == Callbacks.Event.PreRemove && context.identities().of(event.number()) == null) {
                unknown.add(new Ref(event.number()));
            }
        }
        new Fill(context).entries(unknown);
        List<Entry> removed = new ArrayList<>();
        for (Event event : events) {
            Entry entry = context.identities().of(event.number());
            if (entry != null) {
                context.told(event, entry);
                if (event.kind() == Callbacks.Event.PreRemove) {
                    removed.add(entry);
                }
            }
        }
        for (Entry entry : removed) {
            if (!context.wasRunAhead(Callbacks.Event.PreRemove, entry)) {
                context.run(Callbacks.Event.PreRemove, entry);
            }
        }
        return removed;
    }

    private void removeNew(Object instance) {
        EntityModel model = context.modelOf(instance);
        if (context.entryOf(instance) == null && isDetached(model, instance)) {
            throw context.marked(new IllegalArgumentException("IllegalArgument(state), " + told(model, instance)
                + ": a detached instance can't be removed; merge it first"));
        }
        Graph graph = new Graph(context);
        graph.add(instance);
        for (Relation relation : model.relations()) {
            if (relation.cascades().contains(CascadeType.REMOVE)) {
                List<Object> reached = new ArrayList<>();
                graph.along(instance, relation, reached);
                reached.forEach(this::remove);
            }
        }
    }

    private boolean isDetached(EntityModel model, Object instance) {
        List<Object> key = Targets.keyOf(model, instance);
        return key != null && new Targets(context).foreign(model, instance, false) != null;
    }

    /** Reads the values of the row again, and of what refresh goes on to (chapter 3.2.5). */
    void refresh(Object instance) {
        Entry entry = managed(instance, "refreshed");
        if (entry.isHollow()) {
            new Fill(context).anew(entry);
            return;
        }
        if (context.isTouched()) {
            new ToldElements(context).takeBack(entry);
        }
        readLinks(entry);
        int from = queue.count();
        queue.refresh(context.manager(), entry.number()).about(entry);
        context.touched(true);
        Set<Entry> read = new LinkedHashSet<>();
        for (Event event : context.ask(from)[0].events()) {
            Entry known = context.identities().of(event.number());
            if (known != null && event.kind() == Callbacks.Event.PostLoad) {
                known.stale(false);
                read.add(known);
            }
        }
        Refreshed before = new Refreshed(read);
        try {
            new Fill(context).again(read);
        } catch (RuntimeException | Error e) {
            before.takeBack(context, e);
            throw e;
        }
    }

    /** The program goes on along links that it has read, and the door has read some by their keys alone. */
    private void readLinks(Entry root) {
        Predicate<Relation> cascades = relation -> relation.cascades().contains(CascadeType.REFRESH);
        for (Entry entry : new Graph(context).entries(root, cascades)) {
            for (Relation relation : entry.isManaged() && !entry.isHollow() ? entry.model().relations() : List.<Relation>of()) {
                if (cascades.test(relation) && !relation.isMany() && entry.relations[relation.place()] != null) {
                    queue.get(entry.number(), relation.member()).about(entry + "." + relation.path());
                }
            }
        }
    }

    private Entry managed(Object instance, String done) {
        Entry entry = context.entryOf(instance);
        if (entry == null || !entry.isManaged()) {
            throw context.marked(new IllegalArgumentException("IllegalArgument(state), "
                + (entry == null ? told(context.modelOf(instance), instance)
                : entry.state() == Entry.State.REMOVED ? "the removed " + entry : entry)
                + ": only a managed instance can be " + done + "; find it, or merge it first"));
        }
        return entry;
    }

    private static String told(EntityModel model, Object instance) {
        return Entry.told(model, Targets.keyOf(model, instance));
    }

    /** Lets an instance go as it is, and what detach goes on to (chapter 3.2.6). */
    void detach(Object instance) {
        Entry entry = context.entryOf(instance);
        if (entry == null || entry.state() == Entry.State.NEW || entry.state() == Entry.State.DETACHED) {
            return;
        }
        Set<Entry> reached = new Graph(context).entries(entry, it -> it.cascades().contains(CascadeType.DETACH));
        context.push().relationsOf(reached);
        if (entry.number() != 0) {
            queue.detach(context.manager(), entry.number()).about(entry);
        }
        for (Entry each : reached) {
            if (each.isManaged() || each.state() == Entry.State.REMOVED) {
                context.forget(each);
            }
        }
    }

    /** Locks an instance until the transaction ends (chapter 3.4). */
    void lock(Object instance, LockModeType mode) {
        context.needTransaction();
        Entry entry = managed(instance, "locked");
        if (mode == null) {
            throw context.marked(new IllegalArgumentException(entry + " can't be locked: the lock mode is null; NONE is no lock"));
        }
        if (mode == LockModeType.NONE) {
            return;
        }
        if (entry.isHollow()) {
            new Fill(context).proxy(entry);
        }
        String word = word(mode, entry);
        queue.lock(context.manager(), entry.number(), word).about(entry);
        if (word.equals(RAISING)) {
            context.storing();
        } else {
            context.touched(true);
        }
        context.ask(0);
        context.lock(entry, mode);
    }

    private String word(LockModeType mode, Entry entry) {
        switch (mode) {
            case READ:
            case OPTIMISTIC:
                return "READ";
            case WRITE:
            case OPTIMISTIC_FORCE_INCREMENT:
                return RAISING;
            default:
                // the program has no lock that keeps others out: a promise that it can't keep isn't made
                throw context.marked(new PersistenceException(entry + " can't be locked " + mode + ": there are no"
                    + " pessimistic locks here; lock it OPTIMISTIC or OPTIMISTIC_FORCE_INCREMENT, and the second of"
                    + " two commits is refused"));
        }
    }

    /** How a managed instance is locked in this transaction. */
    LockModeType lockOf(Object instance) {
        context.needTransaction();
        return managed(instance, "asked for its lock").lock();
    }
}
