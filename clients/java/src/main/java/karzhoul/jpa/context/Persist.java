package karzhoul.jpa.context;

import jakarta.persistence.CascadeType;
import jakarta.persistence.EntityExistsException;
import jakarta.persistence.PersistenceException;
import java.util.ArrayDeque;
import java.util.ArrayList;
import java.util.Collections;
import java.util.Deque;
import java.util.IdentityHashMap;
import java.util.LinkedHashMap;
import java.util.List;
import java.util.Map;
import java.util.Set;
import karzhoul.jpa.engine.Lines;
import karzhoul.jpa.engine.Reply;
import karzhoul.jpa.model.Attribute;
import karzhoul.jpa.model.Callbacks;
import karzhoul.jpa.model.ElementRow;
import karzhoul.jpa.model.EntityModel;
import karzhoul.jpa.model.KeyModel;
import karzhoul.jpa.model.Relation;

/**
 * persist (chapter 3.2.2). New instances that the cascade reaches become objects of the program first; their
 * PrePersist runs before that, so it may give the key and add members. The cascade itself is the program's.
 */
final class Persist {
    private final Context context;
    private final Graph graph;
    private final List<Object> fresh = new ArrayList<>();
    private final List<Entry> made = new ArrayList<>();
    /** What was persisted before the others for its key, with the key that it had. */
    private final Map<Entry, Object> alone = new LinkedHashMap<>();

    Persist(Context context) {
        this.context = context;
        graph = new Graph(context);
    }

    /** Persists an instance, and what persist goes on to. */
    void of(Object root) {
        Entry known = context.entryOf(root);
        if (known != null && known.isHollow()) {
            return;
        }
        try {
            List<Entry> reached = reach(root);
            deriveKeys();
            Push push = context.push();
            for (Object instance : fresh) {
                made.add(push.known(instance));
            }
            push.relationsOf(reached);
            push.these(made);
            made.forEach(this::checkKey);
            send(context.entryOf(root));
        } catch (RuntimeException e) {
            giveUp();
            throw context.marked(e);
        }
    }

    /** What was refused is new as before, and may be persisted another time. */
    private void giveUp() {
        alone.forEach(this::takeBack);
        for (Object instance : fresh) {
            Entry entry = context.entryOf(instance);
            if (entry != null && entry.state() == Entry.State.NEW) {
                context.forget(entry);
            }
        }
    }

    /** Lets go, in the program, of what was persisted alone, without what it was told that it leads to; its key goes. */
    private void takeBack(Entry entry, Object keyBefore) {
        Lines queue = context.queue();
        for (Relation relation : entry.model().relations()) {
            if (relation.isMany()) {
                ((List<?>) entry.relations[relation.place()]).forEach(member ->
                    queue.takeOut(entry.number(), relation.member(), ((Entry) member).number()));
            } else {
                queue.link(entry.number(), relation.member(), 0);
            }
        }
        queue.detach(context.manager(), entry.number());
        entry.model().key().assign(entry.instance(), keyBefore);
    }

    /** Prepares all that is new along the cascade; answers what is managed already. */
    private List<Entry> reach(Object root) {
        List<Entry> managed = new ArrayList<>();
        Deque<Object> work = new ArrayDeque<>(List.of(root));
        graph.add(root);
        for (Object instance; (instance = work.poll()) != null; ) {
            Entry entry = context.entryOf(instance);
            if (entry != null && entry.isManaged()) {
                managed.add(entry);
            } else {
                prepare(instance, entry);
            }
            for (Relation relation : context.modelOf(instance).relations()) {
                if (relation.cascades().contains(CascadeType.PERSIST)) {
                    graph.along(instance, relation, work);
                }
            }
        }
        return managed;
    }

    private void prepare(Object instance, Entry entry) {
        EntityModel model = context.modelOf(instance);
        if (entry == null && instance instanceof ElementRow row) {
            row.forgetKey();        // its owner may have been persisted before, and rolled back
        }
        if (entry != null && entry.state() == Entry.State.DETACHED || entry == null && isKnownDetached(model, instance)) {
            throw context.marked(new EntityExistsException("EntityExists: a detached " + model.name()
                + " can't be persisted, nor be reached by persist: merge it"));
        }
        if (entry != null && entry.state() == Entry.State.REMOVED && entry.isStored()) {
            new WholeRows(context).read(List.of(entry));        // the cascade goes on along what was read
        }
        fresh.add(instance);
        if (entry == null || entry.state() == Entry.State.NEW || !entry.isStored()) {
            new Keys(context).give(model, instance);
            Entry ahead = entry == null ? aheadOf(model, instance) : entry;
            context.runAhead(Callbacks.Event.PrePersist, ahead);
        }
    }

    private void deriveKeys() {
        boolean isDerived = false;
        for (Object instance : fresh) {
            isDerived |= !context.modelOf(instance).key().derived().isEmpty();
        }
        if (isDerived) {
            Set<Object> waiting = Collections.newSetFromMap(new IdentityHashMap<>());
            waiting.addAll(fresh);
            List.copyOf(fresh).forEach(instance -> derive(instance, waiting));
        }
    }

    /** Derives the key of what is new from those of others, which get theirs before, where the program gives it. */
    private void derive(Object instance, Set<Object> waiting) {
        if (!waiting.remove(instance)) {
            return;
        }
        EntityModel model = context.modelOf(instance);
        for (KeyModel.Derived derived : model.key().derived()) {
            Object from = derived.from().get(instance);
            derive(from, waiting);
            Entry entry = context.entryOf(from);
            if (entry != null && entry.state() == Entry.State.NEW && isKeyless(entry) && isFresh(from)) {
                alone.put(entry, entry.model().key().of(from));
                new Keys(context).persistAlone(entry);
            }
        }
        new Keys(context).derive(model, instance);
    }

    private boolean isFresh(Object instance) {
        return fresh.stream().anyMatch(one -> one == instance);
    }

    /** A generated key that is set, or a proxy that isn't this context's, is of what was stored before. */
    private boolean isKnownDetached(EntityModel model, Object instance) {
        return instance instanceof Proxied || model.key().generation() == KeyModel.Generation.COUNTER
            && Targets.keyOf(model, instance) != null && !context.isNeverStored(instance);
    }

    private Entry aheadOf(EntityModel model, Object instance) {
        Entry entry = new Entry(model, context, Entry.State.NEW);
        entry.instance(instance);
        entry.number(context.newNumber(model));
        context.identities().put(entry);
        return entry;
    }

    private void checkKey(Entry entry) {
        EntityModel model = entry.model();
        if (model.key().generation() == KeyModel.Generation.COUNTER) {
            return;
        }
        List<Object> key = Targets.keyOf(model, entry.instance());
        if (key == null) {
            throw new PersistenceException("Persistence(key): part of the key of a new " + model.name()
                + " is null; set it before persist, or in a PrePersist callback");
        }
        Entry other = context.identities().of(model, key);
        if (other != null && other != entry) {
            throw new EntityExistsException("EntityExists, " + other + ": another instance of this key is "
                + (other.isManaged() ? "managed" : "removed in this transaction"));
        }
        entry.key(key);
    }

    private void send(Entry root) {
        context.queue().persist(context.manager(), root.number()).about(root);
        context.storing();
        manage(context, made);
    }

    /** These are managed, once the calls that wait are done; keys that the program gives are asked for. */
    static void manage(Context context, List<Entry> persisted) {
        askKeys(context, persisted);
        for (Entry entry : persisted) {
            if (entry.state() == Entry.State.NEW) {
                context.isMade(entry);
            }
            entry.state(Entry.State.MANAGED);
            context.identities().put(entry);
        }
    }

    /** Gives those their keys that the program gave. */
    static void askKeys(Context context, List<Entry> persisted) {
        Lines queue = context.queue();
        int from = queue.count();
        List<Entry> keyed = new ArrayList<>();
        for (Entry entry : persisted) {
            if (isKeyless(entry)) {
                keyed.add(entry);
                queue.get(entry.number(), entry.model().key().parts().get(0).member());
            }
        }
        if (!keyed.isEmpty()) {
            Reply[] replies = context.ask(from);
            for (int i = 0; i < replies.length; i++) {
                giveKey(keyed.get(i), replies[i].ok());
            }
        }
    }

    static boolean isKeyless(Entry entry) {
        return entry.key() == null && entry.model().key().generation() == KeyModel.Generation.COUNTER;
    }

    /** Gives an instance the key that the program gave. */
    static void giveKey(Entry entry, Object column) {
        Attribute part = entry.model().key().parts().get(0);
        Object value = part.codec().toAttribute(column);
        part.set(entry.instance(), value);
        entry.values[part.place()] = value;
        entry.key(List.of(column));
    }
}
