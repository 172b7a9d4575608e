package karzhoul.jpa.context;

import jakarta.persistence.CascadeType;
import jakarta.persistence.PersistenceException;
import java.util.List;
import java.util.UUID;
import karzhoul.jpa.engine.Lines;
import karzhoul.jpa.model.Attribute;
import karzhoul.jpa.model.Callbacks;
import karzhoul.jpa.model.EntityModel;
import karzhoul.jpa.model.KeyModel;
import karzhoul.jpa.model.Sequence;

/** Gives keys to new instances, where the program doesn't: UUIDs, those of sequences, and keys of others (chapter 2.4.1). */
final class Keys {
    private final Context context;

    Keys(Context context) {
        this.context = context;
    }

    /** Prepares what a flush is going to persist: it needs its key before the program is asked what is due. */
    void prepare(Entry entry) {
        EntityModel model = entry.model();
        Object instance = entry.instance();
        give(model, instance);
        persistFirst(model, instance);
        derive(model, instance);
        if (model.key().generation() != KeyModel.Generation.COUNTER && !hasKey(model, instance)) {
            context.runAhead(Callbacks.Event.PrePersist, entry);
        }
    }

    private static boolean hasKey(EntityModel model, Object instance) {
        try {
            return Targets.keyOf(model, instance) != null;
        } catch (Unkept unkept) {
            return false;       // PrePersist may give another one
        }
    }

    /** Gives a new instance that has no key its UUID, or the next key of its sequence. */
    void give(EntityModel model, Object instance) {
        if (isGiven(model) && Targets.keyOf(model, instance) == null) {
            Attribute part = model.key().parts().get(0);
            part.set(instance, part.codec().toAttribute(next(model)));
        }
    }

    /** Whether the door gives the keys of new instances. */
    static boolean isGiven(EntityModel model) {
        return model.key().generation() == KeyModel.Generation.UUID
            || model.key().generation() == KeyModel.Generation.SEQUENCE;
    }

    /** A key that no instance has yet, as it is kept. */
    Object next(EntityModel model) {
        return model.key().sequence().map(sequence -> (Object) context.factory().pool().sequences()
            .take(sequence, () -> block(sequence))).orElseGet(() -> UUID.randomUUID().toString());
    }

    /** The program counts a block as the key of an object that is let go at once: what it gave, it gives no more. */
    private long block(Sequence sequence) {
        long object = context.factory().pool().numbers().take(context.engine(), sequence.mappedName());
        Lines queue = context.queue();
        int from = queue.count();
        queue.persist(context.manager(), object).get(object, sequence.keyMember()).detach(context.manager(), object);
        return (Long) context.ask(from)[1].ok();
    }

    /** Copies the keys of those from which the key of a new instance is derived. */
    void derive(EntityModel model, Object instance) {
        for (KeyModel.Derived derived : model.key().derived()) {
            Object from = derived.from().get(instance);
            if (from == null) {
                throw context.marked(new PersistenceException("the key of a new " + model.name() + " is that of its "
                    + derived.from().path() + ", which is null"));
            }
            List<Object> key = known(from);
            if (key == null) {
                throw context.marked(new IllegalStateException("the key of a new " + model.name() + " is that of its "
                    + derived.from().path() + ", which has none yet: persist it first"));
            }
            for (int i = 0; i < key.size(); i++) {
                Attribute part = derived.parts().get(i);
                part.set(instance, part.codec().toAttribute(key.get(i)));
            }
        }
    }

    /** The key of an instance; null where it has none yet, or where that of before was rolled back with its row. */
    List<Object> known(Object instance) {
        Entry entry = context.entryOf(instance);
        if (entry != null && entry.key() != null) {
            return entry.key();
        }
        EntityModel model = context.modelOf(instance);
        boolean isGivenAgain = model.key().generation() == KeyModel.Generation.COUNTER && context.isNeverStored(instance);
        return isGivenAgain ? null : Targets.keyOf(model, instance);
    }

    /** Persists at first what a new instance has its key from, where the relation to it cascades that. */
    private void persistFirst(EntityModel model, Object instance) {
        for (KeyModel.Derived derived : model.key().derived()) {
            Object from = derived.from().get(instance);
            if (from == null || from instanceof Proxied || !derived.from().cascades().contains(CascadeType.PERSIST)) {
                continue;
            }
            Entry entry = context.entryOf(from);
            if (entry == null || entry.state() == Entry.State.NEW) {
                new Persist(context).of(from);
            }
        }
    }

    /** Whether keys of others are derived from the one that the program gives an entity. */
    boolean isGivenOn(EntityModel model) {
        return model.key().generation() == KeyModel.Generation.COUNTER && context.factory().unit().entities().stream()
            .flatMap(other -> other.key().derived().stream())
            .anyMatch(derived -> derived.from().target().root() == model.root());
    }

    /** Has the program persist one before it is told what it leads to, since others are to have its key. */
    void persistAlone(Entry entry) {
        context.queue().persist(context.manager(), entry.number()).about(entry);
        context.storing();
        Persist.askKeys(context, List.of(entry));
    }
}
