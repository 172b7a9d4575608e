package karzhoul.jpa.context;

import jakarta.persistence.EntityNotFoundException;
import java.lang.ref.WeakReference;
import java.util.ArrayList;
import java.util.List;
import java.util.Optional;
import karzhoul.jpa.engine.Reply;
import karzhoul.jpa.model.Attribute;
import karzhoul.jpa.model.EntityModel;
import karzhoul.jpa.model.KeyModel;
import karzhoul.jpa.model.Relation;

/** Gives numbers to what relations lead to: proxies that are known by their keys, and instances of other contexts. */
final class Targets {
    private final Context context;

    Targets(Context context) {
        this.context = context;
    }

    /**
     * The key of an instance as it is kept; null where a part is missing, or where the program is still to give it.
     */
    static List<Object> keyOf(EntityModel model, Object instance) {
        Object known = Proxies.known(instance);
        if (known instanceof Plain.Key key) {
            return key.parts();
        } else if (known instanceof Entry entry && entry.isHollow()) {
            return entry.key();
        }
        List<Object> key = new ArrayList<>();
        for (Attribute part : model.key().parts()) {
            Object column = ofKey(model, part, instance);
            if (column == null) {
                return null;
            }
            key.add(column);
        }
        boolean isZero = key.size() == 1 && Long.valueOf(0).equals(key.get(0));
        return isZero && model.key().generation() != KeyModel.Generation.ASSIGNED ? null : List.copyOf(key);
    }

    private static Object ofKey(EntityModel model, Attribute part, Object instance) {
        try {
            return Values.column(part, part.get(instance));
        } catch (Unkept unkept) {
            throw unkept.of(model);
        }
    }

    /**
     * What an instance that this context doesn't know is to the program: what the context has of the same identity,
     * or else a detached object, where there is a row of its key.
     *
     * @param isPersisted whether persist goes on to it: then what may be new is taken as new
     * @return null where it is new
     */
    Entry foreign(EntityModel model, Object instance, boolean isPersisted) {
        List<Object> key = keyOf(model, instance);
        if (key == null || !mayBeDetached(model, instance, isPersisted)) {
            return null;
        }
        Entry known = context.identities().of(model, key);
        return known != null ? known : detached(model, instance, key);
    }

    /**
     * What the context has of an instance's identity: what is managed, perhaps a proxy, which is read where it isn't
     * here yet.
     *
     * @return null where the instance is new
     */
    Entry managed(EntityModel model, Object instance) {
        List<Object> key = keyOf(model, instance);
        if (key == null || !mayBeDetached(model, instance, false)) {
            return null;
        }
        Entry known = context.identities().of(model, key);
        if (known == null && Graph.isForeignProxy(instance) && Proxies.isPossible(model)) {
            return context.proxyOf(model, key);
        }
        return known == null ? new Fill(context).found(model.root(), key) : known;
    }

    private static boolean mayBeDetached(EntityModel model, Object instance, boolean isPersisted) {
        if (Proxies.known(instance) != null) {
            return true;
        }
        if (model.key().generation() == KeyModel.Generation.ASSIGNED && isPersisted) {
            return false;
        }
        Optional<Attribute> version = model.version();
        return version.isEmpty() || version.get().get(instance) != null;
    }

    private Entry detached(EntityModel model, Object instance, List<Object> key) {
        long number = find(model, key);
        if (number == 0) {
            return null;
        }
        context.queue().detach(context.manager(), number);
        Entry entry = new Entry(model, context, Entry.State.DETACHED);
        entry.key(key);
        entry.number(number);
        entry.instance(instance);
        context.identities().put(entry);
        context.setDetached(number, new WeakReference<>(instance));
        return entry;
    }

    /** The number of what has this key, or 0 where there is none. */
    private long find(EntityModel model, List<Object> key) {
        int from = context.queue().count();
        context.queue().find(context.manager(), model.mappedName(), key).about(model.name() + " " + key);
        Reply reply = context.ask(from)[0];
        return reply.ok() == null ? 0 : reply.number();
    }

    /** The refusal of what leads to a row that isn't there. */
    static EntityNotFoundException isGone(Object what) {
        return new EntityNotFoundException("EntityNotFound, " + what + ": there is no such row");
    }

    /**
     * Gives its number to a proxy, or to what was let go before the end of a run.
     *
     * @throws EntityNotFoundException where its row is gone
     */
    void number(Entry entry) {
        long number = find(entry.model(), entry.key());
        if (number == 0) {
            throw context.marked(isGone(entry));
        }
        entry.number(number);
        if (entry.state() == Entry.State.DETACHED) {
            context.queue().detach(context.manager(), number);
            context.setDetached(number, new WeakReference<>(entry.instance()));
        } else {
            context.identities().put(entry);
        }
    }

    /**
     * Lets the program read a collection which an instance has replaced before it was read: it may be another's now,
     * or a variable's, and has what it had.
     */
    void read(Entry owner, Relation relation) {
        Lazy unread = owner.unread(relation);
        int from = context.queue().count();
        context.queue().get(owner.number(), relation.member()).about(owner + "." + relation.path());
        List<Entry> members = context.listOrders().sorted(owner, relation,
            new Fill(context).entries(context.ask(from)[0].list()));
        owner.relations[relation.place()] = members;
        if (!unread.isRead()) {
            unread.fill(Members.instances(members, relation));
        }
    }
}
