package karzhoul.jpa.context;

import jakarta.persistence.CascadeType;
import jakarta.persistence.PersistenceException;
import java.util.ArrayDeque;
import java.util.ArrayList;
import java.util.Collection;
import java.util.Deque;
import java.util.IdentityHashMap;
import java.util.List;
import java.util.Map;
import karzhoul.jpa.engine.Lines;
import karzhoul.jpa.model.Attribute;
import karzhoul.jpa.model.Callbacks;
import karzhoul.jpa.model.EntityModel;
import karzhoul.jpa.model.KeyModel;
import karzhoul.jpa.model.Relation;
import karzhoul.jpa.model.UnkeptElements;

/**
 * Tells the program what instances have that it doesn't: a line for each value, link and member that changed. A value
 * is judged by its codec before its line; one that doesn't fit is refused, or waits for callbacks that may make it fit.
 * One for each operation.
 */
class Push {
    /**
     * A value that can't be kept, and wasn't told.
     *
     * @param attribute null of a collection of values
     */
    record Unfit(Entry entry, Attribute attribute, Object value, PersistenceException refusal) {}

    private final Context context;
    private final Identities identities;
    private final Lines queue;
    private final Targets targets;
    private final Deque<Entry> work = new ArrayDeque<>();
    private Map<Object, Entry> images = Map.of();
    private Map<Entry, Object> direct = Map.of();
    private Map<Entry, Object> told = Map.of();
    private final List<Unfit> unfit = new ArrayList<>();
    private boolean isMerging;
    private boolean waits;

    Push(Context context) {
        this.context = context;
        identities = context.identities();
        queue = context.queue();
        targets = new Targets(context);
    }

    /**
     * From now on this is for a merge: what wasn't read isn't told, and nothing is left out.
     *
     * @param imagesOf what is copied onto what is managed: the images, by instance
     * @param directly of these the instances that are told to their images themselves, by image
     */
    final void merging(Map<Object, Entry> imagesOf, Map<Entry, Object> directly) {
        isMerging = true;
        images = imagesOf;
        direct = directly;
    }

    /** From now on a value that can't be kept isn't refused, since callbacks are still to run; but one of a key is. */
    final void waits() {
        waits = true;
    }

    /** What wasn't told, since it can't be kept. */
    final List<Unfit> unfit() {
        return unfit;
    }

    private void refuse(Unfit value) {
        if (!waits || value.attribute() != null && value.attribute().role() == Attribute.Role.KEY) {
            throw value.refusal();
        }
        unfit.add(value);
    }

    /** Tells these images the state of their instances in place of their own, and what they lead to. */
    final void copies() {
        told = direct;
        direct.keySet().forEach(this::tell);
        told = Map.of();
        rest();
    }

    /** All that the context has, and what it leads to. */
    final void all() {
        for (Entry entry : identities.numbered()) {
            tell(entry);
        }
        rest();
    }

    /** These, and what they lead to. */
    final void these(Collection<Entry> entries) {
        entries.forEach(this::tell);
        rest();
    }

    /** The relations of these, along which the program is to go on, and what they lead to. */
    final void relationsOf(Collection<Entry> entries) {
        entries.forEach(this::tellRelations);
        rest();
    }

    /** The entry of an instance, for which the program gets an object where it has none: its values are told too. */
    final Entry known(Object instance) {
        Entry entry = made(instance, true);
        rest();
        return entry;
    }

    private void rest() {
        for (Entry entry; (entry = work.poll()) != null; ) {
            tell(entry);
        }
    }

    private void tell(Entry entry) {
        if (entry.isHollow() || entry.state() == Entry.State.DETACHED) {
            return;
        }
        tellValues(entry, told.getOrDefault(entry, entry.instance()));
        tellRelations(entry);
    }

    private void tellValues(Entry entry, Object instance) {
        for (Attribute attribute : entry.model().attributes()) {
            if (attribute.role() != Attribute.Role.VERSION) {
                Object now = attribute.get(instance);
                try {
                    value(entry, attribute, now);
                } catch (Unkept unkept) {
                    refuse(new Unfit(entry, attribute, now, unkept.of(entry)));
                }
            } else if (instance == entry.instance()) {
                checkVersion(entry, attribute);
            }
        }
    }

    /** Applications don't change a version (chapter 3.4.2): it would be lost, since the program counts it. */
    private static void checkVersion(Entry entry, Attribute version) {
        Object now = version.get(entry.instance());
        Object before = entry.values[version.place()];
        if (entry.isManaged() && entry.isStored() && !Values.isSame(version, now, before)) {
            throw new PersistenceException("the version of " + entry + " was changed: " + version.path() + " is " + now
                + ", and its row has " + before + "; leave it to the provider, and find the entity again");
        }
    }

    private void tellRelations(Entry entry) {
        if (entry.isHollow() || entry.state() == Entry.State.DETACHED) {
            return;
        }
        Object instance = told.getOrDefault(entry, entry.instance());
        for (Relation relation : entry.model().relations()) {
            if (relation.isMany()) {
                try {
                    collection(entry, relation, relation.get(instance));
                } catch (UnkeptElements unkept) {
                    refuse(new Unfit(entry, null, null, unkept));
                }
            } else {
                link(entry, relation, relation.get(instance));
            }
        }
    }

    private void value(Entry entry, Attribute attribute, Object now) {
        int place = attribute.place();
        if (Values.isSame(attribute, now, entry.values[place]) && !isNullThatIsKept(entry, attribute, now)) {
            return;
        }
        if (entry.state() != Entry.State.NEW && attribute.role() == Attribute.Role.KEY) {
            throw new PersistenceException("the key of " + entry + " was changed: " + attribute.path() + " is " + now);
        } else if (entry.isStored() ? !attribute.isUpdatable() : !attribute.isInsertable()) {
            return;
        } else if (isUngiven(entry, attribute, now)) {
            return;
        }
        Object column = column(entry, attribute, now);
        touch(entry);
        set(entry, attribute, column);
        entry.values[place] = Values.kept(attribute, now);
    }

    /** What is told of a value; what the row has isn't judged again where a merge brings it. */
    private Object column(Entry entry, Attribute attribute, Object now) {
        Entry image = isMerging ? images.get(entry.instance()) : null;
        boolean isThere = image != null && image.isStored() && image.model() == entry.model()
            && Values.isSame(attribute, now, image.values[attribute.place()]);
        return isThere ? Values.column(attribute, now) : Values.stored(attribute, now);
    }

    /** Whether a converter makes something of the null of a new instance. */
    private static boolean isNullThatIsKept(Entry entry, Attribute attribute, Object now) {
        return now == null && entry.state() == Entry.State.NEW && Values.column(attribute, null) != null;
    }

    /** Whether the program is to give this key: one is the zero of a primitive, or was given and rolled back. */
    private boolean isUngiven(Entry entry, Attribute attribute, Object now) {
        return attribute.role() == Attribute.Role.KEY
            && entry.model().key().generation() == KeyModel.Generation.COUNTER
            && (Long.valueOf(0).equals(attribute.codec().toColumn(now)) || context.isNeverStored(entry.instance()));
    }

    private void touch(Entry entry) {
        context.storing();
        if (!entry.isTouched()) {
            entry.touch();
            context.hasTouched(entry);
        }
    }

    /** Sends one value. */
    void set(Entry entry, Attribute attribute, Object column) {
        queue.set(entry.number(), attribute.member(), column).about(entry);
    }

    private void link(Entry entry, Relation relation, Object now) {
        Entry before = (Entry) entry.relations[relation.place()];
        if (now == (before == null ? null : before.instance())) {
            return;
        }
        Entry target = now == null || isLeftOut(relation, now) ? null : target(relation, now);
        if (target == before) {
            return;
        }
        touch(entry);
        queue.link(entry.number(), relation.member(), target == null ? 0 : target.number()).about(entry);
        entry.relations[relation.place()] = target;
        if (before != null && relation.removesOrphans() && !relation.isOwner()) {
            context.orphans().left(entry, relation, before);
        }
    }

    /**
     * Whether an inverse relation that doesn't cascade PERSIST leads to what isn't stored: nobody asks that of it, so
     * the program isn't told.
     */
    private boolean isLeftOut(Relation relation, Object member) {
        if (isMerging || relation.isOwner() || relation.cascades().contains(CascadeType.PERSIST)) {
            return false;
        }
        Entry entry = context.entryOf(member);
        return entry == null ? !(member instanceof Proxied)
            : entry.state() == Entry.State.NEW || entry.state() == Entry.State.REMOVED;
    }

    private void collection(Entry entry, Relation relation, Object value) {
        if (value instanceof Lazy lazy && lazy.owner() == entry && (!lazy.isRead() || isAsBefore(entry, relation, lazy))) {
            return;
        }
        if (isMerging && Unread.is(value)) {
            return;
        }
        if (value instanceof Unread) {
            throw new PersistenceException(entry + "." + relation.path() + " wasn't read before it was serialized");
        }
        boolean isReplaced = entry.isUnread(relation);
        if (isReplaced) {
            targets.read(entry, relation);
        }
        List<Entry> now = members(entry, relation, isReplaced ? adopted(entry, relation, value) : value);
        @SuppressWarnings("unchecked")
        List<Entry> before = (List<Entry>) entry.relations[relation.place()];
        if (!isSame(before, now)) {
            touch(entry);
            changes(entry, relation, before, now);
            entry.relations[relation.place()] = now;
            context.listOrders().changed(entry, relation);
        }
        if (value instanceof Lazy lazy && lazy.owner() == entry) {
            lazy.clean();
        }
    }

    /** What replaced a collection of values that nobody had read, made of the rows that it has. */
    @SuppressWarnings("unchecked")
    private static Object adopted(Entry entry, Relation relation, Object value) {
        if (relation.elements().isEmpty()) {
            return value;
        }
        List<Entry> rows = (List<Entry>) entry.relations[relation.place()];
        relation.elements().get().adopt(entry.instance(), Members.instances(rows, relation));
        return relation.get(entry.instance());
    }

    private static boolean isAsBefore(Entry entry, Relation relation, Lazy lazy) {
        return !lazy.isChanged() && relation.isOwner() && !entry.isUnread(relation);
    }

    private List<Entry> members(Entry entry, Relation relation, Object value) {
        List<Entry> members = new ArrayList<>();
        if (value == null) {
            return members;
        }
        for (Object member : (Collection<?>) value) {
            if (member == null) {
                throw new PersistenceException(entry + "." + relation.path() + " has a member that is null");
            } else if (!isLeftOut(relation, member)) {
                members.add(target(relation, member));
            }
        }
        return members;
    }

    private static boolean isSame(List<Entry> before, List<Entry> now) {
        if (before.size() != now.size()) {
            return false;
        }
        for (int i = 0; i < now.size(); i++) {
            if (before.get(i) != now.get(i)) {
                return false;
            }
        }
        return true;
    }

    private void changes(Entry entry, Relation relation, List<Entry> before, List<Entry> now) {
        Map<Entry, Integer> more = new IdentityHashMap<>();
        now.forEach(member -> more.merge(member, 1, Integer::sum));
        before.forEach(member -> more.merge(member, -1, Integer::sum));
        for (Entry member : before) {
            if (more.get(member) < 0) {
                more.merge(member, 1, Integer::sum);
                queue.takeOut(entry.number(), relation.member(), numbered(member).number()).about(entry);
                if (relation.removesOrphans() && !now.contains(member)) {
                    context.orphans().left(entry, relation, member);
                }
            }
        }
        for (Entry member : now) {
            if (more.get(member) > 0) {
                more.merge(member, -1, Integer::sum);
                queue.add(entry.number(), relation.member(), member.number()).about(entry);
            }
        }
    }

    private Entry target(Relation relation, Object instance) {
        Entry image = images.get(instance);
        boolean isImage = image != null && (direct.get(image) == instance || !relation.cascades().contains(CascadeType.MERGE));
        return numbered(isImage ? image : made(instance, !isMerging && relation.cascades().contains(CascadeType.PERSIST)));
    }

    private Entry numbered(Entry entry) {
        if (entry.number() == 0) {
            targets.number(entry);
        }
        return entry;
    }

    private Entry made(Object instance, boolean isPersisted) {
        Entry entry = context.entryOf(instance);
        if (entry != null) {
            return entry;
        }
        EntityModel model = context.modelOf(instance);
        Entry there = isMerging ? targets.managed(model, instance) : targets.foreign(model, instance, isPersisted);
        if (there != null) {
            return there;
        } else if (Graph.isForeignProxy(instance)) {
            throw context.marked(Targets.isGone(model.name() + " " + Targets.keyOf(model, instance)));
        }
        entry = new Entry(model, context, Entry.State.NEW);
        entry.instance(instance);
        entry.number(context.newNumber(model));
        identities.put(entry);
        if (isPersisted) {
            prepare(entry);
        }
        work.add(entry);
        return entry;
    }

    /** Prepares what is going to be persisted; one that gives others its key is, with its values, before they are met. */
    private void prepare(Entry entry) {
        Keys keys = new Keys(context);
        if (!keys.isGivenOn(entry.model())) {
            keys.prepare(entry);
            return;
        }
        alone(entry);
    }

    /** Has the program persist a new one with its values, before what it leads to is told: others are to have its key. */
    final void alone(Entry entry) {
        context.runAhead(Callbacks.Event.PrePersist, entry);
        boolean waited = waits;
        waits = false;
        tellValues(entry, entry.instance());
        waits = waited;
        new Keys(context).persistAlone(entry);
        Persist.manage(context, List.of(entry));
    }
}
