package karzhoul.jpa.context;

import jakarta.persistence.CascadeType;
import jakarta.persistence.EntityExistsException;
import jakarta.persistence.OptimisticLockException;
import jakarta.persistence.PersistenceException;
import java.util.ArrayDeque;
import java.util.ArrayList;
import java.util.Arrays;
import java.util.Collection;
import java.util.Deque;
import java.util.IdentityHashMap;
import java.util.LinkedHashMap;
import java.util.LinkedHashSet;
import java.util.List;
import java.util.Map;
import java.util.Optional;
import java.util.Set;
import karzhoul.jpa.engine.Event;
import karzhoul.jpa.engine.Lines;
import karzhoul.jpa.engine.Ref;
import karzhoul.jpa.engine.Refusals;
import karzhoul.jpa.engine.Reply;
import karzhoul.jpa.model.Attribute;
import karzhoul.jpa.model.Callbacks;
import karzhoul.jpa.model.EntityModel;
import karzhoul.jpa.model.KeyModel;
import karzhoul.jpa.model.Relation;

/**
 * merge (chapter 3.2.7). What the cascade reaches, and isn't managed, becomes an object of the program with all its
 * values; the program copies these onto its images, which are read back. One that hasn't read all its collections is
 * told to its image itself, whose collections stay unread.
 */
final class Merge {
    private final Context context;
    private final Lines queue;
    /** What is copied, each with its instance. */
    private final Map<Entry, Object> sources = new LinkedHashMap<>();
    private final Set<Entry> managed = new LinkedHashSet<>();
    private final Map<Entry, Entry> images = new LinkedHashMap<>();
    private final Map<Object, Entry> imagesByInstance = new IdentityHashMap<>();
    /** The instances that are told to their images themselves, by these. */
    private final Map<Entry, Object> direct = new LinkedHashMap<>();
    private final List<Entry> prepared = new ArrayList<>();
    /** Detached proxies that nobody has read, with what was written to their fields. */
    private final Map<Object, Written> unread = new IdentityHashMap<>();
    private final MergedKeys mergedKeys;
    private final MergedOrphans orphans;

    Merge(Context context) {
        this.context = context;
        queue = context.queue();
        mergedKeys = new MergedKeys(context, sources, images, imagesByInstance);
        orphans = new MergedOrphans(context);
    }

    /** The managed instance onto which this one was copied. */
    @SuppressWarnings("unchecked")
    <T> T of(T root) {
        Entry known = context.entryOf(root);
        if (known != null && known.state() == Entry.State.REMOVED) {
            throw context.marked(new IllegalArgumentException("IllegalArgument(state), " + known
                + ": a removed instance can't be merged"));
        }
        if (known != null && known.isManaged() && (known.isHollow() || !goesOn(known.model()))) {
            return root;
        }
        try {
            List<Object> reached = reach(root);
            findImages(reached);
            Entry merged = Graph.isForeignProxy(root) ? managedOf(root) : merged(root);
            unread.forEach(this::writeOver);
            return (T) merged.instance();
        } catch (OptimisticLockException e) {
            giveUp();
            throw context.marked(new OptimisticLockException(e.getMessage(), e, stale(root)));
        } catch (RuntimeException e) {
            giveUp();
            throw context.marked(named(e));
        } finally {
            sources.forEach((source, instance) -> {
                source.instance(instance);
                letGo(source);
            });
        }
    }

    /** The program refuses the merge of the root also for what was removed below it. */
    private RuntimeException named(RuntimeException refusal) {
        Optional<Entry> removed = images.values().stream()
            .filter(image -> image != null && image.state() == Entry.State.REMOVED).findFirst();
        return removed.isEmpty() || !String.valueOf(refusal.getMessage()).startsWith("IllegalArgument(state)") ? refusal
            : new IllegalArgumentException("IllegalArgument(state), " + removed.get() + ": it was removed in this transaction;"
                + " where it moved, merge the owner that it left and the one that has it before the flush", refusal);
    }

    /** What was told to images, of a merge that was refused, isn't theirs: the next flush tells what they have. */
    private void giveUp() {
        mergedKeys.giveUp();
        for (Entry image : direct.keySet()) {
            for (Relation relation : image.model().relations()) {
                if (relation.get(image.instance()) instanceof Lazy lazy) {
                    lazy.change();
                }
            }
        }
    }

    /** Whose version isn't that of its row, or whose row is gone; the root where that isn't seen. */
    private Object stale(Object root) {
        for (Map.Entry<Entry, Object> each : sources.entrySet()) {
            Entry image = images.get(each.getKey());
            if (image == null ? each.getKey().key() != null && saysVersion(each.getKey())
                    : !isOfVersion(each.getKey(), image)) {
                return each.getValue();
            }
        }
        return root;
    }

    private static boolean goesOn(EntityModel model) {
        return model.relations().stream().anyMatch(relation -> relation.cascades().contains(CascadeType.MERGE));
    }

    private void letGo(Entry source) {
        context.identities().remove(source);
        source.letGo();
    }

    /** What the cascade reaches: managed ones, and those that are to be copied, which are answered. */
    private List<Object> reach(Object root) {
        Graph graph = new Graph(context);
        List<Object> reached = new ArrayList<>();
        Deque<Object> work = new ArrayDeque<>(List.of(root));
        graph.add(root);
        for (Object instance; (instance = work.poll()) != null; ) {
            Entry entry = context.entryOf(instance);
            if (entry == null || entry.state() == Entry.State.NEW || entry.state() == Entry.State.DETACHED) {
                if (Graph.isForeignProxy(instance)) {
                    noteWritten(instance);
                    continue;
                }
                readMoved(instance);
                new MergedElements(context).adopt(instance);
                reached.add(instance);
            } else if (entry.isHollow()) {
                continue;
            } else {
                managed.add(entry);
            }
            for (Relation relation : context.modelOf(instance).relations()) {
                if (relation.cascades().contains(CascadeType.MERGE)) {
                    graph.along(instance, relation, work);
                }
            }
        }
        return reached;
    }

    /** Notes what was written to the fields of a detached proxy that nobody has read. */
    private void noteWritten(Object proxy) {
        EntityModel model = context.modelOf(proxy);
        String path = null;
        Object known = Proxies.known(proxy);
        if (known instanceof Plain.Key key) {
            path = Proxies.asleep(proxy, () -> Blank.writtenOf(model, proxy, key.twin()));
        } else {
            Written written = ((Entry) known).written();
            if (written != null && written.leadsOn()) {
                path = written.paths();
            } else if (written != null) {
                unread.put(proxy, written);
            }
        }
        if (path != null) {
            List<Object> key = Targets.keyOf(model, proxy);
            throw new PersistenceException(model.name() + " " + (key.size() == 1 ? key.get(0) : key) + " wasn't read before it was "
                + (known instanceof Entry ? "detached" : "serialized") + ", and its " + path
                + " was written since: merge can't tell it; set it on what find answers");
        }
    }

    /** The managed one of a detached proxy that nobody has read. */
    private Entry managedOf(Object proxy) {
        Entry image = new Targets(context).managed(context.modelOf(proxy), proxy);
        if (image == null) {
            throw Targets.isGone(context.modelOf(proxy).name() + " " + Targets.keyOf(context.modelOf(proxy), proxy));
        } else if (image.state() == Entry.State.REMOVED) {
            throw new IllegalArgumentException("IllegalArgument(state), " + image + ": a removed instance can't be merged");
        }
        return image;
    }

    private void writeOver(Object proxy, Written written) {
        Entry image = managedOf(proxy);
        if (image.isHollow()) {
            new Fill(context).proxy(image);
        }
        written.over(image.instance());
    }

    /** Reads the collections that are another entity's, and that it doesn't have as its own unread ones. */
    private void readMoved(Object instance) {
        EntityModel model = context.modelOf(instance);
        for (Relation relation : model.relations()) {
            if (relation.isMany() && relation.get(instance) instanceof Lazy lazy && !lazy.isRead()
                    && !isOf(lazy.owner(), model, instance)) {
                ((Collection<?>) lazy).size();
            }
        }
    }

    private static boolean isOf(Entry owner, EntityModel model, Object instance) {
        List<Object> key = Targets.keyOf(model, instance);
        return owner == null || owner.instance() == instance || key != null && owner.key() != null
            && owner.model().root() == model.root() && Arrays.deepEquals(owner.key().toArray(), key.toArray());
    }

    /** Finds the images that have rows, and makes a source of each instance. */
    private void findImages(List<Object> reached) {
        List<EntityModel> models = new ArrayList<>();
        List<List<Object>> keys = new ArrayList<>();
        for (Object instance : reached) {
            EntityModel model = context.modelOf(instance);
            List<Object> key = mergedKeys.of(model, instance);
            Entry known = key == null ? null : context.identities().of(model, key);
            if (known != null && known.isHollow()) {
                new Fill(context).proxy(known);
            } else if (known == null && key != null) {
                models.add(model.root());
                keys.add(key);
            }
        }
        if (!keys.isEmpty()) {
            new Fill(context).found(models, keys);
        }
        reached.forEach(this::makeSource);
        if (sources.size() > 1) {
            new MergedCopies(context).check(sources);
        }
        for (Entry source : sources.keySet()) {
            Entry image = images.get(source);
            if (image != null && !direct.containsKey(image) && isToldDirectly(source, image)) {
                direct.put(image, source.instance());
            } else {
                source.number(context.newNumber(source.model()));
                context.identities().put(source);
                boolean isUnfit = image == null && isUnfit(source);
                if (isUnfit && source.model().key().generation() == KeyModel.Generation.COUNTER) {
                    mergedKeys.persistAhead(source);
                } else if (isUnfit || source.key() == null) {
                    runAhead(source, isUnfit);
                }
            }
        }
        mergedKeys.give();
    }

    private void makeSource(Object instance) {
        Entry before = context.entryOf(instance);
        if (before != null) {
            context.identities().remove(before);
        }
        EntityModel model = context.modelOf(instance);
        Entry source = new Entry(model, context, Entry.State.NEW);
        source.instance(instance);
        source.key(mergedKeys.of(model, instance));
        sources.put(source, instance);
        Entry image = source.key() == null ? null : context.identities().of(model, source.key());
        if (image != null) {
            images.put(source, image);
            imagesByInstance.put(instance, image);
        }
    }

    /**
     * Whether a source hasn't read all its collections, so that it is told to its image itself. What it leads to by
     * relations that don't cascade MERGE must be managed for that: what the same merge makes the program alone knows.
     */
    private boolean isToldDirectly(Entry source, Entry image) {
        List<Relation> relations = source.model().relations();
        return image.isManaged() && image.model() == source.model()
            && relations.stream().anyMatch(it -> it.isMany() && Unread.is(it.get(source.instance())))
            && relations.stream().filter(it -> !it.cascades().contains(CascadeType.MERGE))
                .flatMap(it -> Graph.members(it.get(source.instance())).stream()).allMatch(this::isManagedThere);
    }

    private boolean isManagedThere(Object target) {
        Entry there = imagesByInstance.getOrDefault(target, context.entryOf(target));
        if (there == null) {
            there = new Targets(context).managed(context.modelOf(target), target);
        }
        return there != null && there.isManaged();
    }

    /** The version that an instance has, as it is kept; null where it has none. */
    private static Object versionOf(Entry source) {
        Optional<Attribute> version = source.model().version();
        return version.isEmpty() ? null : Values.column(version.get(), version.get().get(source.instance()));
    }

    private static boolean isOfVersion(Entry source, Entry image) {
        Object version = versionOf(source);
        return version == null || !image.isStored() && version.equals(versionOf(image))
            || image.model().version().filter(it -> Values.isKept(it, version, image.values[it.place()])).isPresent();
    }

    /** Whether a new one has a value that can't be kept, and that PrePersist may make fit. */
    private static boolean isUnfit(Entry source) {
        if (!source.model().callbacks().hears(Callbacks.Event.PrePersist)) {
            return false;
        }
        try {
            source.model().attributes().forEach(each -> Values.stored(each, each.get(source.instance())));
            return false;
        } catch (Unkept unkept) {
            return true;
        }
    }

    /**
     * PrePersist of a new image may give its key, and make a value fit: then it runs before the program is told of it,
     * and not again.
     */
    private void runAhead(Entry source, boolean isUnfit) {
        EntityModel model = source.model();
        boolean isGiven = model.key().generation() == KeyModel.Generation.ASSIGNED && model.key().derived().isEmpty()
            && model.callbacks().hears(Callbacks.Event.PrePersist) || isUnfit && Keys.isGiven(model);
        if (!isGiven) {
            return;
        }
        Entry image = new Entry(model, context, Entry.State.MANAGED);
        image.instance(copy(model, source.instance()));
        new Keys(context).give(model, image.instance());
        context.runAhead(Callbacks.Event.PrePersist, image);
        image.key(Targets.keyOf(model, image.instance()));
        if (image.key() == null) {
            throw new PersistenceException("Persistence(key): part of the key of a new " + model.name()
                + " is null; set it before merge, or in a PrePersist callback");
        } else if (context.identities().of(model, image.key()) != null
                || new Fill(context).found(model.root(), image.key()) != null) {
            throw new EntityExistsException("EntityExists, " + image + ": there is one of the key that PrePersist gave");
        }
        source.instance(image.instance());
        prepared.add(image);
    }

    /** An instance of the same values, with collections of its own. */
    static Object copy(EntityModel model, Object instance) {
        Object copy = model.newInstance();
        for (Attribute attribute : model.attributes()) {
            attribute.set(copy, attribute.get(instance));
        }
        for (Relation relation : model.relations()) {
            Object value = relation.get(instance);
            boolean isRead = value instanceof Collection<?> && !Unread.is(value);
            relation.set(copy, !isRead ? value : relation.container() == Relation.Container.SET
                ? new LinkedHashSet<>((Collection<?>) value) : new ArrayList<>((Collection<?>) value));
        }
        return copy;
    }

    private Entry merged(Object root) {
        orphans.before(images);
        Push push = context.push();
        push.merging(imagesByInstance, direct);
        push.waits();
        List<Entry> there = new ArrayList<>(managed);
        images.values().stream().filter(it -> it.isManaged() && !mergedKeys.ahead().contains(it)).forEach(there::add);
        push.these(there);
        sources.keySet().stream().filter(this::isDirect).forEach(this::checkVersion);
        push.copies();
        List<Entry> objects = sources.keySet().stream().filter(source -> !isDirect(source)).toList();
        push.these(objects);
        objects.forEach(this::versionAndKey);
        objects.forEach(this::keepUnwritten);
        push.unfit().forEach(this::keepFit);
        unread(objects);
        Entry known = context.entryOf(root);
        Entry told = known == null ? imagesByInstance.get(root) : known;
        int from = queue.count();
        queue.merge(context.manager(), told.number()).about(told);
        context.storing();
        Reply reply = context.ask(from)[0];
        readBack(reply.events(), reply.number());
        push.unfit().forEach(this::giveUnfit);
        orphans.settle();
        return context.identities().of(reply.number());
    }

    private boolean isDirect(Entry source) {
        return direct.get(images.get(source)) == sources.get(source);
    }

    private void checkVersion(Entry source) {
        if (!isOfVersion(source, images.get(source))) {
            throw Refusals.of("OptimisticLock", images.get(source));
        }
    }

    /** What isn't updated stays as the image's row has it. */
    private void keepUnwritten(Entry source) {
        Entry image = images.get(source);
        if (image == null || !image.isStored()) {
            return;
        }
        for (Attribute attribute : source.model().attributes()) {
            if (!attribute.isUpdatable() && image.model().isA(source.model())) {
                Object column = Values.columnOfKept(attribute, image.values[attribute.place()]);
                queue.set(source.number(), attribute.member(), column).about(source);
            }
        }
    }

    /**
     * What can't be kept isn't copied by the program, which has what the row has: it is given to the image afterwards,
     * whose PreUpdate may make it fit. Where it doesn't hear that, it is refused.
     */
    private void keepFit(Push.Unfit value) {
        Entry source = value.entry();
        boolean isCopied = sources.containsKey(source);
        Entry image = isCopied ? images.get(source) : source;
        boolean mayFit = image != null && value.attribute() != null && image.isStored()
            && image.model().callbacks().hears(Callbacks.Event.PreUpdate);
        if ((isCopied || direct.containsKey(source) || value.attribute() == null) && !mayFit) {
            throw value.refusal();
        } else if (isCopied) {
            Object column = Values.columnOfKept(value.attribute(), image.values[value.attribute().place()]);
            queue.set(source.number(), value.attribute().member(), column).about(source);
        }
    }

    private void giveUnfit(Push.Unfit value) {
        boolean isCopied = sources.containsKey(value.entry());
        Entry image = isCopied ? images.get(value.entry()) : value.entry();
        boolean isOverwritten = !isCopied && !direct.containsKey(image) && images.containsValue(image);
        if (value.attribute() != null && !isOverwritten) {
            value.attribute().set(image.instance(), value.value());
        }
    }

    private void versionAndKey(Entry source) {
        EntityModel model = source.model();
        if (saysVersion(source)) {
            queue.set(source.number(), model.version().get().member(), versionOf(source)).about(source);
        }
        Attribute part = model.key().parts().get(0);
        if (Keys.isGiven(model) && !mergedKeys.hasGiven(source) && Targets.keyOf(model, source.instance()) == null) {
            Object key = new Keys(context).next(model);
            queue.set(source.number(), part.member(), key).about(source);
        }
        mergedKeys.tell(source);
    }

    /**
     * Whether its version is to be compared. That of an instance just made, as the zero of an int, isn't where the
     * application gives the key, and that of what is still to be inserted has no row beside it.
     */
    private boolean saysVersion(Entry source) {
        Object version = versionOf(source);
        Entry image = images.get(source);
        if (version == null || image == null && context.isNeverStored(source.instance())) {
            return false;
        } else if (image != null) {
            return image.isStored() || !version.equals(versionOf(image));
        }
        boolean wasGiven = source.key() != null && source.model().key().generation() != KeyModel.Generation.ASSIGNED;
        return wasGiven || !version.equals(versionAtFirst(source.model()));
    }

    private static Object versionAtFirst(EntityModel model) {
        return Values.column(model.version().get(), model.version().get().get(model.newInstance()));
    }

    /** Collections that such a source hasn't read, and that would be empty, have the members that the image has. */
    private void unread(List<Entry> objects) {
        List<Entry> owners = new ArrayList<>();
        List<Relation> relations = new ArrayList<>();
        int from = queue.count();
        for (Entry source : objects) {
            Entry image = images.get(source);
            for (Relation relation : source.model().relations()) {
                if (image != null && image.model().isA(source.model()) && relation.isMany()
                        && Unread.is(relation.get(source.instance()))) {
                    queue.get(image.number(), relation.member()).about(image);
                    owners.add(source);
                    relations.add(relation);
                }
            }
        }
        if (owners.isEmpty()) {
            return;
        }
        Reply[] replies = context.ask(from);
        for (int i = 0; i < replies.length; i++) {
            for (Object member : replies[i].list()) {
                queue.add(owners.get(i).number(), relations.get(i).member(), ((Ref) member).number());
            }
        }
    }

    /** Reads the images, and runs PrePersist of those that are new. */
    private void readBack(List<Event> events, long root) {
        Set<Long> numbers = new LinkedHashSet<>();
        numbers.add(root);
        managed.forEach(entry -> numbers.add(entry.number()));
        images.values().forEach(entry -> numbers.add(entry.number()));
        Set<Long> persisted = new LinkedHashSet<>();
        for (Event event : events) {
            if (event.kind() == Callbacks.Event.PrePersist) {
                persisted.add(event.number());
            }
        }
        numbers.addAll(persisted);
        prepared.forEach(context.identities()::put);
        Set<Long> unstored = new LinkedHashSet<>(persisted);
        mergedKeys.ahead().forEach(image -> unstored.add(image.number()));
        new Fill(context).merged(numbers, unstored);
        for (long number : persisted) {
            Entry entry = context.identities().of(number);
            if (!context.wasRunAhead(Callbacks.Event.PrePersist, entry)) {
                context.run(Callbacks.Event.PrePersist, entry);
            }
        }
    }
}
