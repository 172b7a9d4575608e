package karzhoul.jpa.context;

import jakarta.persistence.EntityNotFoundException;
import java.lang.ref.WeakReference;
import java.util.ArrayList;
import java.util.Arrays;
import java.util.Collection;
import java.util.HashMap;
import java.util.HashSet;
import java.util.LinkedHashMap;
import java.util.LinkedHashSet;
import java.util.List;
import java.util.Map;
import java.util.Set;
import karzhoul.jpa.engine.Lines;
import karzhoul.jpa.engine.Ref;
import karzhoul.jpa.engine.Reply;
import karzhoul.jpa.engine.Shown;
import karzhoul.jpa.model.Attribute;
import karzhoul.jpa.model.Callbacks;
import karzhoul.jpa.model.EntityModel;
import karzhoul.jpa.model.KeyCopy;
import karzhoul.jpa.model.ListOrder;
import karzhoul.jpa.model.Relation;

/**
 * Fills instances by what the program shows of its objects. What an EAGER relation leads to is read in the same go;
 * values come first, then links, then collections, whose members may be asked for their hash codes; PostLoad runs
 * once all is in. One for each reading.
 */
final class Fill {
    static final int CHUNK = 4_000;

    /** A relation that was told, or is to be read. */
    private record Told(Entry owner, Relation relation, Object told) {}

    private final Context context;
    private final Identities identities;
    private final Set<Long> wanted = new LinkedHashSet<>();
    private final Map<Long, Entry> apart = new HashMap<>();
    private final List<Entry> loaded = new ArrayList<>();
    private final List<Told> links = new ArrayList<>();
    private final List<Told> collections = new ArrayList<>();
    private final Set<Long> merged = new HashSet<>();
    private final List<Entry> copying = new ArrayList<>();
    private final Map<Entry, Written> written = new LinkedHashMap<>();
    private final Set<Entry> wereHollow = new HashSet<>();
    private final Set<Entry> left = new HashSet<>();
    private List<Told> unread = new ArrayList<>();
    private Reading reading;

    Fill(Context context) {
        this.context = context;
        identities = context.identities();
    }

    /** The entry of this key, found and filled; null where there is no row, or where it was removed. */
    Entry found(EntityModel model, List<Object> key) {
        Lines queue = context.queue();
        int from = queue.count();
        queue.find(context.manager(), model.mappedName(), key).about(model.name() + " " + key);
        long[] next = new long[1];
        Reply[] replies = context.ask(from, (lines, number) -> {
            next[0] = number;
            lines.values(next, 0, 1);
        });
        if (replies[0].ok() == null) {
            return null;
        }
        long number = replies[0].number();
        complete(() -> {
            if (number == next[0] && !replies[1].isRefused()) {
                take(number, (Shown) replies[1].list().get(0));
            } else {
                want(number);
            }
        });
        return entry(number);
    }

    /** The entries of these keys, found and filled in one go; null for each without a row. */
    List<Entry> found(List<EntityModel> models, List<List<Object>> keys) {
        Lines queue = context.queue();
        int from = queue.count();
        for (int i = 0; i < keys.size(); i++) {
            queue.find(context.manager(), models.get(i).mappedName(), keys.get(i)).about(models.get(i).name() + keys.get(i));
        }
        List<Object> refs = new ArrayList<>();
        for (Reply reply : context.ask(from)) {
            refs.add(reply.ok());
        }
        return entries(refs);
    }

    /** As {@link #entries(List)}, where the object of a number was shown already; null where none was. */
    List<Entry> entries(List<?> refs, long number, Shown shown) {
        boolean isNew = shown != null && refs.contains(new Ref(number)) && identities.of(number) == null;
        return entries(refs, isNew ? () -> take(number, shown) : () -> {});
    }

    /** The entries of these objects, each filled; null for null. */
    List<Entry> entries(List<?> refs) {
        return entries(refs, () -> {});
    }

    private List<Entry> entries(List<?> refs, Runnable first) {
        complete(() -> {
            first.run();
            for (Object ref : refs) {
                if (ref != null) {
                    want(((Ref) ref).number());
                }
            }
        });
        List<Entry> entries = new ArrayList<>(refs.size());
        for (Object ref : refs) {
            entries.add(ref == null ? null : entry(((Ref) ref).number()));
        }
        return entries;
    }

    /**
     * Reads the values of a proxy.
     *
     * @throws EntityNotFoundException where its row is gone
     */
    void proxy(Entry entry) {
        if (entry.isHollow() && entry.number() != 0) {
            want(entry.number());
            complete();
        } else if (entry.isHollow() && found(entry.model(), entry.key()) == null) {
            throw context.marked(new EntityNotFoundException("EntityNotFound, " + entry
                + ": there is no such row, or it was removed since what leads to it was read"));
        }
    }

    /**
     * Reads the values of proxies whose fields were written.
     *
     * @throws EntityNotFoundException where the row of one is gone
     */
    void written(List<Entry> proxies) {
        List<Entry> keyed = new ArrayList<>();
        for (Entry proxy : proxies) {
            if (proxy.number() != 0) {
                want(proxy.number());
            } else {
                keyed.add(proxy);
            }
        }
        if (keyed.isEmpty()) {
            complete();
        } else {
            found(keyed.stream().map(Entry::model).toList(), keyed.stream().map(Entry::key).toList());
        }
        for (Entry proxy : proxies) {
            if (proxy.isHollow()) {
                throw context.marked(new EntityNotFoundException("EntityNotFound, " + proxy + ", whose "
                    + proxy.written().paths() + " was written: there is no such row"));
            }
        }
    }

    /** Reads the values of a proxy, and nothing that was written to its fields stays, unless that fails. */
    void anew(Entry proxy) {
        Blank blank = proxy.blank();
        Written over = proxy.written();
        proxy.blank(null);
        try {
            proxy(proxy);
        } catch (RuntimeException | Error e) {
            if (proxy.isHollow() && proxy.blank() == null) {
                proxy.blank(blank);
            } else if (proxy.isHollow() && over != null) {
                writeAgain(proxy, over);
            }
            throw e;
        }
    }

    /** Reads these objects again, whose values the program has read anew or changed. */
    void again(Iterable<Entry> entries) {
        for (Entry entry : entries) {
            wanted.add(entry.number());
        }
        complete();
    }

    /**
     * Reads what a merge has made of these objects: it is no row yet, and no PostLoad runs.
     *
     * @param persisted those that are new
     */
    void merged(Iterable<Long> numbers, Set<Long> persisted) {
        for (long number : numbers) {
            Entry known = identities.of(number);
            if (known != null) {
                known.touch();
            }
            wanted.add(number);
        }
        merged.addAll(wanted);
        complete();
        for (long number : numbers) {
            Entry entry = identities.of(number);
            entry.touch();
            context.hasTouched(entry);
            if (persisted.contains(number)) {
                entry.stored(false);
                context.isMade(entry);
            }
        }
    }

    /** Reads the members of a collection. */
    List<Object> members(Entry owner, Relation relation) {
        int from = context.queue().count();
        context.queue().get(owner.number(), relation.member()).about(owner + "." + relation.path());
        List<Object> refs = context.ask(from)[0].list();
        List<Entry> members = context.listOrders().sorted(owner, relation, entries(refs));
        reading = context.reading();
        return Members.instances(keep(owner, relation, members), relation);
    }

    /** Reads a relation of several owners in one go: those that haven't read it. */
    void fetch(Collection<Entry> owners, Relation relation) {
        for (Entry owner : owners) {
            Object value = relation.get(owner.instance());
            if (relation.isMany() ? Unread.is(value) : isHollow(value)) {
                unread.add(new Told(owner, relation, null));
            }
        }
        complete();
    }

    private boolean isHollow(Object instance) {
        Entry entry = instance == null ? null : context.entryOf(instance);
        return entry != null && entry.isHollow();
    }

    private void want(long number) {
        Entry known = identities.of(number);
        if (known == null && !apart.containsKey(number) || known != null && known.isHollow()) {
            wanted.add(number);
        }
    }

    private Entry entry(long number) {
        Entry known = identities.of(number);
        return known == null ? apart.get(number) : known;
    }

    /** Asks for what is wanted until nothing is, and gives all its relations; then PostLoad runs. */
    private void complete() {
        complete(() -> {});
    }

    /** As that, after this; what was written to proxies is written again also where reading them fails. */
    private void complete(Runnable first) {
        Throwable failed = null;
        Reading outer = context.reading();
        reading = new Reading(context);
        context.reading(reading);
        try {
            first.run();
            readAll();
            reading.isDone(outer);
        } catch (RuntimeException | Error e) {
            failed = e;
            giveUp(e);
            throw e;
        } finally {
            context.reading(outer);
            wereHollow.clear();
            writeAgain(failed);
        }
    }

    /** What is read in part goes, but for what a merge has made: its transaction is rolled back. */
    private void giveUp(Throwable failed) {
        if (isHalf()) {
            context.marked(failed);
        }
        if (merged.isEmpty()) {
            links.clear();
            collections.clear();
            loaded.clear();
            reading.takeBack(failed);
        } else {
            reading.isDone(null);
        }
    }

    /** Whether something is read in part. */
    private boolean isHalf() {
        return !links.isEmpty() || !collections.isEmpty() || !loaded.isEmpty() || !wereHollow.isEmpty();
    }

    /** One that throws, as a setter may, doesn't keep the others from it. */
    private void writeAgain(Throwable failed) {
        Map<Entry, Written> now = new LinkedHashMap<>(written);
        written.clear();
        RuntimeException first = null;
        for (Map.Entry<Entry, Written> each : now.entrySet()) {
            try {
                writeAgain(each.getKey(), each.getValue());
            } catch (RuntimeException e) {
                context.marked(e);
                if (failed != null) {
                    failed.addSuppressed(e);
                } else if (first == null) {
                    first = e;
                } else {
                    first.addSuppressed(e);
                }
            }
        }
        if (first != null) {
            throw first;
        }
    }

    private static void writeAgain(Entry proxy, Written over) {
        if (proxy.isHollow()) {
            Proxies.asleep(proxy.instance(), () -> {
                over.over(proxy.instance());
                return null;
            });
        } else {
            over.over(proxy.instance());
        }
    }

    private void readAll() {
        while (!wanted.isEmpty() || !unread.isEmpty()) {
            round();
        }
        for (Told link : List.copyOf(links)) {
            give(link);
        }
        links.clear();
        copying.forEach(Fill::copies);
        copying.clear();
        Map<ListOrder, ListOrders.Places> places = places();
        for (boolean isSet : new boolean[] {false, true}) {
            for (Told told : collections) {
                if (isSet == (told.relation().container() == Relation.Container.SET)) {
                    giveMembers(told, places);
                }
            }
        }
        collections.clear();
        List<Entry> now = List.copyOf(loaded);
        loaded.clear();
        for (Entry entry : now) {
            context.run(Callbacks.Event.PostLoad, entry);
        }
    }

    private void round() {
        Lines queue = context.queue();
        int from = queue.count();
        long[] numbers = wanted.stream().mapToLong(Long::longValue).toArray();
        wanted.clear();
        for (int i = 0; i < numbers.length; i += CHUNK) {
            queue.values(numbers, i, Math.min(numbers.length, i + CHUNK));
        }
        List<Told> asked = unread;
        unread = new ArrayList<>();
        for (Told told : asked) {
            queue.get(told.owner().number(), told.relation().member()).about(told.owner() + "." + told.relation().path());
        }
        Reply[] replies = context.ask(from);
        int place = 0;
        for (int i = 0; i < numbers.length; i += CHUNK) {
            List<Object> shown = replies[place++].list();
            for (int k = 0; k < shown.size(); k++) {
                take(numbers[i + k], (Shown) shown.get(k));
            }
        }
        for (Told told : asked) {
            read(new Told(told.owner(), told.relation(), replies[place++].ok()));
        }
    }

    private void take(long number, Shown shown) {
        EntityModel model = context.factory().mapped(shown.entity());
        Object[] values = shown.values();
        Object[] converted = converted(model, values);      // a converter that throws leaves all as it was
        List<Object> key = List.of(Arrays.copyOf(values, model.key().parts().size()));
        Entry entry = entryFor(number, model, key);
        if (left.contains(entry)) {
            return;
        } else if (entry.isHollow()) {
            isRead(entry);
        }
        if (!merged.contains(number)) {
            entry.stored(true);
            entry.clean();
        }
        values(entry, values, converted);
        List<Relation> relations = model.relations();
        for (int i = 0; i < relations.size(); i++) {
            relation(entry, relations.get(i), shown.relations()[i]);
        }
        if (!model.copies().isEmpty()) {
            copying.add(entry);
        }
        if (entry.context() != null && !merged.contains(number)) {
            loaded.add(entry);
        }
    }

    /** A proxy is one no more; what was written to it by no method of it is written again, once all is read. */
    private void isRead(Entry proxy) {
        Written over = proxy.written();
        proxy.blank(null);
        proxy.hollow(false);
        wereHollow.add(proxy);
        reading.wasProxy(proxy);
        if (over != null) {
            written.put(proxy, over);
        }
    }

    /** What reads the column of a relation has the key of what that leads to. */
    private static void copies(Entry entry) {
        for (KeyCopy copy : entry.model().copies()) {
            Entry target = (Entry) entry.relations[copy.relation().place()];
            copy.fill(entry.instance(), target == null ? null : target.key());
        }
    }

    private Entry entryFor(long number, EntityModel model, List<Object> key) {
        Entry known = identities.of(number);
        if (known != null) {
            return known;
        }
        if (context.isDetached(number)) {
            return detached(number, model, key);
        }
        Entry entry = identities.of(model, key);
        if (entry == null) {
            entry = new Entry(model, context, Entry.State.MANAGED);
            entry.key(key);
            entry.instance(model.newInstance());
            reading.isNew(entry);
        }
        entry.number(number);
        identities.put(entry);
        return entry;
    }

    /**
     * What was detached may still stand in a collection of what is managed: the same instance, where it is there, as the
     * application has left it.
     */
    private Entry detached(long number, EntityModel model, List<Object> key) {
        Entry entry = new Entry(model, context, Entry.State.DETACHED);
        entry.letGo();
        entry.number(number);
        entry.key(key);
        Object lost = context.lost(number);
        entry.instance(lost == null ? model.newInstance() : lost);
        if (lost == null) {
            context.lose(number, new WeakReference<>(entry.instance()));
            reading.standsIn(number);
        } else {
            left.add(entry);
        }
        apart.put(number, entry);
        return entry;
    }

    private static Object[] converted(EntityModel model, Object[] columns) {
        List<Attribute> attributes = model.attributes();
        Object[] converted = new Object[columns.length];
        for (int i = 0; i < columns.length; i++) {
            converted[i] = attributes.get(i).codec().toAttribute(columns[i]);
        }
        return converted;
    }

    private static void values(Entry entry, Object[] columns, Object[] converted) {
        List<Attribute> attributes = entry.model().attributes();
        for (int i = 0; i < columns.length; i++) {
            Attribute attribute = attributes.get(i);
            Object value = converted[i];
            attribute.set(entry.instance(), value);
            // null has become the zero of a primitive, which is no change
            entry.values[i] = columns[i] == null ? Values.kept(attribute, attribute.get(entry.instance()))
                : attribute.codec().isMutable() ? columns[i] : value;
        }
    }

    private void relation(Entry entry, Relation relation, Object told) {
        if (relation.isMany()) {
            collection(entry, relation, told);
        } else if (told instanceof Shown.KeyOf key) {
            linkByKey(entry, relation, key.parts());
        } else {
            read(new Told(entry, relation, told));
        }
    }

    private void collection(Entry entry, Relation relation, Object told) {
        boolean wasHollow = wereHollow.contains(entry);
        if (told != Shown.UNREAD) {
            if (wasHollow) {
                relation.set(entry.instance(), Lazy.of(entry, relation));
            }
            read(new Told(entry, relation, told));
            return;
        }
        // what was written to a proxy is not judged as it is read: callbacks may make it fit
        if (!wasHollow && relation.get(entry.instance()) instanceof Lazy lazy && lazy.owner() == entry) {
            lazy.forget();
            entry.unread(relation, lazy);
        } else {
            Lazy collection = Lazy.of(entry, relation);
            relation.set(entry.instance(), collection);
            entry.unread(relation, collection);
        }
        if (!relation.isLazy()) {
            unread.add(new Told(entry, relation, null));
        }
    }

    private void linkByKey(Entry entry, Relation relation, List<Object> key) {
        Entry target = identities.of(relation.target(), key);
        if (target == null && relation.isLazy() && Proxies.isPossible(relation.target())) {
            target = context.proxyOf(relation.target(), key);
        }
        if (target == null || target.isHollow() && !relation.isLazy()) {
            unread.add(new Told(entry, relation, null));
        } else {
            link(entry, relation, target);
        }
    }

    /** Takes what a relation was answered: what is told of the object, and what is unknown is wanted. */
    private void read(Told told) {
        if (told.told() instanceof Ref ref) {
            want(ref.number());
            links.add(told);
        } else if (told.told() == null) {
            link(told.owner(), told.relation(), null);
        } else {
            ((List<?>) told.told()).forEach(member -> want(((Ref) member).number()));
            collections.add(told);
        }
    }

    private void give(Told told) {
        link(told.owner(), told.relation(), entry(((Ref) told.told()).number()));
    }

    private void link(Entry owner, Relation relation, Entry target) {
        reading.leads(owner, relation);
        owner.relations[relation.place()] = target;
        relation.set(owner.instance(), target == null ? null : target.instance());
    }

    /** The orders of the lists that were told, but of those that a merge has put in order. */
    private Map<ListOrder, ListOrders.Places> places() {
        Map<ListOrder, List<Entry>> owners = new HashMap<>();
        for (Told told : collections) {
            if (((List<?>) told.told()).size() > 1 && !merged.contains(told.owner().number())) {
                told.relation().listOrder().ifPresent(order ->
                    owners.computeIfAbsent(order, none -> new ArrayList<>()).add(told.owner()));
            }
        }
        Map<ListOrder, ListOrders.Places> places = new HashMap<>();
        owners.forEach((order, of) -> places.put(order, context.listOrders().places(order, of)));
        return places;
    }

    private void giveMembers(Told told, Map<ListOrder, ListOrders.Places> places) {
        List<Entry> members = new ArrayList<>();
        for (Object ref : (List<?>) told.told()) {
            members.add(entry(((Ref) ref).number()));
        }
        if (merged.contains(told.owner().number())) {
            context.listOrders().changed(told.owner(), told.relation());
        } else if (members.size() > 1 && told.relation().listOrder().isPresent()) {
            members = places.get(told.relation().listOrder().get()).sorted(told.owner(), members);
        }
        keep(told.owner(), told.relation(), members);
        Members.give(told.owner(), told.relation(), members);
    }

    private List<Entry> keep(Entry owner, Relation relation, List<Entry> members) {
        if (reading != null) {
            reading.leads(owner, relation);
        }
        owner.relations[relation.place()] = members;
        return members;
    }
}
