package karzhoul.jpa.context;

import java.util.ArrayList;
import java.util.Collection;
import java.util.Comparator;
import java.util.LinkedHashSet;
import java.util.List;
import java.util.Set;
import karzhoul.jpa.engine.Lines;
import karzhoul.jpa.engine.Ref;
import karzhoul.jpa.engine.Reply;
import karzhoul.jpa.engine.Shown;
import karzhoul.jpa.model.Attribute;
import karzhoul.jpa.model.Callbacks;
import karzhoul.jpa.model.KeyModel;
import karzhoul.jpa.model.Relation;

/**
 * Carries a context over into another manager of the program, where a run has ended or its manager was needed
 * elsewhere: its objects are found again by their keys, and compared with what was known of their rows. One that
 * another commit changed meanwhile is stale: to write it is refused, as it would have been. New ones are made anew.
 */
final class Carry {
    private record Read(Entry owner, Relation relation) {
        @SuppressWarnings("unchecked")
        List<Entry> members() {
            return (List<Entry>) owner.relations[relation.place()];
        }
    }

    private final Context context;
    private final Identities identities;
    private final Lines queue;
    private final List<Entry> stored = new ArrayList<>();
    private final List<Entry> fresh = new ArrayList<>();

    Carry(Context context) {
        this.context = context;
        identities = context.identities();
        queue = context.queue();
    }

    /** Gives all objects their numbers of the new run; answers how many there are. */
    int overNewRun() {
        for (Entry entry : identities.numbered()) {
            if (entry.state() == Entry.State.DETACHED) {
                identities.remove(entry);
                entry.number(0);
            } else if (entry.isStored()) {
                stored.add(entry);
            } else {
                fresh.add(entry);
            }
        }
        forgetNumbersOfOthers();
        List<Object> refs = find();
        List<Shown> shown = show(refs);
        identities.forgetNumbers();
        number(refs);
        compare(refs, shown);
        fresh.forEach(this::makeAnew);
        repeat();
        return stored.size() + fresh.size();
    }

    /** The same of what the manager has read anew, though its instances have what they had before. */
    void overFailedRefresh(List<Entry> entries) {
        stored.addAll(entries);
        List<Object> refs = find();
        compare(refs, show(refs));
    }

    private void compare(List<Object> refs, List<Shown> shown) {
        List<Read> reads = new ArrayList<>();
        int place = 0;
        for (int i = 0; i < refs.size(); i++) {
            if (refs.get(i) != null) {
                compare(stored.get(i), shown.get(place++), reads);
            }
        }
        read(reads);
    }

    /** What relations lead to, and the context let go, has no number in the new run. */
    private void forgetNumbersOfOthers() {
        for (Entry entry : stored) {
            for (Object related : entry.rowRelations()) {
                if (related instanceof Entry target && target.state() == Entry.State.DETACHED) {
                    target.number(0);
                } else if (related instanceof List<?> members) {
                    members.stream().map(Entry.class::cast).filter(it -> it.state() == Entry.State.DETACHED)
                        .forEach(it -> it.number(0));
                }
            }
        }
    }

    private List<Object> find() {
        int from = queue.count();
        for (Entry entry : stored) {
            queue.find(context.manager(), entry.model().root().mappedName(), entry.key()).about(entry);
        }
        List<Object> refs = new ArrayList<>();
        for (Reply reply : context.ask(from)) {
            refs.add(reply.ok());
        }
        return refs;
    }

    private List<Shown> show(List<Object> refs) {
        long[] numbers = refs.stream().filter(ref -> ref != null).mapToLong(ref -> ((Ref) ref).number()).toArray();
        List<Shown> shown = new ArrayList<>(numbers.length);
        int from = queue.count();
        for (int i = 0; i < numbers.length; i += Fill.CHUNK) {
            queue.values(numbers, i, Math.min(numbers.length, i + Fill.CHUNK));
        }
        for (Reply reply : context.ask(from)) {
            reply.list().forEach(one -> shown.add((Shown) one));
        }
        return shown;
    }

    /** One whose row is gone gets an object that no manager knows, and is stale. */
    private void number(List<Object> refs) {
        for (int i = 0; i < stored.size(); i++) {
            Entry entry = stored.get(i);
            if (refs.get(i) == null) {
                entry.number(context.newNumber(entry.model()));
                context.setStale(entry);
            } else {
                entry.number(((Ref) refs.get(i)).number());
            }
            identities.put(entry);
        }
    }

    /** What the program has now is the row; where that isn't what was known of it, the entry is stale. */
    private void compare(Entry entry, Shown shown, List<Read> reads) {
        if (entry.isHollow()) {
            return;
        }
        if (!isAsKnown(entry, shown)) {
            context.setStale(entry);
            return;
        }
        System.arraycopy(entry.rowValues(), 0, entry.values, 0, entry.values.length);
        System.arraycopy(entry.rowRelations(), 0, entry.relations, 0, entry.relations.length);
        entry.clean();
        for (Relation relation : entry.model().relations()) {
            if (relation.isMany() && !entry.isUnread(relation)) {
                reads.add(new Read(entry, relation));
            }
            if (relation.get(entry.instance()) instanceof Lazy lazy) {
                lazy.change();
            }
        }
    }

    private static boolean isAsKnown(Entry entry, Shown shown) {
        boolean isSame = shown.entity().equals(entry.model().mappedName());
        for (Attribute attribute : entry.model().attributes()) {
            isSame = isSame && Values.isKept(attribute, shown.values()[attribute.place()],
                entry.rowValues()[attribute.place()]);
        }
        for (Relation relation : entry.model().relations()) {
            isSame = isSame && (relation.isMany() || !relation.isOwner()
                || isSameLink(entry.rowRelations()[relation.place()], shown.relations()[relation.place()]));
        }
        return isSame;
    }

    static boolean isSameLink(Object before, Object now) {
        if (before == null || now == null) {
            return before == now;
        }
        return !(now instanceof Shown.KeyOf other) || other.parts().equals(((Entry) before).key());
    }

    /**
     * Collections that were read are read by the program too, and are there what they were known to be: so changes
     * are told against that. An owned one that is another makes its owner stale. What a relation that removes orphans
     * has got from others meanwhile can't be taken out there, or it would be an orphan: it comes in here.
     */
    private void read(List<Read> reads) {
        int from = queue.count();
        for (Read read : reads) {
            queue.get(read.owner().number(), read.relation().member()).about(read.owner());
        }
        Reply[] replies = context.ask(from);
        for (int i = 0; i < replies.length; i++) {
            Read read = reads.get(i);
            Set<Long> now = new LinkedHashSet<>();
            replies[i].list().forEach(ref -> now.add(((Ref) ref).number()));
            Set<Long> known = new LinkedHashSet<>();
            read.members().forEach(member -> known.add(member.number()));
            if (now.equals(known)) {
                continue;
            } else if (read.relation().isOwner()) {
                context.setStale(read.owner());
            } else if (read.relation().removesOrphans()) {
                takeIn(read, new Fill(context).entries(replies[i].list()));
            } else {
                tellAsKnown(read, now, known);
            }
        }
        context.send();
    }

    private void tellAsKnown(Read read, Set<Long> now, Set<Long> known) {
        for (long number : now) {
            if (!known.contains(number)) {
                queue.takeOut(read.owner().number(), read.relation().member(), number).about(read.owner());
            }
        }
        for (long number : known) {
            if (number != 0 && !now.contains(number)) {
                queue.add(read.owner().number(), read.relation().member(), number).about(read.owner());
            }
        }
    }

    /** The instance's members are those of now, with what it added and without what it took out. */
    private void takeIn(Read read, List<Entry> told) {
        List<Entry> now = context.listOrders().sorted(read.owner(), read.relation(), told);
        Object value = read.relation().get(read.owner().instance());
        if (value instanceof Collection<?> && !Unread.is(value)) {
            @SuppressWarnings("unchecked")
            Collection<Object> held = (Collection<Object>) value;
            List<Object> members = Members.instances(now, read.relation());
            List<Object> before = Members.instances(read.members(), read.relation());
            members.removeIf(member -> isAmong(before, member) && !isAmong(held, member));
            held.stream().filter(member -> !isAmong(before, member) && !isAmong(members, member)).toList()
                .forEach(members::add);
            if (read.relation().listOrder().isPresent()) {
                List<Object> order = List.copyOf(held);
                members.sort(Comparator.comparing(member -> place(order, member)));
            }
            held.clear();
            held.addAll(members);
            if (read.relation().container() == Relation.Container.MAP && !(value instanceof Lazy)) {
                read.relation().set(read.owner().instance(), held);        // the values of a map are a copy
            }
        }
        read.owner().relations[read.relation().place()] = now;
    }

    /** Who isn't there is behind all others. */
    private static int place(List<Object> held, Object wanted) {
        int place = 0;
        while (place < held.size() && held.get(place) != wanted) {
            place++;
        }
        return place;
    }

    private static boolean isAmong(Collection<Object> members, Object wanted) {
        return members.stream().anyMatch(member -> member == wanted);
    }

    private void makeAnew(Entry entry) {
        KeyModel key = entry.model().key();
        if (entry.isManaged() && key.generation() == KeyModel.Generation.COUNTER) {
            identities.remove(entry);
            key.parts().get(0).set(entry.instance(), null);
            entry.key(null);
        }
        entry.number(context.newNumber(entry.model()));
        entry.forgetTold();
        identities.put(entry);
    }

    /** What was asked for outside of a transaction, and isn't flushed yet, is asked for again. */
    private void repeat() {
        List<Entry> persisted = fresh.stream().filter(Entry::isManaged).toList();
        persisted.forEach(entry -> entry.state(Entry.State.NEW));
        context.push().these(fresh);
        for (Entry entry : persisted) {
            context.hush(Callbacks.Event.PrePersist, entry);
            queue.persist(context.manager(), entry.number()).about(entry);
        }
        Persist.manage(context, persisted);
        for (Entry entry : stored) {
            if (entry.state() == Entry.State.REMOVED && !entry.isStale()) {
                context.hush(Callbacks.Event.PreRemove, entry);
                queue.remove(context.manager(), entry.number()).about(entry);
            }
        }
        if (!queue.isEmpty()) {
            context.ask(queue.count());
        }
    }
}
