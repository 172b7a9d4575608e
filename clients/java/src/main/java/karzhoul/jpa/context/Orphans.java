package karzhoul.jpa.context;

import jakarta.persistence.CascadeType;
import jakarta.persistence.PersistenceException;
import java.util.ArrayDeque;
import java.util.ArrayList;
import java.util.Collection;
import java.util.Deque;
import java.util.HashSet;
import java.util.LinkedHashSet;
import java.util.List;
import java.util.Set;
import karzhoul.jpa.model.Relation;

/**
 * What left relations that remove orphans since the last flush (chapter 2.9). To the program each is an orphan, whoever
 * else leads to it: one that moved stands in the relation that it left while the program flushes, which is read anew then.
 */
final class Orphans {
    /** A member that a relation has lost. */
    private record Left(Entry owner, Relation relation, Entry member) {
        /** Whether its owner hasn't taken it in again, read its members anew, or was let go. */
        boolean isOut() {
            return owner.state() != Entry.State.DETACHED && !owner.isUnread(relation)
                && !Revived.members(owner, relation).contains(member);
        }

        boolean isElement() {
            return relation.elements().isPresent();
        }

        /** What stands in its place; null where nothing does, and in a collection. */
        Entry inItsPlace() {
            return owner.relations[relation.place()] instanceof Entry other ? other : null;
        }
    }

    private final Context context;
    private final Set<Left> left = new LinkedHashSet<>();
    private final List<Left> moved = new ArrayList<>();

    Orphans(Context context) {
        this.context = context;
    }

    /** A relation to one is compared with what it led to at the last flush: what it led to between is no orphan. */
    void left(Entry owner, Relation relation, Entry member) {
        if (relation.isMany() || left.stream().noneMatch(each -> each.owner() == owner && each.relation() == relation)) {
            left.add(new Left(owner, relation, member));
        }
    }

    void forget() {
        left.clear();
        moved.clear();
    }

    /** Whether the next flush is to leave something where it is that left a relation. */
    boolean hasMoved() {
        return !moved.isEmpty();
    }

    /** Looks who has moved, and removes the orphans of which the program doesn't know. */
    void settle() {
        Set<Entry> kept;
        do {
            kept = kept();
        } while (removeUnknown(kept));
        moved.clear();
        for (Left each : left) {
            if (!each.relation().isJoined() && each.isOut() && stays(each.owner(), kept) && kept.contains(each.member())) {
                checkPlace(each);
                moved.add(each);
            }
        }
    }

    /** The flush persists along what a relation has: a new one whose place is lent would be lost without a word. */
    private static void checkPlace(Left each) {
        Entry other = each.inItsPlace();
        if (other != null && other.state() == Entry.State.NEW) {
            throw new PersistenceException(each.owner() + "." + each.relation().path() + " leads to " + other + ", and "
                + each.member() + ", to which it led, moved: persist the new one before the flush");
        }
    }

    /** What the program removes by the next flush, as far as it is known here. */
    List<Entry> leaving() {
        Set<Entry> stay = new HashSet<>();
        moved.forEach(each -> stay.add(each.member()));
        return left.stream().filter(Left::isOut).map(Left::member).filter(it -> it.isManaged() && !stay.contains(it)).toList();
    }

    private boolean removeUnknown(Set<Entry> kept) {
        boolean isRemoved = false;
        for (Left each : List.copyOf(left)) {
            Entry owner = each.owner();
            boolean isUnknown = each.relation().isJoined() || owner.isStored() && !stays(owner, kept);
            if (isUnknown && each.member().isManaged() && each.isOut() && !kept.contains(each.member())) {
                new Operations(context).remove(each.member());
                isRemoved = true;
            }
        }
        return isRemoved;
    }

    private static boolean stays(Entry owner, Set<Entry> kept) {
        return owner.isManaged() || kept.contains(owner);
    }

    /** What something leads to that is stored by the flush, though it left a relation or was removed. */
    private Set<Entry> kept() {
        Set<Entry> out = new HashSet<>();
        for (Left each : left) {
            if (!each.isElement() && each.isOut()) {
                out.add(each.member());
            }
        }
        boolean isPlain = left.isEmpty() || out.isEmpty() && !context.hasRemoved();
        return isPlain ? Set.of() : Revived.of(context, withWhatGoesAlong(out));
    }

    /** What the removal of these reaches; to whom they belong isn't. */
    private static Set<Entry> withWhatGoesAlong(Collection<Entry> roots) {
        Set<Entry> reached = new HashSet<>(roots);
        Deque<Entry> work = new ArrayDeque<>(roots);
        for (Entry at; (at = work.poll()) != null; ) {
            for (Relation relation : at.model().relations()) {
                boolean isAlong = relation.removesOrphans() || relation.cascades().contains(CascadeType.REMOVE);
                if (isAlong && relation.kind() != Relation.Kind.MANY_TO_ONE) {
                    Revived.members(at, relation).stream().filter(reached::add).forEach(work::add);
                }
            }
        }
        return reached;
    }

    /** Gives what moved back to the relations that it left: to the program it isn't an orphan. */
    void lend() {
        for (Left each : moved) {
            if (each.relation().isMany()) {
                context.queue().add(each.owner().number(), each.relation().member(), each.member().number()).about(each.owner());
            } else {
                link(each.owner(), each.relation(), each.member());
            }
        }
    }

    /** Takes away again what {@link #lend} gave. */
    void takeBack() {
        for (Left each : moved) {
            if (each.relation().isMany()) {
                takeOut(each.owner(), each.relation(), each.member());
            } else {
                link(each.owner(), each.relation(), each.inItsPlace());
            }
        }
    }

    private void takeOut(Entry owner, Relation relation, Entry member) {
        context.queue().takeOut(owner.number(), relation.member(), member.number()).about(owner);
    }

    private void link(Entry owner, Relation relation, Entry target) {
        context.queue().link(owner.number(), relation.member(), target == null ? 0 : target.number()).about(owner);
    }

    /** All is written: what moved was never where it was. */
    void written() {
        takeBack();
        moved.stream().map(Left::owner).distinct().forEach(new ReadAnew(context)::of);
        forget();
    }
}
