package karzhoul.jpa.context;

import java.util.ArrayList;
import java.util.Arrays;
import java.util.Comparator;
import java.util.List;
import karzhoul.jpa.model.Relation;

/** What stands in collections of instances. */
final class Members {
    private Members() {}

    /** The instances of members, in the order that the relation asks. */
    static List<Object> instances(List<Entry> members, Relation relation) {
        List<Object> instances = new ArrayList<>(members.size());
        for (Entry member : members) {
            instances.add(member.instance());
        }
        if (!relation.orders().isEmpty()) {
            instances.sort(order(relation));
        }
        return instances;
    }

    /** Gives an instance its members, in the door's own collection. */
    static void give(Entry owner, Relation relation, List<Entry> members) {
        Object there = relation.get(owner.instance());
        Lazy collection = there instanceof Lazy lazy && lazy.owner() == owner ? lazy : Lazy.of(owner, relation);
        collection.fill(instances(members, relation));
        if (there != collection) {
            relation.set(owner.instance(), collection);
        }
    }

    /** Nulls first, as in queries; descending ones last. */
    private static Comparator<Object> order(Relation relation) {
        Comparator<Object> all = null;
        for (Relation.Order order : relation.orders()) {
            Comparator<Object> one = (a, b) ->
                compare(Values.column(order.by(), order.by().get(a)), Values.column(order.by(), order.by().get(b)));
            one = order.isDescending() ? one.reversed() : one;
            all = all == null ? one : all.thenComparing(one);
        }
        return all;
    }

    private static int compare(Object one, Object other) {
        if (one == null || other == null) {
            return one == other ? 0 : one == null ? -1 : 1;
        } else if (one instanceof Long number) {
            return number.compareTo((Long) other);
        } else if (one instanceof String text) {
            return byCodePoints(text, (String) other);
        }
        return Arrays.compareUnsigned((byte[]) one, (byte[]) other);
    }

    private static int byCodePoints(String one, String other) {
        int limit = Math.min(one.length(), other.length());
        for (int i = 0; i < limit; i++) {
            if (one.charAt(i) != other.charAt(i)) {
                return Integer.compare(one.codePointAt(i), other.codePointAt(i));
            }
        }
        return Integer.compare(one.length(), other.length());
    }
}
