package karzhoul.jpa.context;

import jakarta.persistence.CascadeType;
import java.util.ArrayList;
import java.util.HashSet;
import java.util.LinkedHashMap;
import java.util.List;
import java.util.Map;
import java.util.Optional;
import java.util.Set;
import karzhoul.jpa.engine.Lines;
import karzhoul.jpa.engine.Ref;
import karzhoul.jpa.engine.Reply;
import karzhoul.jpa.model.Attribute;
import karzhoul.jpa.model.Relation;

/** Has the program read owners anew behind a flush: what a relation doesn't have any more was never there then. */
final class ReadAnew {
    private final Context context;
    private final Lines queue;

    ReadAnew(Context context) {
        this.context = context;
        queue = context.queue();
    }

    /** What was read is read again, since cascades go on along it; but not where rows have more than the application. */
    void of(Entry owner) {
        Map<Relation, List<Long>> read = new LinkedHashMap<>();
        for (Relation relation : owner.model().relations()) {
            List<Long> members = Revived.members(owner, relation).stream().map(Entry::number).toList();
            if (relation.isMany() ? !owner.isUnread(relation) : !members.isEmpty() && members.get(0) != 0) {
                read.put(relation, members);
            }
        }
        refresh(owner, held(owner, read));
        Optional<Attribute> version = owner.model().version();
        int from = queue.count();
        read.keySet().forEach(relation -> queue.get(owner.number(), relation.member()).about(owner));
        version.ifPresent(attribute -> queue.get(owner.number(), attribute.member()).about(owner));
        Reply[] replies = context.ask(from);
        version.ifPresent(attribute -> checkVersion(owner, attribute, replies[read.size()].ok()));
        Map<Relation, List<Long>> rows = new LinkedHashMap<>();
        for (Relation relation : read.keySet()) {
            rows.put(relation, numbers(replies[rows.size()].ok()));
        }
        if (read.keySet().stream().allMatch(relation -> isWithin(rows.get(relation), read.get(relation)))) {
            read.forEach((relation, members) -> addMore(owner, relation, members, rows.get(relation)));
        } else {
            refresh(owner, rows);
        }
    }

    /** What the program has there: also what left behind an earlier flush, and leads back as yet. */
    private Map<Relation, List<Long>> held(Entry owner, Map<Relation, List<Long>> read) {
        List<Relation> many = read.keySet().stream().filter(Relation::isMany).toList();
        int from = queue.count();
        many.forEach(relation -> queue.get(owner.number(), relation.member()).about(owner));
        Reply[] replies = context.ask(from);
        Map<Relation, List<Long>> held = new LinkedHashMap<>(read);
        for (int i = 0; i < replies.length; i++) {
            held.put(many.get(i), numbers(replies[i].ok()));
        }
        return held;
    }

    /** Refresh goes on along what was read, which needn't be managed: it finds nothing there. */
    private void refresh(Entry owner, Map<Relation, List<Long>> read) {
        read.forEach((relation, members) -> {
            if (!relation.cascades().contains(CascadeType.REFRESH)) {
                return;
            } else if (relation.isMany()) {
                members.forEach(member -> queue.takeOut(owner.number(), relation.member(), member).about(owner));
            } else {
                queue.link(owner.number(), relation.member(), 0).about(owner);
            }
        });
        queue.refresh(context.manager(), owner.number()).about(owner);
    }

    /** Who is older than the transaction has another commit's version there now, and would overwrite what that one set. */
    private void checkVersion(Entry owner, Attribute version, Object now) {
        if (!Values.isKept(version, now, owner.values[version.place()])) {
            context.setStale(owner);
        }
    }

    /** The members of a collection; none of a relation to one. */
    private static List<Long> numbers(Object told) {
        List<Long> numbers = new ArrayList<>();
        for (Object ref : told instanceof List<?> many ? many : List.of()) {
            numbers.add(((Ref) ref).number());
        }
        return numbers;
    }

    private static boolean isWithin(List<Long> rows, List<Long> members) {
        return rows.isEmpty() || new HashSet<>(members).containsAll(rows);
    }

    /** An inverse side may have what doesn't lead back to it. */
    private void addMore(Entry owner, Relation relation, List<Long> members, List<Long> rows) {
        if (relation.isMany()) {
            Set<Long> there = new HashSet<>(rows);
            members.stream().filter(member -> !there.contains(member))
                .forEach(member -> queue.add(owner.number(), relation.member(), member).about(owner));
        }
    }
}
