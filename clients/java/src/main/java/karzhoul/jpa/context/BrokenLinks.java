package karzhoul.jpa.context;

import jakarta.persistence.CascadeType;
import java.util.ArrayList;
import java.util.Arrays;
import java.util.List;
import java.util.Optional;
import java.util.function.Predicate;
import karzhoul.jpa.engine.Ref;
import karzhoul.jpa.engine.Reply;
import karzhoul.jpa.engine.Shown;
import karzhoul.jpa.model.EntityModel;
import karzhoul.jpa.model.KeyModel;
import karzhoul.jpa.model.Relation;

/** Which relation a refused flush was about: one that leads to what isn't stored (chapters 3.2.2 and 3.2.4). */
final class BrokenLinks {
    private static final int MOST = 100;

    private record Link(String owner, Relation relation, Entry target, boolean isRemoved) {
        String told() {
            return owner + "." + relation.path() + ", which leads to " + (isRemoved ? "the removed " : "") + target;
        }

        /** With the key that the instance has: of a generated one there was a row. */
        String toldOfUnstored() {
            boolean hadRow = !isRemoved && target.model().key().generation() != KeyModel.Generation.ASSIGNED;
            List<Object> key = hadRow ? Targets.keyOf(target.model(), target.instance()) : null;
            return key == null ? told() : owner + "." + relation.path() + ", which leads to " + Entry.told(target.model(), key)
                + ", which has no row";
        }
    }

    private final Context probe;
    private final List<Entry> entries;
    private final List<Entry> removed;

    /**
     * @param entries all that the refused context had
     * @param removed those of them that were removed
     */
    BrokenLinks(Context probe, List<Entry> entries, List<Entry> removed) {
        this.probe = probe;
        this.entries = entries;
        this.removed = removed;
    }

    /** A relation that was read, leads to a new or removed one, and doesn't cascade PERSIST; asks nothing. */
    static Optional<String> toUnstored(List<Entry> entries) {
        for (Entry entry : entries) {
            for (Relation relation : entry.isManaged() && !entry.isHollow() ? entry.model().relations() : List.<Relation>of()) {
                if (relation.cascades().contains(CascadeType.PERSIST)) {
                    continue;
                }
                for (Entry target : targets(entry, relation)) {
                    boolean isRemoved = target.state() == Entry.State.REMOVED;
                    if (isRemoved || target.state() == Entry.State.NEW) {
                        return Optional.of(new Link(entry.toString(), relation, target, isRemoved).toldOfUnstored());
                    }
                }
            }
        }
        return Optional.empty();
    }

    /** A one-to-one relation of what was to be written, whose target is that of another one too. */
    Optional<String> toShared(List<Entry> written) {
        return probe.within(() -> written.stream().filter(entry -> !removed.contains(entry) && !entry.isHollow())
            .flatMap(entry -> entry.model().relations().stream()
                .filter(relation -> relation.isOwner() && relation.kind() == Relation.Kind.ONE_TO_ONE)
                .flatMap(relation -> targets(entry, relation).stream().flatMap(target -> sharer(entry, relation, target).stream()
                    .map(other -> entry + "." + relation.path() + ", which leads to " + target + " as that of " + other + " does"))))
            .findFirst());
    }

    private Optional<String> sharer(Entry entry, Relation relation, Entry target) {
        Optional<String> known = entries.stream().filter(it -> it != entry && it.model().isA(entry.model()) && !removed.contains(it)
            && !it.isHollow() && targets(it, relation).contains(target)).findFirst().map(Entry::toString);
        return known.isPresent() || target.key() == null ? known : rowOf(target).flatMap(row ->
            owners(entry.model(), relation, row).stream().filter(owner -> {
                List<Object> key = keyOf(owner);
                return !key.equals(entry.key()) && leads(entryOf(entry.model(), key), relation, target);
            }).findFirst().map(owner -> owner(owner, keyOf(owner))));
    }

    private Optional<Ref> rowOf(Entry entry) {
        int from = probe.queue().count();
        probe.queue().find(probe.manager(), entry.model().root().mappedName(), entry.key());
        return Optional.ofNullable((Ref) probe.ask(from)[0].ok());
    }

    /**
     * A stored relation: of what was to be written, to what has no row; else of a row, to one that was removed.
     *
     * @param isWithoutRow whether what was to be written had no row before
     */
    Optional<String> toNoRow(List<Entry> written, Predicate<Entry> isWithoutRow) {
        return probe.within(() -> ofWritten(written, isWithoutRow)
            .or(() -> removed.stream().flatMap(it -> leadingTo(it).stream()).findFirst()).map(Link::told));
    }

    private Optional<Link> ofWritten(List<Entry> written, Predicate<Entry> isWithoutRow) {
        List<Link> links = new ArrayList<>();
        int from = probe.queue().count();
        for (Entry entry : written) {
            boolean isWritten = !removed.contains(entry) && !entry.isHollow();
            for (Relation relation : isWritten ? entry.model().relations() : List.<Relation>of()) {
                for (Entry target : relation.isOwner() ? targets(entry, relation) : List.<Entry>of()) {
                    if (target.key() != null && !isWithoutRow.test(target)) {
                        links.add(new Link(entry.toString(), relation, target, removed.contains(target)));
                        probe.queue().find(probe.manager(), target.model().root().mappedName(), target.key());
                    }
                }
            }
        }
        if (links.isEmpty()) {
            return Optional.empty();
        }
        Reply[] replies = probe.ask(from);
        for (int i = 0; i < replies.length; i++) {
            if (replies[i].ok() == null || links.get(i).isRemoved()) {
                return Optional.of(links.get(i));
            }
        }
        return Optional.empty();
    }

    private Optional<Link> leadingTo(Entry target) {
        Optional<Ref> row = rowOf(target);
        if (row.isEmpty()) {
            return Optional.empty();
        }
        for (EntityModel model : probe.unit().entities()) {
            for (Relation relation : model.relations()) {
                if (relation.isOwner() && target.model().isA(relation.target())) {
                    for (Shown owner : owners(model, relation, row.get())) {
                        List<Object> key = keyOf(owner);
                        if (leads(entryOf(model, key), relation, target)) {
                            String told = owner(owner, key);
                            return Optional.of(new Link(told, relation, target, true));
                        }
                    }
                }
            }
        }
        return Optional.empty();
    }

    private String owner(Shown row, List<Object> key) {
        return Entry.told(probe.factory().mapped(row.entity()), key);
    }

    /** Rows whose relation leads to this one. */
    private List<Shown> owners(EntityModel model, Relation relation, Ref row) {
        String path = "r." + relation.member();
        String text = "SELECT r FROM " + model.mappedName() + " r WHERE "
            + (relation.isMany() ? ":x MEMBER OF " + path : path + " = :x");
        int from = probe.queue().count();
        probe.queue().statement("query", probe.manager(), text, List.of("x", row), null, MOST);
        long[] numbers = probe.ask(from)[0].list().stream().mapToLong(ref -> ((Ref) ref).number()).toArray();
        if (numbers.length == 0) {
            return List.of();
        }
        probe.queue().values(numbers, 0, numbers.length);
        return probe.ask(0)[0].list().stream().map(Shown.class::cast).toList();
    }

    private List<Object> keyOf(Shown row) {
        int parts = probe.factory().mapped(row.entity()).key().parts().size();
        return List.of(Arrays.copyOf(row.values(), parts));
    }

    /** What the refused context had of a row, or null. */
    private Entry entryOf(EntityModel model, List<Object> key) {
        return entries.stream().filter(it -> it.model().root() == model.root() && key.equals(it.key())).findFirst().orElse(null);
    }

    /** Whether a row would still lead there once all was written. */
    private boolean leads(Entry known, Relation relation, Entry target) {
        if (known == null || known.isHollow()) {
            return true;
        }
        Relation its = known.model().relations().stream().filter(it -> it.member().equals(relation.member())).findFirst().get();
        return !removed.contains(known) && (known.isUnread(its) || targets(known, its).contains(target));
    }

    @SuppressWarnings("unchecked")
    private static List<Entry> targets(Entry entry, Relation relation) {
        Object told = entry.relations[relation.place()];
        return told instanceof Entry one ? List.of(one) : told instanceof List<?> many ? (List<Entry>) many : List.of();
    }
}
