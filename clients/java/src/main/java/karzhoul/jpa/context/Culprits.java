package karzhoul.jpa.context;

import jakarta.persistence.EntityExistsException;
import jakarta.persistence.LockModeType;
import jakarta.persistence.OptimisticLockException;
import jakarta.persistence.PersistenceException;
import jakarta.persistence.RollbackException;
import java.util.ArrayList;
import java.util.Collections;
import java.util.IdentityHashMap;
import java.util.List;
import java.util.Map;
import java.util.Optional;
import java.util.Set;
import java.util.function.BiPredicate;
import karzhoul.jpa.engine.Ref;
import karzhoul.jpa.engine.Refusals;
import karzhoul.jpa.engine.Reply;
import karzhoul.jpa.engine.Shown;
import karzhoul.jpa.model.Attribute;
import karzhoul.jpa.model.EntityModel;
import karzhoul.jpa.model.KeyModel;
import karzhoul.jpa.model.Relation;
import karzhoul.jpa.model.UnkeptElements;

/**
 * For which entity a flush or a commit was refused: the program tells why, and not whom. What was to be written is
 * noted before the rollback, and compared with the rows after it. One for each refusal.
 */
final class Culprits {
    private static final int MOST = 2_000;
    private static final String MADE = ": another commit stored an object of this key meanwhile; find it, and change that one, or take"
        + " another key";

    private final Context probe;
    private final List<Entry> suspects = new ArrayList<>();
    private final Map<Entry, Entry.Row> written;
    /** Those that the transaction was to store as new. */
    private final Set<Entry> made = Collections.newSetFromMap(new IdentityHashMap<>());
    private final List<Entry> entries;
    private final List<Entry> removed;
    /** What left relations that remove orphans, and which the refused flush was to remove. */
    private final List<Entry> orphans;
    private final Optional<String> unstored;
    private final Optional<String> wrongKey;
    private final WrongMembers members;
    private final List<UniqueValues.Taken> taken;

    Culprits(Context context) {
        probe = new Context(context.factory(), 0);
        written = new IdentityHashMap<>(context.written());
        entries = context.identities().numbered();
        removed = entries.stream().filter(entry -> entry.state() == Entry.State.REMOVED).toList();
        orphans = context.orphans().leaving();
        unstored = BrokenLinks.toUnstored(entries);
        wrongKey = entries.stream().filter(entry -> entry.state() == Entry.State.NEW && entry.key() == null)
            .map(entry -> wrongKey(context, entry)).flatMap(Optional::stream).findFirst();
        members = new WrongMembers(entries);
        taken = context.uniques().taken();
        for (Entry entry : entries) {
            boolean isWritten = entry.isTouched() || written.containsKey(entry) || !entry.isStored() || entry.state() == Entry.State.REMOVED
                || entry.lock() != LockModeType.NONE;
            if (isWritten && entry.state() != Entry.State.DETACHED && suspects.size() < MOST) {
                suspects.add(entry);
                if (entry.isManaged() && isWithoutRow(entry)) {
                    made.add(entry);
                }
            }
        }
    }

    /** The refusal with its entity, where that is found. */
    RuntimeException named(RuntimeException refusal) {
        try {
            if (refusal instanceof RollbackException && refusal.getCause() instanceof RuntimeException cause) {
                RuntimeException named = cause(cause);
                return named == cause ? refusal : Refusals.rolledBack(named);
            }
            return cause(refusal);
        } catch (RuntimeException e) {
            refusal.addSuppressed(e);
            return refusal;
        }
    }

    private RuntimeException cause(RuntimeException refusal) {
        boolean isConflict = refusal instanceof OptimisticLockException || refusal instanceof EntityExistsException;
        Optional<String> lost = taken.isEmpty() || !isConflict ? Optional.empty()
            : probe.within(() -> UniqueValues.lost(probe, taken));
        if (lost.isPresent()) {
            return new PersistenceException(lost.get(), refusal);
        } else if (refusal instanceof OptimisticLockException stale && stale.getEntity() == null) {
            return first(this::isStale).<RuntimeException>map(entry -> new OptimisticLockException(
                made.contains(entry) ? "OptimisticLock, " + entry + MADE : about(refusal, entry.toString()), refusal,
                entry.instance())).orElse(refusal);
        } else if (refusal instanceof EntityExistsException) {
            return first((entry, shown) -> !entry.isStored() && shown != null)
                .<RuntimeException>map(entry -> new EntityExistsException(about(refusal, Entry.told(entry.model(), keyOf(entry))), refusal))
                .orElse(refusal);
        } else if (isOf(refusal, "IllegalState(reference)")) {
            return unstored.<RuntimeException>map(what -> new IllegalStateException(about(refusal, what), refusal))
                .orElse(refusal);
        }
        if (refusal instanceof UnkeptElements unkept) {
            return members.owned(unkept);
        } else if (refusal instanceof IllegalArgumentException) {
            return members.ofAnotherClass().<RuntimeException>map(it -> new IllegalArgumentException(it, refusal)).orElse(refusal);
        }
        if (wrongKey.isPresent() && isOf(refusal, "Persistence(key):")) {
            return new PersistenceException("Persistence(key), " + wrongKey.get(), refusal);
        }
        return what(refusal).<RuntimeException>map(it -> new PersistenceException(about(refusal, it), refusal)).orElse(refusal);
    }

    private Optional<String> what(RuntimeException refusal) {
        BrokenLinks links = new BrokenLinks(probe, entries, removed);
        return isOf(refusal, "Persistence(null)") ? suspects.stream().map(Culprits::missing).flatMap(Optional::stream).findFirst()
            : isOf(refusal, "Persistence(reference)") ? links.toNoRow(suspects, this::isWithoutRow)
                .or(() -> new BrokenLinks(probe, entries, orphans).toNoRow(List.of(), this::isWithoutRow))
            : isOf(refusal, "Persistence(unique):") ? links.toShared(suspects) : Optional.empty();
    }

    private static boolean isOf(RuntimeException refusal, String words) {
        return String.valueOf(refusal.getMessage()).startsWith(words);
    }

    private boolean isWithoutRow(Entry entry) {
        Entry.Row before = written.get(entry);
        return !entry.isStored() || before != null && before.values().length == 0;
    }

    private static String about(RuntimeException refusal, String what) {
        String words = refusal.getMessage();
        int end = words.indexOf(':');
        return words.substring(0, end) + ", " + what + words.substring(end);
    }

    private boolean isStale(Entry entry, Shown shown) {
        if (made.contains(entry)) {
            return shown != null;
        }
        Entry.Row known = written.getOrDefault(entry, entry.row());
        if (shown == null || known.values().length == 0) {
            return shown == null && known.values().length > 0 && entry.isStored();
        }
        if (entry.model().version().isPresent()) {
            Attribute version = entry.model().version().get();
            return !Values.isKept(version, shown.values()[version.place()], known.values()[version.place()]);
        }
        return entry.model().attributes().stream().anyMatch(attribute ->
                !Values.isKept(attribute, shown.values()[attribute.place()], known.values()[attribute.place()]))
            || entry.model().relations().stream().anyMatch(relation -> relation.isOwner() && !relation.isMany()
                && !Carry.isSameLink(known.relations()[relation.place()], shown.relations()[relation.place()]));
    }

    /** What the flush can't persist for its key. */
    private static Optional<String> wrongKey(Context context, Entry entry) {
        EntityModel model = entry.model();
        List<Object> key;
        try {
            key = Targets.keyOf(model, entry.instance());
        } catch (Unkept unkept) {
            return Optional.empty();  // Which is told as the key is set.
        }
        if (model.key().generation() != KeyModel.Generation.COUNTER) {
            return key != null ? Optional.empty()
                : Optional.of("a new " + model.name() + ": part of its key is null; set it before the flush, or in a PrePersist callback");
        }
        return key == null || context.isNeverStored(entry.instance()) ? Optional.empty()
            : Optional.of(Entry.told(model, key) + ": a generated key is set, and the instance isn't managed; merge it, or make a new one");
    }

    private static Optional<String> missing(Entry entry) {
        if (entry.isHollow() || entry.state() == Entry.State.REMOVED) {
            return Optional.empty();
        }
        for (Attribute attribute : entry.model().attributes()) {
            if (attribute.isRequired() && attribute.role() == Attribute.Role.PLAIN
                    && attribute.get(entry.instance()) == null) {
                return Optional.of(entry + "." + attribute.path());
            }
        }
        for (Relation relation : entry.model().relations()) {
            if (relation.isRequired() && !relation.isMany() && relation.get(entry.instance()) == null) {
                return Optional.of(entry + "." + relation.path());
            }
        }
        return Optional.empty();
    }

    private Optional<Entry> first(BiPredicate<Entry, Shown> isCulprit) {
        List<Entry> keyed = suspects.stream().filter(entry -> keyOf(entry) != null).toList();
        if (keyed.isEmpty()) {
            return Optional.empty();
        }
        List<Shown> rows = probe.within(() -> rows(keyed));
        for (int i = 0; i < rows.size(); i++) {
            if (isCulprit.test(keyed.get(i), rows.get(i))) {
                return Optional.of(keyed.get(i));
            }
        }
        return Optional.empty();
    }

    /** Its key, also where it was given and the program hasn't taken it yet. */
    private static List<Object> keyOf(Entry entry) {
        boolean isGiven = entry.key() == null && entry.model().key().generation() == KeyModel.Generation.ASSIGNED;
        return isGiven ? Targets.keyOf(entry.model(), entry.instance()) : entry.key();
    }

    private List<Shown> rows(List<Entry> entries) {
        int from = probe.queue().count();
        for (Entry entry : entries) {
            probe.queue().find(probe.manager(), entry.model().root().mappedName(), keyOf(entry));
        }
        List<Object> refs = new ArrayList<>();
        for (Reply reply : probe.ask(from)) {
            refs.add(reply.ok());
        }
        long[] numbers = refs.stream().filter(ref -> ref != null).mapToLong(ref -> ((Ref) ref).number()).toArray();
        probe.queue().values(numbers, 0, numbers.length);
        List<Object> shown = probe.ask(0)[0].list();
        List<Shown> rows = new ArrayList<>();
        int place = 0;
        for (Object ref : refs) {
            rows.add(ref == null ? null : (Shown) shown.get(place++));
        }
        return rows;
    }
}
