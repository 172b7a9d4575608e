package karzhoul.jpa.context;

import jakarta.persistence.PersistenceException;
import java.util.ArrayList;
import java.util.HashSet;
import java.util.LinkedHashMap;
import java.util.LinkedHashSet;
import java.util.List;
import java.util.Map;
import java.util.Optional;
import java.util.Set;
import java.util.stream.Collectors;
import karzhoul.jpa.context.HiddenRows.Key;
import karzhoul.jpa.context.HiddenRows.Row;
import karzhoul.jpa.engine.Event;
import karzhoul.jpa.model.Attribute;
import karzhoul.jpa.model.Callbacks;
import karzhoul.jpa.model.EntityModel;
import karzhoul.jpa.model.Relation;
import karzhoul.jpa.model.Unique;

/**
 * Keeps unique values unique (chapter 11.1.54). A flush tells what it wrote; then the rows whose keys the values are
 * follow, so that it doesn't matter in which order objects took them and gave them up. One for each context.
 */
final class UniqueValues {
    /** Who has a value: its key, as a row keeps it, and as words tell it. */
    private record Holder(String key, String words) {}

    /** What a flush wrote of an object; before is null where it had no value, or there was no row. */
    private record Change(Unique unique, Entry entry, List<Object> before, boolean isGone) {}

    /**
     * A value that the transaction took.
     *
     * @param before the key of who had it before, or null
     */
    record Taken(Key<Unique> value, String taker, String words, String before) {}

    private final Context context;
    private final List<Change> changes = new ArrayList<>();
    private final Map<Key<Unique>, List<Holder>> takers = new LinkedHashMap<>();
    private final Map<Key<Unique>, Set<String>> givers = new LinkedHashMap<>();
    private final List<Taken> taken = new ArrayList<>();

    UniqueValues(Context context) {
        this.context = context;
    }

    /** Takes what a flush wrote, before the context takes it. */
    void note(Event event, Entry entry) {
        boolean isNew = event.kind() == Callbacks.Event.PostPersist;
        boolean isGone = event.kind() == Callbacks.Event.PostRemove;
        if (isNew || isGone || event.kind() == Callbacks.Event.PostUpdate) {
            for (Unique unique : entry.model().uniques()) {
                changes.add(new Change(unique, entry,
                    isNew ? null : columns(unique, entry.rowValues(), entry.rowRelations()), isGone));
            }
        }
    }

    /** The columns of a row's value; null where one of them is, since nulls are never equal. */
    private static List<Object> columns(Unique unique, Object[] values, Object[] relations) {
        List<Object> columns = new ArrayList<>();
        for (Unique.Part part : unique.parts()) {
            if (part.relation() == null) {
                Attribute attribute = part.attribute();
                columns.add(Values.columnOfKept(attribute, values[attribute.place()]));
            } else {
                Entry target = (Entry) relations[part.relation().place()];
                columns.addAll(target == null || target.key() == null ? List.of() : target.key());
            }
        }
        boolean isWhole = columns.size() == unique.keyMembers().size() && !columns.contains(null);
        return isWhole ? columns : null;
    }

    /** A statement changed the row of this key; columns are null where it had no value, or has none now. */
    void changed(Unique unique, List<Object> key, List<Object> before, List<Object> after) {
        moved(unique, new Holder(Unique.owner(key), unique.words(Unique.owner(key))), before, after);
    }

    private void moved(Unique unique, Holder holder, List<Object> before, List<Object> after) {
        Key<Unique> was = before == null ? null : new Key<>(unique, before);
        Key<Unique> is = after == null ? null : new Key<>(unique, after);
        if (was == null ? is == null : was.equals(is)) {
            return;
        }
        if (was != null) {
            givers.computeIfAbsent(was, none -> new HashSet<>()).add(holder.key());
        }
        if (is != null) {
            takers.computeIfAbsent(is, none -> new ArrayList<>()).add(holder);
        }
    }

    /**
     * Lets the rows follow what flushes and statements wrote; their own flush is still to come.
     *
     * @throws PersistenceException where two objects would have one value, with both, the members and the value
     */
    void settle() {
        for (Change change : changes) {
            Entry entry = change.entry();
            moved(change.unique(), new Holder(Unique.owner(entry.key()), entry.toString()), change.before(),
                change.isGone() ? null : columns(change.unique(), entry.values, entry.relations));
        }
        changes.clear();
        try {
            if (!takers.isEmpty() || !givers.isEmpty()) {
                follow();
            }
        } finally {
            takers.clear();
            givers.clear();
        }
    }

    private void follow() {
        for (Map.Entry<Key<Unique>, List<Holder>> each : takers.entrySet()) {
            if (each.getValue().size() > 1) {
                throw refused(each.getKey(), each.getValue().get(0), words(each.getKey().of(), each.getValue().get(1)));
            }
        }
        Set<Key<Unique>> values = new LinkedHashSet<>(takers.keySet());
        values.addAll(givers.keySet());
        Map<Key<Unique>, Row> rows = context.hiddenRows().find(values);
        for (Key<Unique> value : values) {
            Row row = rows.get(value);
            Set<String> from = givers.getOrDefault(value, Set.of());
            if (takers.containsKey(value)) {
                take(value, row, takers.get(value).get(0), from);
            } else if (row != null && from.contains(row.content())) {
                context.hiddenRows().remove(value, row);
            }
        }
    }

    private void take(Key<Unique> value, Row row, Holder taker, Set<String> from) {
        String before = row == null ? null : row.content();
        if (row != null && !from.contains(before) && !before.equals(taker.key())) {
            // what was written beside this door may have left the row behind
            Optional<String> other = owner(value, taker.key());
            if (other.isPresent()) {
                throw refused(value, taker, other.get());
            }
        }
        context.hiddenRows().put(value, row, taker.key());
        taken.add(new Taken(value, taker.key(), taker.words(), before));
    }

    /** Who has this value by its own row, in words, but for the object of a key. */
    private Optional<String> owner(Key<Unique> value, String but) {
        Unique unique = value.of();
        List<String> paths = unique.paths("u");
        List<Object> parameters = new ArrayList<>();
        StringBuilder text = new StringBuilder("SELECT ");
        text.append(unique.entity().key().parts().stream().map(part -> "u." + part.member()).collect(Collectors.joining(", ")));
        text.append(" FROM ").append(unique.entity().mappedName()).append(" u");
        for (int i = 0; i < paths.size(); i++) {
            text.append(i == 0 ? " WHERE " : " AND ").append(paths.get(i)).append(" = :v").append(i);
            parameters.add("v" + i);
            parameters.add(value.columns().get(i));
        }
        int from = context.queue().count();
        context.queue().statement("query", context.manager(), text.toString(), parameters, null, 2).about(unique);
        for (Object row : context.ask(from)[0].list()) {
            String owner = Unique.owner(row instanceof List<?> items ? items : List.of(row));
            if (!owner.equals(but)) {
                return Optional.of(words(unique, new Holder(owner, unique.words(owner))));
            }
        }
        return Optional.empty();
    }

    /** Why a commit that took these values was refused, where another one took one of them first. */
    static Optional<String> lost(Context probe, List<Taken> taken) {
        Map<Key<Unique>, Row> rows = probe.hiddenRows().find(taken.stream().map(Taken::value).distinct().toList());
        for (Taken each : taken) {
            Row row = rows.get(each.value());
            if (row != null && !row.content().equals(each.before()) && !row.content().equals(each.taker())) {
                Unique unique = each.value().of();
                return Optional.of(unique.refusal(each.words(), each.value().columns(), unique.words(row.content())));
            }
        }
        return Optional.empty();
    }

    private PersistenceException refused(Key<Unique> value, Holder taker, String other) {
        return new PersistenceException(value.of().refusal(words(value.of(), taker), value.columns(), other));
    }

    /** An object in words; of a row of a collection of values its owner, with the attribute. */
    private String words(Unique unique, Holder holder) {
        if (unique.entity().rowsOf().isEmpty()) {
            return holder.words();
        }
        for (EntityModel entity : context.unit().entities()) {
            for (Relation relation : entity.relations()) {
                List<Object> owners = relation.target() != unique.entity() ? List.of() : owners(entity, relation, holder);
                if (!owners.isEmpty()) {
                    List<?> key = owners.get(0) instanceof List<?> items ? items : owners;
                    return entity.name() + " " + Unique.owner(key) + "." + relation.path();
                }
            }
        }
        return holder.words();
    }

    private List<Object> owners(EntityModel entity, Relation relation, Holder row) {
        String key = entity.key().parts().stream().map(part -> "u." + part.member()).collect(Collectors.joining(", "));
        String text = "SELECT " + key + " FROM " + entity.mappedName() + " u JOIN u." + relation.member() + " r WHERE r."
            + relation.target().key().parts().get(0).member() + " = :row";
        int from = context.queue().count();
        context.queue().statement("query", context.manager(), text, List.of("row", Long.valueOf(row.key())), null, null);
        return context.ask(from)[0].list();
    }

    /** The transaction has ended, or its manager was cleared. */
    void forget() {
        if (!changes.isEmpty() || !taken.isEmpty()) {
            taken.clear();
            changes.clear();
        }
    }

    /** What the transaction took so far. */
    List<Taken> taken() {
        return List.copyOf(taken);
    }
}
