package karzhoul.jpa.context;

import java.util.ArrayList;
import java.util.Collection;
import java.util.HashMap;
import java.util.HashSet;
import java.util.List;
import java.util.Map;
import java.util.Set;
import karzhoul.jpa.engine.Engine;
import karzhoul.jpa.engine.Lines;
import karzhoul.jpa.engine.Ref;
import karzhoul.jpa.engine.Reply;
import karzhoul.jpa.model.KeyedRows;

/**
 * Rows that no application sees, which follow what a flush wrote: found, written and removed by their keys, within
 * {@link Context#within}. One for each context.
 */
final class HiddenRows {
    /** Of which row; columns are as they are kept. */
    record Key<K extends KeyedRows>(K of, List<Object> columns) {
        @Override
        public boolean equals(Object other) {
            return other instanceof Key<?> key && of == key.of
                && Identities.comparable(columns).equals(Identities.comparable(key.columns));
        }

        @Override
        public int hashCode() {
            return Identities.comparable(columns).hashCode();
        }
    }

    /** A row that is there: the program's object, and its text. */
    record Row(long number, String content) {}

    private final Context context;
    private final Lines queue;
    /** The rows that the program's manager has by this transaction. */
    private final Set<Long> managed = new HashSet<>();
    /** Those that it has removed: the program makes no other object of such a key. */
    private final Map<Key<?>, Long> removed = new HashMap<>();
    private boolean isWaiting;

    HiddenRows(Context context) {
        this.context = context;
        queue = context.queue();
    }

    /** The rows of these keys, as far as there are any. */
    <K extends KeyedRows> Map<Key<K>, Row> find(Collection<Key<K>> keys) {
        if (keys.isEmpty()) {
            return Map.of();
        }
        int from = queue.count();
        for (Key<K> key : keys) {
            queue.find(context.manager(), key.of().mappedName(), key.columns()).about(key.of());
        }
        List<Key<K>> found = new ArrayList<>();
        List<Long> numbers = new ArrayList<>();
        Reply[] replies = context.ask(from);
        int place = 0;
        for (Key<K> key : keys) {
            if (replies[place++].ok() instanceof Ref ref) {
                found.add(key);
                numbers.add(ref.number());
                queue.get(ref.number(), key.of().content());
            }
        }
        managed.addAll(numbers);
        Reply[] contents = numbers.isEmpty() ? new Reply[0] : context.ask(0);
        Map<Key<K>, Row> rows = new HashMap<>();
        for (int i = 0; i < contents.length; i++) {
            rows.put(found.get(i), new Row(numbers.get(i), (String) contents[i].ok()));
        }
        return rows;
    }

    /** Writes the text of a key, whose row was found, or is null where there is none. */
    void put(Key<?> key, Row row, String content) {
        Long again = removed.remove(key);
        long number = row != null ? row.number() : again != null ? again : make(key);
        queue.set(number, key.of().content(), content).about(key.of());
        if (row == null) {
            queue.persist(context.manager(), number);
        }
        managed.add(number);
        isWaiting = true;
    }

    private long make(Key<?> key) {
        long number = context.factory().pool().numbers().take(context.engine(), key.of().mappedName());
        List<String> members = key.of().keyMembers();
        for (int i = 0; i < members.size(); i++) {
            queue.set(number, members.get(i), key.columns().get(i)).about(key.of());
        }
        return number;
    }

    /** Removes the row of a key. */
    void remove(Key<?> key, Row row) {
        queue.remove(context.manager(), row.number());
        managed.remove(row.number());
        removed.put(key, row.number());
        isWaiting = true;
    }

    /** Flushes what was written; a commit does so by itself. */
    void flush() {
        if (isWaiting) {
            queue.flush(context.manager());
            context.ask(0);
            isWaiting = false;
        }
    }

    /** Lets all rows go, behind the commit, which stands without: who commits next with this manager is to read them anew. */
    void letGo(Lines behind) {
        managed.forEach(number -> behind.detach(context.manager(), number).about(Engine.BEHIND));
    }

    /** The transaction has ended, or its manager was cleared. */
    void forget() {
        if (!managed.isEmpty() || !removed.isEmpty()) {
            managed.clear();
            removed.clear();
        }
        isWaiting = false;
    }
}
