package karzhoul.jpa.query;

import java.util.ArrayDeque;
import java.util.ArrayList;
import java.util.Deque;
import java.util.Iterator;
import java.util.List;
import java.util.NoSuchElementException;
import java.util.function.UnaryOperator;
import karzhoul.jpa.model.EntityModel;
import karzhoul.jpa.query.Tree.Item;
import karzhoul.jpa.query.Tree.Reference;

/**
 * The rows of a stream: their keys are there from the beginning, and their entities are read a page at a time. A row
 * is left out whose entity was removed meanwhile.
 */
final class PagedRows implements Iterator<Object[]> {
    /** How many rows are read at a time. */
    static final int PAGE = 256;

    /** A row, and which one it is. */
    private record Row(int place, Object[] items) {}

    private final Asking asking;
    private final List<Item> items;
    private final UnaryOperator<List<Object[]>> finish;
    private List<Object[]> keys;
    private int read;
    private final Deque<Row> page = new ArrayDeque<>();

    /** The rows with these keys; each page passes what is done with rows once their entities are there. */
    PagedRows(Asking asking, List<Item> items, List<Object[]> keys, UnaryOperator<List<Object[]>> finish) {
        this.asking = asking;
        this.items = items;
        this.keys = keys;
        this.finish = finish;
    }

    @Override
    public boolean hasNext() {
        if (!page.isEmpty() && !isManaged(page.peek())) {
            read = page.peek().place();         // the manager was cleared: the rest of the page is read again
            page.clear();
        }
        while (page.isEmpty() && read < keys.size()) {
            readPage();
        }
        return !page.isEmpty();
    }

    @Override
    public Object[] next() {
        if (!hasNext()) {
            throw new NoSuchElementException();
        }
        return page.remove().items();
    }

    /** Lets the rest go. */
    void close() {
        keys = List.of();
        read = 0;
        page.clear();
    }

    private boolean isManaged(Row row) {
        for (int place = 0; place < items.size(); place++) {
            if (Pages.isKeyed(items.get(place)) && row.items()[place] != null && !asking.isManaged(row.items()[place])) {
                return false;
            }
        }
        return true;
    }

    private void readPage() {
        asking.needOpen();
        List<Row> rows = new ArrayList<>();
        for (int end = Math.min(keys.size(), read + PAGE); read < end; read++) {
            rows.add(new Row(read, keys.get(read).clone()));
        }
        for (int place = 0; place < items.size(); place++) {
            if (Pages.isKeyed(items.get(place))) {
                rows = withEntity(rows, place, ((Reference) items.get(place).value()).entity());
            }
        }
        finish.apply(rows.stream().map(Row::items).toList());
        page.addAll(rows);
    }

    private List<Row> withEntity(List<Row> rows, int place, EntityModel entity) {
        List<Object> found = asking.found(entity, rows.stream().map(row -> row.items()[place]).toList());
        List<Row> kept = new ArrayList<>(rows.size());
        for (int i = 0; i < rows.size(); i++) {
            Object[] row = rows.get(i).items();
            if (row[place] == null || found.get(i) != null) {
                row[place] = found.get(i);
                kept.add(rows.get(i));
            }
        }
        return kept;
    }
}
