package karzhoul.jpa.model;

import java.util.ArrayList;
import java.util.Collection;
import java.util.List;
import java.util.Map;
import java.util.Optional;

/**
 * Where a collection of values stands in an instance: to the mapping it is a relation to rows, to the application a
 * collection of elements (chapters 2.6 and 2.7).
 */
final class ElementPlace extends ShownPlace implements Elements {
    private final ElementShape shape;
    private final Class<?> javaClass;
    private final RowMemory memory = new RowMemory();
    private boolean isSorted;

    ElementPlace(Place where, ElementShape shape, Class<?> javaClass) {
        super(where);
        this.shape = shape;
        this.javaClass = javaClass;
    }

    /** Rows are sorted by what an annotation says as they are read. */
    void isSorted() {
        isSorted = true;
    }

    @Override
    Object looked(Object instance, Object held, ElementView view) {
        if (view == null) {
            readReplaced(instance);
        }
        return rows(instance, held, view, view != null ? known(view) : memory.of(instance));
    }

    /** What was replaced before anybody looked at it may stand elsewhere now: it is read before its rows go. */
    private void readReplaced(Object instance) {
        ElementView.Shown last = memory.given(instance);
        if (last != null && last.view().canBeRead()) {
            last.look();
        }
    }

    private static List<ElementRow> known(ElementView view) {
        return view.rows().stream().map(ElementRow.class::cast).toList();
    }

    private List<ElementRow> rows(Object instance, Object held, ElementView view, Collection<ElementRow> before) {
        List<ElementRow> now = shape.rows(held, before);
        if (view != null) {
            view.rows(now, true);
        }
        memory.keep(instance, now);
        return now;
    }

    @Override
    ElementView.Shown collection(Object instance, List<?> rows) {
        ElementView view = new ElementView(instance, this, rows);
        ElementView.Shown given = switch (shape.container()) {
            case SET -> new ElementSet(view);
            case MAP -> new ElementMap(view);
            default -> new ElementList(view);
        };
        memory.give(instance, given);
        return given;
    }

    @Override
    public Object shown(Object instance, List<?> rows) {
        List<ElementRow> read = new ArrayList<>(rows.size());
        rows.forEach(row -> read.add((ElementRow) row));
        memory.keep(instance, read);
        return shape.elements(read, isSorted);
    }

    @Override
    public void adopt(Object instance, List<?> rows) {
        Object held = where.get(instance);
        if (held instanceof Collection<?> all) {
            all.size();                 // what is lazy is read
        } else if (held instanceof Map<?, ?> all) {
            all.size();
        } else {
            return;
        }
        rows(instance, held, ElementView.of(held, instance), rows.stream().map(ElementRow.class::cast).toList());
    }

    @Override
    public Object element(Object row) {
        return shape.element((ElementRow) row);
    }

    @Override
    public Relation.Container container() {
        return shape.container();
    }

    @Override
    public Class<?> javaClass() {
        return javaClass;
    }

    @Override
    public Optional<Attribute> basic() {
        return shape.isEmbeddable() ? Optional.empty() : Optional.of(shape.parts().get(0).attribute());
    }

    @Override
    public List<Attribute> attributes() {
        return shape.parts().stream().map(part -> (Attribute) part.attribute()).toList();
    }

    @Override
    public Optional<Attribute> key() {
        return shape.container() == Relation.Container.MAP ? Optional.of(shape.place()) : Optional.empty();
    }

    @Override
    public Optional<Attribute> index() {
        return shape.container() == Relation.Container.MAP ? Optional.empty() : Optional.ofNullable(shape.place());
    }
}
