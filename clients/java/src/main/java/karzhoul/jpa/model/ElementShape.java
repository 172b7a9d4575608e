package karzhoul.jpa.model;

import java.lang.invoke.MethodHandle;
import java.nio.ByteBuffer;
import java.util.ArrayDeque;
import java.util.ArrayList;
import java.util.Collection;
import java.util.Comparator;
import java.util.Deque;
import java.util.HashMap;
import java.util.LinkedHashMap;
import java.util.List;
import java.util.Map;

/** How the elements of a collection are made of rows, and rows of elements. */
final class ElementShape {
    /** An attribute of a row, and where its value stands in an element; null where it is the element. */
    record Part(PlainAttribute attribute, Place inElement) {}

    private final String path;
    private final Relation.Container container;
    private final PlainEntity rows;
    private final MethodHandle constructor;
    private final List<Part> parts;
    private final PlainAttribute place;

    /**
     * @param path the collection's, for the words of a refusal
     * @param constructor of an embeddable, or null
     * @param place the key of a map, the place in an ordered list, or null
     */
    ElementShape(String path, Relation.Container container, PlainEntity rows, MethodHandle constructor,
            List<Part> parts, PlainAttribute place) {
        this.path = path;
        this.container = container;
        this.rows = rows;
        this.constructor = constructor;
        this.parts = parts;
        this.place = place;
    }

    Relation.Container container() {
        return container;
    }

    List<Part> parts() {
        return parts;
    }

    PlainAttribute place() {
        return place;
    }

    boolean isEmbeddable() {
        return constructor != null;
    }

    /** The elements of rows: a list, or a map. */
    Object elements(List<ElementRow> read, boolean isSorted) {
        List<ElementRow> sorted = new ArrayList<>(read);
        if (!isSorted) {
            sorted.sort(Comparator.comparing(this::order, Comparator.nullsLast(Comparator.naturalOrder())));
        }
        if (container != Relation.Container.MAP) {
            List<Object> elements = new ArrayList<>(sorted.size());
            sorted.forEach(row -> elements.add(element(row)));
            return elements;
        }
        Map<Object, Object> elements = new LinkedHashMap<>();
        sorted.forEach(row -> elements.put(place.get(row), element(row)));
        return elements;
    }

    /** The place in an ordered list; else rows stand as they were made. */
    private Long order(ElementRow row) {
        Object by = container == Relation.Container.LIST && place != null ? place.get(row) : row.get(0);
        return by == null ? null : ((Number) by).longValue();
    }

    /** The element of a row. */
    Object element(ElementRow row) {
        if (constructor == null) {
            return parts.get(0).attribute().get(row);
        }
        Object element = Accessor.make(constructor);
        parts.forEach(part -> part.inElement().set(element, part.attribute().get(row)));
        return element;
    }

    /** The rows of elements: those from before that are as they were, and new ones. */
    List<ElementRow> rows(Object elements, Collection<ElementRow> before) {
        List<ElementRow> made = made(elements);
        Map<List<Object>, Deque<ElementRow>> known = new HashMap<>();
        before.forEach(row -> known.computeIfAbsent(content(row), none -> new ArrayDeque<>()).add(row));
        made.replaceAll(row -> {
            Deque<ElementRow> same = known.get(content(row));
            return same == null || same.isEmpty() ? judged(row) : same.poll();
        });
        return made;
    }

    /** A new row, of whose values each has room in its column. */
    private ElementRow judged(ElementRow row) {
        try {
            if (place != null) {
                judge(place, row);
            }
            parts.forEach(part -> judge(part.attribute(), row));
        } catch (IllegalArgumentException wrong) {
            throw unkept(wrong);
        }
        return row;
    }

    private static void judge(PlainAttribute attribute, ElementRow row) {
        Object value = attribute.get(row);
        attribute.width().check(value, attribute.codec().toColumn(value));
    }

    private List<ElementRow> made(Object elements) {
        List<ElementRow> made = new ArrayList<>();
        if (elements instanceof Map<?, ?> map) {
            map.forEach((key, value) -> made.add(row(key, value)));
        } else {
            for (Object element : (Collection<?>) elements) {
                made.add(row(made.size(), element));
            }
        }
        return made;
    }

    private ElementRow row(Object at, Object element) {
        if (at == null || element == null && constructor != null) {
            throw new UnkeptElements(path, at == null ? " has a key that is null"
                    : " has a member that is null, and these are embeddables", null);
        }
        ElementRow row = (ElementRow) rows.newInstance();
        try {
            if (place != null) {
                place.set(row, at);
            }
            for (Part part : parts) {
                part.attribute().set(row, part.inElement() == null ? element : part.inElement().get(element));
            }
        } catch (IllegalArgumentException | ClassCastException wrong) {
            throw unkept(wrong);
        }
        return row;
    }

    private List<Object> content(ElementRow row) {
        if (row.content() == null) {
            List<Object> content = new ArrayList<>(parts.size() + 1);
            try {
                if (place != null) {
                    content.add(comparable(place.codec().toColumn(place.get(row))));
                }
                for (Part part : parts) {
                    content.add(comparable(part.attribute().codec().toColumn(part.attribute().get(row))));
                }
            } catch (IllegalArgumentException wrong) {
                throw unkept(wrong);
            }
            row.content(content);
        }
        return row.content();
    }

    private UnkeptElements unkept(RuntimeException wrong) {
        return new UnkeptElements(path, " can't be stored: " + wrong.getMessage(), wrong);
    }

    private static Object comparable(Object column) {
        return column instanceof byte[] bytes ? ByteBuffer.wrap(bytes) : column;
    }
}
