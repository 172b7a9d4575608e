package karzhoul.jpa.model;

import java.lang.invoke.MethodHandle;
import java.util.ArrayList;
import java.util.List;
import java.util.Optional;
import java.util.stream.Stream;

/** A key as it was read. */
final class PlainKey implements KeyModel {
    /**
     * An object that holds the parts of a key: an embedded id or an id class.
     *
     * @param places where each part stands in it
     */
    record Holder(Class<?> javaClass, MethodHandle constructor, List<? extends Place> places) {}

    private final List<PlainAttribute> parts;
    private final List<Attribute> asAttributes;
    private Generation generation;
    private Sequence sequence;
    private final Holder holder;
    private final Place embeddedAt;
    private final String embedded;
    private List<Derived> derived = List.of();
    private final boolean isZeroNone;

    /**
     * @param holder null where the key is one value
     * @param embedded the name of the embedded id in Java, or null
     * @param embeddedAt where the embedded id stands in an instance, or null
     * @param isZeroNone whether a key of zero says that there is none yet
     */
    PlainKey(List<PlainAttribute> parts, Generation generation, Holder holder, String embedded, Place embeddedAt,
            boolean isZeroNone) {
        this.parts = List.copyOf(parts);
        this.asAttributes = List.copyOf(parts);
        this.generation = generation;
        this.holder = holder;
        this.embedded = embedded;
        this.embeddedAt = embeddedAt;
        this.isZeroNone = isZeroNone;
    }

    /** Its keys are no longer counted for the hierarchy alone. */
    void isGivenBy(Sequence sequence) {
        this.generation = Generation.SEQUENCE;
        this.sequence = sequence;
    }

    void derives(Derived from) {
        derived = Stream.concat(derived.stream(), Stream.of(from)).toList();
    }

    /** Whether a part has this column, by its annotation or by its own name; the key of another entity has any. */
    boolean hasColumn(String name) {
        return !derived.isEmpty() || parts.stream().anyMatch(part -> part.columnName().equalsIgnoreCase(name));
    }

    Holder holder() {
        return holder;
    }

    @Override
    public List<Attribute> parts() {
        return asAttributes;
    }

    @Override
    public Generation generation() {
        return generation;
    }

    @Override
    public Optional<Sequence> sequence() {
        return Optional.ofNullable(sequence);
    }

    @Override
    public Class<?> javaClass() {
        return holder != null ? holder.javaClass() : parts.get(0).codec().javaType();
    }

    @Override
    public Object of(Object instance) {
        if (embeddedAt != null) {
            return embeddedAt.get(instance);
        }
        if (holder == null) {
            Object value = parts.get(0).get(instance);
            return isZeroNone && value instanceof Number number && number.longValue() == 0 ? null : value;
        }
        Object key = Accessor.make(holder.constructor());
        boolean isNone = true;
        for (int i = 0; i < parts.size(); i++) {
            Object value = parts.get(i).get(instance);
            holder.places().get(i).set(key, value);
            isNone &= value == null;
        }
        return isNone ? null : key;
    }

    @Override
    public void assign(Object instance, Object key) {
        if (embeddedAt != null) {
            embeddedAt.set(instance, key);
        } else if (holder == null) {
            parts.get(0).set(instance, key);
        } else {
            for (int i = 0; i < parts.size(); i++) {
                parts.get(i).set(instance, key == null ? null : holder.places().get(i).get(key));
            }
        }
    }

    @Override
    public List<Object> columnsOf(Object key) {
        if (!javaClass().isInstance(key)) {
            String given = key == null ? "null" : "a value of " + key.getClass().getName();
            throw new IllegalArgumentException("the key is " + given + ", where one of " + javaClass().getName()
                    + " belongs");
        }
        if (holder == null) {
            return List.of(column(0, key));
        }
        List<Object> columns = new ArrayList<>(parts.size());
        for (int i = 0; i < parts.size(); i++) {
            columns.add(column(i, holder.places().get(i).get(key)));
        }
        return columns;
    }

    private Object column(int place, Object value) {
        Object column = parts.get(place).codec().toColumn(value);
        if (column == null) {
            throw new IllegalArgumentException("the key's part " + parts.get(place).path() + " is null");
        }
        return column;
    }

    @Override
    public Object fromColumns(List<Object> columns) {
        if (holder == null) {
            return parts.get(0).codec().toAttribute(columns.get(0));
        }
        Object key = Accessor.make(holder.constructor());
        for (int i = 0; i < parts.size(); i++) {
            holder.places().get(i).set(key, parts.get(i).codec().toAttribute(columns.get(i)));
        }
        return key;
    }

    @Override
    public List<Derived> derived() {
        return derived;
    }

    @Override
    public Optional<String> embedded() {
        return Optional.ofNullable(embedded);
    }
}
