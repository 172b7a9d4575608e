package karzhoul.jpa.graph;

import jakarta.persistence.EntityGraph;
import java.util.ArrayList;
import java.util.List;
import java.util.Map;
import java.util.TreeSet;
import java.util.concurrent.ConcurrentHashMap;
import karzhoul.jpa.model.EntityModel;
import karzhoul.jpa.model.UnitModel;

/** The entity graphs of a factory (chapter 3.7): those of annotations, and those that were named since. */
public final class Graphs {
    /** The property and the hint of a fetch graph. */
    public static final String FETCH = "jakarta.persistence.fetchgraph";
    /** The property and the hint of a load graph. */
    public static final String LOAD = "jakarta.persistence.loadgraph";

    private final UnitModel unit;
    private final Map<String, RootGraph<?>> named = new ConcurrentHashMap<>();
    private final List<String> faults;

    /** The graphs of a unit. */
    public Graphs(UnitModel unit) {
        this.unit = unit;
        NamedGraphs read = new NamedGraphs(unit);
        named.putAll(read.graphs());
        faults = read.faults();
    }

    /** What is wrong with the annotations: what a factory is refused for as it is made. */
    public List<String> faults() {
        return faults;
    }

    /**
     * A new graph of an entity, without attributes.
     *
     * @throws IllegalArgumentException where the class is no entity
     */
    public <T> EntityGraph<T> create(Class<T> root) {
        return new RootGraph<>(Part.of(unit, unit.of(root)), null);
    }

    /** A copy of a named graph that may be changed, or null where there is none. */
    public EntityGraph<?> copy(String name) {
        RootGraph<?> graph = name == null ? null : named.get(name);
        return graph == null ? null : graph.copy(name);
    }

    /**
     * A named graph, which doesn't change.
     *
     * @throws IllegalArgumentException where there is none
     */
    public EntityGraph<?> get(String name) {
        RootGraph<?> graph = name == null ? null : named.get(name);
        if (graph == null) {
            throw new IllegalArgumentException("there is no entity graph named \"" + name + "\"; there are "
                    + new TreeSet<>(named.keySet()));
        }
        return graph;
    }

    /**
     * The named graphs whose entity is this one, or above it.
     *
     * @throws IllegalArgumentException where the class is no entity
     */
    @SuppressWarnings("unchecked")
    public <T> List<EntityGraph<? super T>> of(Class<T> entityClass) {
        EntityModel entity = unit.of(entityClass);
        List<EntityGraph<? super T>> found = new ArrayList<>();
        for (RootGraph<?> graph : named.values()) {
            if (entity.isA(graph.entity())) {
                found.add((EntityGraph<? super T>) graph);
            }
        }
        return found;
    }

    /**
     * Names a copy of a graph, in the place of one of that name.
     *
     * @throws IllegalArgumentException where it is none of this provider's
     */
    public void add(String name, EntityGraph<?> graph) {
        RootGraph<?> copy = own(graph).copy(name);
        copy.fix();
        named.put(name, copy);
    }

    /**
     * What the value of a fetch graph or load graph is: a graph, or the name of one.
     *
     * @throws IllegalArgumentException where it is neither
     */
    public RootGraph<?> given(Object value) {
        return value instanceof String name ? own(get(name)) : own(value);
    }

    private static RootGraph<?> own(Object graph) {
        if (graph instanceof RootGraph<?> own) {
            return own;
        }
        throw new IllegalArgumentException("an entity graph of this provider is expected, and this is "
                + (graph == null ? "null" : graph.getClass().getName()));
    }
}
