package karzhoul.jpa.graph;

import jakarta.persistence.EntityGraph;
import jakarta.persistence.Subgraph;
import java.util.Collection;
import java.util.IdentityHashMap;
import java.util.LinkedHashMap;
import java.util.Map;
import karzhoul.jpa.model.EntityModel;

/**
 * An entity graph (chapter 3.7).
 *
 * @param <T> the entity
 */
public final class RootGraph<T> extends AttributeGraph<T> implements EntityGraph<T> {
    private final String name;
    private final Map<Class<?>, PartGraph<?>> subclasses = new LinkedHashMap<>();

    RootGraph(Part part, String name) {
        super(part);
        this.name = name;
    }

    /** What is named of instances of classes below the graph's. */
    public Collection<PartGraph<?>> subclasses() {
        return subclasses.values();
    }

    @Override
    public String getName() {
        return name;
    }

    @Override
    void fix() {
        super.fix();
        subclasses.values().forEach(AttributeGraph::fix);
    }

    @Override
    public <S> Subgraph<? extends S> addSubclassSubgraph(Class<? extends S> type) {
        return this.<S>below(type);
    }

    <S> PartGraph<S> below(Class<?> type) {
        needChangeable();
        EntityModel below = part().unit().of(type);
        if (below == entity() || !below.isA(entity())) {
            throw new IllegalArgumentException(below.name() + " isn't below " + entity().name());
        }
        PartGraph<S> made = new PartGraph<>(Part.of(part().unit(), below));
        subclasses.put(type, made);
        return made;
    }

    /** A copy of another name, which may be changed. */
    RootGraph<T> copy(String other) {
        Map<PartGraph<?>, PartGraph<?>> copies = new IdentityHashMap<>();
        RootGraph<T> copy = new RootGraph<>(part(), other);
        copyNodes(this, copy, copies);
        subclasses.forEach((type, graph) -> copy.subclasses.put(type, copy(graph, copies)));
        return copy;
    }

    private static void copyNodes(AttributeGraph<?> from, AttributeGraph<?> to,
            Map<PartGraph<?>, PartGraph<?>> copies) {
        for (Node node : from.nodes()) {
            Node copied = to.node(node.getAttributeName());
            node.parts().forEach((type, graph) -> copied.parts().put(type, copy(graph, copies)));
        }
    }

    private static PartGraph<?> copy(PartGraph<?> graph, Map<PartGraph<?>, PartGraph<?>> copies) {
        PartGraph<?> known = copies.get(graph);
        if (known != null) {
            return known;       // a named subgraph may lead to itself
        }
        PartGraph<?> made = new PartGraph<>(graph.part());
        copies.put(graph, made);
        copyNodes(graph, made, copies);
        return made;
    }
}
