package karzhoul.jpa.graph;

import jakarta.persistence.AttributeNode;
import jakarta.persistence.Subgraph;
import java.util.LinkedHashMap;
import java.util.Map;

/** An attribute that a graph names (chapter 3.7.1). */
final class Node implements AttributeNode<Object> {
    private final String name;
    private final Map<Class<?>, PartGraph<?>> subgraphs = new LinkedHashMap<>();

    Node(String name) {
        this.name = name;
    }

    Map<Class<?>, PartGraph<?>> parts() {
        return subgraphs;
    }

    @Override
    public String getAttributeName() {
        return name;
    }

    @Override
    @SuppressWarnings("rawtypes")
    public Map<Class, Subgraph> getSubgraphs() {
        return new LinkedHashMap<>(subgraphs);
    }

    /** None: there are no maps of entities. */
    @Override
    @SuppressWarnings("rawtypes")
    public Map<Class, Subgraph> getKeySubgraphs() {
        return Map.of();
    }
}
