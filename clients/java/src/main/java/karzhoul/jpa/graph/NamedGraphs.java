package karzhoul.jpa.graph;

import jakarta.persistence.NamedAttributeNode;
import jakarta.persistence.NamedEntityGraph;
import jakarta.persistence.NamedSubgraph;
import java.util.ArrayList;
import java.util.HashMap;
import java.util.List;
import java.util.Map;
import karzhoul.jpa.model.EntityModel;
import karzhoul.jpa.model.Repeated;
import karzhoul.jpa.model.UnitModel;

/** Reads {@code @NamedEntityGraph} (chapter 10.3). A subgraph may lead to itself. */
final class NamedGraphs {
    /** A subgraph as it was asked for: by its name, of a type. */
    private record Asked(String name, Part part) {}

    private final UnitModel unit;
    private final Map<String, RootGraph<?>> graphs = new HashMap<>();
    private final List<String> faults = new ArrayList<>();

    NamedGraphs(UnitModel unit) {
        this.unit = unit;
        for (EntityModel entity : unit.entities()) {
            for (NamedEntityGraph named : Repeated.of(entity.javaClass(), NamedEntityGraph.class)) {
                String name = named.name().isEmpty() ? entity.name() : named.name();
                try {
                    add(name, new One(named).read(entity, name));
                } catch (IllegalArgumentException e) {
                    faults.add("the entity graph " + name + " of " + entity.javaClass().getName() + ": "
                            + e.getMessage());
                }
            }
        }
    }

    private void add(String name, RootGraph<?> graph) {
        RootGraph<?> other = graphs.putIfAbsent(name, graph);
        if (other != null) {
            throw new IllegalArgumentException("it has the name of one of " + other.entity().javaClass().getName()
                    + "; name one of them otherwise");
        }
        graph.fix();
    }

    Map<String, RootGraph<?>> graphs() {
        return graphs;
    }

    List<String> faults() {
        return faults;
    }

    /** One annotation. */
    private final class One {
        private final NamedEntityGraph named;
        private final Map<Asked, PartGraph<?>> made = new HashMap<>();

        One(NamedEntityGraph named) {
            this.named = named;
        }

        RootGraph<?> read(EntityModel entity, String name) {
            RootGraph<?> graph = new RootGraph<>(Part.of(unit, entity), name);
            if (named.includeAllAttributes()) {
                graph.part().names().forEach(graph::node);
            }
            nodes(graph, named.attributeNodes());
            for (NamedSubgraph below : named.subclassSubgraphs()) {
                nodes(graph.below(below.type()), below.attributeNodes());
            }
            return graph;
        }

        private void nodes(AttributeGraph<?> graph, NamedAttributeNode[] nodes) {
            for (NamedAttributeNode named : nodes) {
                Node node = graph.node(named.value());
                if (!named.keySubgraph().isEmpty()) {
                    graph.addKeySubgraph(named.value());
                }
                if (!named.subgraph().isEmpty()) {
                    subgraphs(graph, node, named.subgraph());
                }
            }
        }

        private void subgraphs(AttributeGraph<?> graph, Node node, String name) {
            boolean isThere = false;
            for (NamedSubgraph each : named.subgraphs()) {
                if (each.name().equals(name)) {
                    isThere = true;
                    Part part = graph.partOf(node.getAttributeName(), each.type() == void.class ? null : each.type());
                    node.parts().put(part.type(), subgraph(each, part));
                }
            }
            if (!isThere) {
                throw new IllegalArgumentException("there is no subgraph \"" + name + "\"");
            }
        }

        private PartGraph<?> subgraph(NamedSubgraph named, Part part) {
            Asked asked = new Asked(named.name(), part);
            PartGraph<?> known = made.get(asked);
            if (known != null) {
                return known;
            }
            PartGraph<?> graph = new PartGraph<>(part);
            made.put(asked, graph);
            nodes(graph, named.attributeNodes());
            return graph;
        }
    }
}
