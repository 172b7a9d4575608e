package karzhoul.jpa.graph;

import jakarta.persistence.AttributeNode;
import jakarta.persistence.Subgraph;
import jakarta.persistence.metamodel.Attribute;
import java.util.ArrayList;
import java.util.Collection;
import java.util.LinkedHashMap;
import java.util.List;
import java.util.Map;
import karzhoul.jpa.model.EntityModel;
import karzhoul.jpa.model.Relation;

/**
 * The attributes that a graph or a subgraph names (chapter 3.7). A graph that has a name doesn't change: its methods
 * that would are refused with IllegalStateException.
 *
 * @param <T> what it names attributes of
 */
public abstract class AttributeGraph<T> {
    private final Part part;
    private final Map<String, Node> nodes = new LinkedHashMap<>();
    private boolean isFixed;

    AttributeGraph(Part part) {
        this.part = part;
    }

    Part part() {
        return part;
    }

    Collection<Node> nodes() {
        return nodes.values();
    }

    /** The entity of which, or within which, it names attributes. */
    public EntityModel entity() {
        return part.entity();
    }

    /** What is read beside an entity: a relation, with the subgraphs of its members; no relation, of what is embedded. */
    public record Step(Relation relation, Collection<PartGraph<?>> subgraphs) {}

    /** What it names that isn't read with the entity itself. */
    public List<Step> steps() {
        List<Step> steps = new ArrayList<>();
        for (Node node : nodes.values()) {
            Relation relation = part.relation(node.getAttributeName());
            if (relation != null || part.isEmbedded(node.getAttributeName())) {
                steps.add(new Step(relation, node.parts().values()));
            }
        }
        return steps;
    }

    // ---- building

    void needChangeable() {
        if (isFixed) {
            throw new IllegalStateException("a named entity graph doesn't change; createEntityGraph of its name gives a"
                    + " copy that does");
        }
    }

    final boolean isFixed() {
        return isFixed;
    }

    /** It has a name from now on, and its subgraphs with it. */
    void fix() {
        if (!isFixed) {
            isFixed = true;
            nodes.values().forEach(node -> node.parts().values().forEach(AttributeGraph::fix));
        }
    }

    Node node(String name) {
        needChangeable();
        if (name == null || !part.names().contains(name)) {
            throw new IllegalArgumentException(part + " has no attribute " + name + "; it has " + part.names());
        }
        return nodes.computeIfAbsent(name, Node::new);
    }

    /** A subgraph of an attribute; without a class, of that which the attribute has. */
    <X> PartGraph<X> subgraph(String name, Class<?> type) {
        Node node = node(name);
        Part of = partOf(name, type);
        PartGraph<X> made = new PartGraph<>(of);
        node.parts().put(of.type(), made);
        return made;
    }

    /** What a subgraph of an attribute names attributes of. */
    Part partOf(String name, Class<?> type) {
        Relation relation = part.relation(name);
        if (relation != null) {
            EntityModel target = type == null ? relation.target() : part.unit().of(type);
            if (!target.isA(relation.target())) {
                throw new IllegalArgumentException(target.name() + " is no " + relation.target().name()
                        + ", to which " + part + "." + name + " leads");
            }
            return Part.of(part.unit(), target);
        }
        if (!part.isEmbedded(name)) {
            throw new IllegalArgumentException(part + "." + name + " is a value, which has no subgraph");
        }
        Part embedded = part.embedded(name);
        if (type != null && type != embedded.type()) {
            throw new IllegalArgumentException(part + "." + name + " is of " + embedded.type().getName() + ", and of no "
                    + type.getName());
        }
        return embedded;
    }

    private RuntimeException noMap(String name) {
        return new IllegalArgumentException(part + "." + name + " is no map of entities, whose keys could have a"
                + " subgraph");
    }

    // ---- the standard's methods, which graphs and subgraphs have in common

    /**
     * Names attributes.
     *
     * @throws IllegalArgumentException where there is none of a name
     */
    public void addAttributeNodes(String... names) {
        needChangeable();
        for (String name : names) {
            node(name);
        }
    }

    /** Names attributes by the metamodel. */
    @SafeVarargs
    public final void addAttributeNodes(Attribute<T, ?>... attributes) {
        needChangeable();
        for (Attribute<T, ?> attribute : attributes) {
            node(attribute.getName());
        }
    }

    /** A subgraph of an attribute. */
    public <X> Subgraph<X> addSubgraph(Attribute<T, X> attribute) {
        return subgraph(attribute.getName(), null);
    }

    /** A subgraph of an attribute, for members of a class below its own. */
    public <X> Subgraph<? extends X> addSubgraph(Attribute<T, X> attribute, Class<? extends X> type) {
        return this.<X>subgraph(attribute.getName(), type);
    }

    /**
     * A subgraph of an attribute.
     *
     * @throws IllegalArgumentException where there is none of this name, or where it is no entity and not embedded
     */
    public <X> Subgraph<X> addSubgraph(String name) {
        return subgraph(name, null);
    }

    /** A subgraph of an attribute, for members of a class below its own. */
    public <X> Subgraph<X> addSubgraph(String name, Class<X> type) {
        return subgraph(name, type);
    }

    /** Refused: there are no maps of entities. */
    public <X> Subgraph<X> addKeySubgraph(Attribute<T, X> attribute) {
        throw noMap(attribute.getName());
    }

    /** Refused: there are no maps of entities. */
    public <X> Subgraph<? extends X> addKeySubgraph(Attribute<T, X> attribute, Class<? extends X> type) {
        throw noMap(attribute.getName());
    }

    /** Refused: there are no maps of entities. */
    public <X> Subgraph<X> addKeySubgraph(String name) {
        throw noMap(name);
    }

    /** Refused: there are no maps of entities. */
    public <X> Subgraph<X> addKeySubgraph(String name, Class<X> type) {
        throw noMap(name);
    }

    /** The attributes that are named. */
    public List<AttributeNode<?>> getAttributeNodes() {
        return new ArrayList<>(nodes.values());
    }
}
