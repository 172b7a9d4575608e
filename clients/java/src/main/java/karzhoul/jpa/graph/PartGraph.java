package karzhoul.jpa.graph;

import jakarta.persistence.Subgraph;

/**
 * A subgraph (chapter 3.7.3): what is named of the members of a relation, of what is embedded, or of a class below a
 * graph's.
 *
 * @param <T> what it names attributes of
 */
public final class PartGraph<T> extends AttributeGraph<T> implements Subgraph<T> {
    PartGraph(Part part) {
        super(part);
    }

    @Override
    @SuppressWarnings("unchecked")
    public Class<T> getClassType() {
        return (Class<T>) part().type();
    }
}
