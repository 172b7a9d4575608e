package karzhoul.jpa.criteria;

import jakarta.persistence.criteria.Root;
import jakarta.persistence.metamodel.EntityType;

/** A root of a query, or what stands for one of a query around it (chapter 6.5.2). */
final class RootOf<X> extends FromOf<X, X> implements Root<X> {
    private final EntityType<X> entity;
    private final RootOf<?> treated;

    RootOf(EntityType<X> entity) {
        super(null, null, entity, entity.getJavaType());
        this.entity = entity;
        this.treated = null;
    }

    /** A root of the query around. */
    RootOf(RootOf<X> outer) {
        super(outer, outer.entity);
        this.entity = outer.entity;
        this.treated = null;
    }

    /** The class below of a root. */
    RootOf(RootOf<?> treated, EntityType<X> below) {
        super(treated, below, null);
        this.entity = below;
        this.treated = treated;
    }

    @Override
    PathOf<?> treated() {
        return treated;
    }

    @Override
    public EntityType<X> getModel() {
        return entity;
    }
}
