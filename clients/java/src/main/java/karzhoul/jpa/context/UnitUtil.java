package karzhoul.jpa.context;

import jakarta.persistence.PersistenceUnitUtil;
import java.util.Optional;
import karzhoul.jpa.model.EntityModel;
import karzhoul.jpa.model.Relation;

/** What is read of an instance, and its key (chapter 7.11). Safe for all threads. */
final class UnitUtil implements PersistenceUnitUtil {
    private final Factory factory;

    UnitUtil(Factory factory) {
        this.factory = factory;
    }

    @Override
    public boolean isLoaded(Object entity, String attributeName) {
        return LoadStates.isLoaded(entity, relation(modelOf(entity), attributeName));
    }

    @Override
    public boolean isLoaded(Object entity) {
        return LoadStates.isLoaded(entity, modelOf(entity));
    }

    @Override
    public Object getIdentifier(Object entity) {
        EntityModel model = modelOf(entity);
        Object known = Proxies.known(entity);
        if (known instanceof Plain.Key key) {
            return model.key().fromColumns(key.parts());
        } else if (known instanceof Entry entry && entry.isHollow()) {
            return model.key().fromColumns(entry.key());
        }
        return model.key().of(entity);
    }

    private EntityModel modelOf(Object entity) {
        factory.needOpen();
        if (entity == null) {
            throw new IllegalArgumentException("null is no entity");
        }
        return factory.unit().of(entity.getClass());
    }

    private static Optional<Relation> relation(EntityModel model, String name) {
        return model.relations().stream().filter(relation -> relation.path().equals(name)).findFirst();
    }
}
