package karzhoul.jpa.model;

import java.util.HashMap;
import java.util.List;
import java.util.Map;

/** The entities of a unit as they were read. */
final class PlainUnit implements UnitModel {
    private final List<EntityModel> entities;
    private final List<EntityModel> hidden;
    private final List<Unique> uniques;
    private final List<Indexed> indexes;
    private final Map<Class<?>, EntityModel> byClass = new HashMap<>();
    private final Map<String, EntityModel> byName = new HashMap<>();
    private final Map<String, Named> namedQueries;
    private final List<PlainEntity> stored;
    private final String mapping;
    private final String description;

    /** @param stored all that the mapping has */
    PlainUnit(List<PlainEntity> entities, List<PlainEntity> hidden, List<Unique> uniques,
            List<Indexed> indexes, Map<String, Named> namedQueries, List<PlainEntity> stored) {
        this.hidden = List.copyOf(hidden);
        this.uniques = List.copyOf(uniques);
        this.indexes = List.copyOf(indexes);
        this.entities = List.copyOf(entities);
        this.namedQueries = Map.copyOf(namedQueries);
        this.stored = stored;
        this.mapping = MappingWriter.write(stored);
        this.description = DescriptionWriter.write(stored);
        for (PlainEntity entity : entities) {
            byClass.put(entity.javaClass(), entity);
            byName.put(entity.name(), entity);
        }
    }

    @Override
    public List<EntityModel> entities() {
        return entities;
    }

    @Override
    public List<EntityModel> hidden() {
        return hidden;
    }

    @Override
    public List<Unique> uniques() {
        return uniques;
    }

    @Override
    public List<Indexed> indexes() {
        return indexes;
    }

    @Override
    public EntityModel of(Class<?> javaClass) {
        EntityModel found = byClass.get(javaClass);
        if (found == null && javaClass != null && ProxyClass.class.isAssignableFrom(javaClass)) {
            found = byClass.get(javaClass.getSuperclass());
        }
        if (found == null) {
            throw new IllegalArgumentException(javaClass == null ? "null is no entity class"
                    : javaClass.getName() + " is no entity class of this persistence unit");
        }
        return found;
    }

    @Override
    public EntityModel named(String name) {
        return byName.get(name);
    }

    @Override
    public String mapping() {
        return mapping;
    }

    @Override
    public String tables() {
        return TablesWriter.write(entities.stream().map(PlainEntity.class::cast).toList(), stored, description);
    }

    @Override
    public String description() {
        return description;
    }

    @Override
    public Transition transition(Map<String, Object> properties) {
        return new Transition(stored, properties);
    }

    @Override
    public Map<String, Named> namedQueries() {
        return namedQueries;
    }
}
