package karzhoul.jpa.graph;

import java.util.LinkedHashSet;
import java.util.Set;
import karzhoul.jpa.model.EntityModel;
import karzhoul.jpa.model.NamedMembers;
import karzhoul.jpa.model.Relation;
import karzhoul.jpa.model.UnitModel;

/**
 * What a graph names attributes of: an entity, or what is embedded in one.
 *
 * @param type the Java class
 * @param prefix the path of what is embedded, with a dot behind it; empty of the entity itself
 */
record Part(UnitModel unit, EntityModel entity, Class<?> type, String prefix) {
    static Part of(UnitModel unit, EntityModel entity) {
        return new Part(unit, entity, entity.javaClass(), "");
    }

    /** The relation of this name, or null. */
    Relation relation(String name) {
        for (Relation relation : entity.relations()) {
            if (relation.path().equals(prefix + name)) {
                return relation;
            }
        }
        return null;
    }

    /** What is embedded under this name. */
    Part embedded(String name) {
        return new Part(unit, entity, NamedMembers.type(type, name).orElse(Object.class), prefix + name + ".");
    }

    boolean isEmbedded(String name) {
        return names().contains(name) && relation(name) == null
                && entity.attributes().stream().noneMatch(attribute -> attribute.path().equals(prefix + name));
    }

    /** The names of its attributes, relations among them. */
    Set<String> names() {
        Set<String> names = new LinkedHashSet<>();
        entity.attributes().forEach(attribute -> add(names, attribute.path()));
        entity.relations().forEach(relation -> add(names, relation.path()));
        return names;
    }

    private void add(Set<String> names, String path) {
        if (path.startsWith(prefix)) {
            String rest = path.substring(prefix.length());
            names.add(rest.contains(".") ? rest.substring(0, rest.indexOf('.')) : rest);
        }
    }

    @Override
    public String toString() {
        return entity.name() + (prefix.isEmpty() ? "" : "." + prefix.substring(0, prefix.length() - 1));
    }
}
