package karzhoul.jpa.query;

import java.util.ArrayList;
import java.util.LinkedHashSet;
import java.util.List;
import java.util.Set;
import karzhoul.jpa.model.Attribute;
import karzhoul.jpa.model.EntityModel;
import karzhoul.jpa.model.KeyCopy;
import karzhoul.jpa.model.NamedMembers;
import karzhoul.jpa.model.Relation;
import karzhoul.jpa.query.Tree.Embedded;
import karzhoul.jpa.query.Tree.Reference;
import karzhoul.jpa.query.Tree.Variable;

/** Walks the names of a path from its variable (chapter 4.4.4). */
final class Paths {
    private final String text;

    Paths(String text) {
        this.text = text;
    }

    /**
     * The path of a variable and the names behind it.
     *
     * @throws QueryFault where a name is no member, or a collection or a value stands before others
     */
    Reference of(int at, Variable variable, List<String> names) {
        return of(at, new Reference(at, variable, List.of(), null, false), names);
    }

    /** The path that goes on from one that leads to an entity. */
    Reference of(int at, Reference from, List<String> names) {
        Variable variable = from.variable();
        List<Relation> steps = new ArrayList<>(from.steps());
        EntityModel entity = from.entity();
        int place = 0;
        while (place < names.size()) {
            Relation relation = null;
            int end = place;
            while (relation == null && end < names.size()) {
                String path = String.join(".", names.subList(place, ++end));
                Attribute attribute = attribute(entity, path);
                if (attribute != null && end < names.size()) {
                    throw QueryFault.at(text, at, "\"" + path + "\" of " + entity.name()
                            + " is a value, and \"" + names.get(end) + "\" stands behind it");
                } else if (attribute != null) {
                    return new Reference(at, variable, List.copyOf(steps), attribute, false);
                }
                relation = relation(entity, path);
            }
            if (relation == null) {
                return unmatched(at, variable, steps, entity, names.subList(place, names.size()));
            }
            if (relation.isMany() && end < names.size()) {
                throw QueryFault.at(text, at, "\"" + relation.path() + "\" of " + entity.name()
                        + " is a collection: join it, and ask its variable for \"" + names.get(end) + "\"");
            }
            steps.add(relation);
            entity = relation.target();
            place = end;
        }
        return new Reference(at, variable, List.copyOf(steps), null, false);
    }

    /** The embedded object to which a path leads, or null. */
    Embedded embedded(int at, Reference from, List<String> names) {
        for (int split = 0; split < names.size(); split++) {
            Reference to = split == 0 ? from : toEntity(at, from, names.subList(0, split));
            List<String> rest = names.subList(split, names.size());
            if (to != null && isEmbedded(to.entity(), String.join(".", rest))) {
                return embedded(at, to, rest, String.join(".", rest));
            }
        }
        return null;
    }

    private Reference toEntity(int at, Reference from, List<String> names) {
        try {
            Reference path = of(at, from, names);
            return path.isEntity() ? path : null;
        } catch (QueryFault e) {
            return null;
        }
    }

    private static boolean isEmbedded(EntityModel entity, String path) {
        return entity.key().embedded().filter(path::equals).isEmpty()
                && entity.attributes().stream().anyMatch(attribute -> attribute.path().startsWith(path + "."))
                && entity.attributes().stream().noneMatch(attribute -> attribute.path().startsWith(path + ".")
                        && attribute.role() == Attribute.Role.KEY);
    }

    private Embedded embedded(int at, Reference to, List<String> names, String path) {
        EntityModel entity = to.entity();
        if (entity.relations().stream().anyMatch(relation -> relation.path().startsWith(path + "."))) {
            throw QueryFault.refusal(text, at, "\"" + path + "\" of " + entity.name() + " is an embedded object with"
                    + " relations, which isn't served as a whole; name what is asked of it");
        }
        List<Reference> parts = new ArrayList<>();
        for (Attribute attribute : entity.attributes()) {
            if (attribute.path().startsWith(path + ".")) {
                parts.add(new Reference(at, to.variable(), to.steps(), attribute, false));
            }
        }
        Class<?> java = entity.javaClass();
        for (String name : names) {
            java = NamedMembers.type(java, name).orElse(Object.class);
        }
        return new Embedded(at, java, List.copyOf(names), parts);
    }

    private Reference unmatched(int at, Variable variable, List<Relation> steps, EntityModel entity,
            List<String> names) {
        String path = String.join(".", names);
        if (entity.key().embedded().filter(path::equals).isPresent()) {
            return new Reference(at, variable, List.copyOf(steps), null, true);
        }
        for (Attribute attribute : entity.attributes()) {
            if (attribute.path().startsWith(path + ".")) {
                throw notWhole(text, at, path, entity, attribute);
            }
        }
        for (KeyCopy copy : entity.copies()) {
            if (copy.path().equals(path)) {
                String key = copy.relation().path() + "." + copy.relation().target().key().parts().get(0).path();
                throw QueryFault.refusal(text, at, "\"" + path + "\" of " + entity.name()
                        + " reads the column of a relation, which isn't served; ask for \"" + key + "\"");
            }
        }
        for (EntityModel below : below(entity, new ArrayList<>())) {
            if (attribute(below, path) != null || relation(below, path) != null) {
                throw QueryFault.at(text, at, entity.name() + " has no \"" + path + "\", its subclass " + below.name()
                        + " has; let a variable range over " + below.name());
            }
        }
        throw QueryFault.at(text, at, entity.name() + " has no \"" + path + "\"" + Nearest.hint(path, members(entity)));
    }

    static QueryFault notWhole(String text, int at, String path, EntityModel entity, Attribute attribute) {
        return QueryFault.refusal(text, at, "\"" + path + "\" of " + entity.name() + " is an embedded object, which is"
                + " served as a whole in SELECT and IS NULL; name its attributes, as \"" + attribute.path() + "\"");
    }

    private static List<EntityModel> below(EntityModel entity, List<EntityModel> found) {
        for (EntityModel sub : entity.subEntities()) {
            found.add(sub);
            below(sub, found);
        }
        return found;
    }

    private static Set<String> members(EntityModel entity) {
        Set<String> names = new LinkedHashSet<>();
        entity.attributes().forEach(attribute -> names.add(attribute.path()));
        entity.relations().forEach(relation -> names.add(relation.path()));
        return names;
    }

    static Attribute attribute(EntityModel entity, String path) {
        for (Attribute attribute : entity.attributes()) {
            if (attribute.path().equals(path)) {
                return attribute;
            }
        }
        return null;
    }

    static Relation relation(EntityModel entity, String path) {
        for (Relation relation : entity.relations()) {
            if (relation.path().equals(path)) {
                return relation;
            }
        }
        return null;
    }
}
