package karzhoul.jpa.model;

import jakarta.persistence.CascadeType;
import java.util.ArrayList;
import java.util.List;
import java.util.Locale;
import java.util.Map;
import java.util.Set;

/** Writes the mapping that the program is given. */
final class MappingWriter {
    private static final int ALL_CASCADES = CascadeType.values().length - 1;

    private final Map<PlainEntity, List<Map<String, Object>>> more;
    private final Set<PlainAttribute> nullable;

    private MappingWriter(Map<PlainEntity, List<Map<String, Object>>> more, Set<PlainAttribute> nullable) {
        this.more = more;
        this.nullable = nullable;
    }

    static String write(List<PlainEntity> entities) {
        return write(entities, Map.of(), Set.of());
    }

    /**
     * The mapping of a {@link Transition}.
     *
     * @param more attributes that entities have beside their own
     * @param nullable attributes that may be null here
     */
    static String write(List<PlainEntity> entities, Map<PlainEntity, List<Map<String, Object>>> more,
            Set<PlainAttribute> nullable) {
        MappingWriter writer = new MappingWriter(more, nullable);
        List<Object> all = new ArrayList<>();
        entities.forEach(entity -> all.add(writer.entity(entity)));
        all.add(StoredDescription.mapped());
        return Json.write(Json.object("revision", 1, "entities", all));
    }

    private Map<String, Object> entity(PlainEntity entity) {
        Map<String, Object> written = Json.object("name", entity.mappedName());
        if (entity.above() != null) {
            written.put("extends", entity.above().mappedName());
        } else {
            written.put("table", Names.number(entity.table()));
            writeKey(entity, written);
            entity.version().ifPresent(it -> written.put("version",
                    Json.object("name", it.member(), "column", ((PlainAttribute) it).column())));
        }
        if (!entity.discriminator().equals(entity.mappedName())) {
            written.put("discriminator", entity.discriminator());
        }
        List<Map<String, Object>> attributes = new ArrayList<>(more.getOrDefault(entity, List.of()));
        entity.ownAttributes().forEach(it -> attributes.add(attribute(it)));
        if (!attributes.isEmpty()) {
            written.put("attributes", attributes);
        }
        if (!entity.ownRelations().isEmpty()) {
            written.put("relations", entity.ownRelations().stream().map(MappingWriter::relation).toList());
        }
        return written;
    }

    private static void writeKey(PlainEntity entity, Map<String, Object> written) {
        String before = entity.keyName() == null ? "" : entity.keyName() + ".";
        if (entity.keyName() != null) {
            written.put("embedded", entity.keyName());
        }
        written.put("key", entity.key().parts().stream()
                .map(part -> Json.object("name", part.member().substring(before.length()), "type", type(part)))
                .toList());
        if (entity.key().generation() == KeyModel.Generation.COUNTER) {
            written.put("generated", true);
        }
    }

    private Map<String, Object> attribute(PlainAttribute attribute) {
        Map<String, Object> written = Json.object(
                "name", attribute.member(), "type", type(attribute), "column", attribute.column());
        if (attribute.isRequired() && !nullable.contains(attribute)) {
            written.put("required", true);
        }
        return written;
    }

    private static String type(Attribute attribute) {
        return attribute.codec().sort().name().toLowerCase(Locale.ROOT);
    }

    private static Map<String, Object> relation(PlainRelation relation) {
        Map<String, Object> written = Json.object("name", relation.member(), "kind", kind(relation),
                "target", relation.target().mappedName());
        if (relation.mappedBy().isPresent()) {
            written.put("mappedBy", relation.mappedBy().get().member());
        } else {
            written.put(relation.isMany() ? "joinTable" : "column", relation.number());
        }
        if (relation.isRequired()) {
            written.put("required", true);
        }
        if (relation.cascades().size() == ALL_CASCADES) {
            written.put("cascade", List.of("ALL"));
        } else if (!relation.cascades().isEmpty()) {
            written.put("cascade", relation.cascades().stream().map(Enum::name).sorted().toList());
        }
        if (relation.removesOrphans() && !relation.isJoined()) {
            written.put("orphanRemoval", true);
        }
        return written;
    }

    private static String kind(Relation relation) {
        return switch (relation.kind()) {
            case MANY_TO_ONE -> "manyToOne";
            case ONE_TO_ONE -> "oneToOne";
            case ONE_TO_MANY -> relation.isJoined() ? "manyToMany" : "oneToMany";
            case MANY_TO_MANY -> "manyToMany";
        };
    }
}
