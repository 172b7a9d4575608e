package karzhoul.jpa.model;

import jakarta.persistence.TableGenerator;
import java.util.ArrayList;
import java.util.LinkedHashMap;
import java.util.List;
import java.util.Map;

/** Writes where another provider keeps the numbers of the keys that it generates: rows of a table, or sequences. */
final class GeneratorsWriter {
    /** What EclipseLink has where no annotation names it; the standard leaves it open. */
    private static final String TABLE = "SEQUENCE";
    private static final String KEY = "SEQ_NAME";
    private static final String VALUE = "SEQ_COUNT";
    private static final int SIZE = 50;

    private GeneratorsWriter() {}

    static List<Object> write(List<PlainEntity> entities) {
        Map<String, Map<String, Object>> written = new LinkedHashMap<>();
        for (PlainEntity entity : entities) {
            if (entity.above() != null || entity.generator() == null) {
                continue;
            }
            Map<String, Object> one = written(entity, entity.generator());
            Map<String, Object> there = written.putIfAbsent(Json.write(one), one);
            Map<String, Object> known = there == null ? one : there;
            known.put("of", append((List<?>) known.get("of"), given(entity)));
        }
        return List.copyOf(written.values());
    }

    private static List<Object> append(List<?> list, Object more) {
        List<Object> longer = new ArrayList<>(list == null ? List.of() : list);
        longer.add(more);
        return longer;
    }

    /** Out of what the next key comes: the hierarchy's own counter, or blocks that count. */
    private static Map<String, Object> given(PlainEntity entity) {
        Map<String, Object> one = Json.object("entity", entity.mappedName());
        entity.key().sequence().ifPresent(it -> one.put("blocks",
                Json.object("entity", it.mappedName(), "first", it.first(), "size", it.size())));
        return one;
    }

    private static Map<String, Object> written(PlainEntity entity, KeyGenerator generator) {
        if (generator.table() != null) {
            return ofTable(generator.table());
        } else if (generator.sequence() != null) {
            String named = generator.sequence().sequenceName();
            return Json.object("is", "sequence", "name", named.isEmpty() ? generator.name() : named,
                    "size", generator.sequence().allocationSize());
        }
        return switch (generator.strategy().name()) {
            case "IDENTITY" -> Json.object("is", "identity", "entity", entity.mappedName());
            case "SEQUENCE" -> Json.object("is", "sequence",
                    "name", generator.name().isEmpty() ? "SEQ_GEN_SEQUENCE" : generator.name(), "size", SIZE);
            case "TABLE" -> row(TABLE, KEY, VALUE, generator.name().isEmpty() ? "SEQ_GEN_TABLE" : generator.name());
            default -> row(TABLE, KEY, VALUE, "SEQ_GEN");
        };
    }

    private static Map<String, Object> ofTable(TableGenerator said) {
        return row(named(said.table(), TABLE), named(said.pkColumnName(), KEY), named(said.valueColumnName(), VALUE),
                named(said.pkColumnValue(), said.name()));
    }

    private static String named(String said, String otherwise) {
        return said.isEmpty() ? otherwise : said;
    }

    private static Map<String, Object> row(String table, String key, String value, String row) {
        return Json.object("is", "row", "table", table, "key", key, "value", value, "row", row);
    }
}
