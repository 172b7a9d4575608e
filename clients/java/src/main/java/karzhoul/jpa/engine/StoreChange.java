package karzhoul.jpa.engine;

import jakarta.persistence.PersistenceException;
import java.nio.ByteBuffer;
import java.util.ArrayList;
import java.util.HashMap;
import java.util.List;
import java.util.Map;
import java.util.stream.Collectors;
import java.util.stream.Stream;
import karzhoul.jpa.model.Attribute;
import karzhoul.jpa.model.StoredDescription;
import karzhoul.jpa.model.Transition;
import karzhoul.jpa.model.Unique;

/**
 * Brings a store that was opened over to what its classes say, in one commit with its description: what is unique from
 * now on gets the rows of its values. A new store is described.
 */
final class StoreChange {
    private final Engine engine;
    private final StoreDescription description;
    private long manager;

    StoreChange(Engine engine, StoreDescription description) {
        this.engine = engine;
        this.description = description;
    }

    /**
     * Makes it; the program is as just begun afterwards.
     *
     * @param statements what is done first
     * @param uniques those of the classes
     * @throws PersistenceException where two objects have one value that is unique now, with both
     * @throws ProgramEnded where the program ended
     */
    void make(List<Transition.Statement> statements, List<Unique> uniques) {
        manager = (Long) ask(new Lines().createEntityManager())[0].ok();
        ask(new Lines().begin(manager));
        for (Transition.Statement each : statements) {
            List<Object> parameters = each.to() == null ? List.of() : List.of("to", each.to());
            ask(new Lines().statement("executeUpdate", manager, each.text(), parameters, null, null).about(each.text()));
        }
        uniques.stream().filter(description::isNew).forEach(this::fill);
        describe();
        ask(new Lines().commit(manager));
        engine.restart();
        description.isWritten();
    }

    private void describe() {
        delete(StoredDescription.ENTITY);
        List<byte[]> parts = description.parts();
        Reply[] made = made(StoredDescription.ENTITY, parts.size());
        Lines lines = new Lines();
        for (int i = 0; i < made.length; i++) {
            long number = made[i].number();
            lines.set(number, StoredDescription.PART, (long) i + 1).set(number, StoredDescription.TEXT, parts.get(i))
                .persist(manager, number);
        }
        ask(lines);
    }

    private void delete(String entity) {
        ask(new Lines().statement("executeUpdate", manager, "DELETE FROM " + entity + " d", List.of(), null, null));
    }

    private Reply[] made(String entity, int count) {
        Lines lines = new Lines();
        for (int i = 0; i < count; i++) {
            lines.newObject(entity);
        }
        return ask(lines);
    }

    private Reply[] ask(Lines lines) {
        Reply[] replies = engine.ask(lines);
        for (Reply reply : replies) {
            if (reply.isRefused()) {
                throw Refusals.of(reply);
            }
        }
        return replies;
    }

    private void fill(Unique unique) {
        delete(unique.mappedName());
        int parts = unique.entity().key().parts().size();
        Map<List<Object>, List<Object>> owners = new HashMap<>();
        List<List<Object>> all = new ArrayList<>();
        for (Object row : ask(new Lines().statement("query", manager, columns(unique), List.of(), null, null))[0].list()) {
            List<Object> items = new ArrayList<>((List<?>) row);
            List<Object> columns = items.subList(parts, items.size());
            if (columns.contains(null)) {
                continue;
            }
            List<Object> key = items.subList(0, parts);
            List<Object> other = owners.putIfAbsent(comparable(columns), key);
            if (other != null) {
                throw description.refused(unique.refusal(unique.words(Unique.owner(key)), columns,
                    unique.words(Unique.owner(other))));
            }
            all.add(items);
        }
        write(unique, parts, all);
    }

    /** A SELECT of the keys and the values of all objects. */
    private static String columns(Unique unique) {
        Stream<String> key = unique.entity().key().parts().stream().map(Attribute::member).map(part -> "u." + part);
        return Stream.concat(key, unique.paths("u").stream()).collect(Collectors.joining(", ", "SELECT ", " FROM "))
            + unique.entity().mappedName() + " u";
    }

    private static List<Object> comparable(List<Object> columns) {
        return columns.stream().map(it -> it instanceof byte[] bytes ? (Object) ByteBuffer.wrap(bytes) : it).toList();
    }

    private void write(Unique unique, int parts, List<List<Object>> all) {
        Reply[] numbers = made(unique.mappedName(), all.size());
        Lines lines = new Lines();
        for (int i = 0; i < numbers.length; i++) {
            long number = numbers[i].number();
            List<Object> items = all.get(i);
            for (int k = parts; k < items.size(); k++) {
                lines.set(number, unique.keyMembers().get(k - parts), items.get(k));
            }
            lines.set(number, Unique.OWNER, Unique.owner(items.subList(0, parts))).persist(manager, number);
        }
        ask(lines);
    }
}
