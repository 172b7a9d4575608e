package karzhoul.jpa.engine;

import jakarta.persistence.PersistenceException;
import jakarta.persistence.RollbackException;
import java.nio.file.Path;
import java.util.ArrayList;
import java.util.LinkedHashMap;
import java.util.List;
import java.util.Map;
import java.util.stream.Stream;
import karzhoul.jpa.model.EntityModel;
import karzhoul.jpa.model.JsonReader;
import karzhoul.jpa.model.UnitModel;

/** Connects to a server of a store, which is to have the mapping of the unit. */
final class ServerStart implements Start {
    private static final String WIDE = "wide";

    private final ServerAddress address;
    private final ServerWay way;
    private final Journal journal;
    private final UnitModel unit;
    private final boolean isAdopting;

    ServerStart(ServerAddress address, Journal journal, UnitModel unit, Map<String, Object> properties) {
        this.address = address;
        this.journal = journal;
        this.unit = unit;
        way = ServerWay.of(address, properties);
        isAdopting = String.valueOf(properties.get(Program.ADOPT)).equals("true");
    }

    @Override
    public Engine start(long millis) {
        Deadline until = Deadline.in(millis);
        try {
            return opened(until);
        } catch (RollbackException another) {
            return opened(until);       // which has described the new store meanwhile
        }
    }

    private Engine opened(Deadline until) {
        ServerConnection connection = new ServerConnection(way, until);
        Engine engine = new Engine(connection, journal);
        try {
            checkServed(connection.served());
            StoreDescription described = StoreDescription.ofServer(address.toString(), unit.description(), counted());
            if (isAdopting) {
                described.adopt();
            }
            engine.check(described);
            if (described.isToBeWritten()) {
                new StoreChange(engine, described).make(List.of(), unit.uniques());
            }
            connection.waitsNoMore();
            return engine;
        } catch (RuntimeException refused) {
            engine.close();
            throw refused;
        }
    }

    /** The entities of which a new store has no objects. */
    private List<String> counted() {
        return Stream.concat(unit.entities().stream(), unit.hidden().stream()).map(EntityModel::mappedName).toList();
    }

    private void checkServed(Map<String, Object> served) {
        Map<String, Object> ours = entities(JsonReader.read(unit.mapping()));
        Map<String, Object> theirs = entities(served.get("mapping"));
        if (!ours.equals(theirs)) {
            List<String> other = new ArrayList<>(ours.keySet());
            theirs.keySet().stream().filter(name -> !ours.containsKey(name)).forEach(other::add);
            other.removeIf(name -> ours.getOrDefault(name, "").equals(theirs.get(name)));
            throw new PersistenceException(address + " serves other classes; these differ: " + String.join(", ", other)
                + ". Serve the mapping that karzhoul.jpa.tool.Main prints by mapping --serve --unit");
        } else if (!WIDE.equals(served.get("language"))) {
            throw new PersistenceException(address + " serves the language " + served.get("language")
                + ", and queries of Java need the wide one: start it with --language wide");
        }
    }

    private static Map<String, Object> entities(Object mapping) {
        Map<String, Object> entities = new LinkedHashMap<>();
        if (mapping instanceof Map<?, ?> read && read.get("entities") instanceof List<?> list) {
            list.forEach(each -> entities.put(String.valueOf(((Map<?, ?>) each).get("name")), each));
        }
        return entities;
    }

    @Override
    public long backup(Engine engine, Path file) {
        throw new PersistenceException("the server at " + address + " has the store: karzhoul backup --from " + address
            + " copies it");
    }

    @Override
    public void end() {
        // The server has what there is.
    }
}
