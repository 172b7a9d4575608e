package karzhoul.jpa.engine;

import jakarta.persistence.PersistenceException;
import java.nio.file.Path;
import java.util.Collection;
import java.util.List;
import java.util.Map;
import java.util.Set;
import java.util.concurrent.CopyOnWriteArraySet;
import java.util.function.Consumer;
import karzhoul.jpa.model.Indexed;
import karzhoul.jpa.model.UnitModel;

/**
 * The program of a store: the factories of one JVM that name the same store share it, as others share a database.
 * Safe for all threads.
 */
public final class Program {
    /** The property by which a store that says nothing of itself is taken for one of the unit's classes. */
    public static final String ADOPT = "karzhoul.adopt";

    /** The property that says where calls go. */
    public static final String LOG = "karzhoul.log";

    /** The property of so many milliseconds, from which on a trip is told as slow. */
    public static final String SLOW = "karzhoul.slow";

    private static final String SCHEME = "karzhoul:";

    private final SharedStore shared;
    private final String mapping;
    private final String description;
    private final Start start;
    private final Set<Indexed> indexes;
    private final Pool pool;

    private Program(SharedStore shared, UnitModel unit, Start start) {
        this.shared = shared;
        this.start = start;
        mapping = unit.mapping();
        description = unit.description();
        indexes = new CopyOnWriteArraySet<>(unit.indexes());
        pool = new Pool(millis -> indexed(start.start(millis)));
    }

    private Engine indexed(Engine engine) {
        try {
            index(engine, indexes);
            return engine;
        } catch (RuntimeException refused) {
            engine.close();
            throw refused;
        }
    }

    /** Tells a program what will be looked up, until it ends. Where it has no memory for an index, answers are the same. */
    private static void index(Engine engine, Collection<Indexed> wanted) {
        Lines lines = new Lines();
        wanted.forEach(it -> lines.index(it.entity(), it.member()).about("the index of " + it));
        for (Reply reply : engine.ask(lines)) {
            if (reply.isRefused() && !reply.error().equals("OutOfMemory")) {
                throw Refusals.of(reply);
            }
        }
    }

    /** Takes what another unit says of the same store. */
    private void alsoIndex(List<Indexed> more) {
        if (indexes.addAll(more)) {
            try {
                index(pool.engine(), more);
            } catch (ProgramEnded ended) {
                System.getLogger("karzhoul").log(System.Logger.Level.DEBUG, "its next start has these indexes", ended);
            }
        }
    }

    /**
     * The program of a store, started where it isn't running yet.
     *
     * @param url {@code karzhoul:FILE}, {@code karzhoul:memory}, or the address of a server
     * @param program the executable; not looked at over a server
     * @param unit the mapping, and what the rows of the store mean
     * @param properties those that say how a store gets here from other classes
     * @param log takes each call with its answer, or null
     * @throws PersistenceException where the url is none, the program can't be started, or the server reached; where the
     *     mapping or the store is refused, or another unit of this JVM has the store open with another mapping
     */
    public static Program open(String url, String program, UnitModel unit, Map<String, Object> properties,
            Consumer<String> log) {
        String store = storeOf(url);
        SharedStore shared = SharedStore.entered(store);
        try {
            Program its = shared.program(() -> start(shared, store, program, unit, properties, log));
            if (!its.mapping.equals(unit.mapping()) || !its.description.equals(unit.description())) {
                throw new PersistenceException(url + " is open in this JVM with another mapping: units that share a"
                    + " store must have the same entities" + new Differences(its.description, unit.description()).words());
            }
            its.alsoIndex(unit.indexes());
            return its;
        } catch (RuntimeException | Error e) {
            shared.leave();
            throw e;
        }
    }

    private static Program start(SharedStore shared, String store, String executable, UnitModel unit,
            Map<String, Object> properties, Consumer<String> log) {
        Journal journal = new Journal(log, isSilent(properties), slow(properties));
        Start start = ServerAddress.isOne(store) ? new ServerStart(ServerAddress.of(store), journal, unit, properties)
            : new FileStart(store, executable, journal, unit, properties);
        Program program = null;
        try {
            program = new Program(shared, unit, start);
            if (!program.pool.engine().isShared()) {
                program.pool.giveBack(program.pool.enter(null, 0), false);
            }
            return program;
        } catch (RuntimeException e) {
            if (program == null) {
                start.end();
            } else {
                program.end();
            }
            throw e;
        }
    }

    private static boolean isSilent(Map<String, Object> properties) {
        return String.valueOf(properties.get(LOG)).trim().equals("false");
    }

    private static long slow(Map<String, Object> properties) {
        return Long.parseLong(String.valueOf(properties.getOrDefault(SLOW, "0")).trim());
    }

    /**
     * What a url names, by one spelling.
     *
     * @throws PersistenceException where it names nothing
     */
    private static String storeOf(String url) {
        if (url == null || !url.startsWith(SCHEME) || url.length() == SCHEME.length()) {
            throw new PersistenceException("jakarta.persistence.jdbc.url is " + url
                + ": write karzhoul:FILE, karzhoul:memory, or the address of a server as karzhoul:unix:/run/app.sock");
        }
        String store = url.substring(SCHEME.length());
        if (ServerAddress.isOne(store)) {
            return ServerAddress.of(store).toString();
        }
        return store.equals(FileStart.MEMORY) ? store : Path.of(store).toAbsolutePath().normalize().toString();
    }

    /**
     * Whether a url names a server, which has a program.
     *
     * @throws PersistenceException where it begins as one, and is none
     */
    public static boolean isServed(String url) {
        String store = url.substring(SCHEME.length());
        return ServerAddress.isOne(store) && ServerAddress.of(store) != null;
    }

    public Pool pool() {
        return pool;
    }

    /**
     * Copies the store as it stands between two commits, and opens the copy.
     *
     * @return how many bytes it has
     * @throws PersistenceException where it can't be made or opened, or a server has the store
     */
    public long backup(Path file) {
        return start.backup(pool.engine(), file);
    }

    /** Lets the program go: it ends with its last factory, and a store in memory with it. */
    public void close() {
        shared.leave();
    }

    /** Ends it, and what was made for it. */
    void end() {
        pool.close();
        start.end();
    }
}
