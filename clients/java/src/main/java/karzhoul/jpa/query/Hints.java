package karzhoul.jpa.query;

import jakarta.persistence.CacheRetrieveMode;
import jakarta.persistence.CacheStoreMode;
import jakarta.persistence.PessimisticLockScope;
import jakarta.persistence.QueryTimeoutException;
import java.util.ArrayList;
import java.util.LinkedHashMap;
import java.util.List;
import java.util.Map;
import karzhoul.jpa.graph.Graphs;
import karzhoul.jpa.graph.RootGraph;

/**
 * The hints of a query (chapter 3.10.9). Those of the standard are judged as they are set; others are kept, and not
 * looked at.
 */
final class Hints {
    private static final String TIMEOUT = "jakarta.persistence.query.timeout";
    private static final String LOCK_TIMEOUT = "jakarta.persistence.lock.timeout";
    private static final Map<String, Class<? extends Enum<?>>> MODES = Map.of(
            "jakarta.persistence.cache.retrieveMode", CacheRetrieveMode.class,
            "jakarta.persistence.cache.storeMode", CacheStoreMode.class,
            "jakarta.persistence.lock.scope", PessimisticLockScope.class);

    private final Asking asking;
    private final Map<String, Object> all = new LinkedHashMap<>();
    private final Map<String, RootGraph<?>> graphs = new LinkedHashMap<>();
    private long millis = Long.MAX_VALUE;

    Hints(Asking asking) {
        this.asking = asking;
    }

    /**
     * Sets a hint.
     *
     * @throws IllegalArgumentException where it is one of the standard's, and the value is none for it
     */
    void set(String name, Object value) {
        if (name == null) {
            throw new IllegalArgumentException("the name of a hint is null");
        }
        try {
            judge(name, value);
        } catch (IllegalArgumentException e) {
            throw new IllegalArgumentException("the hint " + name + ": " + e.getMessage(), e);
        }
        all.put(name, value);
    }

    private void judge(String name, Object value) {
        if (name.equals(Graphs.FETCH) || name.equals(Graphs.LOAD)) {
            graphs.put(name, asking.graph(value));
        } else if (name.equals(TIMEOUT)) {
            millis = millis(value);
        } else if (name.equals(LOCK_TIMEOUT)) {
            millis(value);
        } else if (MODES.containsKey(name)) {
            mode(MODES.get(name), value);
        }
    }

    private static long millis(Object value) {
        boolean isNumber = value instanceof Number && !(value instanceof Double || value instanceof Float);
        if (!isNumber && !(value instanceof String text && text.strip().matches("-?[0-9]{1,18}"))) {
            throw new IllegalArgumentException("milliseconds are expected, and " + value + " are none");
        }
        long given = isNumber ? ((Number) value).longValue() : Long.parseLong(((String) value).strip());
        return given <= 0 ? Long.MAX_VALUE : given;
    }

    private static void mode(Class<? extends Enum<?>> type, Object value) {
        List<String> names = new ArrayList<>();
        for (Enum<?> constant : type.getEnumConstants()) {
            names.add(constant.name());
        }
        if (!type.isInstance(value) && !names.contains(value)) {
            throw new IllegalArgumentException("one of " + names + " is expected, and " + value + " is none");
        }
    }

    Map<String, Object> all() {
        return new LinkedHashMap<>(all);
    }

    /** Reads what the graphs name of what a query has found. */
    void read(List<Object> found) {
        if (!found.isEmpty()) {
            graphs.values().forEach(graph -> asking.read(found, graph));
        }
    }

    boolean hasGraphs() {
        return !graphs.isEmpty();
    }

    /** What ends an execution that begins now. */
    Deadline deadline() {
        return millis == Long.MAX_VALUE ? Deadline.NONE
                : new Deadline(System.nanoTime(), millis);
    }

    /** Until when an execution may go on; it is looked at before each question and between rows of the door. */
    record Deadline(long begin, long millis) {
        static final Deadline NONE = new Deadline(0, Long.MAX_VALUE);

        /**
         * Looks at the clock.
         *
         * @throws QueryTimeoutException where the time is over; the transaction isn't marked by it
         */
        void check() {
            if (millis != Long.MAX_VALUE && (System.nanoTime() - begin) / 1_000_000 >= millis) {
                throw new QueryTimeoutException("the query took longer than the " + millis
                        + " milliseconds of its hint jakarta.persistence.query.timeout");
            }
        }
    }
}
