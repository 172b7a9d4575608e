package karzhoul.jpa.engine;

import java.util.ArrayDeque;
import java.util.Deque;
import java.util.HashMap;
import java.util.Map;

/**
 * Numbers of new objects of the program, made ahead in blocks that grow with the need, for all entity managers: so
 * that none waits for its own. Safe for all threads; whoever takes one must be busy ({@link Pool#enter}).
 */
public final class Numbers {
    private static final int MOST = 512;

    private final Map<String, Deque<Long>> ahead = new HashMap<>();
    private final Map<String, Integer> blocks = new HashMap<>();

    /** The number of a new object of this entity. */
    public synchronized long take(Engine engine, String entity) {
        Deque<Long> numbers = ahead.computeIfAbsent(entity, name -> new ArrayDeque<>());
        if (numbers.isEmpty()) {
            int block = blocks.merge(entity, 1, (before, one) -> Math.min(MOST, 2 * before));
            Lines lines = new Lines();
            for (int i = 0; i < block; i++) {
                lines.newObject(entity);
            }
            for (Reply reply : engine.ask(lines)) {
                if (reply.isRefused()) {
                    throw Refusals.of(reply);
                }
                numbers.add(reply.number());
            }
        }
        return numbers.poll();
    }

    synchronized void forget() {
        ahead.clear();
        blocks.clear();
    }
}
