package karzhoul.jpa.engine;

import jakarta.persistence.PersistenceException;
import java.util.HashMap;
import java.util.Map;
import java.util.function.LongSupplier;
import karzhoul.jpa.model.Sequence;

/**
 * Keys of sequences, out of blocks that are taken when they are needed, for all entity managers of a store. A block
 * that was begun goes with the run: another one might get it again that nobody has committed. Safe for all threads.
 */
public final class Sequences {
    /** The keys of a block that nobody has yet. */
    private static final class Block {
        private long next;
        private long left;
    }

    private final Map<String, Block> blocks = new HashMap<>();

    /**
     * The next key.
     *
     * @param taken the number of a block that nobody else gets
     * @throws PersistenceException where no key of 64 bits is left
     */
    public synchronized long take(Sequence sequence, LongSupplier taken) {
        Block block = blocks.computeIfAbsent(sequence.mappedName(), none -> new Block());
        if (block.left == 0) {
            try {
                long begin = sequence.begin(taken.getAsLong());
                Math.addExact(begin, sequence.size() - 1);
                block.next = begin;
                block.left = sequence.size();
            } catch (ArithmeticException beyond) {
                throw new PersistenceException("Persistence(generator): no number is left for a key", beyond);
            }
        }
        block.left--;
        return block.next++;
    }

    synchronized void forget() {
        blocks.clear();
    }
}
