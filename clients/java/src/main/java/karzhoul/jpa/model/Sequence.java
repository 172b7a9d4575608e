package karzhoul.jpa.model;

import java.util.List;

/**
 * A generator of keys that doesn't count a hierarchy from 1 (chapters 11.1.48 and 11.1.50): it begins elsewhere, or
 * hierarchies share it. The program counts its blocks, as the keys of an entity that has no rows.
 *
 * @param mappedName the name in the mapping of that entity
 * @param keyMember the name in the mapping of its key
 * @param first the first key
 * @param size how many keys a block has
 */
public record Sequence(String mappedName, String keyMember, long first, int size) {
    static final String KEY = "block";

    /** The entity of the mapping whose keys are the blocks. */
    static PlainEntity blocks(String name, String mappedName, String declared) {
        PlainEntity blocks = new PlainEntity(Sequence.class, name, mappedName, null, name, "block");
        blocks.isDeclaredAt(declared);
        blocks.isKnownBy(new PlainKey(List.of(new PlainAttribute(KEY, KEY, Attribute.Role.KEY,
                BasicCodecs.fixed(Long.class), true, null, KEY)), KeyModel.Generation.COUNTER, null, null, null, false), null);
        return blocks;
    }

    /** The first key of a block, which are counted from 1; {@link ArithmeticException} beyond 64 bits. */
    public long begin(long block) {
        return Math.addExact(first, Math.multiplyExact(block - 1, size));
    }
}
