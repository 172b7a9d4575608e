package clinic.common;

import java.util.Map;

/**
 * Two people changed one thing: what this one wants, and what the other one has saved meanwhile. Both are
 * records of one type with a component {@code version}; who saves {@code yours} again with the version of
 * {@code theirs} has seen it.
 */
public final class Conflict extends Refusal {
    private static final long serialVersionUID = 1L;
    private final transient Record yours;
    private final transient Record theirs;

    public <R extends Record> Conflict(R yours, R theirs) {
        super(409, "somebody else has changed it meanwhile");
        this.yours = yours;
        this.theirs = theirs;
    }

    public Record yours() {
        return yours;
    }

    public Record theirs() {
        return theirs;
    }

    @Override
    public Map<String, Object> told() {
        return Map.of("error", getMessage(), "yours", yours, "theirs", theirs);
    }
}
