package karzhoul.jpa.engine;

/**
 * What an entity manager holds of the program: one of its managers, in one run. It is lost where the run has ended, or
 * where another entity manager needed the place of an idle one; then the next {@link Pool#enter} gives another one.
 */
public final class Session {
    private final Engine engine;
    private final long manager;
    private final int run;
    private final boolean needsClear;
    boolean isBusy;
    boolean isLost;
    long idleSince;

    Session(Engine engine, long manager, int run, boolean needsClear) {
        this.engine = engine;
        this.manager = manager;
        this.run = run;
        this.needsClear = needsClear;
    }

    public Engine engine() {
        return engine;
    }

    /** The number of the program's manager. */
    public long manager() {
        return manager;
    }

    /** Whether the manager still has objects of who held it before: then it is to be cleared first of all. */
    public boolean needsClear() {
        return needsClear;
    }

    /** The run in which its numbers are names. */
    public int run() {
        return run;
    }
}
