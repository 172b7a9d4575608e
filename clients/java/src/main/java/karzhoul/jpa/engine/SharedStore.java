package karzhoul.jpa.engine;

import java.util.HashMap;
import java.util.Map;
import java.util.function.Supplier;

/**
 * A store of which the factories of this JVM share the program. It is started and ended by one thread at a time, and
 * who does so keeps no thread waiting that is about another store. Safe for all threads.
 */
final class SharedStore {
    private static final Map<String, SharedStore> OPEN = new HashMap<>();

    private final String name;
    private Program program;
    /** Who has the program or comes for it; read and written by who holds {@link #OPEN}. */
    private int users;

    private SharedStore(String name) {
        this.name = name;
    }

    /** The store of a name, for one user more, who is to {@link #leave} it. */
    static SharedStore entered(String name) {
        synchronized (OPEN) {
            SharedStore store = OPEN.computeIfAbsent(name, SharedStore::new);
            store.users++;
            return store;
        }
    }

    /** Its program, started where none is there. */
    synchronized Program program(Supplier<Program> starting) {
        if (program == null) {
            program = starting.get();
        }
        return program;
    }

    /** One user less; the program ends with the last one. */
    synchronized void leave() {
        if (isUsed(1) || program == null) {
            return;
        }
        try {
            program.end();
        } finally {
            program = null;
            isUsed(0);
        }
    }

    /** Whether it has users without these that leave; it is forgotten where none is left and no program runs. */
    private boolean isUsed(int leaving) {
        synchronized (OPEN) {
            users -= leaving;
            if (users == 0 && program == null) {
                OPEN.remove(name);
            }
            return users > 0;
        }
    }
}
