package karzhoul.jpa.engine;

import jakarta.persistence.PersistenceException;
import java.nio.file.Path;

/** How the program of a store is started, and started again behind one that ended. */
interface Start {
    /**
     * A program that has opened the store, as just begun.
     *
     * @param millis how long a server is waited for; a file isn't
     * @throws PersistenceException where it can't be reached, or it refuses the mapping or the store
     */
    Engine start(long millis);

    /**
     * Copies the store to a file, and opens the copy.
     *
     * @return how many bytes it has
     * @throws PersistenceException where it can't be made or opened, or a server has the store
     */
    long backup(Engine engine, Path file);

    /** What was made for it goes. */
    void end();
}
