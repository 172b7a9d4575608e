package karzhoul.jpa.engine;

import jakarta.persistence.PersistenceException;
import java.io.IOException;
import java.nio.channels.FileChannel;
import java.nio.file.FileAlreadyExistsException;
import java.nio.file.Files;
import java.nio.file.Path;
import java.nio.file.StandardOpenOption;
import java.util.function.Consumer;

/** A copy of a store's file and its log. */
final class StoreCopy {
    private static final String LOG = "-wal";

    /** Of how many bytes a log is at most that was written into its file, at the end of a program. */
    private static final int WRITTEN = 1_000;

    private final Path store;
    private final Path copy;

    StoreCopy(Path store, Path copy) {
        this.store = store;
        this.copy = copy.toAbsolutePath();
    }

    /**
     * Makes it while no call is under way.
     *
     * @param opening opens the copy, which writes its log into its file
     * @return how many bytes it has
     * @throws PersistenceException where it can't be made or opened; then none is left
     */
    long make(Engine engine, Consumer<Path> opening) {
        Path log = beside(copy);
        try {
            for (Path each : new Path[] {copy, log}) {
                if (Files.exists(each)) {
                    throw new FileAlreadyExistsException(each.toString(), null, "there is a file of this name already");
                }
            }
        } catch (IOException e) {
            throw refused(e);
        }
        try {
            engine.still(() -> {
                Files.copy(store, copy);
                if (Files.exists(beside(store))) {
                    Files.copy(beside(store), log);
                }
            });
            opening.accept(copy);
            if (Files.exists(log) && Files.size(log) > WRITTEN) {
                throw new IOException("the log of the copy isn't written into its file");
            }
            Files.deleteIfExists(log);
            try (FileChannel file = FileChannel.open(copy, StandardOpenOption.WRITE)) {
                file.force(true);
            }
            return Files.size(copy);
        } catch (IOException | RuntimeException e) {
            delete(copy, e);
            delete(log, e);
            throw refused(e);
        }
    }

    private static Path beside(Path file) {
        return file.resolveSibling(file.getFileName() + LOG);
    }

    private PersistenceException refused(Exception e) {
        return new PersistenceException("the store " + store + " isn't copied to " + copy + ": " + e.getMessage(), e);
    }

    private static void delete(Path file, Exception cause) {
        try {
            Files.deleteIfExists(file);
        } catch (IOException e) {
            cause.addSuppressed(e);
        }
    }
}
