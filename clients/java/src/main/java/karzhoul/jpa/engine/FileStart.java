package karzhoul.jpa.engine;

import jakarta.persistence.PersistenceException;
import java.io.IOException;
import java.nio.file.Files;
import java.nio.file.Path;
import java.util.ArrayList;
import java.util.List;
import java.util.Map;
import karzhoul.jpa.model.Transition;
import karzhoul.jpa.model.UnitModel;

/** Starts a program of this JVM's own over a store's file, or over one in memory. */
final class FileStart implements Start {
    static final String MEMORY = "memory";

    private static final List<String> SUFFIXES = List.of("", "-wal", "-shm", "-journal");

    private final List<String> command;
    private final Journal journal;
    private final UnitModel unit;
    private final Map<String, Object> properties;
    private final StoreDescription described;
    private final Path mappingFile;
    private final Path memory;

    FileStart(String store, String program, Journal journal, UnitModel unit, Map<String, Object> properties) {
        this.journal = journal;
        this.unit = unit;
        this.properties = properties;
        try {
            mappingFile = Files.createTempFile("karzhoul", ".json");
            Files.writeString(mappingFile, unit.mapping());
            memory = store.equals(MEMORY) ? memoryFile() : null;
        } catch (IOException e) {
            throw new PersistenceException("no file could be made for the mapping or the store: " + e.getMessage(), e);
        }
        String file = memory == null ? store : memory.toString();
        command = List.of(program, "--language", "wide", "--mapping", mappingFile.toString(), "--db", file);
        described = memory == null ? new StoreDescription(Path.of(store), unit.description()) : null;
    }

    private static Path memoryFile() throws IOException {
        Path shared = Path.of("/dev/shm");
        Path folder = Files.isWritable(shared)
            ? Files.createTempDirectory(shared, "karzhoul") : Files.createTempDirectory("karzhoul");
        Path file = folder.resolve("memory.db");
        folder.toFile().deleteOnExit();         // where the factory isn't closed; deleted last
        for (String suffix : SUFFIXES) {
            file.resolveSibling(file.getFileName() + suffix).toFile().deleteOnExit();
        }
        return file;
    }

    @Override
    public Engine start(long millis) {
        if (described == null) {
            return engine(command);
        }
        if (String.valueOf(properties.get(Program.ADOPT)).equals("true")) {
            described.adopt();
        }
        described.prepare();
        try {
            return opened();
        } catch (PersistenceException refused) {
            Transition transition = unit.transition(properties);
            if (!described.isPlanned(transition)) {
                throw refused;
            }
            change(transition);
            return opened();
        }
    }

    private Engine engine(List<String> command) {
        return new Engine(new ProcessTransport(command), journal);
    }

    private Engine opened() {
        Engine engine = engine(command);
        try {
            engine.check(described);
            if (described.isToBeWritten()) {
                new StoreChange(engine, described).make(List.of(), unit.uniques());
            }
            described.isWritten();
        } catch (ProgramEnded ended) {
            throw described.explained(command.get(0), notOpened(ended));
        } catch (PersistenceException refused) {
            engine.close();
            throw refused;
        }
        return engine;
    }

    /** Brings the store over by a mapping that has the columns of before and of now. */
    private void change(Transition transition) {
        try {
            Path mapping = Files.createTempFile("karzhoul", ".json");
            try {
                Files.writeString(mapping, transition.mapping());
                List<String> both = new ArrayList<>(command);
                both.set(both.indexOf("--mapping") + 1, mapping.toString());
                try (Engine engine = engine(both)) {
                    new StoreChange(engine, described).make(transition.statements(), unit.uniques());
                }
            } finally {
                Files.delete(mapping);
            }
        } catch (IOException e) {
            throw new PersistenceException("no file could be made for the mapping: " + e.getMessage(), e);
        }
    }

    private PersistenceException notOpened(ProgramEnded ended) {
        String program = command.get(0);
        String store = command.get(command.size() - 1);
        String words = "The store " + store + " isn't opened" + ended.status();
        if (ended.status().contains("StoreFault")) {
            words += ": " + Unopened.why(Path.of(store));
        } else if (ended.status().isEmpty()) {
            words += ", since " + program + " isn't this version's program: " + ended.getCause().getMessage();
        }
        return new PersistenceException(words, ended);
    }

    @Override
    public long backup(Engine engine, Path file) {
        Path store = Path.of(command.get(command.size() - 1));
        return new StoreCopy(store, file).make(engine, copy -> {
            List<String> over = new ArrayList<>(command);
            over.set(over.size() - 1, copy.toString());
            try (Engine opened = engine(over)) {
                describe(opened, copy);
            }
        });
    }

    /** A store in memory doesn't say with which classes it is written, since no other unit can open it; a copy does. */
    private void describe(Engine opened, Path copy) {
        if (memory == null) {
            opened.ask(new Lines().createEntityManager());
            return;
        }
        StoreDescription ofCopy = new StoreDescription(copy, unit.description());
        ofCopy.adopt();
        opened.check(ofCopy);
        new StoreChange(opened, ofCopy).make(List.of(), List.of());
    }

    @Override
    public void end() {
        try {
            Files.deleteIfExists(mappingFile);
            if (memory != null) {
                for (String suffix : SUFFIXES) {
                    Files.deleteIfExists(memory.resolveSibling(memory.getFileName() + suffix));
                }
                Files.deleteIfExists(memory.getParent());
            }
        } catch (IOException e) {
            System.getLogger("karzhoul").log(System.Logger.Level.DEBUG, "files in memory stay", e);
        }
    }
}
