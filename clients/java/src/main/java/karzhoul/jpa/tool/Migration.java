package karzhoul.jpa.tool;

import jakarta.persistence.PersistenceException;
import java.io.IOException;
import java.nio.file.Files;
import java.nio.file.Path;
import java.util.ArrayList;
import java.util.List;
import java.util.Map;
import karzhoul.jpa.context.Factory;
import karzhoul.jpa.engine.Program;
import karzhoul.jpa.engine.StoredText;
import karzhoul.jpa.model.StoredDescription;
import karzhoul.jpa.model.StoredMapping;
import karzhoul.jpa.spi.UnitSettings;
import karzhoul.jpa.spi.Units;

/**
 * Brings a store over to the classes of a unit where no opening does: the Python client's {@code karzhoul migrate} makes the
 * new store by the mappings of before and of now, and the unit takes it then. It needs the libraries of the door.
 */
final class Migration {
    private static final String URL = "jakarta.persistence.jdbc.url";

    private final Path store;
    private final UnitSettings unit;

    /** @throws IOException where there is no such store or unit */
    Migration(Path store, String unit) throws IOException {
        if (!Files.isRegularFile(store)) {
            throw new IOException("there is no file " + store);
        }
        this.store = store.toAbsolutePath();
        this.unit = Units.find(unit, Map.of(URL, "karzhoul:" + this.store, Program.ADOPT, "true"))
                .orElseThrow(() -> new IOException("there is no unit " + unit + " of karzhoul.jpa.KarzhoulProvider on the class path"));
    }

    /**
     * Does it.
     *
     * @param python the program that has the Python client
     * @param more words of {@code karzhoul migrate}, as {@code --with days.py}
     * @return the status of that; the store is as it was where it isn't 0
     * @throws PersistenceException where the unit doesn't take what was made: the store of before stands beside it
     */
    int run(String python, List<String> more) throws IOException, InterruptedException {
        String said = StoredText.read(unit.program(), store);
        if (said == null) {
            throw new IOException(store + " doesn't say with which classes it was written: it is another client's, or was"
                    + " brought over already. A factory with " + Program.ADOPT + " true takes it");
        }
        Path folder = Files.createTempDirectory("karzhoul");
        Path before = folder.resolve("before.json");
        Path now = folder.resolve("now.json");
        try {
            Files.writeString(before, StoredMapping.ofStore(said));
            Files.writeString(now, StoredMapping.ofClasses(unit.unit().description()));
            List<String> command = new ArrayList<>(List.of(python, "-m", "karzhoul", "migrate", store.toString(), "--program",
                    unit.program(), "--from", before.toString(), "--mapping", now.toString(), "--drop", StoredDescription.ENTITY));
            command.addAll(more);
            needClient(python);
            int status = new ProcessBuilder(command).inheritIO().start().waitFor();
            if (status == 0 && !more.contains("--plan")) {
                new Factory(unit).close();
            }
            return status;
        } finally {
            Files.deleteIfExists(before);
            Files.deleteIfExists(now);
            Files.delete(folder);
        }
    }

    /** @throws IOException where that program hasn't the Python client, in words */
    private static void needClient(String python) throws IOException, InterruptedException {
        if (!hasClient(python)) {
            throw new IOException(python + " isn't there, or doesn't find the module karzhoul, which brings stores over: install"
                    + " the Python client (clients/python) or set PYTHONPATH to it, or name a Python that has it by --python");
        }
    }

    private static boolean hasClient(String python) throws InterruptedException {
        try {
            return new ProcessBuilder(python, "-c", "import karzhoul").redirectErrorStream(true)
                    .redirectOutput(ProcessBuilder.Redirect.DISCARD).start().waitFor() == 0;
        } catch (IOException e) {
            return false;
        }
    }
}
