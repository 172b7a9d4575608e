package karzhoul.jpa.engine;

import static org.junit.jupiter.api.Assertions.assertEquals;
import static org.junit.jupiter.api.Assertions.assertFalse;
import static org.junit.jupiter.api.Assertions.assertTrue;

import jakarta.persistence.Entity;
import jakarta.persistence.Id;
import jakarta.persistence.PersistenceException;
import java.io.IOException;
import java.net.URI;
import java.nio.file.Files;
import java.nio.file.Path;
import java.util.List;
import java.util.Map;
import java.util.concurrent.TimeUnit;
import karzhoul.jpa.model.Programs;
import karzhoul.jpa.model.Reader;
import karzhoul.jpa.model.UnitModel;
import org.junit.jupiter.api.io.TempDir;
import org.junit.jupiter.params.ParameterizedTest;
import org.junit.jupiter.params.provider.ValueSource;

/** A JVM that is killed while it makes a store leaves one that the next JVM takes as its own. */
class NewStoreKillTest {
    @Entity static class Item { @Id int id; }

    /** What the JVM that is killed does: {@code Child STORE}. */
    static final class Child {
        private Child() {}

        public static void main(String[] words) {
            UnitModel unit = Reader.read("test", List.of(Item.class));
            Program.open("karzhoul:" + words[0], Programs.path(), unit, Map.of(), null);
        }
    }

    @TempDir Path folder;

    @ParameterizedTest
    @ValueSource(ints = {0, 4, 12, 40})
    void theNextOneOpensIt(int millis) throws IOException, InterruptedException {
        Path store = folder.resolve("shop.db");
        Path mark = folder.resolve("shop.db.new");
        Process child = new ProcessBuilder(Path.of(System.getProperty("java.home"), "bin", "java").toString(),
                "-XX:TieredStopAtLevel=1", "-Dkarzhoul.program=" + Programs.path(), "-cp", System.getProperty("java.class.path") + ":"
                        + classPath(), Child.class.getName(), store.toString()).inheritIO().start();
        while (!Files.exists(mark) && child.isAlive()) {
            TimeUnit.MILLISECONDS.sleep(1);
        }
        assertTrue(Files.exists(mark) || Files.exists(store), "the JVM that is killed has begun");
        TimeUnit.MILLISECONDS.sleep(millis);
        child.destroyForcibly().waitFor();
        UnitModel unit = Reader.read("test", List.of(Item.class));
        openedOnceLetGo(store, unit);
        for (int i = 0; i < 2; i++) {
            Program.open("karzhoul:" + store, Programs.path(), unit, Map.of(), null).close();
            assertFalse(Files.exists(mark));
        }
        assertEquals(List.of(), leftOver());
    }

    /** The program ends with the JVM that started it, and lets the store go; on a busy machine that takes a while. */
    private static void openedOnceLetGo(Path store, UnitModel unit) throws InterruptedException {
        long end = System.nanoTime() + TimeUnit.SECONDS.toNanos(20);
        TimeUnit.MILLISECONDS.sleep(500);
        while (true) {
            try {
                Program.open("karzhoul:" + store, Programs.path(), unit, Map.of(), null).close();
                return;
            } catch (PersistenceException held) {
                if (System.nanoTime() > end) {
                    throw held;
                }
                TimeUnit.MILLISECONDS.sleep(100);
            }
        }
    }

    private List<String> leftOver() throws IOException {
        try (var files = Files.list(folder)) {
            return files.map(it -> it.getFileName().toString()).filter(it -> !it.startsWith("shop.db")).toList();
        }
    }

    /** Where the classes of the tests, of the door and of its libraries are. */
    private static String classPath() {
        return String.join(":", List.of(NewStoreKillTest.class, Program.class, Entity.class).stream()
                .map(it -> Path.of(URI.create(it.getProtectionDomain().getCodeSource().getLocation().toString())).toString())
                .toList());
    }
}
