package karzhoul.jpa.engine;

import static org.junit.jupiter.api.Assertions.assertArrayEquals;
import static org.junit.jupiter.api.Assertions.assertEquals;
import static org.junit.jupiter.api.Assertions.assertThrows;
import static org.junit.jupiter.api.Assertions.assertTrue;

import jakarta.persistence.Column;
import jakarta.persistence.Entity;
import jakarta.persistence.EntityManager;
import jakarta.persistence.GeneratedValue;
import jakarta.persistence.Id;
import jakarta.persistence.ManyToOne;
import jakarta.persistence.PersistenceException;
import jakarta.persistence.RollbackException;
import jakarta.persistence.Table;
import jakarta.persistence.UniqueConstraint;
import java.io.IOException;
import java.net.URI;
import java.nio.file.Files;
import java.nio.file.Path;
import java.time.Duration;
import java.util.List;
import java.util.Map;
import java.util.Optional;
import java.util.concurrent.TimeUnit;
import java.util.function.Consumer;
import karzhoul.jpa.context.Factory;
import karzhoul.jpa.model.Programs;
import karzhoul.jpa.model.Reader;
import karzhoul.jpa.spi.UnitSettings;
import org.junit.jupiter.api.BeforeEach;
import org.junit.jupiter.api.Test;
import org.junit.jupiter.api.io.TempDir;
import org.junit.jupiter.params.ParameterizedTest;
import org.junit.jupiter.params.provider.ValueSource;

/** What is unique from now on, over a store that has objects. */
class UniqueStoresTest {
    @Entity(name = "Person") @Table(name = "persons")
    static class Plain {
        @Id @GeneratedValue Long id;
        String name;
        Integer seat;
        @ManyToOne Plain boss;

        Plain() {}

        Plain(String name, Integer seat) {
            this.name = name;
            this.seat = seat;
        }
    }

    @Entity(name = "Person") @Table(name = "persons", uniqueConstraints = @UniqueConstraint(columnNames = {"seat", "boss_id"}))
    static class Strict {
        @Id @GeneratedValue Long id;
        @Column(unique = true) String name;
        Integer seat;
        @ManyToOne Strict boss;
    }

    @TempDir Path folder;
    private Path store;

    @BeforeEach
    void nameStore() {
        store = folder.resolve("shop.db");
    }

    private static Factory open(Path store, Class<?> person) {
        return new Factory(new UnitSettings("test", Reader.read("test", List.of(person)), "karzhoul:" + store, Programs.path(),
                Duration.ofSeconds(5), Optional.empty(), Map.of()));
    }

    private void over(Class<?> person, Consumer<EntityManager> done) {
        try (Factory factory = open(store, person); EntityManager manager = factory.createEntityManager()) {
            manager.getTransaction().begin();
            done.accept(manager);
            manager.getTransaction().commit();
        }
    }

    private static Strict strict(String name) {
        Strict strict = new Strict();
        strict.name = name;
        return strict;
    }

    private String refused(Class<?> person) throws IOException {
        byte[] before = Files.readAllBytes(store);
        String words = assertThrows(PersistenceException.class, () -> open(store, person)).getMessage();
        assertArrayEquals(before, Files.readAllBytes(store), "the store was touched");
        return words;
    }

    @Test
    void theyHoldOverANewRunOfTheProgram() {
        over(Strict.class, manager -> manager.persist(strict("ada")));
        String words = assertThrows(RollbackException.class, () -> over(Strict.class, manager -> manager.persist(strict("ada"))))
                .getCause().getMessage();
        assertEquals("Persistence(unique), Person 2: it would have the name ada of Person 1, and that is unique", words);
    }

    @Test
    void overAStoreThatHasNoTwoAlike() {
        over(Plain.class, manager -> {
            Plain ada = new Plain("ada", 1);
            Plain bob = new Plain("bob", 1);
            bob.boss = ada;
            List.of(ada, bob, new Plain(null, null), new Plain(null, 1)).forEach(manager::persist);
        });
        over(Strict.class, manager -> assertEquals("bob", manager.find(Strict.class, 2L).name));
        assertTrue(assertThrows(RollbackException.class, () -> over(Strict.class, manager -> manager.persist(strict("bob"))))
                .getCause().getMessage().contains("the name bob of Person 2"));
        assertTrue(assertThrows(RollbackException.class, () -> over(Strict.class, manager -> {
            Strict third = manager.find(Strict.class, 3L);
            third.boss = manager.find(Strict.class, 1L);
            third.seat = 1;
        })).getCause().getMessage().contains("Person 3: it would have the boss 1 and the seat 1 of Person 2"));
    }

    @Test
    void overAStoreThatHasTwoAlikeBothAreNamed() throws IOException {
        over(Plain.class, manager -> List.of(new Plain("ada", 1), new Plain("bob", 2), new Plain("ada", 3)).forEach(manager::persist));
        assertEquals("The store " + store + " was written with other classes, and isn't brought over to these:\n"
                + "- the classes have the unique boss, seat of the table persons, and the store doesn't\n"
                + "- the classes have the unique name of the table persons, and the store doesn't\n"
                + "Persistence(unique), Person 3: it would have the name ada of Person 1, and that is unique", refused(Strict.class));
        over(Plain.class, manager -> manager.find(Plain.class, 3L).name = "cyd");
        over(Strict.class, manager -> manager.persist(strict("ada the second")));
    }

    @Test
    void whatIsNoLongerUniqueIsBroughtOverToo() throws IOException {
        over(Strict.class, manager -> manager.persist(strict("ada")));
        over(Plain.class, manager -> manager.persist(new Plain("ada", 1)));
        over(Plain.class, manager -> manager.persist(new Plain("bob", 1)));
        assertTrue(refused(Strict.class).contains("the name ada of Person 1"));
        over(Plain.class, manager -> {
            manager.find(Plain.class, 1L).name = "cyd";
            manager.find(Plain.class, 2L).name = "dan";
        });
        over(Strict.class, manager -> manager.persist(strict("ada")));
        assertTrue(assertThrows(RollbackException.class, () -> over(Strict.class, manager -> manager.persist(strict("dan"))))
                .getCause().getMessage().contains("the name dan of Person 2"));
    }

    /** What the JVM that is killed does: {@code Child STORE}. */
    static final class Child {
        private Child() {}

        public static void main(String[] words) {
            System.out.println("begins");
            open(Path.of(words[0]), Strict.class);
        }
    }

    @ParameterizedTest
    @ValueSource(ints = {60, 250, 600})
    void aJvmThatIsKilledMeanwhile(int millis) throws IOException, InterruptedException {
        over(Plain.class, manager -> {
            for (int i = 0; i < 6_000; i++) {
                manager.persist(new Plain("n" + i, i));
            }
        });
        Process child = new ProcessBuilder(Path.of(System.getProperty("java.home"), "bin", "java").toString(),
                "-XX:TieredStopAtLevel=1", "-Dkarzhoul.program=" + Programs.path(), "-cp", System.getProperty("java.class.path") + ":"
                        + classPath(), Child.class.getName(), store.toString()).redirectError(ProcessBuilder.Redirect.INHERIT).start();
        child.getInputStream().read();
        TimeUnit.MILLISECONDS.sleep(millis);
        List<ProcessHandle> programs = child.toHandle().descendants().toList();
        child.destroyForcibly().waitFor();
        for (ProcessHandle program : programs) {
            program.onExit().orTimeout(60, TimeUnit.SECONDS).join();        // it ends with its input, once it has done its call
        }
        over(Strict.class, manager -> assertEquals(6_000L,
                manager.createQuery("SELECT COUNT(p) FROM Person p").getSingleResult()));
        assertTrue(assertThrows(RollbackException.class, () -> over(Strict.class, manager -> manager.persist(strict("n5999"))))
                .getCause().getMessage().contains("the name n5999 of Person 6000"));
    }

    /** Where the classes of the tests, of the door and of its libraries are. */
    private static String classPath() {
        return String.join(":", List.of(UniqueStoresTest.class, Program.class, Entity.class).stream()
                .map(it -> Path.of(URI.create(it.getProtectionDomain().getCodeSource().getLocation().toString())).toString())
                .toList());
    }
}
