package karzhoul.jpa.engine;

import static org.junit.jupiter.api.Assertions.assertArrayEquals;
import static org.junit.jupiter.api.Assertions.assertEquals;
import static org.junit.jupiter.api.Assertions.assertFalse;
import static org.junit.jupiter.api.Assertions.assertThrows;
import static org.junit.jupiter.api.Assertions.assertTrue;

import jakarta.persistence.Column;
import jakarta.persistence.ElementCollection;
import jakarta.persistence.Entity;
import jakarta.persistence.EntityManager;
import jakarta.persistence.EntityManagerFactory;
import jakarta.persistence.EnumType;
import jakarta.persistence.Enumerated;
import jakarta.persistence.GeneratedValue;
import jakarta.persistence.Id;
import jakarta.persistence.ManyToMany;
import jakarta.persistence.ManyToOne;
import jakarta.persistence.PersistenceException;
import jakarta.persistence.Table;
import java.io.IOException;
import java.lang.reflect.Proxy;
import java.nio.charset.StandardCharsets;
import java.nio.file.Files;
import java.nio.file.Path;
import java.time.Duration;
import java.time.LocalDate;
import java.util.ArrayList;
import java.util.List;
import java.util.Map;
import java.util.Optional;
import java.util.UUID;
import karzhoul.jpa.context.Factory;
import karzhoul.jpa.model.Programs;
import karzhoul.jpa.model.Reader;
import karzhoul.jpa.model.UnitModel;
import karzhoul.jpa.spi.UnitSettings;
import org.junit.jupiter.api.BeforeEach;
import org.junit.jupiter.api.Test;
import org.junit.jupiter.api.io.TempDir;

/** A store opens with the classes with which it was written, and is refused in words with others, unchanged. */
class StoreDescriptionTest {
    enum Mood { GLAD, SAD }
    enum Other { SAD, GLAD }

    @Entity(name = "Person") @Table(name = "persons")
    static class Person { @Id @GeneratedValue Long id; String name; LocalDate born; @Enumerated Mood mood; }

    @Entity(name = "Person") @Table(name = "persons")
    static class SameNames {
        @Id @GeneratedValue Long number;
        @Column(name = "name") String called;
        @Enumerated(EnumType.ORDINAL) Mood mood;
        LocalDate born;
    }

    @Entity(name = "Person") @Table(name = "people")
    static class OtherTable { @Id @GeneratedValue Long id; String name; LocalDate born; @Enumerated Mood mood; }

    @Entity(name = "Person") @Table(name = "persons")
    static class OtherColumn { @Id @GeneratedValue Long id; String fullName; LocalDate born; @Enumerated Mood mood; }

    @Entity(name = "Person") @Table(name = "persons")
    static class OtherMeaning { @Id @GeneratedValue Long id; String name; Long born; @Enumerated Other mood; }

    @Entity(name = "Person") @Table(name = "persons")
    static class OtherKey { @Id @GeneratedValue UUID id; String name; LocalDate born; @Enumerated Mood mood; }

    @Entity(name = "Person") @Table(name = "persons")
    static class More {
        @Id @GeneratedValue Long id;
        String name;
        LocalDate born;
        @Enumerated Mood mood;
        int visits;
        @ManyToOne House house;
        @ManyToMany List<House> owned = new ArrayList<>();
        @ElementCollection List<String> words = new ArrayList<>();
    }

    @Entity static class Guest extends More { @Column(nullable = false) String room; }

    @Entity static class House { @Id int number; @Column(nullable = false) String street; }

    @Entity(name = "Person") @Table(name = "persons")
    static class Needed {
        @Id @GeneratedValue Long id;
        String name;
        LocalDate born;
        @Enumerated Mood mood;
        @Column(nullable = false) String family;
    }

    @Entity(name = "Person") @Table(name = "persons")
    static class Less {
        @Id @GeneratedValue Long id;
        String name;
        LocalDate born;
        @Enumerated Mood mood;
        String family;
    }

    @TempDir Path folder;
    private Path store;

    @BeforeEach
    void nameStore() {
        store = folder.resolve("shop.db");
    }

    private Factory open(Class<?>... classes) {
        UnitModel unit = Reader.read("test", List.of(classes));
        return new Factory(new UnitSettings("test", unit, "karzhoul:" + store, Programs.path(), Duration.ofSeconds(5), Optional.empty(),
                Map.of()));
    }

    private void write() {
        try (EntityManagerFactory factory = open(Person.class); EntityManager manager = factory.createEntityManager()) {
            manager.getTransaction().begin();
            manager.persist(new Person());
            manager.getTransaction().commit();
        }
    }

    private String refused(Class<?>... classes) throws IOException {
        byte[] before = Files.readAllBytes(store);
        String words = assertThrows(PersistenceException.class, () -> open(classes)).getMessage();
        assertArrayEquals(before, Files.readAllBytes(store), "the store was touched");
        return words;
    }

    private String worded(String differences) {
        return "The store " + store + " was written with other classes, and isn't opened:\n" + differences
                + "\nKeep the names of before, by @Entity, @Table, @Column, @JoinColumn, @JoinTable and @DiscriminatorValue; "
                + "say what becomes of columns, by karzhoul.defaults, karzhoul.dropped and karzhoul.moved; or take another file for a "
                + "new store.";
    }

    @Test
    void theSameClassesOpenItAgain() {
        write();
        assertFalse(Files.exists(folder.resolve("shop.db.new")));
        write();
        try (EntityManagerFactory factory = open(SameNames.class); EntityManager manager = factory.createEntityManager()) {
            assertEquals(2, manager.find(SameNames.class, 2L).number);
        }
    }

    @Test
    void anotherTableIsNoEmptyTable() throws IOException {
        write();
        assertEquals(worded("""
                - the store has the column born of the table persons, and the classes don't
                - the store has the column mood of the table persons, and the classes don't
                - the store has the column name of the table persons, and the classes don't
                - the store has the discriminator Person of the table persons, and the classes don't
                - the store has the table persons, and the classes don't
                - the classes have the column born of the table people, and the store doesn't
                - the classes have the column mood of the table people, and the store doesn't
                - the classes have the column name of the table people, and the store doesn't
                - the classes have the discriminator Person of the table people, and the store doesn't
                - the classes have the table people, and the store doesn't"""), refused(OtherTable.class));
    }

    @Test
    void anotherColumnIsNoEmptyColumn() throws IOException {
        write();
        assertEquals(worded("""
                - the store has the column name of the table persons, and the classes don't
                - the classes have the column fullName of the table persons, and the store doesn't"""), refused(OtherColumn.class));
    }

    @Test
    void whatAStoreTakesAsItIsIsOpened() throws IOException {
        write();
        for (int i = 0; i < 2; i++) {
            try (EntityManagerFactory factory = open(More.class, Guest.class, House.class);
                    EntityManager manager = factory.createEntityManager()) {
                More person = manager.find(More.class, 1L);
                assertEquals(0, person.visits);
                assertEquals(i, person.words.size());
                manager.getTransaction().begin();
                House house = new House();
                house.number = i;
                house.street = "Mill Lane";
                Guest guest = new Guest();
                guest.room = "blue";
                person.house = house;
                person.owned.add(house);
                person.words.add("word");
                List.of(house, guest).forEach(manager::persist);
                manager.getTransaction().commit();
            }
        }
        String words = refused(Person.class);
        assertTrue(words.contains("- the store has the column visits of the table persons, and the classes don't"), words);
        assertTrue(words.contains("- the store has the join table persons_owned, and the classes don't"), words);
    }

    @Test
    void aColumnOfRowsThatAreThereMayBeNull() throws IOException {
        write();
        assertEquals(worded("- the classes have the column family of the table persons, and the store doesn't"),
                refused(Needed.class));
        store = folder.resolve("other.db");
        open(Needed.class).close();
        open(Less.class).close();
        assertTrue(refused(Needed.class).contains("never null by the classes"));
    }

    @Test
    void anotherMeaningIsTold() throws IOException {
        write();
        String words = refused(OtherMeaning.class);
        assertTrue(words.contains("int (day) in the store, and number"), words);
        assertTrue(words.contains("int (places of GLAD SAD) in the store, and number"), words);
        assertTrue(words.contains("int (places of SAD GLAD) by the classes"), words);
    }

    @Test
    void whatTheProgramItselfRefusesIsToldInWordsToo() throws IOException {
        write();
        String words = refused(OtherKey.class);
        assertTrue(words.contains("with the key int (whole), generated in the store"), words);
        assertTrue(words.contains("with the key text (uuid) by the classes"), words);
    }

    @Test
    void anotherClientsStoreIsRefused() throws IOException, InterruptedException {
        Path mapping = folder.resolve("mapping.json");
        Files.writeString(mapping, "{\"revision\":1,\"entities\":[{\"name\":\"P\",\"table\":7,\"key\":[{\"name\":\"id\",\"type\":\"int\"}]}]}");
        run("""
                {"call":"createEntityManager"}
                {"call":"new","entity":"P"}
                {"call":"set","object":1,"name":"id","value":1}
                {"call":"begin","em":1}
                {"call":"persist","em":1,"object":1}
                {"call":"commit","em":1}
                """, mapping);
        assertTrue(refused(Person.class).contains("doesn't say with which classes it was written"));
    }

    private void run(String lines, Path mapping) throws IOException, InterruptedException {
        Process process = new ProcessBuilder(Programs.path(), "--mapping", mapping.toString(), "--db", store.toString())
                .redirectOutput(ProcessBuilder.Redirect.DISCARD).start();
        process.getOutputStream().write(lines.getBytes(StandardCharsets.UTF_8));
        process.getOutputStream().close();
        assertEquals(0, process.waitFor());
    }

    @Test
    void aFirstStartThatWasBrokenOffIsNoOthersStore() throws IOException, InterruptedException {
        UnitModel unit = Reader.read("test", List.of(Person.class));
        new StoreDescription(store, unit.description()).prepare();
        Path mapping = folder.resolve("mapping.json");
        Files.writeString(mapping, unit.mapping());
        run("", mapping);
        assertTrue(Files.size(store) > 0 && Files.exists(folder.resolve("shop.db.new")));
        write();
        assertFalse(Files.exists(folder.resolve("shop.db.new")));
        write();
    }

    @Test
    void aMarkThatWasLeftBesideADescribedStoreGoes() throws IOException {
        write();
        Path mark = Files.createFile(folder.resolve("shop.db.new"));
        write();
        assertFalse(Files.exists(mark));
        Files.createFile(mark);
        assertTrue(refused(OtherTable.class).contains("was written with other classes"));
    }

    @Test
    void aProgramThatDoesNotStartLeavesNoMark() {
        UnitModel unit = Reader.read("test", List.of(Person.class));
        assertThrows(PersistenceException.class,
                () -> Program.open("karzhoul:" + store, "/bin/false", unit, Map.of(), null));
        assertFalse(Files.exists(folder.resolve("shop.db.new")));
    }

    @Test
    void anEmptyFileIsANewStore() throws IOException {
        Files.createFile(store);
        write();
        write();
    }

    private static UnitModel described(String description) {
        UnitModel unit = Reader.read("test", List.of(Person.class));
        return (UnitModel) Proxy.newProxyInstance(UnitModel.class.getClassLoader(), new Class<?>[] {UnitModel.class},
                (proxy, method, arguments) -> method.getName().equals("description") ? description : method.invoke(unit, arguments));
    }

    @Test
    void aDescriptionOfManyParts() {
        String description = "the table x\t" + "\u00e9".repeat(100_000) + "\n";
        Program.open("karzhoul:" + store, Programs.path(), described(description), Map.of(), null).close();
        Program.open("karzhoul:" + store, Programs.path(), described(description), Map.of(), null).close();
        String words = assertThrows(PersistenceException.class,
                () -> Program.open("karzhoul:" + store, Programs.path(), described(description + "more"), Map.of(), null)).getMessage();
        assertTrue(words.contains("- the classes have more, and the store doesn't"), words);
    }

    @Test
    void aFolderThatIsNotThere() {
        store = folder.resolve("none/shop.db");
        assertTrue(assertThrows(PersistenceException.class, () -> open(Person.class)).getMessage().contains("can't be made"));
    }

    @Test
    void unitsThatShareAStoreInOneJvm() {
        List<EntityManagerFactory> opened = new ArrayList<>();
        try {
            opened.add(open(Person.class));
            opened.add(open(Person.class));
            String words = assertThrows(PersistenceException.class, () -> open(OtherColumn.class)).getMessage();
            assertTrue(words.contains("- the classes have the column fullName of the table persons, and the store doesn't"), words);
        } finally {
            opened.forEach(EntityManagerFactory::close);
        }
    }
}
