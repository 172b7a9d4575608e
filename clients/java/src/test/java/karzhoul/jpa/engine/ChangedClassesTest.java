package karzhoul.jpa.engine;

import static org.junit.jupiter.api.Assertions.assertArrayEquals;
import static org.junit.jupiter.api.Assertions.assertEquals;
import static org.junit.jupiter.api.Assertions.assertThrows;
import static org.junit.jupiter.api.Assertions.assertTrue;

import jakarta.persistence.Column;
import jakarta.persistence.Entity;
import jakarta.persistence.EntityManager;
import jakarta.persistence.EnumType;
import jakarta.persistence.Enumerated;
import jakarta.persistence.GeneratedValue;
import jakarta.persistence.Id;
import jakarta.persistence.PersistenceException;
import jakarta.persistence.Table;
import jakarta.persistence.Version;
import java.io.IOException;
import java.math.BigDecimal;
import java.nio.file.Files;
import java.nio.file.Path;
import java.time.Duration;
import java.time.LocalDate;
import java.util.HashMap;
import java.util.List;
import java.util.Map;
import java.util.Optional;
import java.util.function.Consumer;
import java.util.stream.Collectors;
import karzhoul.jpa.context.Factory;
import karzhoul.jpa.model.Programs;
import karzhoul.jpa.model.Reader;
import karzhoul.jpa.spi.UnitSettings;
import org.junit.jupiter.api.BeforeEach;
import org.junit.jupiter.api.Test;
import org.junit.jupiter.api.io.TempDir;

/** A store that is brought over to other classes, as properties say. */
class ChangedClassesTest {
    enum State { NEW, KNOWN }

    @Entity(name = "Person") @Table(name = "persons")
    static class Before {
        @Id @GeneratedValue Long id;
        @Version int version;
        @Column(nullable = false) String name;
        LocalDate born;
        @Column(nullable = false) int size;
    }

    @Entity(name = "Guest")
    static class GuestBefore extends Before { @Column(nullable = false) String room; }

    @Entity(name = "Person") @Table(name = "persons")
    static class After {
        @Id @GeneratedValue Long id;
        @Version int version;
        @Column(nullable = false, unique = true) String fullName;
        @Column(nullable = false) long visits;
        @Column(nullable = false) @Enumerated(EnumType.STRING) State state;
        @Column(nullable = false, scale = 2) BigDecimal credit;
        @Column(nullable = false) LocalDate since;
        String note;
    }

    @Entity(name = "Guest")
    static class GuestAfter extends After { @Column(nullable = false) String floor; }

    private static final String DEFAULTS = "Person.visits=7; Person.state=KNOWN;Person.credit=1.50;Person.since=2026-11-29;"
            + "Guest.floor=first";
    private static final Map<String, Object> CHANGES = Map.of("karzhoul.defaults", DEFAULTS,
            "karzhoul.dropped", "persons.born; persons.size; persons.Guest.room", "karzhoul.moved", "persons.name=fullName");

    @TempDir Path folder;
    private Path store;

    @BeforeEach
    void write() {
        store = folder.resolve("shop.db");
        over(Map.of(), manager -> {
            for (int i = 0; i < 3; i++) {
                Before person = i < 2 ? new Before() : new GuestBefore();
                person.name = "n" + i;
                person.born = LocalDate.of(2000, 1, 1);
                person.size = i;
                if (person instanceof GuestBefore guest) {
                    guest.room = "blue";
                }
                manager.persist(person);
            }
        }, Before.class, GuestBefore.class);
    }

    private Factory open(Map<String, Object> properties, Class<?>... classes) {
        return new Factory(new UnitSettings("test", Reader.read("test", List.of(classes)), "karzhoul:" + store, Programs.path(),
                Duration.ofSeconds(5), Optional.empty(), properties));
    }

    private void over(Map<String, Object> properties, Consumer<EntityManager> done, Class<?>... classes) {
        try (Factory factory = open(properties, classes); EntityManager manager = factory.createEntityManager()) {
            manager.getTransaction().begin();
            done.accept(manager);
            manager.getTransaction().commit();
        }
    }

    private String refused(Map<String, Object> properties) throws IOException {
        byte[] before = Files.readAllBytes(store);
        String words = assertThrows(PersistenceException.class, () -> open(properties, After.class, GuestAfter.class)).getMessage();
        assertArrayEquals(before, Files.readAllBytes(store), "the store was touched");
        over(Map.of(), manager -> assertEquals("n2", manager.find(Before.class, 3L).name), Before.class, GuestBefore.class);
        return words;
    }

    @Test
    void columnsComeWithDefaultsGoAndMove() {
        for (Map<String, Object> properties : List.of(CHANGES, Map.<String, Object>of(), CHANGES)) {
            over(properties, manager -> {
                for (long id = 1; id <= 3; id++) {
                    After person = manager.find(After.class, id);
                    assertEquals("n" + (id - 1), person.fullName);
                    assertEquals(7, person.visits);
                    assertEquals(State.KNOWN, person.state);
                    assertEquals(new BigDecimal("1.50"), person.credit);
                    assertEquals(LocalDate.of(2026, 11, 29), person.since);
                    assertEquals(0, person.version);
                    assertTrue(id < 3 || ((GuestAfter) person).floor.equals("first"));
                }
            }, After.class, GuestAfter.class);
        }
        assertThrows(PersistenceException.class, () -> open(Map.of(), Before.class, GuestBefore.class));
    }

    @Test
    void thereAndBackAgain() {
        open(CHANGES, After.class, GuestAfter.class).close();
        over(Map.of("karzhoul.moved", "persons.fullName=name", "karzhoul.defaults", "Person.size=3;Guest.room=red",
                "karzhoul.dropped", "persons.visits;persons.state;persons.credit;persons.since;persons.note;persons.Guest.floor"),
                manager -> {
                    Before person = manager.find(Before.class, 3L);
                    assertEquals("n2", person.name);
                    assertEquals(3, person.size);
                    assertEquals("red", ((GuestBefore) person).room);
                }, Before.class, GuestBefore.class);
        open(CHANGES, After.class, GuestAfter.class).close();
    }

    @Test
    void whatIsNotSaidIsRefused() throws IOException {
        assertTrue(refused(Map.of()).contains("- the store has the column born of the table persons, and the classes don't"));
        for (String missing : CHANGES.keySet()) {
            refused(Map.copyOf(CHANGES.entrySet().stream().filter(each -> !each.getKey().equals(missing))
                    .collect(Collectors.toMap(Map.Entry::getKey, Map.Entry::getValue))));
        }
        Map<String, Object> wrong = new HashMap<>(CHANGES);
        wrong.put("karzhoul.moved", "persons.name=credit");
        refused(wrong);
        wrong.putAll(CHANGES);
        wrong.put("karzhoul.defaults", DEFAULTS.replace("KNOWN", "KNOW"));
        assertEquals("karzhoul.defaults: KNOW is no " + State.class.getName(), refused(wrong));
    }

    @Test
    void twoThatWouldBeAlikeRefuseAllOfIt() throws IOException {
        over(Map.of(), manager -> manager.find(Before.class, 2L).name = "n0", Before.class, GuestBefore.class);
        assertTrue(refused(CHANGES).contains("Person 2: it would have the fullName n0 of Person 1"));
    }
}
