package karzhoul.jpa.context;

import static org.junit.jupiter.api.Assertions.assertEquals;
import static org.junit.jupiter.api.Assertions.assertNull;
import static org.junit.jupiter.api.Assertions.assertThrows;
import static org.junit.jupiter.api.Assertions.assertTrue;

import jakarta.persistence.CascadeType;
import jakarta.persistence.Column;
import jakarta.persistence.DiscriminatorValue;
import jakarta.persistence.ElementCollection;
import jakarta.persistence.Embeddable;
import jakarta.persistence.Embedded;
import jakarta.persistence.EmbeddedId;
import jakarta.persistence.Entity;
import jakarta.persistence.EntityManager;
import jakarta.persistence.GeneratedValue;
import jakarta.persistence.GenerationType;
import jakarta.persistence.Id;
import jakarta.persistence.JoinColumn;
import jakarta.persistence.ManyToMany;
import jakarta.persistence.ManyToOne;
import jakarta.persistence.OneToOne;
import jakarta.persistence.OrderColumn;
import jakarta.persistence.SequenceGenerator;
import jakarta.persistence.Table;
import jakarta.persistence.Version;
import java.io.IOException;
import java.io.Serializable;
import java.math.BigDecimal;
import java.nio.charset.StandardCharsets;
import java.nio.file.Files;
import java.nio.file.Path;
import java.util.ArrayList;
import java.util.List;
import java.util.Map;
import java.util.TreeMap;
import karzhoul.jpa.engine.StoredText;
import karzhoul.jpa.model.StoredMapping;
import karzhoul.jpa.shop.Shop;
import org.junit.jupiter.api.Test;
import org.junit.jupiter.api.io.TempDir;

/** A store tells the mapping that it was written with, by which the program alone reads it. */
class StoredMappingTest {
    @Entity @Table(name = "people") @DiscriminatorValue("P")
    static class Person {
        @Id @GeneratedValue Long id;
        @Version int version;
        @Column(name = "full name", unique = true) String name;
        @Embedded Address address;
        BigDecimal money = new BigDecimal("12.50");
        @ManyToOne Person boss;
        @OneToOne @JoinColumn(name = "seat_number") Seat seat;
        @ElementCollection @OrderColumn List<String> words = new ArrayList<>();
        @ElementCollection Map<String, Integer> marks = new TreeMap<>();
        @ManyToMany(cascade = CascadeType.ALL) @OrderColumn List<Bill> bills = new ArrayList<>();
    }

    @Entity @DiscriminatorValue("V")
    static class Vip extends Person {
        int discount;
        @ManyToOne(optional = false) Seat second;
    }

    @Embeddable
    static class Address {
        String street;
        @Column(nullable = false) String town = "Ghent";
    }

    @Embeddable
    static class Place implements Serializable {
        private static final long serialVersionUID = 1;
        int line;
        String side;

        @Override
        public boolean equals(Object other) {
            return other instanceof Place place && place.line == line && place.side.equals(side);
        }

        @Override
        public int hashCode() {
            return line;
        }
    }

    @Entity
    static class Seat {
        @EmbeddedId Place place;
        String colour;
    }

    @Entity
    @SequenceGenerator(name = "bills", initialValue = 100)
    static class Bill {
        @Id @GeneratedValue(strategy = GenerationType.SEQUENCE, generator = "bills") Long number;
    }

    @TempDir Path folder;

    private Path written() {
        Path store = folder.resolve("people.db");
        try (Factory factory = Units.over("karzhoul:" + store, Person.class, Vip.class, Seat.class, Bill.class);
                EntityManager manager = factory.createEntityManager()) {
            manager.getTransaction().begin();
            Seat seat = new Seat();
            seat.place = new Place();
            seat.place.line = 7;
            seat.place.side = "left";
            manager.persist(seat);
            Person ada = new Person();
            ada.name = "Ada";
            ada.address = new Address();
            ada.words.addAll(List.of("b", "a"));
            ada.marks.put("art", 2);
            ada.bills.addAll(List.of(new Bill(), new Bill()));
            manager.persist(ada);
            Vip bob = new Vip();
            bob.name = "Bob";
            bob.address = new Address();
            bob.boss = ada;
            bob.seat = seat;
            bob.second = seat;
            bob.discount = 5;
            manager.persist(bob);
            manager.getTransaction().commit();
        }
        return store;
    }

    private String asked(Path store, String mapping, String query) throws IOException, InterruptedException {
        Path file = Files.writeString(folder.resolve("mapping.json"), mapping);
        Process program = new ProcessBuilder(Shop.program(), "--mapping", file.toString(), "--db", store.toString(), "--query", query)
            .redirectErrorStream(true).start();
        program.getOutputStream().close();
        String said = new String(program.getInputStream().readAllBytes(), StandardCharsets.UTF_8).trim();
        program.waitFor();
        return said;
    }

    @Test
    void theProgramReadsAStoreByIt() throws IOException, InterruptedException {
        Path store = written();
        String mapping = StoredMapping.ofStore(StoredText.read(Shop.program(), store));
        assertEquals("1\n2", asked(store, mapping, "SELECT p.key FROM people p ORDER BY p.key"));
        assertEquals("[\"Ada\",1250,\"Ghent\"]", asked(store, mapping,
            "SELECT p.full_u20name, p.money, p.address__town FROM people p WHERE p.boss IS NULL"));
        assertEquals("[\"Bob\",5,1,7,\"left\"]", asked(store, mapping,
            "SELECT v.full_u20name, v.Vip__discount, v.boss.key, v.seat_number.key.part1, v.Vip__second.key.part2 FROM people_V v"));
        assertEquals("[\"a\",1]\n[\"b\",0]", asked(store, mapping,
            "SELECT w.words, w.words_ORDER FROM people p JOIN p.Person_words w ORDER BY w.words"));
        assertEquals("[\"art\",2]", asked(store, mapping, "SELECT m.marks_KEY, m.marks FROM people p JOIN p.Person_marks m"));
        assertEquals("100\n101", asked(store, mapping, "SELECT b.key FROM people p JOIN p.people_bills b ORDER BY b.key"));
    }

    /** Opened as an application opens it: each row is judged. */
    @Test
    void noRowOfTheStoreIsOdd() throws IOException, InterruptedException {
        Path store = written();
        Path mapping = Files.writeString(folder.resolve("mapping.json"), StoredMapping.ofStore(StoredText.read(Shop.program(), store)));
        Process program = new ProcessBuilder(Shop.program(), "--mapping", mapping.toString(), "--db", store.toString())
            .redirectErrorStream(true).start();
        program.getOutputStream().write("{\"call\":\"createEntityManager\"}\n".getBytes(StandardCharsets.UTF_8));
        program.getOutputStream().close();
        assertEquals("{\"events\":[],\"ok\":1}", new String(program.getInputStream().readAllBytes(), StandardCharsets.UTF_8).trim());
        assertEquals(0, program.waitFor());
    }

    @Test
    void anotherClientsStoreSaysNothing() throws IOException, InterruptedException {
        Path store = folder.resolve("other.db");
        Process program = new ProcessBuilder(Shop.program(), "--db", store.toString()).start();
        program.getOutputStream().close();
        program.getInputStream().readAllBytes();
        program.waitFor();
        assertNull(StoredText.read(Shop.program(), store));
        Files.writeString(folder.resolve("text"), "no store, but long enough to be looked at as one");
        assertTrue(assertThrows(IOException.class, () -> StoredText.read(Shop.program(), folder.resolve("text"))).getMessage()
            .startsWith("the description of the store can't be read: "));
        assertThrows(IllegalArgumentException.class, () -> StoredMapping.ofStore("the table people\tsomething else"));
    }
}
