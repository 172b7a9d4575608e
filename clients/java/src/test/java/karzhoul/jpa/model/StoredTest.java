package karzhoul.jpa.model;

import static org.junit.jupiter.api.Assertions.assertArrayEquals;
import static org.junit.jupiter.api.Assertions.assertEquals;
import static org.junit.jupiter.api.Assertions.assertNotNull;
import static org.junit.jupiter.api.Assertions.assertNull;
import static org.junit.jupiter.api.Assertions.assertTrue;

import jakarta.persistence.CascadeType;
import jakarta.persistence.Entity;
import jakarta.persistence.EntityManager;
import jakarta.persistence.EntityManagerFactory;
import jakarta.persistence.Enumerated;
import jakarta.persistence.EnumType;
import jakarta.persistence.FetchType;
import jakarta.persistence.GeneratedValue;
import jakarta.persistence.Id;
import jakarta.persistence.Lob;
import jakarta.persistence.ManyToOne;
import jakarta.persistence.OneToMany;
import jakarta.persistence.OrderBy;
import jakarta.persistence.Temporal;
import jakarta.persistence.TemporalType;
import java.lang.reflect.Field;
import java.math.BigDecimal;
import java.math.BigInteger;
import java.sql.Time;
import java.sql.Timestamp;
import java.time.Duration;
import java.time.Instant;
import java.time.LocalDate;
import java.time.LocalDateTime;
import java.time.LocalTime;
import java.time.OffsetDateTime;
import java.time.OffsetTime;
import java.util.ArrayList;
import java.util.Calendar;
import java.util.Date;
import java.util.GregorianCalendar;
import java.util.List;
import java.util.Map;
import java.util.Optional;
import java.util.UUID;
import java.util.function.Consumer;
import java.util.function.Function;
import karzhoul.jpa.context.Factory;
import karzhoul.jpa.spi.UnitSettings;
import org.junit.jupiter.api.Test;

/** What was mapped is stored and found again: each sort of value, embeddables, keys, hierarchies, relations. */
class StoredTest {
    private static EntityManagerFactory open(Class<?>... classes) {
        UnitModel unit = Reader.read("stored", List.of(classes));
        return new Factory(new UnitSettings("stored", unit, "karzhoul:memory", Programs.path(), Duration.ofSeconds(30), Optional.empty(),
                Map.of()));
    }

    private static void inTransaction(EntityManagerFactory factory, Consumer<EntityManager> work) {
        try (EntityManager manager = factory.createEntityManager()) {
            manager.getTransaction().begin();
            work.accept(manager);
            manager.getTransaction().commit();
        }
    }

    private static <V> V read(EntityManagerFactory factory, Function<EntityManager, V> work) {
        try (EntityManager manager = factory.createEntityManager()) {
            return work.apply(manager);
        }
    }

    enum Mood { GLAD, SAD }

    @Entity
    static class Values {
        @Id @GeneratedValue Long id;
        boolean truth; Boolean maybe; byte octet; short small; int whole; long big; Long boxed;
        float single; double real; Double nothing; char letter; Character mark; String text; @Lob String longText;
        BigDecimal amount; BigInteger integer; UUID uuid;
        LocalDate day; LocalTime time; LocalDateTime local; Instant instant; OffsetDateTime offset; OffsetTime offsetTime;
        @Temporal(TemporalType.TIMESTAMP) Date date; @Temporal(TemporalType.DATE) Date onlyDay; @Temporal(TemporalType.DATE) Calendar calendar;
        java.sql.Date sqlDate; Time sqlTime; Timestamp timestamp;
        byte[] bytes; Byte[] boxedBytes; char[] chars; Mood mood; @Enumerated(EnumType.STRING) Mood named; @Lob ArrayList<String> list;

        static Values full() {
            Values all = new Values();
            all.truth = true; all.maybe = false; all.octet = -128; all.small = -32768; all.whole = Integer.MIN_VALUE; all.big = Long.MIN_VALUE;
            all.boxed = Long.MAX_VALUE; all.single = -0.0f; all.real = Double.MIN_VALUE; all.nothing = Double.NaN; all.letter = '\0';
            all.mark = '\u20ac'; all.text = "a\"b\\c\u0000\n\ud83d\ude00"; all.longText = "x".repeat(65_535);
            all.amount = new BigDecimal("-12345.67"); all.integer = BigInteger.valueOf(Long.MIN_VALUE); all.uuid = new UUID(-1, 1);
            all.day = LocalDate.of(-44, 3, 15); all.time = LocalTime.MAX; all.local = LocalDateTime.MAX; all.instant = Instant.MIN;
            all.offset = OffsetDateTime.parse("2026-11-29T08:05:01.123456789+05:30"); all.offsetTime = OffsetTime.parse("23:59:59-18:00");
            all.date = new Date(-1); all.onlyDay = java.sql.Date.valueOf("2026-11-29"); all.calendar = new GregorianCalendar(2026, 10, 29);
            all.sqlDate = java.sql.Date.valueOf("1969-12-31"); all.sqlTime = Time.valueOf("23:59:59");
            all.timestamp = Timestamp.valueOf("2026-11-29 08:05:01.000000001"); all.bytes = new byte[] {0, -1}; all.boxedBytes = new Byte[] {1};
            all.chars = new char[] {'a', '\0'}; all.mood = Mood.SAD; all.named = Mood.SAD; all.list = new ArrayList<>(List.of("a", "b"));
            return all;
        }
    }

    @Test
    void eachSortOfValue() throws IllegalAccessException {
        try (EntityManagerFactory factory = open(Values.class)) {
            Values full = Values.full();
            Values empty = new Values();
            inTransaction(factory, manager -> {
                manager.persist(full);
                manager.persist(empty);
            });
            compare(full, read(factory, manager -> manager.find(Values.class, full.id)));
            compare(empty, read(factory, manager -> manager.find(Values.class, empty.id)));
        }
    }

    private static void compare(Values wanted, Values found) throws IllegalAccessException {
        for (Field field : Values.class.getDeclaredFields()) {
            Object value = field.get(wanted);
            Object other = field.get(found);
            assertArrayEquals(new Object[] {value}, new Object[] {other}, field.getName());
        }
    }

    @Test
    void aValueThatChangesInPlaceIsStored() {
        try (EntityManagerFactory factory = open(Values.class)) {
            Values values = Values.full();
            inTransaction(factory, manager -> manager.persist(values));
            inTransaction(factory, manager -> {
                Values found = manager.find(Values.class, values.id);
                found.bytes[0] = 9;
                found.date.setTime(5);
                found.list.add("c");
                found.boxedBytes[0] = 3;
            });
            Values found = read(factory, manager -> manager.find(Values.class, values.id));
            assertArrayEquals(new byte[] {9, -1}, found.bytes);
            assertEquals(new Date(5), found.date);
            assertEquals(List.of("a", "b", "c"), found.list);
            assertEquals((byte) 3, found.boxedBytes[0]);
        }
    }

    @Test
    void embeddablesAndConverters() {
        try (EntityManagerFactory factory = open(ReaderTest.House.class, ReaderTest.Tag.class, ReaderTest.Person.class, ReaderTest.Order.class,
                ReaderTest.Priced.class, ReaderTest.MoneyConverter.class, ReaderTest.Cautious.class, ReaderTest.ByProperty.class)) {
            ReaderTest.Tag tag = new ReaderTest.Tag();
            tag.code = "t";
            ReaderTest.House house = new ReaderTest.House();
            house.id = 1;
            house.work = new ReaderTest.Address();
            house.work.zip = new ReaderTest.Zip();
            house.work.zip.part = "p";
            house.work.tag = tag;
            ReaderTest.Priced priced = new ReaderTest.Priced();
            priced.price = new ReaderTest.Money(7);
            priced.tags = List.of("a", "b");
            ReaderTest.Cautious cautious = new ReaderTest.Cautious();
            cautious.getSpan();
            ReaderTest.Span span = new ReaderTest.Span();
            span.from = 3;
            span.to = 5;
            cautious.setSpan(span);
            inTransaction(factory, manager -> List.of(tag, house, priced, cautious).forEach(manager::persist));
            try (EntityManager manager = factory.createEntityManager()) {
                ReaderTest.House found = manager.find(ReaderTest.House.class, 1);
                assertNull(found.home, "all of its values are null");
                assertEquals("p", found.work.zip.part);
                assertEquals("t", found.work.tag.code);
                ReaderTest.Priced other = manager.find(ReaderTest.Priced.class, 0);
                assertEquals(new ReaderTest.Money(7), other.price);
                assertEquals(List.of("a", "b"), other.tags);
                assertEquals(5, manager.find(ReaderTest.Cautious.class, 0).getSpan().to);
                assertEquals(1, manager.createQuery("SELECT COUNT(h) FROM House h WHERE h.work.zip.part = 'p'", Long.class).getSingleResult());
            }
        }
    }

    @Test
    void keysOfParts() {
        try (EntityManagerFactory factory = open(KeyTest.Place.class, KeyTest.Seat.class)) {
            KeyTest.Place place = new KeyTest.Place();
            place.at = new KeyTest.At();
            place.at.row = 7;
            place.at.shelf = "b";
            place.at.deep = new KeyTest.Deep();
            place.at.deep.code = new UUID(1, 2);
            place.at.deep.more = 5L;
            KeyTest.Seat seat = new KeyTest.Seat();
            seat.setRow(3);
            seat.setLetter('c');
            inTransaction(factory, manager -> {
                manager.persist(place);
                manager.persist(seat);
            });
            KeyTest.SeatKey key = new KeyTest.SeatKey();
            key.setRow(3);
            key.setLetter('c');
            assertNotNull(read(factory, manager -> manager.find(KeyTest.Seat.class, key)));
            KeyTest.Place found = read(factory, manager -> manager.find(KeyTest.Place.class, place.at));
            assertEquals(new UUID(1, 2), found.at.deep.code);
            assertEquals(List.of('c'), read(factory, manager -> manager.createQuery("SELECT s.letter FROM Seat s WHERE s.row = 3").getResultList()));
        }
    }

    @Test
    void derivedIdentities() {
        try (EntityManagerFactory factory = open(KeyTest.Employee.class, KeyTest.Dependent.class, KeyTest.Mapped.class, KeyTest.History.class,
                KeyTest.HistoryById.class, KeyTest.Annex.class)) {
            KeyTest.Employee ada = new KeyTest.Employee();
            KeyTest.Dependent dependent = new KeyTest.Dependent();
            dependent.name = "Bob";
            dependent.employee = ada;
            KeyTest.Mapped mapped = new KeyTest.Mapped();
            mapped.id = new KeyTest.DependentId();
            mapped.id.name = "Cy";
            mapped.employee = ada;
            KeyTest.History history = new KeyTest.History();
            history.patient = ada;
            KeyTest.HistoryById byId = new KeyTest.HistoryById();
            byId.patient = ada;
            KeyTest.Annex annex = new KeyTest.Annex();
            annex.history = history;
            inTransaction(factory, manager -> List.of(ada, dependent, mapped, history, byId, annex).forEach(manager::persist));
            assertEquals(ada.id, mapped.id.employeeKey);
            assertEquals(ada.id, byId.id);
            try (EntityManager manager = factory.createEntityManager()) {
                KeyTest.DependentKey key = new KeyTest.DependentKey();
                key.name = "Bob";
                key.employee = ada.id;
                KeyTest.Dependent found = manager.find(KeyTest.Dependent.class, key);
                KeyTest.DependentKey known = (KeyTest.DependentKey) factory.getPersistenceUnitUtil().getIdentifier(found);
                assertTrue(known.name.equals("Bob") && known.employee.equals(ada.id));
                assertEquals(ada.id, manager.find(KeyTest.Mapped.class, mapped.id).employee.id);
                assertEquals(ada.id, manager.find(KeyTest.HistoryById.class, ada.id).patient.id);
                KeyTest.Annex last = manager.find(KeyTest.Annex.class, ada.id);
                assertEquals(ada.id, factory.getPersistenceUnitUtil().getIdentifier(last));
                assertEquals(ada.id, last.history.patient.id);
            }
        }
    }

    @Entity
    static class Note {
        @Id @GeneratedValue int id;
        @ManyToOne(fetch = FetchType.LAZY) Note about;
        @OneToMany(mappedBy = "about") @OrderBy("id DESC") List<Note> notes = new ArrayList<>();
        @OneToMany(cascade = CascadeType.ALL, orphanRemoval = true) List<Line> lines = new ArrayList<>();
    }

    @Entity
    static class Line {
        @Id @GeneratedValue Long id;
        String text;
    }

    @Test
    void aListWithoutMappedByAndASortedOne() {
        try (EntityManagerFactory factory = open(Note.class, Line.class)) {
            Note note = new Note();
            note.lines.add(new Line());
            note.lines.add(new Line());
            Note one = new Note();
            one.about = note;
            Note two = new Note();
            two.about = note;
            inTransaction(factory, manager -> List.of(note, one, two).forEach(manager::persist));
            inTransaction(factory, manager -> manager.find(Note.class, note.id).lines.remove(0));
            try (EntityManager manager = factory.createEntityManager()) {
                Note found = manager.find(Note.class, note.id);
                assertEquals(1, found.lines.size());
                assertEquals(1, manager.createQuery("SELECT l FROM Line l").getResultList().size(), "the other one was an orphan");
                assertEquals(List.of(two.id, one.id), found.notes.stream().map(it -> it.id).toList());
            }
        }
    }

    @Test
    void hierarchiesAndGenericSuperclasses() {
        try (EntityManagerFactory factory = open(ReaderTest.Vehicle.class, ReaderTest.Car.class, ReaderTest.Boat.class, ReaderTest.Racer.class,
                ReaderTest.Counted.class, ReaderTest.Node.class, ReaderTest.Leaf.class, ReaderTest.Odd.class)) {
            ReaderTest.Racer racer = new ReaderTest.Racer();
            racer.wheels = 4;
            racer.code = "r";
            racer.isNotKept = "gone";
            ReaderTest.Boat boat = new ReaderTest.Boat();
            boat.code = 5;
            ReaderTest.Node root = new ReaderTest.Node();
            root.id = new UUID(1, 1);
            root.note = "must be";
            ReaderTest.Node child = new ReaderTest.Node();
            child.id = new UUID(1, 2);
            child.note = "too";
            child.parent = root;
            ReaderTest.Odd odd = new ReaderTest.Odd();
            odd.größe = "groß";
            odd.address = new ReaderTest.Town();
            odd.address.city = "Zug";
            odd.address__city = "Chur";
            inTransaction(factory, manager -> List.of(racer, boat, root, child, odd).forEach(manager::persist));
            try (EntityManager manager = factory.createEntityManager()) {
                ReaderTest.Vehicle found = manager.find(ReaderTest.Vehicle.class, racer.id);
                assertTrue(found instanceof ReaderTest.Racer it && it.wheels == 4 && it.code.equals("r") && it.isNotKept == null);
                assertNull(manager.find(ReaderTest.Car.class, boat.id));
                assertEquals(1, manager.find(ReaderTest.Node.class, root.id).children.size());
                ReaderTest.Odd other = manager.find(ReaderTest.Odd.class, 0);
                assertEquals("groß Zug Chur", other.größe + " " + other.address.city + " " + other.address__city);
                assertEquals("Zug", manager.createQuery("SELECT o.address.city FROM Größe o WHERE o.größe = 'groß'").getSingleResult());
            }
        }
    }
}
