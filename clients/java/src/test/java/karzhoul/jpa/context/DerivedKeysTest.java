package karzhoul.jpa.context;

import static org.junit.jupiter.api.Assertions.assertEquals;
import static org.junit.jupiter.api.Assertions.assertNotEquals;
import static org.junit.jupiter.api.Assertions.assertThrows;
import static org.junit.jupiter.api.Assertions.assertTrue;

import jakarta.persistence.CascadeType;
import jakarta.persistence.Embeddable;
import jakarta.persistence.EmbeddedId;
import jakarta.persistence.Entity;
import jakarta.persistence.EntityManager;
import jakarta.persistence.GeneratedValue;
import jakarta.persistence.Id;
import jakarta.persistence.IdClass;
import jakarta.persistence.ManyToOne;
import jakarta.persistence.MapsId;
import jakarta.persistence.OneToMany;
import jakarta.persistence.OneToOne;
import jakarta.persistence.PrePersist;
import jakarta.persistence.Table;
import jakarta.persistence.Version;
import java.io.Serializable;
import java.util.ArrayList;
import java.util.List;
import java.util.function.Function;
import org.junit.jupiter.api.AfterEach;
import org.junit.jupiter.api.BeforeEach;
import org.junit.jupiter.api.Test;

/** Keys that are those of others, which are made by the same cascade (chapters 2.4.1 and 3.2.2). */
class DerivedKeysTest {
    @Entity
    static class Buyer {
        @Id @GeneratedValue Long id;
        @OneToMany(mappedBy = "buyer", cascade = CascadeType.ALL) List<Order> orders = new ArrayList<>();
    }

    @Entity @Table(name = "orders")
    static class Order {
        @Id @GeneratedValue long id;
        @Version int version;
        int persisted;
        String name;
        @ManyToOne Buyer buyer;
        @OneToMany(mappedBy = "order", cascade = CascadeType.ALL, orphanRemoval = true) List<Line> lines = new ArrayList<>();
        @OneToOne(mappedBy = "order", cascade = CascadeType.ALL) Parcel parcel;

        Order() {}

        Order(String name, int lines) {
            this.name = name;
            for (int i = 1; i <= lines; i++) {
                this.lines.add(new Line(this, i));
            }
        }

        @PrePersist
        void isPersisted() {
            persisted++;
        }
    }

    static class LineKey implements Serializable {
        long order;
        int number;

        LineKey() {}

        LineKey(long order, int number) {
            this.order = order;
            this.number = number;
        }

        @Override
        public boolean equals(Object other) {
            return other instanceof LineKey key && key.order == order && key.number == number;
        }

        @Override
        public int hashCode() {
            return Long.hashCode(order) + number;
        }
    }

    @Entity @IdClass(LineKey.class)
    static class Line {
        @Id @ManyToOne(cascade = CascadeType.PERSIST) Order order;
        @Id int number;
        @OneToMany(mappedBy = "line", cascade = CascadeType.ALL) List<Note> notes = new ArrayList<>();

        Line() {}

        Line(Order order, int number) {
            this.order = order;
            this.number = number;
        }
    }

    @Entity
    static class Parcel {
        @Id Long id;
        @MapsId @OneToOne Order order;
        String text;

        Parcel() {}

        Parcel(Order order, String text) {
            this.order = order;
            this.text = text;
            order.parcel = this;
        }
    }

    @Entity
    static class Note {
        @EmbeddedId NoteId id = new NoteId();
        @MapsId("parcel") @ManyToOne Parcel parcel;
        @ManyToOne Line line;

        Note() {}

        Note(Parcel parcel, Line line, int place) {
            this.parcel = parcel;
            this.line = line;
            id.place = place;
            line.notes.add(this);
        }
    }

    @Embeddable
    static class NoteId implements Serializable {
        long parcel;
        int place;

        @Override
        public boolean equals(Object other) {
            return other instanceof NoteId id && id.parcel == parcel && id.place == place;
        }

        @Override
        public int hashCode() {
            return Long.hashCode(parcel) + place;
        }
    }

    private Factory factory;

    @BeforeEach
    void open() {
        factory = Units.over("karzhoul:memory", Buyer.class, Order.class, Line.class, Parcel.class, Note.class);
        committed(manager -> {
            manager.persist(new Order("before", 0));        // so that keys and numbers of objects aren't alike by chance
            manager.persist(new Order("before", 0));
            return null;
        });
    }

    @AfterEach
    void close() {
        factory.close();
    }

    private <R> R committed(Function<EntityManager, R> work) {
        try (EntityManager manager = factory.createEntityManager()) {
            manager.getTransaction().begin();
            R result = work.apply(manager);
            manager.getTransaction().commit();
            return result;
        }
    }

    /** Of an order by its name: its key, and those of its lines, as rows have them. */
    private List<Object> stored(String name) {
        return committed(manager -> {
            Order order = manager.createQuery("SELECT o FROM Order o WHERE o.name = :name", Order.class)
                .setParameter("name", name).getSingleResult();
            List<Object> told = new ArrayList<>(List.of(order.persisted));
            for (Line line : order.lines) {
                assertEquals(order, line.order);
                assertEquals(line, manager.find(Line.class, new LineKey(order.id, line.number)));
                told.add("line " + line.number + " of " + line.notes.size() + " notes");
            }
            if (order.parcel != null) {
                assertEquals(order.parcel, manager.find(Parcel.class, order.id));
                told.add(order.parcel.text);
            }
            return told;
        });
    }

    @Test
    void persistOfAnOrderGivesItsLinesTheirKeys() {
        Order order = new Order("persisted", 2);
        new Parcel(order, "small");
        new Note(order.parcel, order.lines.get(1), 7);
        committed(manager -> {
            manager.persist(order);
            assertEquals(3, order.id);
            assertEquals(3, order.parcel.id);
            assertEquals(3, order.lines.get(1).notes.get(0).id.parcel);
            assertTrue(manager.contains(order.lines.get(0)));
            return null;
        });
        assertEquals(List.of(1, "line 1 of 0 notes", "line 2 of 1 notes", "small"), stored("persisted"));
    }

    @Test
    void persistOfALineGoesToItsOrderAndToTheOthers() {
        Order order = new Order("by its line", 3);
        committed(manager -> {
            manager.persist(order.lines.get(1));
            return null;
        });
        assertEquals(List.of(1, "line 1 of 0 notes", "line 2 of 0 notes", "line 3 of 0 notes"), stored("by its line"));
    }

    @Test
    void aFlushThatReachesAnOrderGivesItsLinesTheirKeys() {
        Buyer buyer = committed(manager -> {
            Buyer made = new Buyer();
            manager.persist(made);
            return made;
        });
        committed(manager -> {
            Buyer found = manager.find(Buyer.class, buyer.id);
            Order order = new Order("flushed", 2);
            order.buyer = found;
            new Parcel(order, "heavy");
            found.orders.add(order);
            return null;
        });
        assertEquals(List.of(1, "line 1 of 0 notes", "line 2 of 0 notes", "heavy"), stored("flushed"));
        int orders = committed(manager -> manager.find(Buyer.class, buyer.id).orders.size());
        assertEquals(1, orders);
    }

    @Test
    void mergeOfAnOrderThatIsThereGivesNewLinesTheirKeys() {
        Order order = new Order("grown", 1);
        committed(manager -> {
            manager.persist(order);
            return null;
        });
        order.lines.add(new Line(order, 2));
        committed(manager -> manager.merge(order));
        assertEquals(List.of(1, "line 1 of 0 notes", "line 2 of 0 notes"), stored("grown"));
    }

    @Test
    void anOrderThatWasRolledBackGetsAnotherKeyAndSoDoItsLines() {
        Order order = new Order("again", 2);
        try (EntityManager manager = factory.createEntityManager()) {
            manager.getTransaction().begin();
            manager.persist(order);
            manager.flush();
            manager.getTransaction().rollback();
        }
        long before = order.id;
        committed(manager -> {
            manager.persist(new Order("between", 0));
            return null;
        });
        committed(manager -> {
            manager.persist(order);
            return null;
        });
        assertNotEquals(before, order.id);
        assertEquals(List.of(2, "line 1 of 0 notes", "line 2 of 0 notes"), stored("again"));
        Object ofOthers = committed(manager -> manager.createQuery("SELECT COUNT(l) FROM Line l WHERE l.order.id <> :id")
            .setParameter("id", order.id).getSingleResult());
        assertEquals(0L, ofOthers);
    }

    @Test
    void whatTheCascadeDoesNotReachHasNoKeyToGive() {
        Order order = new Order("unreached", 0);
        Parcel parcel = new Parcel(order, "lost");
        try (EntityManager manager = factory.createEntityManager()) {
            manager.getTransaction().begin();
            IllegalStateException told = assertThrows(IllegalStateException.class, () -> manager.persist(parcel));
            assertEquals("the key of a new Parcel is that of its order, which has none yet: persist it first", told.getMessage());
            manager.getTransaction().rollback();
        }
    }

    @Test
    void aPersistThatIsRefusedLeavesNothing() {
        Order order = new Order("refused", 1);
        order.lines.add(new Line(null, 2));
        try (EntityManager manager = factory.createEntityManager()) {
            assertThrows(RuntimeException.class, () -> manager.persist(order));
            assertEquals(List.of(false, false), List.of(manager.contains(order), manager.contains(order.lines.get(0))));
            order.lines.remove(1);
            manager.getTransaction().begin();
            manager.persist(order);
            manager.getTransaction().commit();
        }
        assertEquals(List.of(2, "line 1 of 0 notes"), stored("refused"));
    }

    @Test
    void mergeOfANewOrderGivesItsLinesTheirKeys() {
        Order order = new Order("merged", 2);
        new Parcel(order, "small");
        new Note(order.parcel, order.lines.get(1), 7);
        committed(manager -> {
            Order merged = manager.merge(order);
            assertEquals(3, merged.id);
            assertEquals(3, merged.parcel.id);
            assertEquals(3, merged.lines.get(1).notes.get(0).id.parcel);
            assertEquals(7, merged.lines.get(1).notes.get(0).id.place);
            assertEquals(merged, merged.lines.get(0).order);
            assertEquals(List.of(false, true), List.of(manager.contains(order.lines.get(0)), manager.contains(merged.lines.get(0))));
            return null;
        });
        assertEquals(0, order.id);          // what was merged is as it was
        assertEquals(List.of(1, "line 1 of 0 notes", "line 2 of 1 notes", "small"), stored("merged"));
    }

    @Test
    void mergeOfAnOrderThatWasRolledBackGivesItsLinesItsNewKey() {
        Order order = new Order("again", 2);
        new Parcel(order, "old");
        try (EntityManager manager = factory.createEntityManager()) {
            manager.getTransaction().begin();
            manager.persist(order);
            manager.flush();
            manager.getTransaction().rollback();
        }
        assertEquals(List.of(3L, 3L), List.of(order.id, order.parcel.id));
        Order between = new Order("between", 0);
        new Parcel(between, "of another");
        committed(manager -> {
            manager.persist(between);
            manager.persist(new Order("after", 0));
            return null;
        });
        committed(manager -> manager.merge(order));
        assertEquals(List.of(1, "of another"), stored("between"));
        assertEquals(List.of(2, "line 1 of 0 notes", "line 2 of 0 notes", "old"), stored("again"));
    }

    @Test
    void mergeOfAChildWhosePartIsAPrimitiveGivesItTheKeyOfItsParent() {
        Order order = new Order("noted", 1);
        new Parcel(order, "small");
        committed(manager -> {
            manager.persist(order);
            return null;
        });
        Note note = new Note();
        note.id.place = 5;
        note.parcel = order.parcel;
        note.line = order.lines.get(0);
        committed(manager -> {
            Note merged = manager.merge(note);
            assertEquals(List.of(order.id, 5), List.of(merged.id.parcel, merged.id.place));
            return null;
        });
        assertEquals(List.of(1, "line 1 of 1 notes", "small"), stored("noted"));
    }

    @Test
    void aMergeThatIsRefusedLeavesNothing() {
        Order order = new Order("refused", 1);
        order.lines.add(new Line(null, 2));
        try (EntityManager manager = factory.createEntityManager()) {
            assertThrows(RuntimeException.class, () -> manager.merge(order));
            manager.getTransaction().begin();
            manager.getTransaction().commit();
        }
        Object orders = committed(manager -> manager.createQuery("SELECT COUNT(o) FROM Order o").getSingleResult());
        assertEquals(2L, orders);
    }
}
