package karzhoul.jpa.context;

import static org.junit.jupiter.api.Assertions.assertEquals;
import static org.junit.jupiter.api.Assertions.assertInstanceOf;
import static org.junit.jupiter.api.Assertions.assertNull;
import static org.junit.jupiter.api.Assertions.assertThrows;

import jakarta.persistence.CascadeType;
import jakarta.persistence.Column;
import jakarta.persistence.ElementCollection;
import jakarta.persistence.Entity;
import jakarta.persistence.EntityManager;
import jakarta.persistence.GeneratedValue;
import jakarta.persistence.GenerationType;
import jakarta.persistence.Id;
import jakarta.persistence.ManyToOne;
import jakarta.persistence.OneToMany;
import jakarta.persistence.PersistenceException;
import jakarta.persistence.PrePersist;
import jakarta.persistence.PreUpdate;
import jakarta.persistence.RollbackException;
import jakarta.persistence.Transient;
import jakarta.persistence.Version;
import java.math.BigDecimal;
import java.math.RoundingMode;
import java.util.ArrayList;
import java.util.List;
import org.junit.jupiter.api.AfterEach;
import org.junit.jupiter.api.BeforeEach;
import org.junit.jupiter.api.Test;

/** PrePersist and PreUpdate run first, and what stands after them is judged (chapter 3.5). */
class CallbacksFirstTest {
    private static final String LONG = "x".repeat(70_000);

    @Entity
    static class Bill {
        @Id @GeneratedValue Long id;
        @Version int version;
        @Column(scale = 2) BigDecimal amount;
        @Column(nullable = false) String title;
        @OneToMany(cascade = CascadeType.ALL, mappedBy = "bill") List<Line> lines = new ArrayList<>();
        @ElementCollection List<String> words = new ArrayList<>();
        @OneToMany(cascade = CascadeType.ALL, orphanRemoval = true, mappedBy = "bill") List<Note> notes = new ArrayList<>();
        @OneToMany(cascade = CascadeType.ALL, orphanRemoval = true) List<Note> joined = new ArrayList<>();
        @Transient int heard;
        @Transient boolean isLeft;
        @Transient Plain also;
        @Transient Bill other;

        static Bill of(String amount) {
            Bill bill = new Bill();
            bill.amount = new BigDecimal(amount);
            return bill;
        }

        Line add(long id, String amount) {
            Line line = new Line();
            line.id = id;
            line.amount = new BigDecimal(amount);
            line.bill = this;
            lines.add(line);
            return line;
        }

        @PrePersist
        @PreUpdate
        void mend() {
            heard++;
            amount = isLeft ? amount : amount.setScale(2, RoundingMode.DOWN);
            title = title == null ? "untitled" : title;
            words.removeIf(LONG::equals);
            if (also != null) {
                also.amount = new BigDecimal("9.00");
            }
            if (other != null) {
                other.amount = new BigDecimal("7.777");
            }
        }
    }

    @Entity
    static class Line {
        @Id Long id;
        @Column(scale = 2) BigDecimal amount;
        @ManyToOne Bill bill;
        @Transient int heard;

        @PrePersist
        void mend() {
            heard++;
            amount = amount.setScale(2, RoundingMode.DOWN);
        }
    }

    @Entity
    static class Note {
        @Id Long id;
        @ManyToOne Bill bill;
        @Column(scale = 2) BigDecimal amount;
        @ElementCollection List<String> words = new ArrayList<>();
        @Transient int heard;

        @PreUpdate
        void hear() {
            heard++;
        }
    }

    @Entity
    static class Named {
        @Id @GeneratedValue(strategy = GenerationType.UUID) String id;
        @Column(scale = 2) BigDecimal amount;

        @PrePersist
        void mend() {
            amount = amount.setScale(2, RoundingMode.DOWN);
        }
    }

    @Entity
    static class Plain {
        @Id Long id;
        @Column(scale = 2) BigDecimal amount;
    }

    private Factory factory;
    private EntityManager manager;

    @BeforeEach
    void open() {
        factory = Units.over("karzhoul:memory", Bill.class, Line.class, Named.class, Note.class, Plain.class);
        manager = factory.createEntityManager();
        Plain plain = new Plain();
        plain.id = 1L;
        commit(() -> {
            manager.persist(Bill.of("1.00"));
            manager.persist(plain);
        });
        manager.clear();
    }

    @AfterEach
    void close() {
        if (manager.getTransaction().isActive()) {
            manager.getTransaction().rollback();
        }
        factory.close();
    }

    private void commit(Runnable done) {
        manager.getTransaction().begin();
        done.run();
        manager.getTransaction().commit();
    }

    private String refused(Runnable done) {
        RollbackException refused = assertThrows(RollbackException.class, () -> commit(done));
        return assertInstanceOf(PersistenceException.class, refused.getCause()).getMessage();
    }

    private Bill stored() {
        manager.clear();
        Bill bill = manager.find(Bill.class, 1L);
        bill.lines.size();
        bill.words.size();
        return bill;
    }

    @Test
    void aManagedChange() {
        Bill bill = stored();
        commit(() -> bill.amount = new BigDecimal("2.005"));
        assertEquals(new BigDecimal("2.00"), bill.amount);
        assertEquals(1, bill.heard);
        Bill stored = stored();
        assertEquals(new BigDecimal("2.00"), stored.amount);
        assertEquals(1, stored.version);
    }

    @Test
    void aManagedChangeAtAFlush() {
        Bill bill = stored();
        commit(() -> {
            bill.amount = new BigDecimal("2.005");
            manager.flush();
            assertEquals(1, bill.heard);
            bill.amount = new BigDecimal("3.005");
            manager.flush();
            assertEquals(2, bill.heard);
            bill.title = "other";
        });
        assertEquals(3, bill.heard);
        assertEquals(new BigDecimal("3.00"), stored().amount);
    }

    @Test
    void aNullWhereNoneMayBe() {
        commit(() -> stored().title = null);
        assertEquals("untitled", stored().title);
        commit(() -> manager.merge(Bill.of("1")));
        assertEquals("untitled", manager.find(Bill.class, 2L).title);
    }

    @Test
    void aChangeThatIsTakenBackIsNone() {
        Bill bill = stored();
        commit(() -> {
            bill.amount = new BigDecimal("1.005");
            manager.flush();
            assertEquals(1, bill.heard);
            bill.amount = new BigDecimal("2.00");
            manager.flush();
            assertEquals(2, bill.heard, "of another change it hears again");
        });
        assertEquals(1, stored().version);
    }

    @Test
    void whatIsLeftIsRefused() {
        String words = refused(() -> {
            Bill bill = stored();
            bill.isLeft = true;
            bill.amount = new BigDecimal("2.005");
        });
        assertEquals("Bill 1.amount can't be stored: 2.005 can't be kept: there are 2 digits behind the point, and 64 bits for all;"
            + " @Column(precision, scale) says how many", words);
        assertEquals(new BigDecimal("1.00"), stored().amount);
        assertEquals("Plain 1.amount can't be stored: 2.005", refused(() ->
            manager.find(Plain.class, 1L).amount = new BigDecimal("2.005")).substring(0, 37));
    }

    @Test
    void aCallbackOfAnotherOneMendsIt() {
        commit(() -> {
            Bill bill = stored();
            bill.also = manager.find(Plain.class, 1L);
            bill.also.amount = new BigDecimal("2.005");
            bill.title = "other";
        });
        assertEquals(new BigDecimal("9.00"), manager.find(Plain.class, 1L).amount);
    }

    @Test
    void whatAFlushReaches() {
        List<Line> added = new ArrayList<>();
        commit(() -> added.add(stored().add(1, "2.005")));
        assertEquals(1, added.get(0).heard);
        assertEquals(new BigDecimal("2.00"), stored().lines.get(0).amount);
    }

    @Test
    void anElement() {
        commit(() -> stored().words.addAll(List.of("a", LONG)));
        assertEquals(List.of("a"), stored().words);
        assertEquals("Bill 1.words can't be stored", refused(() -> {
            Bill bill = stored();
            bill.words.add(LONG + "y");
        }).substring(0, 28));
    }

    @Test
    void aMergeOfWhatIsThere() {
        for (boolean isRead : new boolean[] {true, false}) {
            manager.clear();
            Bill bill = isRead ? stored() : manager.find(Bill.class, 1L);
            manager.clear();
            bill.amount = new BigDecimal(isRead ? "2.005" : "3.005");
            commit(() -> assertEquals(bill.amount, manager.merge(bill).amount));
            Bill stored = stored();
            assertEquals(new BigDecimal(isRead ? "2.00" : "3.00"), stored.amount);
            assertEquals(isRead ? 1 : 2, stored.version);
        }
    }

    @Test
    void whatIsManagedKeepsItsOwnBesideAMerge() {
        Bill bill = stored();
        Line line = new Line();
        line.id = 8L;
        line.amount = BigDecimal.ONE;
        line.bill = bill;
        commit(() -> {
            bill.amount = new BigDecimal("2.005");
            bill.add(9, "1.00");
            manager.merge(bill);
            assertEquals(new BigDecimal("2.005"), bill.amount);
            manager.merge(line);
        });
        assertEquals(new BigDecimal("2.00"), stored().amount);
    }

    @Test
    void aMergeThatStaysUnfitIsRefused() {
        Bill bill = stored();
        manager.clear();
        bill.amount = new BigDecimal("2.005");
        String words = refused(() -> manager.merge(bill).isLeft = true);
        assertEquals("Bill 1.amount can't be stored: 2.005", words.substring(0, 36));
    }

    @Test
    void aMergeOfWhatIsNew() {
        Bill bill = Bill.of("2.005");
        bill.add(5, "3.005");
        Named named = new Named();
        named.amount = new BigDecimal("4.005");
        commit(() -> {
            assertEquals(new BigDecimal("2.00"), manager.merge(bill).amount);
            assertEquals(new BigDecimal("4.00"), manager.merge(named).amount);
        });
        manager.clear();
        Bill stored = manager.find(Bill.class, 2L);
        assertEquals(new BigDecimal("2.00"), stored.amount);
        assertEquals(new BigDecimal("3.00"), stored.lines.get(0).amount);
        assertEquals(new BigDecimal("4.00"),
            manager.createQuery("SELECT n.amount FROM Named n", BigDecimal.class).getSingleResult());
        assertEquals(0, bill.heard, "the source hears nothing");
    }

    @Test
    void persistCallsThemFirstAsBefore() {
        commit(() -> manager.persist(Bill.of("2.005")));
        assertEquals(new BigDecimal("2.00"), manager.find(Bill.class, 2L).amount);
    }

    @Test
    void whatIsRemovedIsNotJudged() {
        commit(() -> {
            stored().add(1, "1.00");
            manager.persist(Bill.of("1.00"));
            manager.persist(Bill.of("1.00"));
        });
        commit(() -> {
            Bill bill = stored();
            bill.amount = new BigDecimal("2.005");
            bill.lines.get(0).amount = new BigDecimal("2.005");
            manager.remove(bill);
            manager.flush();
            Bill second = manager.find(Bill.class, 2L);
            manager.remove(second);
            second.isLeft = true;
            second.amount = new BigDecimal("2.005");
            second.title = null;
            Bill third = Bill.of("2.005");
            third.id = 3L;
            third.title = "third";
            manager.remove(manager.merge(third));
            Plain plain = manager.find(Plain.class, 1L);
            plain.amount = new BigDecimal("2.005");
            manager.remove(plain);
        });
        manager.clear();
        assertEquals(List.of(), manager.createQuery("SELECT b FROM Bill b", Bill.class).getResultList());
        assertEquals(List.of(), manager.createQuery("SELECT l FROM Line l", Line.class).getResultList());
        assertEquals(List.of(), manager.createQuery("SELECT p FROM Plain p", Plain.class).getResultList());
    }

    private Note note(long id) {
        Note note = new Note();
        note.id = id;
        note.bill = stored();
        note.words.add("a");
        return note;
    }

    @Test
    void anOrphanIsNotJudged() {
        for (boolean isJoined : new boolean[] {false, true}) {
            for (boolean isFlushed : new boolean[] {true, false}) {
                commit(() -> {
                    Note note = note(1);
                    manager.persist(note);
                    (isJoined ? note.bill.joined : note.bill.notes).add(note);
                });
                Bill bill = stored();
                List<Note> notes = isJoined ? bill.joined : bill.notes;
                Note note = notes.get(0);
                commit(() -> {
                    notes.clear();
                    note.amount = new BigDecimal("2.005");
                    note.words.add(LONG);
                    if (isFlushed) {
                        manager.flush();
                    }
                });
                assertEquals(0, note.heard, "it isn't updated");
                assertNull(manager.find(Note.class, 1L));
                assertEquals(List.of(), stored().notes);
            }
        }
        assertEquals(0, Units.rowsOfElements(factory));
    }

    @Test
    void whatIsNoOrphanIsJudgedBesideOne() {
        commit(() -> {
            Note note = note(1);
            note.bill.notes.add(note);
        });
        String words = refused(() -> {
            Bill bill = stored();
            Note note = bill.notes.remove(0);
            note.amount = new BigDecimal("2.005");
            bill.isLeft = true;
            bill.amount = new BigDecimal("3.005");
        });
        assertEquals("Bill 1.amount can't be stored: 3.005", words.substring(0, 36));
        assertEquals(1, stored().notes.size());
    }

    @Test
    void elementsOfWhatIsRemovedAreNotJudged() {
        commit(() -> manager.persist(note(1)));
        commit(() -> {
            Note note = manager.find(Note.class, 1L);
            note.words.add(LONG);
            manager.remove(note);
        });
        assertNull(manager.find(Note.class, 1L));
        assertEquals(0, Units.rowsOfElements(factory));
    }

    @Test
    void whatIsRemovedBesideAnUnreadList() {
        commit(() -> stored().add(1, "1.00"));
        manager.clear();
        commit(() -> {
            manager.find(Bill.class, 1L);
            Line line = manager.find(Line.class, 1L);
            line.amount = new BigDecimal("2.005");
            manager.remove(line);
        });
        manager.clear();
        assertNull(manager.find(Line.class, 1L));
    }

    @Test
    void whatIsRemovedAndLedToIsJudged() {
        commit(() -> stored().add(1, "1.00"));
        String words = refused(() -> {
            Line line = stored().lines.get(0);
            manager.remove(line);
            line.amount = new BigDecimal("2.005");
        });
        assertEquals("Line 1.amount can't be stored: 2.005", words.substring(0, 36));
    }

    @Test
    void whoIsGivenAValueByACallbackOfAnotherOneHearsItsOwn() {
        commit(() -> manager.persist(Bill.of("1.00")));
        for (boolean isRead : new boolean[] {true, false}) {
            Bill bill = stored();
            Bill other = isRead ? manager.find(Bill.class, 2L) : manager.getReference(Bill.class, 2L);
            commit(() -> {
                bill.other = other;
                bill.title = "with " + isRead;
            });
            assertEquals(1, other.heard);
            manager.clear();
            assertEquals(new BigDecimal("7.77"), manager.find(Bill.class, 2L).amount);
            commit(() -> manager.find(Bill.class, 2L).amount = BigDecimal.ONE);
        }
    }
}
