package karzhoul.jpa.context;

import static org.junit.jupiter.api.Assertions.assertEquals;
import static org.junit.jupiter.api.Assertions.assertNotNull;
import static org.junit.jupiter.api.Assertions.assertNull;
import static org.junit.jupiter.api.Assertions.assertThrows;
import static org.junit.jupiter.api.Assertions.assertTrue;

import jakarta.persistence.CollectionTable;
import jakarta.persistence.Column;
import jakarta.persistence.ElementCollection;
import jakarta.persistence.Embeddable;
import jakarta.persistence.EmbeddedId;
import jakarta.persistence.Entity;
import jakarta.persistence.EntityManager;
import jakarta.persistence.Id;
import jakarta.persistence.Index;
import jakarta.persistence.JoinColumn;
import jakarta.persistence.JoinTable;
import jakarta.persistence.ManyToMany;
import jakarta.persistence.ManyToOne;
import jakarta.persistence.PersistenceException;
import jakarta.persistence.RollbackException;
import jakarta.persistence.SecondaryTable;
import jakarta.persistence.Table;
import jakarta.persistence.UniqueConstraint;
import java.util.ArrayList;
import java.util.HashSet;
import java.util.List;
import java.util.Set;
import java.util.concurrent.ExecutorService;
import java.util.concurrent.Executors;
import java.util.concurrent.TimeUnit;
import java.util.concurrent.atomic.AtomicInteger;
import java.util.function.Consumer;
import karzhoul.jpa.context.Login.Desk;
import karzhoul.jpa.context.Login.Guest;
import karzhoul.jpa.context.Login.Hall;
import karzhoul.jpa.context.Login.Home;
import karzhoul.jpa.model.Unique;
import org.junit.jupiter.api.AfterEach;
import org.junit.jupiter.api.BeforeEach;
import org.junit.jupiter.api.Test;

/** Values that no two objects have alike (chapters 11.1.9 and 11.1.54). */
class UniqueTest {
    private Factory factory;

    @BeforeEach
    void open() {
        factory = Units.over("karzhoul:memory", Login.class, Guest.class, Hall.class, Desk.class);
    }

    @AfterEach
    void close() {
        factory.close();
    }

    private void commit(Consumer<EntityManager> done) {
        try (EntityManager manager = factory.createEntityManager()) {
            manager.getTransaction().begin();
            done.accept(manager);
            manager.getTransaction().commit();
        }
    }

    private void store(Object... all) {
        commit(manager -> List.of(all).forEach(manager::persist));
    }

    /** What a commit says that is refused for a unique value. */
    private String refused(Consumer<EntityManager> done) {
        RollbackException refused = assertThrows(RollbackException.class, () -> commit(done));
        assertEquals(PersistenceException.class, refused.getCause().getClass(), () -> refused.toString());
        return refused.getCause().getMessage();
    }

    private Login named(EntityManager manager, String name) {
        return manager.createQuery("SELECT l FROM Login l WHERE l.name = :name", Login.class)
                .setParameter("name", name).getSingleResult();
    }

    /** How many rows there are of unique values: one for each that an object has. */
    private long rows() {
        Context context = new Context(factory);
        long rows = context.within(() -> {
            long sum = 0;
            for (Unique unique : factory.unit().uniques()) {
                int from = context.queue().count();
                String text = "SELECT COUNT(u) FROM " + unique.mappedName() + " u";
                context.queue().statement("query", context.manager(), text, List.of(), null, null);
                sum += (Long) context.ask(from)[0].list().get(0);
            }
            return sum;
        });
        context.close();
        return rows;
    }

    @Test
    void twoInOneFlush() {
        String words = refused(manager -> {
            manager.persist(new Login("ada"));
            manager.persist(new Login("ada"));
        });
        assertEquals("Persistence(unique), Login 1: it would have the name ada of Login 2, and that is unique", words);
        assertEquals(0, rows());
    }

    @Test
    void oneThatIsStored() {
        store(new Login("ada"), new Login("bob"));
        assertEquals("Persistence(unique), Login 3: it would have the name bob of Login 2, and that is unique",
                refused(manager -> manager.persist(new Login("bob"))));
        assertEquals("Persistence(unique), Login 1: it would have the name bob of Login 2, and that is unique",
                refused(manager -> named(manager, "ada").name = "bob"));
        commit(manager -> assertNotNull(named(manager, "ada")));
    }

    @Test
    void aFlushFindsIt() {
        store(new Login("ada"));
        try (EntityManager manager = factory.createEntityManager()) {
            manager.getTransaction().begin();
            manager.persist(new Login("ada"));
            assertThrows(PersistenceException.class, manager::flush);
            assertTrue(manager.getTransaction().getRollbackOnly());
            manager.getTransaction().rollback();
        }
    }

    @Test
    void twoTransactionsThatTakeOneValueMeetAtTheCommit() {
        store(new Login("eve"));
        try (EntityManager first = factory.createEntityManager(); EntityManager second = factory.createEntityManager()) {
            first.getTransaction().begin();
            second.getTransaction().begin();
            first.persist(new Login("ada"));
            named(second, "eve").name = "ada";
            second.flush();
            first.getTransaction().commit();
            RollbackException lost = assertThrows(RollbackException.class, () -> second.getTransaction().commit());
            assertEquals("Persistence(unique), Login 1: it would have the name ada of Login 2, and that is unique",
                    lost.getCause().getMessage());
        }
        commit(manager -> assertEquals("eve", manager.find(Login.class, 1L).name));
        assertEquals(2, rows());
    }

    @Test
    void nullsAreNeverEqual() {
        Hall hall = new Hall("north");
        store(hall);
        commit(manager -> {
            Hall there = manager.find(Hall.class, hall.id);
            for (int i = 0; i < 3; i++) {
                manager.persist(new Login());
                manager.persist(new Login(there, null));
                manager.persist(new Login(null, 7));
            }
        });
        assertEquals(0, rows());
    }

    @Test
    void theyMoveAndSwapInOneFlush() {
        store(new Login("ada"), new Login("bob"), new Login("cyd"), new Login());
        commit(manager -> {
            Login ada = named(manager, "ada");
            Login bob = named(manager, "bob");
            ada.name = "bob";
            bob.name = "ada";
            Login cyd = named(manager, "cyd");
            manager.find(Login.class, 4L).name = "cyd";
            cyd.name = null;
        });
        commit(manager -> {
            assertEquals("bob", manager.find(Login.class, 1L).name);
            assertEquals("ada", manager.find(Login.class, 2L).name);
            assertEquals("cyd", manager.find(Login.class, 4L).name);
        });
        assertEquals(3, rows());
        assertEquals("Persistence(unique), Login 3: it would have the name cyd of Login 4, and that is unique",
                refused(manager -> manager.find(Login.class, 3L).name = "cyd"));
    }

    @Test
    void removedAndInsertedInOneFlush() {
        store(new Login("ada"));
        commit(manager -> {
            manager.persist(new Login("ada"));
            manager.remove(manager.find(Login.class, 1L));
        });
        commit(manager -> assertEquals(2L, named(manager, "ada").id));
        assertEquals(1, rows());
    }

    @Test
    void forthAndBackOverSeveralFlushes() {
        store(new Login("ada"), new Login("bob"));
        commit(manager -> {
            Login ada = named(manager, "ada");
            Login bob = named(manager, "bob");
            for (String name : List.of("x", "ada", "y", "x", "ada")) {
                ada.name = name;
                manager.flush();
            }
            ada.name = null;
            manager.flush();
            bob.name = "ada";
            manager.flush();
            manager.clear();
            named(manager, "ada").name = "x";
            manager.find(Login.class, 1L).name = "bob";
        });
        commit(manager -> {
            assertEquals("bob", manager.find(Login.class, 1L).name);
            assertEquals("x", manager.find(Login.class, 2L).name);
        });
        assertEquals(2, rows());
    }

    @Test
    void anEntityManagerThatLivesOnSeesWhoCommittedMeanwhile() {
        try (EntityManager manager = factory.createEntityManager()) {
            manager.getTransaction().begin();
            Login ada = new Login("ada");
            manager.persist(ada);
            manager.getTransaction().commit();
            manager.getTransaction().begin();
            ada.name = "x";
            manager.getTransaction().commit();
            store(new Login("ada"));
            manager.getTransaction().begin();
            ada.name = "ada";
            RollbackException refused = assertThrows(RollbackException.class, () -> manager.getTransaction().commit());
            assertTrue(refused.getCause().getMessage().contains("ada of Login 2"), refused.toString());
        }
        commit(manager -> manager.remove(manager.find(Login.class, 2L)));
        commit(manager -> manager.find(Login.class, 1L).name = "ada");
    }

    @Test
    void whatGoesWithAnotherFreesItsValue() {
        Hall hall = new Hall("north");
        hall.desks.addAll(List.of(new Desk(hall, "a"), new Desk(hall, "b"), new Desk(hall, "c")));
        store(hall);
        assertEquals(3, rows());
        commit(manager -> manager.find(Hall.class, hall.id).desks.remove(0));
        assertEquals(2, rows());
        commit(manager -> manager.remove(manager.find(Hall.class, hall.id)));
        assertEquals(0, rows());
        Hall other = new Hall("south");
        other.desks.addAll(List.of(new Desk(other, "a"), new Desk(other, "b"), new Desk(other, "c")));
        store(other);
    }

    @Test
    void aMergeTakesThem() {
        store(new Login("ada"), new Login("bob"));
        Login[] detached = new Login[1];
        commit(manager -> detached[0] = named(manager, "bob"));
        detached[0].name = "ada";
        assertEquals("Persistence(unique), Login 2: it would have the name ada of Login 1, and that is unique",
                refused(manager -> manager.merge(detached[0])));
        detached[0].name = "cyd";
        commit(manager -> manager.merge(detached[0]));
        store(new Login("bob"));
        assertEquals(3, rows());
        assertEquals("Persistence(unique), Login 4: it would have the name cyd of Login 2, and that is unique",
                refused(manager -> manager.merge(new Login("cyd"))));
    }

    @Test
    void severalColumnsAndARelation() {
        Hall north = new Hall("north");
        store(north, new Login(north, 1));
        commit(manager -> {
            Hall there = manager.find(Hall.class, north.id);
            manager.persist(new Login(there, 2));
            Hall made = new Hall("made by the cascade of the flush");
            manager.persist(new Login(made, 1));
            manager.persist(new Login(made, 2));
        });
        assertEquals("Persistence(unique), Login 5: it would have the hall 1 and the seat 2 of Login 2, and they are "
                + "unique together", refused(manager -> manager.persist(new Login(manager.find(Hall.class, north.id), 2))));
        commit(manager -> {
            Login one = manager.find(Login.class, 1L);
            Login two = manager.find(Login.class, 2L);
            one.seat = 2;
            two.seat = 1;
        });
        assertEquals(4, rows());
        Login housed = new Login();
        housed.home = new Home("Mill Lane", 3);
        Login neighbour = new Login();
        neighbour.home = new Home("Mill Lane", 4);
        store(housed, neighbour);
        assertTrue(refused(manager -> manager.find(Login.class, neighbour.id).home.house = 3).contains(
                "it would have the home.house 3 and the home.street Mill Lane of Login " + housed.id));
    }

    @Test
    void aJoinColumnAlone() {
        Login ada = new Login("ada");
        store(ada);
        commit(manager -> {
            Desk desk = new Desk(null, "a");
            desk.login = manager.find(Login.class, ada.id);
            manager.persist(desk);
            manager.persist(new Desk(null, "b"));
        });
        assertEquals("Persistence(unique), Desk 2: it would have the login 1 of Desk 1, and that is unique",
                refused(manager -> manager.find(Desk.class, 2L).login = manager.getReference(Login.class, ada.id)));
        commit(manager -> {
            manager.find(Desk.class, 1L).login = null;
            manager.find(Desk.class, 2L).login = manager.getReference(Login.class, ada.id);
        });
    }

    @Test
    void ofAClassBelow() {
        Guest one = new Guest();
        one.ticket = 5L;
        one.name = "one";
        Guest two = new Guest();
        two.ticket = 6L;
        store(one, two, new Login("two"));
        assertEquals("Persistence(unique), Guest 2: it would have the ticket 5 of Guest 1, and that is unique",
                refused(manager -> manager.find(Guest.class, two.id).ticket = 5L));
        assertEquals("Persistence(unique), Guest 2: it would have the name two of Login 3, and that is unique",
                refused(manager -> manager.find(Guest.class, two.id).name = "two"));
    }

    @Test
    void statementsMoveThem() {
        store(new Login("ada"), new Login("bob"), new Login("cyd"));
        commit(manager -> assertEquals(1, manager.createQuery("UPDATE Login l SET l.name = 'x' WHERE l.name = 'ada'")
                .executeUpdate()));
        store(new Login("ada"));
        assertTrue(assertThrows(PersistenceException.class, () -> commit(manager -> manager.createQuery(
                "UPDATE Login l SET l.name = 'z' WHERE l.id IN (2, 3)").executeUpdate())).getMessage()
                .contains("it would have the name z of Login 3"));
        assertTrue(assertThrows(PersistenceException.class, () -> commit(manager -> manager.createQuery(
                "UPDATE Login l SET l.name = 'x' WHERE l.id = 2").executeUpdate())).getMessage()
                .contains("Login 2: it would have the name x of Login 1"));
        commit(manager -> assertEquals(2, manager.createQuery("DELETE FROM Login l WHERE l.name IN ('x', 'bob')")
                .executeUpdate()));
        assertEquals(2, rows());
        store(new Login("x"), new Login("bob"));
        commit(manager -> manager.createQuery("UPDATE Login l SET l.name = NULL").executeUpdate());
        assertEquals(0, rows());
    }

    @Test
    void aManagedInstanceAfterAStatementOverItsRow() {
        store(new Login("ada"));
        try (EntityManager manager = factory.createEntityManager()) {
            manager.getTransaction().begin();
            Login ada = named(manager, "ada");
            manager.createQuery("UPDATE Login l SET l.name = 'x'").executeUpdate();
            manager.getTransaction().commit();
            manager.getTransaction().begin();
            manager.refresh(ada);
            ada.name = "y";
            manager.getTransaction().commit();
        }
        store(new Login("ada"), new Login("x"));
        assertTrue(refused(manager -> manager.persist(new Login("y"))).contains("of Login 1"));
    }

    @Test
    void aRollbackGivesAllBack() {
        store(new Login("ada"));
        try (EntityManager manager = factory.createEntityManager()) {
            manager.getTransaction().begin();
            named(manager, "ada").name = "x";
            manager.persist(new Login("y"));
            manager.flush();
            manager.getTransaction().rollback();
            manager.getTransaction().begin();
            manager.persist(new Login("x"));
            manager.persist(new Login("y"));
            manager.getTransaction().commit();
        }
        assertEquals(3, rows());
        refused(manager -> manager.persist(new Login("ada")));
    }

    @Test
    void noApplicationSeesTheRows() {
        store(new Login("ada"));
        assertEquals(4, factory.getMetamodel().getEntities().size());
        commit(manager -> assertEquals(1L, manager.createQuery("SELECT COUNT(o) FROM Login o").getSingleResult()));
        Unique unique = factory.unit().uniques().get(0);
        try (EntityManager manager = factory.createEntityManager()) {
            assertThrows(IllegalArgumentException.class,
                    () -> manager.createQuery("SELECT u FROM " + unique.mappedName() + " u"));
        }
    }

    @Entity
    @SecondaryTable(name = "badges", uniqueConstraints = @UniqueConstraint(columnNames = "badge"))
    static class Shelf {
        @EmbeddedId Spot spot;
        @ElementCollection @Column(unique = true) List<String> codes = new ArrayList<>();
        @Column(table = "badges") String badge;

        Shelf() {}

        Shelf(int number, String room, String badge, String... codes) {
            spot = new Spot();
            spot.number = number;
            spot.room = room;
            this.badge = badge;
            this.codes.addAll(List.of(codes));
        }
    }

    @Embeddable
    static class Spot {
        @Column(unique = true) int number;
        String room;

        @Override
        public boolean equals(Object other) {
            return other instanceof Spot spot && spot.number == number && spot.room.equals(room);
        }

        @Override
        public int hashCode() {
            return number;
        }
    }

    @Test
    void elementsPartsOfKeysAndSecondaryTables() {
        factory.close();
        factory = Units.over("karzhoul:memory", Shelf.class);
        store(new Shelf(1, "a", "x", "c1", "c2"), new Shelf(2, "a", "y", "c3"));
        assertEquals(7, rows());
        assertTrue(refused(manager -> manager.persist(new Shelf(1, "b", null))).contains("the spot.number 1 of Shelf [1, \"a\"]"));
        assertTrue(refused(manager -> manager.persist(new Shelf(3, "a", "y"))).contains("the badge y of Shelf [2, \"a\"]"));
        assertTrue(refused(manager -> manager.persist(new Shelf(3, "a", null, "c2")))
                .contains("Shelf [3, \"a\"].codes: it would have the element c2 of Shelf [1, \"a\"].codes, and that is unique"));
        commit(manager -> {
            List<Shelf> shelves = manager.createQuery("SELECT s FROM Shelf s ORDER BY s.spot.number", Shelf.class).getResultList();
            shelves.get(0).codes.set(1, "c3");
            shelves.get(1).codes.set(0, "c2");
        });
        commit(manager -> manager.createQuery("DELETE FROM Shelf s WHERE s.spot.number = 1").executeUpdate());
        assertEquals(3, rows());
        store(new Shelf(1, "b", "x", "c1", "c3"));
    }

    @Entity
    @Table(indexes = {@Index(columnList = "line DESC, side", unique = true), @Index(columnList = "side")})
    static class Rack {
        @Id int number;
        int line;
        String side;
        @ElementCollection
        @CollectionTable(name = "rack_codes", uniqueConstraints = @UniqueConstraint(columnNames = "code"))
        @Column(name = "code")
        List<String> codes = new ArrayList<>();
        @ElementCollection
        @CollectionTable(name = "rack_tags", joinColumns = @JoinColumn(name = "rack"),
            uniqueConstraints = @UniqueConstraint(columnNames = {"rack", "tag"}))
        @Column(name = "tag")
        Set<String> tags = new HashSet<>();
        @ManyToOne
        @JoinTable(name = "rack_above", joinColumns = @JoinColumn(name = "rack"), inverseJoinColumns = @JoinColumn(name = "above"),
            uniqueConstraints = {@UniqueConstraint(columnNames = "above"), @UniqueConstraint(columnNames = "rack")})
        Rack above;
        @ManyToMany
        @JoinTable(name = "rack_next", joinColumns = @JoinColumn(name = "one"), inverseJoinColumns = @JoinColumn(name = "other"),
            indexes = @Index(columnList = "other, one", unique = true))
        List<Rack> next = new ArrayList<>();

        Rack() {}

        Rack(int number, int line, String side, String... codes) {
            this.number = number;
            this.line = line;
            this.side = side;
            this.codes.addAll(List.of(codes));
            this.tags.add("tag");
        }
    }

    /** Constraints of the tables of collections and relations, and unique indexes (chapters 11.1.8, 11.1.23 and 11.1.27). */
    @Test
    void tablesOfCollectionsAndRelations() {
        factory.close();
        factory = Units.over("karzhoul:memory", Rack.class);
        Rack first = new Rack(1, 1, "left", "c1", "c2");
        Rack second = new Rack(2, 1, "right", "c3");
        second.above = first;
        second.next.addAll(List.of(first, second));
        first.next.add(first);
        store(first, second);
        assertTrue(refused(manager -> manager.persist(new Rack(3, 1, "left")))
            .contains("Rack 3: it would have the line 1 and the side left of Rack 1, and they are unique together"));
        assertTrue(refused(manager -> manager.persist(new Rack(3, 2, "left", "c2")))
            .contains("Rack 3.codes: it would have the element c2 of Rack 1.codes, and that is unique"));
        assertTrue(refused(manager -> {
            Rack third = new Rack(3, 2, "left");
            third.above = manager.find(Rack.class, 1);
            manager.persist(third);
        }).contains("Rack 3: it would have the above 1 of Rack 2, and that is unique"));
        store(new Rack(3, 2, "left", "c4"));
    }

    @Test
    void ofEightThreadsOneHasEachName() throws InterruptedException {
        AtomicInteger stored = new AtomicInteger();
        AtomicInteger refused = new AtomicInteger();
        List<String> others = new ArrayList<>();
        ExecutorService threads = Executors.newFixedThreadPool(8);
        for (int i = 0; i < 8; i++) {
            threads.execute(() -> {
                for (int k = 0; k < 40; k++) {
                    String name = "n" + k;
                    try {
                        commit(manager -> manager.persist(new Login(name)));
                        stored.incrementAndGet();
                    } catch (RollbackException e) {
                        refused.incrementAndGet();
                        if (!e.getCause().getMessage().startsWith("Persistence(unique)")) {
                            others.add(e.toString());
                        }
                    }
                }
            });
        }
        threads.shutdown();
        assertTrue(threads.awaitTermination(60, TimeUnit.SECONDS));
        assertEquals(List.of(), others);
        assertEquals(40, stored.get());
        assertEquals(280, refused.get());
        assertEquals(40, rows());
        commit(manager -> assertNull(manager.find(Guest.class, 1L)));
    }
}
