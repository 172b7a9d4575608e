package karzhoul.jpa.context;

import static org.junit.jupiter.api.Assertions.assertEquals;
import static org.junit.jupiter.api.Assertions.assertThrows;

import jakarta.persistence.EntityManager;
import jakarta.persistence.OptimisticLockException;
import jakarta.persistence.PersistenceException;
import java.util.ArrayList;
import java.util.List;
import java.util.function.BiConsumer;
import java.util.stream.Collectors;
import java.util.stream.Stream;
import karzhoul.jpa.context.Aviary.Bird;
import karzhoul.jpa.context.Aviary.Pen;
import karzhoul.jpa.context.Aviary.Sign;
import karzhoul.jpa.context.Aviary.Toy;
import org.junit.jupiter.api.BeforeEach;
import org.junit.jupiter.api.Test;
import org.junit.jupiter.params.ParameterizedTest;
import org.junit.jupiter.params.provider.Arguments;
import org.junit.jupiter.params.provider.MethodSource;

/**
 * A child that moves between two lists that remove orphans is changed (chapter 2.9). What is stored and heard is what
 * EclipseLink 2.7.11 over SQLite stores and tells, which counts versions from 1, and loses rings on the way. It removes
 * what moves between lists without cascade, or left the first one behind a flush.
 */
class OrphanMovesTest extends Tried {
    /** What one manager does to the pens 1 and 2. */
    private interface Work extends BiConsumer<OrphanMovesTest, EntityManager> {}

    private static final String HOME = "Ada v0 pen1 [seed][10][10]10";
    private static final String MOVED = "Ada v1 pen2 [seed][10][10]10";
    private static final String GONE = "";
    private static final List<String> UPDATE = List.of("PreUpdate");
    private static final String DAN = "Dan v0 cage1 [seed][11][11]11";

    @BeforeEach
    @Override
    void open() {
        factory = Aviary.open();
        manager = factory.createEntityManager();
        Pen pen = new Pen();
        pen.id = 1;
        Pen other = new Pen();
        other.id = 2;
        Bird ada = Aviary.bird(10, "Ada");
        ada.pen = pen;
        pen.birds.add(ada);
        Bird dan = Aviary.bird(11, "Dan");
        dan.cage = pen;
        pen.caged.add(dan);
        pen.toys.add(new Toy(20));
        store(pen, other, dan);
        manager = factory.createEntityManager();
        Aviary.HEARD.clear();
    }

    private Pen pen(long id) {
        return manager.find(Pen.class, id);
    }

    /** Pens that were read whole, and detached. */
    private Pen[] detached() {
        return read(other -> {
            Pen[] pens = {other.find(Pen.class, 1L), other.find(Pen.class, 2L)};
            for (Pen pen : pens) {
                pen.birds.forEach(Aviary::shown);
                pen.caged.forEach(Aviary::shown);
                pen.toys.size();
            }
            return pens;
        });
    }

    private void merge(boolean isOldFirst) {
        Pen[] pens = detached();
        Aviary.move(pens[0], pens[1]).name = "Eve";
        manager.merge(pens[isOldFirst ? 0 : 1]);
        manager.merge(pens[isOldFirst ? 1 : 0]);
    }

    private Bird ada() {
        return manager.find(Bird.class, 10L);
    }

    private static Arguments row(String what, String ada, String dan, List<String> heard, Work work) {
        return Arguments.of(what, ada, dan, heard, work);
    }

    private static Stream<Arguments> movesToAList() {
        return Stream.of(
            row("managed", MOVED, DAN, UPDATE, (it, em) -> Aviary.move(it.pen(1), it.pen(2))),
            row("changed behind a flush", "Eve v2 pen2 [seed][10][10]10", DAN, List.of("PreUpdate", "PreUpdate"), (it, em) -> {
                Bird ada = Aviary.move(it.pen(1), it.pen(2));
                em.flush();
                ada.name = "Eve";
            }),
            row("the old owner merged first", "Eve v1 pen2 [seed][10][10]10", DAN, UPDATE, (it, em) -> it.merge(true)),
            row("the new owner merged first", "Eve v1 pen2 [seed][10][10]10", DAN, UPDATE, (it, em) -> it.merge(false)),
            row("to a new pen", "Ada v1 pen3 [seed][10][10]10", DAN, UPDATE, (it, em) -> {
                Pen pen = new Pen();
                pen.id = 3;
                Aviary.move(it.pen(1), pen);
                em.persist(pen);
            }),
            row("and back behind a flush", "Ada v2 pen1 [seed][10][10]10", DAN, List.of("PreUpdate", "PreUpdate"), (it, em) -> {
                Aviary.move(it.pen(1), it.pen(2));
                em.flush();
                Aviary.move(it.pen(2), it.pen(1));
            }),
            row("given to the other list first, and taken out behind a flush", MOVED, DAN, UPDATE, (it, em) -> {
                Bird ada = it.pen(1).birds.get(0);
                ada.pen = it.pen(2);
                ada.pen.birds.add(ada);
                em.flush();
                it.pen(1).birds.remove(ada);
            }));
    }

    private static Stream<Arguments> otherMoves() {
        return Stream.of(
            row("the parent alone is set, in no list", MOVED, DAN, UPDATE, (it, em) -> it.ada().pen = it.pen(2)),
            row("taken out, and in no other list", GONE, DAN, List.of("PreRemove"), (it, em) ->
                it.pen(1).birds.remove(0).pen = it.pen(2)),
            row("between lists without cascade", HOME, "Dan v1 cage2 [seed][11][11]11", UPDATE, (it, em) -> {
                Bird dan = it.pen(1).caged.remove(0);
                dan.cage = it.pen(2);
                dan.cage.caged.add(dan);
            }),
            row("between lists of two kinds", "Ada v1 cage2 [seed][10][10]10", DAN, UPDATE, (it, em) -> {
                Bird ada = it.pen(1).birds.remove(0);
                ada.pen = null;
                ada.cage = it.pen(2);
                ada.cage.caged.add(ada);
            }),
            row("and the new owner is removed", GONE, DAN, List.of("PreRemove"), (it, em) -> {
                Aviary.move(it.pen(1), it.pen(2));
                em.remove(it.pen(2));
            }),
            row("and is removed, and stands in the list still", MOVED, DAN, List.of("PreRemove", "PreUpdate"), (it, em) ->
                em.remove(Aviary.move(it.pen(1), it.pen(2)))));
    }

    @ParameterizedTest(name = "{0}")
    @MethodSource({"movesToAList", "otherMoves"})
    void isStored(String what, String ada, String dan, List<String> heard, Work work) {
        commit(() -> work.accept(this, manager));
        assertEquals(ada + " | " + dan, stored());
        assertEquals(heard, Aviary.HEARD);
    }

    private static Stream<Arguments> removals() {
        return Stream.of(
            row("moved before", MOVED, "", List.of("PreUpdate"), (it, em) -> {
                Pen pen = it.pen(1);
                Aviary.move(pen, it.pen(2));
                em.remove(pen);
            }),
            row("moved before a flush", MOVED, "", List.of("PreUpdate"), (it, em) -> {
                Pen pen = it.pen(1);
                Aviary.move(pen, it.pen(2));
                em.flush();
                em.remove(pen);
            }),
            row("moved behind", MOVED, "", List.of("PreRemove", "PreUpdate"), (it, em) -> {
                Pen pen = it.pen(1);
                em.remove(pen);
                Aviary.move(pen, it.pen(2));
            }),
            row("taken out", GONE, "", List.of("PreRemove"), (it, em) -> {
                Pen pen = it.pen(1);
                pen.birds.remove(0);
                em.remove(pen);
            }),
            row("has lost an egg", GONE, "", List.of("PreRemove"), (it, em) -> {
                Pen pen = it.pen(1);
                pen.birds.get(0).eggs.remove(0);
                em.remove(pen);
            }));
    }

    /** The old owner is removed; its other bird with it, which the list without cascade removes. */
    @ParameterizedTest(name = "{0}")
    @MethodSource("removals")
    void isStoredWhereTheOldOwnerGoes(String what, String ada, String dan, List<String> heard, Work work) {
        commit(() -> {
            pen(1).caged.size();
            Aviary.HEARD.clear();
            work.accept(this, manager);
        });
        assertEquals(ada + " | " + dan, stored());
        List<String> ofDan = new ArrayList<>(Aviary.HEARD);
        ofDan.remove("PreRemove");
        assertEquals(heard, ofDan);
        assertEquals(ada.isEmpty() ? "0" : "1", count("Egg"));
    }

    private String count(String entity) {
        return read(other -> other.createQuery("SELECT COUNT(e) FROM " + entity + " e", Long.class).getSingleResult().toString());
    }

    private String stored() {
        return read(other -> {
            Bird ada = other.find(Bird.class, 10L);
            Bird dan = other.find(Bird.class, 11L);
            return (ada == null ? "" : Aviary.shown(ada)) + " | " + (dan == null ? "" : Aviary.shown(dan));
        });
    }

    @Test
    void aCopyOfBeforeIsStale() {
        Bird stale = detached()[0].birds.get(0);
        commit(() -> Aviary.move(pen(1), pen(2)));
        manager.clear();
        manager.getTransaction().begin();
        assertThrows(OptimisticLockException.class, () -> manager.merge(stale));
    }

    @Test
    void anOwnerOfBeforeAnotherCommitIsStale() {
        Pen pen = pen(1);
        pen.toys.size();
        other(it -> it.find(Pen.class, 1L).toys.add(new Toy(21)));
        commit(() -> Aviary.move(pen, pen(2)));
        manager.getTransaction().begin();
        pen.toys.clear();
        assertThrows(OptimisticLockException.class, manager::flush);
        manager.getTransaction().rollback();
        assertEquals("v1 [0, 0] v0 []", toys());
        assertEquals(MOVED + " | " + DAN, stored());
    }

    private Bird kim(Pen pen) {
        Bird kim = Aviary.bird(12, "Kim");
        kim.pen = pen;
        return kim;
    }

    private String nameOfKim() {
        return read(it -> it.find(Bird.class, 12L) == null ? "none" : it.find(Bird.class, 12L).name);
    }

    @Test
    void cascadesGoOnAlongTheOldList() {
        Pen pen = pen(1);
        commit(() -> pen.birds.add(kim(pen)));
        commit(() -> {
            Aviary.move(pen, pen(2));
            manager.flush();
            manager.remove(pen.birds.get(0));       // it stands in the list still, which cascades PERSIST
        });
        assertEquals("Kim", nameOfKim());
        commit(() -> pen.birds.clear());
        assertEquals("none", nameOfKim());
    }

    @Test
    void whatTheOldListNeverHadStays() {
        commit(() -> {
            Pen pen = pen(1);
            pen.birds.size();
            manager.persist(kim(pen));
            Aviary.move(pen, pen(2));
            manager.flush();
            pen.birds.add(Aviary.bird(13, "Lea"));
            pen.birds.get(0).pen = pen;
        });
        assertEquals("Kim", nameOfKim());
        assertEquals(MOVED + " | " + DAN, stored());
    }

    @Test
    void theListsShowIt() {
        commit(() -> {
            Pen one = pen(1);
            Pen other = pen(2);
            Aviary.move(one, other);
            manager.flush();
            manager.refresh(one);
            manager.refresh(other);
            assertEquals("0 and 1", one.birds.size() + " and " + other.birds.size());
            assertEquals("0 and 0", one.version + " and " + other.version);
            one.birds.add(Aviary.bird(12, "Kim"));
            one.birds.get(0).pen = one;
        });
        assertEquals("1 and 1", read(it -> it.find(Pen.class, 1L).birds.size() + " and " + it.find(Pen.class, 2L).birds.size()));
    }

    /** Toys are of lists without mappedBy, which are stored themselves: their owners are changed, and the toy is not. */
    @Test
    void betweenListsOfOneSide() {
        commit(() -> pen(2).toys.add(pen(1).toys.remove(0)));
        assertEquals("v1 [] v1 [0]", toys());
        Pen[] pens = detached();
        pens[0].toys.add(pens[1].toys.remove(0));
        commit(() -> {
            manager.merge(pens[1]);
            manager.merge(pens[0]);
        });
        assertEquals("v2 [0] v2 []", toys());
        commit(() -> {
            Pen[] again = detached();
            again[0].toys.clear();
            manager.merge(again[0]);
        });
        assertEquals("v3 [] v2 []", toys());
        assertEquals("0", count("Toy"));
    }

    private String toys() {
        return read(it -> Stream.of(1L, 2L).map(id -> it.find(Pen.class, id))
            .map(pen -> "v" + pen.version + " " + pen.toys.stream().map(toy -> toy.version).toList()).reduce((a, b) -> a + " " + b).get());
    }

    private void hang(Pen pen, Sign sign) {
        pen.sign = sign;
        if (sign != null) {
            sign.pen = pen;
        }
    }

    private String signs() {
        return read(it -> it.createQuery("SELECT s FROM Sign s ORDER BY s.id", Sign.class).getResultList().stream()
            .map(sign -> sign.id + " v" + sign.version + " pen" + sign.pen.id).collect(Collectors.joining(", ")));
    }

    @Test
    void betweenRelationsToOne() {
        commit(() -> {
            hang(pen(1), new Sign());
            hang(pen(2), new Sign());
            pen(2).sign.id = 1;
        });
        commit(() -> {
            Sign sign = pen(1).sign;
            hang(pen(1), pen(2).sign);
            hang(pen(2), sign);
        });
        assertEquals("0 v1 pen2, 1 v1 pen1", signs());
        commit(() -> {
            hang(pen(1), pen(2).sign);
            hang(pen(2), null);
        });
        assertEquals("0 v2 pen1", signs());
        Pen[] pens = detached();
        hang(pens[1], pens[0].sign);
        hang(pens[0], null);
        commit(() -> {
            manager.merge(pens[0]);
            manager.merge(pens[1]);
        });
        assertEquals("0 v3 pen2", signs());
    }

    @Test
    void aNewOneInThePlaceOfWhatMoved() {
        commit(() -> hang(pen(1), new Sign()));
        manager.getTransaction().begin();
        hang(pen(2), pen(1).sign);
        hang(pen(1), new Sign());
        pen(1).sign.id = 1;
        assertEquals("Pen 1.sign leads to a new Sign, and Sign 0, to which it led, moved: persist the new one before the flush",
            assertThrows(PersistenceException.class, manager::flush).getMessage());
        manager.getTransaction().rollback();
        commit(() -> {
            hang(pen(2), pen(1).sign);
            hang(pen(1), new Sign());
            pen(1).sign.id = 1;
            manager.persist(pen(1).sign);
        });
        assertEquals("0 v1 pen2, 1 v0 pen1", signs());
    }

    /** EclipseLink loses the meals and the eggs. */
    @Test
    void whatIsPutBackBehindAFlushIsWhole() {
        commit(() -> {
            Bird ada = ada();
            manager.remove(ada);
            manager.flush();
            manager.persist(ada);
        });
        assertEquals(HOME + " | " + DAN, stored());
        assertEquals(List.of("PreRemove", "PrePersist"), Aviary.HEARD);
    }

    @Test
    void whatIsPutBackBeforeAFlushIsAsItWas() {
        commit(() -> {
            Bird ada = ada();
            manager.remove(ada);
            manager.persist(ada);
        });
        assertEquals(HOME + " | " + DAN, stored());
        assertEquals(List.of("PreRemove"), Aviary.HEARD);
    }

    @Test
    void whatStandsInAListStillIsAsItWas() {
        commit(() -> {
            pen(1).birds.size();
            manager.remove(ada());
        });
        assertEquals(HOME + " | " + DAN, stored());
    }

    @Test
    void whatAnOrphanTakesAlongIsPutBackToo() {
        commit(() -> {
            Bird ada = pen(1).birds.remove(0);
            manager.flush();
            pen(2).birds.add(ada);
            ada.pen = pen(2);
        });
        assertEquals("Ada v0 pen2 [seed][10][10]10 | " + DAN, stored());
    }
}
