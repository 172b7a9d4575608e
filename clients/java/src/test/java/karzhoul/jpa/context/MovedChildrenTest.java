package karzhoul.jpa.context;

import static org.junit.jupiter.api.Assertions.assertEquals;
import static org.junit.jupiter.api.Assertions.assertThrows;
import static org.junit.jupiter.api.Assertions.assertTrue;

import jakarta.persistence.CascadeType;
import jakarta.persistence.ElementCollection;
import jakarta.persistence.Entity;
import jakarta.persistence.FetchType;
import jakarta.persistence.GeneratedValue;
import jakarta.persistence.Id;
import jakarta.persistence.ManyToOne;
import jakarta.persistence.OneToMany;
import jakarta.persistence.RollbackException;
import jakarta.persistence.Version;
import java.time.Duration;
import java.util.ArrayList;
import java.util.List;
import karzhoul.jpa.shop.Shop;
import org.junit.jupiter.api.BeforeEach;
import org.junit.jupiter.api.Test;
import org.junit.jupiter.params.ParameterizedTest;
import org.junit.jupiter.params.provider.EnumSource;

/** A child that moves between two lists that remove orphans is stored whole, where nobody hears of it too (chapter 2.9). */
class MovedChildrenTest extends Tried {
    @Entity(name = "Pen")
    public static class Pen {
        @Id @GeneratedValue Long id;
        @Version int version;
        @OneToMany(mappedBy = "pen", cascade = CascadeType.ALL, orphanRemoval = true) List<Bird> birds = new ArrayList<>();
    }

    @Entity(name = "Bird")
    public static class Bird {
        @Id @GeneratedValue Long id;
        @Version int version;
        String name;
        @ManyToOne(fetch = FetchType.LAZY) Pen pen;
        @ElementCollection List<String> meals = new ArrayList<>();
        @OneToMany(cascade = CascadeType.ALL, orphanRemoval = true) List<Ring> rings = new ArrayList<>();
        @OneToMany(mappedBy = "bird", cascade = CascadeType.ALL, orphanRemoval = true) List<Egg> eggs = new ArrayList<>();
    }

    @Entity(name = "Egg")
    public static class Egg {
        @Id @GeneratedValue Long id;
        @ManyToOne(fetch = FetchType.LAZY) Bird bird;
    }

    @Entity(name = "Ring")
    public static class Ring {
        @Id @GeneratedValue Long id;
        String colour;
    }

    private enum Way { COMMIT, PERSIST, FLUSH_BEHIND, ADDED_BEHIND_A_FLUSH, READ, BACK_BEHIND_A_FLUSH }

    private Long one;
    private Long other;
    private Long moved;

    @BeforeEach
    @Override
    void open() {
        factory = Shop.open("karzhoul:memory", List.of(Pen.class, Bird.class, Ring.class, Egg.class), Duration.ofSeconds(20), null);
        manager = factory.createEntityManager();
        Pen pen = new Pen();
        Pen empty = new Pen();
        Bird bird = new Bird();
        bird.name = "Ada";
        bird.pen = pen;
        bird.meals.add("seed");
        Ring ring = new Ring();
        ring.colour = "red";
        bird.rings.add(ring);
        Egg egg = new Egg();
        egg.bird = bird;
        bird.eggs.add(egg);
        pen.birds.add(bird);
        store(pen, empty);
        one = pen.id;
        other = empty.id;
        moved = bird.id;
    }

    private void move(Way way) {
        Pen from = manager.find(Pen.class, one);
        Pen to = way == Way.BACK_BEHIND_A_FLUSH ? from : manager.find(Pen.class, other);
        Bird bird = from.birds.remove(0);
        bird.name = "Eve";
        if (way == Way.READ) {
            bird.meals.size();
        }
        if (way == Way.ADDED_BEHIND_A_FLUSH || way == Way.BACK_BEHIND_A_FLUSH) {
            manager.flush();
        }
        to.birds.add(bird);
        bird.pen = to;
        if (way == Way.PERSIST) {
            manager.persist(bird);
        } else if (way == Way.FLUSH_BEHIND) {
            manager.flush();
        }
    }

    @ParameterizedTest
    @EnumSource(Way.class)
    void itIsStoredWhole(Way way) {
        manager = factory.createEntityManager();
        commit(() -> move(way));
        Long pen = way == Way.BACK_BEHIND_A_FLUSH ? one : other;
        assertEquals("Eve of " + pen + " [seed] [red] 1", read(it -> {
            Bird bird = it.find(Bird.class, moved);
            return bird == null ? "none" : bird.name + " of " + bird.pen.id + " " + new ArrayList<>(bird.meals) + " "
                + bird.rings.stream().map(ring -> ring.colour).toList() + " " + bird.eggs.size();
        }));
        assertEquals("1", read(it -> String.valueOf(it.find(Pen.class, pen).birds.size())));
    }

    /** Both pens, as detached, where the bird has moved from the first to the second. */
    private List<Pen> movedDetached() {
        List<Pen> pens = read(it -> {
            List<Pen> both = List.of(it.find(Pen.class, one), it.find(Pen.class, other));
            both.forEach(pen -> pen.birds.size());
            return both;
        });
        Bird bird = pens.get(0).birds.remove(0);
        bird.pen = pens.get(1);
        bird.pen.birds.add(bird);
        return pens;
    }

    @Test
    void itIsStoredWhereBothOwnersAreMerged() {
        List<Pen> pens = movedDetached();
        commit(() -> pens.forEach(manager::merge));
        assertEquals("Ada of " + other + " 1", read(it -> {
            Bird found = it.find(Bird.class, moved);
            return found == null ? "none" : found.name + " of " + found.pen.id + " " + found.version;
        }));
    }

    @Test
    void theRefusalOfAMergeBehindTheFlushThatRemovedItNamesTheOneThatMoved() {
        List<Pen> pens = movedDetached();
        manager.getTransaction().begin();
        manager.merge(pens.get(0));
        manager.flush();
        Exception refusal = assertThrows(IllegalArgumentException.class, () -> manager.merge(pens.get(1)));
        manager.getTransaction().rollback();
        assertTrue(refusal.getMessage().startsWith("IllegalArgument(state), Bird " + moved + ": "), refusal.getMessage());
        assertTrue(refusal.getMessage().endsWith("merge the owner that it left and the one that has it before the flush"));
    }

    @Test
    void whatMovedOverTwoFlushesHasItsElementsWhereItIsRemovedAndPersistedAnew() {
        manager = factory.createEntityManager();
        Bird bird = manager.find(Bird.class, moved);
        commit(() -> {
            Bird second = new Bird();
            second.pen = bird.pen;
            bird.pen.birds.add(second);
            bird.meals.size();
            bird.rings.size();
        });
        commit(() -> {
            Pen to = manager.find(Pen.class, other);
            List<Bird> birds = bird.pen.birds;
            for (Bird each : List.copyOf(birds)) {
                birds.remove(each);
                to.birds.add(each);
                manager.flush();        // it leads back to the first one as yet
            }
            to.birds.forEach(each -> each.pen = to);
        });
        commit(() -> {
            bird.pen.birds.remove(bird);
            manager.flush();
            bird.pen.birds.add(bird);
            manager.persist(bird);
        });
        assertEquals("[seed] 1", read(it -> {
            Bird found = it.find(Bird.class, moved);
            return new ArrayList<>(found.meals) + " " + found.rings.size();
        }));
    }

    @Test
    void theRefusalOfOneThatWasRemovedAndCommittedNamesIt() {
        manager = factory.createEntityManager();
        Bird bird = manager.find(Bird.class, moved);
        Ring ring = bird.rings.get(0);
        commit(() -> bird.rings.remove(ring));
        Exception refusal = assertThrows(RollbackException.class, () -> commit(() -> bird.rings.add(ring)));
        assertEquals("the transaction was rolled back: Persistence(key), Ring " + ring.id + ": a generated key is set, and the"
            + " instance isn't managed; merge it, or make a new one", refusal.getMessage());
    }

    @Test
    void anOrphanGoes() {
        manager = factory.createEntityManager();
        commit(() -> manager.find(Pen.class, one).birds.remove(0));
        assertEquals("null and 0", read(it -> it.find(Bird.class, moved) + " and "
            + it.createQuery("SELECT COUNT(r) FROM Ring r", Long.class).getSingleResult()));
    }
}
