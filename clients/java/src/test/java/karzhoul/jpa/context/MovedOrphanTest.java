package karzhoul.jpa.context;

import static org.junit.jupiter.api.Assertions.assertEquals;

import jakarta.persistence.CascadeType;
import jakarta.persistence.Entity;
import jakarta.persistence.Id;
import jakarta.persistence.ManyToOne;
import jakarta.persistence.OneToMany;
import jakarta.persistence.PostPersist;
import jakarta.persistence.PostRemove;
import jakarta.persistence.PostUpdate;
import jakarta.persistence.PrePersist;
import jakarta.persistence.PreRemove;
import jakarta.persistence.PreUpdate;
import jakarta.persistence.Version;
import java.time.Duration;
import java.util.ArrayList;
import java.util.List;
import karzhoul.jpa.shop.Shop;
import org.junit.jupiter.api.BeforeEach;
import org.junit.jupiter.api.Test;

/** A child that moves between two lists that remove orphans: what is heard is what happened (chapter 2.9). */
class MovedOrphanTest extends Tried {
    private static final List<String> HEARD = new ArrayList<>();

    @Entity(name = "Bag")
    public static class Bag {
        @Id long id;
        @OneToMany(mappedBy = "bag", cascade = CascadeType.ALL, orphanRemoval = true) List<Thing> things = new ArrayList<>();
        @OneToMany(mappedBy = "bag", cascade = CascadeType.ALL, orphanRemoval = true) List<Quiet> quiet = new ArrayList<>();
    }

    @Entity(name = "Thing")
    public static class Thing {
        @Id long id;
        @Version int version;
        String word;
        @ManyToOne Bag bag;

        @PrePersist
        void prePersist() {
            HEARD.add("PrePersist");
        }

        @PostPersist
        void postPersist() {
            HEARD.add("PostPersist");
        }

        @PreUpdate
        void preUpdate() {
            HEARD.add("PreUpdate");
        }

        @PostUpdate
        void postUpdate() {
            HEARD.add("PostUpdate");
        }

        @PreRemove
        void preRemove() {
            HEARD.add("PreRemove");
        }

        @PostRemove
        void postRemove() {
            HEARD.add("PostRemove");
        }
    }

    @Entity(name = "Quiet")
    public static class Quiet {
        @Id long id;
        String word;
        @ManyToOne Bag bag;
    }

    @BeforeEach
    @Override
    void open() {
        factory = Shop.open("karzhoul:memory", List.of(Bag.class, Thing.class, Quiet.class), Duration.ofSeconds(20), null);
        manager = factory.createEntityManager();
        Bag one = new Bag();
        Bag other = new Bag();
        other.id = 1;
        Thing thing = new Thing();
        thing.word = "kept";
        thing.bag = one;
        one.things.add(thing);
        Quiet quiet = new Quiet();
        quiet.word = "kept";
        quiet.bag = one;
        one.quiet.add(quiet);
        store(one, other);
        HEARD.clear();
    }

    private void move() {
        Thing thing = manager.find(Bag.class, 0L).things.remove(0);
        thing.bag = manager.find(Bag.class, 1L);
        thing.bag.things.add(thing);
    }

    private String row() {
        return read(other -> {
            Thing thing = other.find(Thing.class, 0L);
            return thing == null ? "none" : thing.word + " of " + thing.bag.id;
        });
    }

    private static final List<String> BOTH = List.of("PreUpdate", "PostUpdate");

    @Test
    void atTheCommit() {
        commit(() -> manager.find(Thing.class, 0L).word = "again");
        HEARD.clear();
        commit(this::move);
        assertEquals("again of 1", row());
        assertEquals(BOTH, HEARD);
        assertEquals("2 and 2", manager.find(Thing.class, 0L).version + " and " + read(other -> other.find(Thing.class, 0L).version));
        commit(() -> manager.find(Thing.class, 0L).word = "more");
        assertEquals("more of 1", row());
    }

    @Test
    void atTwoFlushes() {
        commit(() -> {
            move();
            manager.flush();
            assertEquals(BOTH, HEARD);
            manager.flush();
            assertEquals(BOTH, HEARD);
        });
        assertEquals("kept of 1", row());
        assertEquals(BOTH, HEARD);
    }

    @Test
    void atAFlushAndTheCommit() {
        commit(() -> {
            move();
            manager.flush();
        });
        assertEquals("kept of 1", row());
        assertEquals(BOTH, HEARD);
    }

    @Test
    void whatHearsNothing() {
        commit(() -> {
            Quiet quiet = manager.find(Bag.class, 0L).quiet.remove(0);
            quiet.bag = manager.find(Bag.class, 1L);
            quiet.bag.quiet.add(quiet);
        });
        assertEquals("kept of 1", read(other -> {
            Quiet quiet = other.find(Quiet.class, 0L);
            return quiet == null ? "none" : quiet.word + " of " + quiet.bag.id;
        }));
    }
}
