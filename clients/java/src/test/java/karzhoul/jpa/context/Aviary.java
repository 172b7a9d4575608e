package karzhoul.jpa.context;

import jakarta.persistence.CascadeType;
import jakarta.persistence.ElementCollection;
import jakarta.persistence.Entity;
import jakarta.persistence.FetchType;
import jakarta.persistence.Id;
import jakarta.persistence.ManyToOne;
import jakarta.persistence.OneToMany;
import jakarta.persistence.OneToOne;
import jakarta.persistence.PrePersist;
import jakarta.persistence.PreRemove;
import jakarta.persistence.PreUpdate;
import jakarta.persistence.Version;
import java.time.Duration;
import java.util.ArrayList;
import java.util.List;
import java.util.function.Function;
import karzhoul.jpa.shop.Shop;

/** Pens whose lists remove orphans: of birds with what birds have, by both sides, and of toys, by one. */
final class Aviary {
    static final List<String> HEARD = new ArrayList<>();

    private Aviary() {}

    @Entity(name = "Pen")
    public static class Pen {
        @Id long id;
        @Version int version;
        @OneToMany(mappedBy = "pen", cascade = CascadeType.ALL, orphanRemoval = true) List<Bird> birds = new ArrayList<>();
        @OneToMany(mappedBy = "cage", orphanRemoval = true) List<Bird> caged = new ArrayList<>();
        @OneToMany(cascade = CascadeType.ALL, orphanRemoval = true) List<Toy> toys = new ArrayList<>();
        @OneToOne(mappedBy = "pen", cascade = CascadeType.ALL, orphanRemoval = true) Sign sign;
    }

    @Entity(name = "Bird")
    public static class Bird {
        @Id long id;
        @Version int version;
        String name;
        @ManyToOne(fetch = FetchType.LAZY) Pen pen;
        @ManyToOne(fetch = FetchType.LAZY) Pen cage;
        @ElementCollection List<String> meals = new ArrayList<>();
        @OneToMany(cascade = CascadeType.ALL, orphanRemoval = true) List<Ring> rings = new ArrayList<>();
        @OneToMany(mappedBy = "bird", cascade = CascadeType.ALL, orphanRemoval = true) List<Egg> eggs = new ArrayList<>();
        @OneToOne(cascade = CascadeType.ALL) Chip chip;

        @PrePersist
        void prePersist() {
            HEARD.add("PrePersist");
        }

        @PreUpdate
        void preUpdate() {
            HEARD.add("PreUpdate");
        }

        @PreRemove
        void preRemove() {
            HEARD.add("PreRemove");
        }
    }

    @Entity(name = "Sign")
    public static class Sign {
        @Id long id;
        @Version int version;
        @OneToOne Pen pen;
    }

    @Entity(name = "Toy")
    public static class Toy {
        @Id long id;
        @Version int version;

        protected Toy() {}

        Toy(long id) {
            this.id = id;
        }
    }

    @Entity(name = "Egg")
    public static class Egg {
        @Id long id;
        @ManyToOne(fetch = FetchType.LAZY) Bird bird;
    }

    @Entity(name = "Ring")
    public static class Ring {
        @Id long id;
    }

    @Entity(name = "Chip")
    public static class Chip {
        @Id long id;
    }

    static Factory open() {
        return Shop.open("karzhoul:memory", List.of(Pen.class, Bird.class, Toy.class, Sign.class, Egg.class, Ring.class,
            Chip.class), Duration.ofSeconds(20), null);
    }

    /** A bird with something of each kind. */
    static Bird bird(long id, String name) {
        Bird bird = new Bird();
        bird.id = id;
        bird.name = name;
        bird.meals.add("seed");
        Ring ring = new Ring();
        ring.id = id;
        bird.rings.add(ring);
        Egg egg = new Egg();
        egg.id = id;
        egg.bird = bird;
        bird.eggs.add(egg);
        bird.chip = new Chip();
        bird.chip.id = id;
        return bird;
    }

    /** Moves between lists of birds. */
    static Bird move(Pen from, Pen to) {
        Bird bird = from.birds.remove(0);
        bird.pen = to;
        to.birds.add(bird);
        return bird;
    }

    /** What a bird has: {@code Ada v1 pen2 [seed] [10] [10] 10}. */
    static String shown(Bird bird) {
        return bird.name + " v" + bird.version + (bird.pen == null ? "" : " pen" + bird.pen.id)
            + (bird.cage == null ? "" : " cage" + bird.cage.id) + " " + new ArrayList<>(bird.meals)
            + ids(bird.rings, ring -> ring.id) + ids(bird.eggs, egg -> egg.id) + (bird.chip == null ? "" : bird.chip.id);
    }

    private static <T> List<Long> ids(List<T> members, Function<T, Long> id) {
        return members.stream().map(id).sorted().toList();
    }
}
