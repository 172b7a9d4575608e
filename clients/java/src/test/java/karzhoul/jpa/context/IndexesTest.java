package karzhoul.jpa.context;

import static org.junit.jupiter.api.Assertions.assertEquals;
import static org.junit.jupiter.api.Assertions.assertNotEquals;
import static org.junit.jupiter.api.Assertions.assertThrows;
import static org.junit.jupiter.api.Assertions.assertTrue;

import jakarta.persistence.CollectionTable;
import jakarta.persistence.Column;
import jakarta.persistence.DiscriminatorColumn;
import jakarta.persistence.ElementCollection;
import jakarta.persistence.Embeddable;
import jakarta.persistence.Embedded;
import jakarta.persistence.EmbeddedId;
import jakarta.persistence.Entity;
import jakarta.persistence.EntityManager;
import jakarta.persistence.Id;
import jakarta.persistence.Index;
import jakarta.persistence.JoinColumn;
import jakarta.persistence.ManyToOne;
import jakarta.persistence.MappedSuperclass;
import jakarta.persistence.OneToMany;
import jakarta.persistence.OrderColumn;
import jakarta.persistence.PersistenceException;
import jakarta.persistence.Table;
import jakarta.persistence.TypedQuery;
import jakarta.persistence.Version;
import java.io.Serializable;
import java.nio.file.Path;
import java.time.Duration;
import java.util.ArrayList;
import java.util.Collection;
import java.util.List;
import java.util.Map;
import java.util.Objects;
import java.util.Optional;
import java.util.Random;
import java.util.Set;
import java.util.TreeMap;
import java.util.TreeSet;
import java.util.concurrent.ConcurrentLinkedQueue;
import java.util.concurrent.TimeUnit;
import java.util.function.Predicate;
import java.util.function.Supplier;
import java.util.stream.Collectors;
import karzhoul.jpa.model.Reader;
import karzhoul.jpa.model.RefusedUnit;
import karzhoul.jpa.shop.Shop;
import karzhoul.jpa.spi.UnitSettings;
import org.junit.jupiter.api.Test;
import org.junit.jupiter.api.io.TempDir;

/** Indexes of tables that aren't unique (chapters 11.1.23, 11.1.54 and 11.1.8): the program is told them. */
class IndexesTest {
    @Embeddable
    static class Spot implements Serializable {
        int line;
        @Column(name = "nr") int number;

        @Override
        public boolean equals(Object other) {
            return other instanceof Spot spot && spot.line == line && spot.number == number;
        }

        @Override
        public int hashCode() {
            return Objects.hash(line, number);
        }
    }

    @Embeddable
    static class Address {
        String street;
        @Column(name = "town") String city;
        @ManyToOne Land land;
    }

    @Entity
    @Table(indexes = {@Index(columnList = "code"), @Index(columnList = "lands_id, lands_ORDER")})
    static class Land {
        @Id int id;
        String code;
    }

    @Entity
    static class World {
        @Id int id;
        @OneToMany
        @JoinColumn(name = "lands_id")
        @OrderColumn
        List<Land> lands = new ArrayList<>();
    }

    @Entity
    @DiscriminatorColumn(name = "sort")
    @Table(indexes = {
        @Index(columnList = "NAME desc, line ASC,nr"), @Index(columnList = "street, town"), @Index(columnList = "name"),
        @Index(columnList = "land_id, above_line, above_nr"), @Index(columnList = "stand, sort"),
        @Index(columnList = "badge", unique = true), @Index(columnList = "depth")})
    static class Site {
        @EmbeddedId Spot spot;
        @Version
        @Column(name = "stand") int version;
        String name;
        String badge;
        @Embedded Address address;
        @ManyToOne
        @JoinColumn(name = "above_line")
        @JoinColumn(name = "above_nr")
        Site above;
        @ElementCollection
        @CollectionTable(name = "site_tags", joinColumns = {@JoinColumn(name = "l"), @JoinColumn(name = "n")},
            indexes = @Index(columnList = "l, n, tag DESC"))
        @Column(name = "tag")
        Set<String> tags;
    }

    @Entity
    static class Pit extends Site {
        int depth;
    }

    @Entity
    @Table(indexes = @Index(columnList = "depth, width, name"))
    static class Well extends Site {
        int depth;
        @Column(name = "width") int breadth;
    }

    /** The calls of this one that a program was sent, with whether each was done. */
    private static final class Log {
        private final Collection<String> lines = new ConcurrentLinkedQueue<>();

        Factory over(String url, Class<?>... classes) {
            return new Factory(new UnitSettings("tried", Reader.read("tried", List.of(classes)), url, Shop.program(),
                Duration.ofSeconds(60), Optional.of(lines::add), Map.of()));
        }

        List<String> indexes() {
            return lines.stream().filter(it -> it.contains("\"call\":\"index\"")).toList();
        }

        /** What was told, as ENTITY.MEMBER. */
        Set<String> told() {
            return indexes().stream().map(it -> it.replaceAll("(?s).*\"entity\":\"([^\"]*)\",\"name\":\"([^\"]*)\".*", "$1.$2"))
                .collect(Collectors.toCollection(TreeSet::new));
        }
    }

    /** Relations, versions, discriminators and what lists of others keep in a table have no index of their own. */
    @Test
    void eachColumnOfAnIndexIsToldOnce() {
        Log log = new Log();
        Factory factory = log.over("karzhoul:memory", Site.class, Pit.class, Well.class, Land.class, World.class);
        assertEquals(Set.of("Land.code", "Pit.depth", "Site.address__city", "Site.address__street", "Site.badge", "Site.name",
            "Site.spot.line", "Site.spot.number", "Site__tags.element_", "Well.breadth", "Well.depth_2"), log.told());
        assertEquals(11, log.indexes().size());
        assertTrue(log.indexes().stream().allMatch(it -> it.endsWith("->  null []")), log.indexes().toString());
        factory.close();
    }

    @Entity
    @Table(indexes = {@Index(columnList = "title"), @Index(columnList = "nme"), @Index(columnList = "name DOWN"),
        @Index(columnList = "name,"), @Index(columnList = "DTYPE")})
    static class Wrong {
        @Id int id;
        @Column(name = "called") String title;
        String name;
        List<Wrong> others;
        @ElementCollection
        @CollectionTable(indexes = @Index(columnList = "Wrong_id, word"))
        Set<String> words;
    }

    /** A column that is named otherwise than its attribute counts by its own name. */
    @Test
    void aNameThatIsNoColumnIsRefusedWithTheOtherFaults() {
        RefusedUnit refused = assertThrows(RefusedUnit.class, () -> Reader.read("tried", List.of(Wrong.class)));
        String place = Wrong.class.getName();
        for (String name : List.of("title", "nme", "", "DTYPE")) {
            assertTrue(refused.getMessage().contains(place + ": @Index of @Table names the column \"" + name
                + "\", which it doesn't have. Name columns of its attributes and relations."), refused.getMessage());
        }
        assertTrue(refused.getMessage().contains(place + ": @Index of @Table has \"name DOWN\" in its columnList. Write a"
            + " column's name, and ASC or DESC behind it or nothing."), refused.getMessage());
        assertTrue(refused.getMessage().contains(place + ".words: @Index of @CollectionTable names the column \"word\""),
            refused.getMessage());
        assertTrue(refused.getMessage().contains(place + ".others: "), refused.getMessage());
        assertEquals(7, refused.faults().size(), refused.getMessage());
    }

    /** Classes of the same entity, with indexes and without. */
    static final class Kept {
        @Entity(name = "Item")
        @Table(name = "Item", indexes = {@Index(columnList = "name, amount"), @Index(columnList = "city, id")})
        static class Item extends Base {}
    }

    static final class Plain {
        @Entity(name = "Item")
        @Table(name = "Item")
        static class Item extends Base {}
    }

    @Embeddable
    static class Town {
        String city;
    }

    @MappedSuperclass
    abstract static class Base {
        @Id int id;
        String name;
        Integer amount;
        Town town = new Town();
    }

    private static <T extends Base> T item(T made, int id, Random random) {
        made.id = id;
        made.name = random.nextInt(8) == 0 ? null : "n" + random.nextInt(20);
        made.amount = random.nextInt(8) == 0 ? null : random.nextInt(40) - 20;
        made.town.city = random.nextInt(8) == 0 ? null : "c" + random.nextInt(10);
        return made;
    }

    private static boolean isBetween(Integer value, int low, int high) {
        return value != null && value >= low && value <= high;
    }

    /** Conditions, with what is true of an item that they find. */
    private static final Map<String, Predicate<Base>> CONDITIONS = Map.of(
        "i.name = 'n3'", it -> "n3".equals(it.name),
        "i.name IN ('n1', 'n7', 'none')", it -> Set.of("n1", "n7").contains(String.valueOf(it.name)),
        "i.name IS NULL AND i.amount > 0", it -> it.name == null && isBetween(it.amount, 1, 20),
        "i.amount BETWEEN -3 AND 4", it -> isBetween(it.amount, -3, 4),
        "i.amount >= 15 AND i.amount < 18", it -> isBetween(it.amount, 15, 17),
        "i.amount IS NULL", it -> it.amount == null,
        "i.town.city = 'c2' AND NOT i.name = 'n4'",
            it -> "c2".equals(it.town.city) && it.name != null && !it.name.equals("n4"),
        "i.id IN (3, 5, 500, -1)", it -> it.id == 3 || it.id == 5,
        "i.town.city < 'c2' AND i.id <= 100", it -> it.town.city != null && it.town.city.compareTo("c2") < 0 && it.id <= 100);

    @Test
    void queriesAnswerTheSameWithAndWithout() {
        Log log = new Log();
        List<List<Integer>> kept = answers(log, Kept.Item.class, Kept.Item::new);
        assertEquals(Set.of("Item.name", "Item.amount", "Item.town__city", "Item.id"), log.told());
        Log plain = new Log();
        assertEquals(answers(plain, Plain.Item.class, Plain.Item::new), kept);
        assertEquals(Set.of(), plain.told());
    }

    /** What the conditions find among items that come, change and go, in an open transaction and behind it. */
    private static <T extends Base> List<List<Integer>> answers(Log log, Class<T> of, Supplier<T> maker) {
        Random random = new Random(5);
        List<List<Integer>> answers = new ArrayList<>();
        try (Factory factory = log.over("karzhoul:memory", of); EntityManager manager = factory.createEntityManager()) {
            Map<Integer, T> items = new TreeMap<>();
            for (int round = 0; round < 3; round++) {
                manager.getTransaction().begin();
                for (int i = 0; i < 120; i++) {
                    T added = item(maker.get(), round * 120 + i, random);
                    items.put(added.id, added);
                    manager.persist(added);
                }
                for (int i = 0; i < 20; i++) {
                    T removed = items.remove(random.nextInt(round * 120 + 120));
                    if (removed != null) {
                        manager.remove(removed);
                    }
                    List<T> left = List.copyOf(items.values());
                    T changed = left.get(random.nextInt(left.size()));
                    item(changed, changed.id, random);
                }
                check(manager, of, items.values(), answers);
                manager.getTransaction().commit();
                check(manager, of, items.values(), answers);
            }
        }
        return answers;
    }

    private static <T extends Base> void check(EntityManager manager, Class<T> of, Collection<T> items,
            List<List<Integer>> answers) {
        for (String condition : new TreeSet<>(CONDITIONS.keySet())) {
            TypedQuery<T> query = manager.createQuery("SELECT i FROM Item i WHERE " + condition, of);
            List<Integer> found = query.getResultList().stream().map(it -> it.id).toList();
            assertEquals(items.stream().filter(CONDITIONS.get(condition)).map(it -> it.id).toList(),
                found.stream().sorted().toList(), condition);
            answers.add(found);
        }
    }

    @Test
    void aProgramThatIsStartedAgainIsToldAgainAndARunThatEndsIsNot(@TempDir Path folder) throws Exception {
        Log log = new Log();
        try (Factory factory = log.over("karzhoul:" + folder.resolve("store"), Kept.Item.class)) {
            try (EntityManager manager = factory.createEntityManager()) {
                manager.getTransaction().begin();
                manager.persist(item(new Kept.Item(), 1, new Random(1)));
                manager.getTransaction().commit();
            }
            assertEquals(4, log.indexes().size());
            assertTrue(factory.pool().restartIfIdle());
            assertEquals(1, found(factory));
            assertEquals(4, log.indexes().size());
            long before = factory.pool().engine().pid();
            ProcessHandle killed = ProcessHandle.of(before).orElseThrow();
            killed.destroyForcibly();
            killed.onExit().get(60, TimeUnit.SECONDS);
            assertEquals(1, foundAtLast(factory));
            assertNotEquals(before, factory.pool().engine().pid());
            assertEquals(8, log.indexes().size());
            assertEquals(4, log.told().size());
        }
    }

    private static int foundAtLast(Factory factory) {
        for (;;) {
            try {
                return found(factory);
            } catch (PersistenceException ended) {
                assertTrue(ended.getMessage().contains("starts it again"), ended.getMessage());
            }
        }
    }

    private static int found(Factory factory) {
        try (EntityManager manager = factory.createEntityManager()) {
            return manager.createQuery("SELECT i FROM Item i WHERE i.id IN (1, 2)", Kept.Item.class).getResultList().size();
        }
    }

    /** Units of one store share its program: what the second one says is told to it too, once. */
    @Test
    void aSecondUnitOfTheStoreAddsItsIndexes(@TempDir Path folder) {
        Log log = new Log();
        String url = "karzhoul:" + folder.resolve("store");
        try (Factory plain = log.over(url, Plain.Item.class)) {
            assertEquals(0, log.indexes().size());
            log.over(url, Kept.Item.class).close();
            assertEquals(4, log.indexes().size());
            log.over(url, Kept.Item.class).close();
            assertEquals(4, log.indexes().size());
            assertTrue(plain.isOpen());
        }
    }
}
