package karzhoul.jpa.context;

import static org.junit.jupiter.api.Assertions.assertEquals;
import static org.junit.jupiter.api.Assertions.assertTrue;

import java.util.ArrayList;
import java.util.List;
import java.util.Map;
import java.util.Random;
import java.util.TreeMap;
import java.util.stream.Collectors;
import karzhoul.jpa.context.Aviary.Bird;
import karzhoul.jpa.context.Aviary.Pen;
import karzhoul.jpa.context.Aviary.Toy;
import org.junit.jupiter.api.BeforeEach;
import org.junit.jupiter.api.Test;

/** Random graphs of pens whose children move, beside a plain model of what is to be stored. */
class RandomMovesTest extends Tried {
    private static final int GRAPHS = Integer.getInteger("karzhoul.graphs", 300);
    private static final int PENS = 3;

    /** What a flush has written of a bird: its pen, its name and its meals. */
    private record Row(long pen, String name, List<String> meals, int version) {
        Row next(long toPen, String toName, List<String> toMeals) {
            boolean isSame = pen == toPen && name.equals(toName) && meals.equals(toMeals);
            return new Row(toPen, toName, toMeals, isSame ? version : version + 1);
        }
    }

    private final List<Pen> pens = new ArrayList<>();
    /** Birds that a flush of this transaction has dropped. */
    private final List<Bird> dropped = new ArrayList<>();
    private Map<Long, Row> rows = new TreeMap<>();
    /** The toys of each pen, as a flush has written them. */
    private String toys;
    private Random random;
    private long first;
    private long next;
    private final StringBuilder done = new StringBuilder();
    private int moves;

    @BeforeEach
    @Override
    void open() {
        factory = Aviary.open();
        manager = factory.createEntityManager();
    }

    @Test
    void whatIsStoredIsWhatTheListsHave() {
        for (int graph = 1; graph <= GRAPHS; graph++) {
            random = new Random(graph);
            begin(graph * 1_000L);
            for (int round = 0; round < 3; round++) {
                round();
                assertEquals(expected(), stored(), "graph " + graph + ":" + done);
            }
        }
        assertTrue(moves > 2 * GRAPHS, moves + " moves");
    }

    private void begin(long id) {
        manager.clear();
        pens.clear();
        rows = new TreeMap<>();
        done.setLength(0);
        first = id;
        next = id + PENS;
        for (int i = 0; i < PENS; i++) {
            Pen pen = new Pen();
            pen.id = id + i;
            pen.toys.add(new Toy(pen.id));
            pens.add(pen);
        }
        commit(() -> {
            pens.forEach(manager::persist);
            for (int i = 0; i < 4; i++) {
                add();
            }
            written();
        });
    }

    private void round() {
        if (random.nextBoolean()) {
            manager.clear();
            done.append(" clear");
        }
        dropped.clear();
        pens.replaceAll(pen -> manager.find(Pen.class, pen.id));
        commit(() -> {
            if (random.nextInt(3) == 0) {
                mergeMoved();
            }
            for (int i = random.nextInt(8); i >= 0; i--) {
                step();
            }
            written();
            done.append(" commit;");
        });
    }

    private void step() {
        switch (random.nextInt(10)) {
            case 0, 1, 2 -> move();
            case 3 -> add();
            case 4 -> takeOut();
            case 5 -> removeBird();
            case 6 -> change();
            case 7 -> putBack();
            case 8 -> moveToy(pen(), pen());
            default -> flush();
        }
    }

    private Pen pen() {
        return pens.get(random.nextInt(PENS));
    }

    private static Bird any(Random random, Pen pen) {
        return pen.birds.isEmpty() ? null : pen.birds.get(random.nextInt(pen.birds.size()));
    }

    private void move() {
        Pen from = pen();
        Pen to = pen();
        Bird bird = any(random, from);
        if (bird != null) {
            put(from, to, bird);
        }
    }

    /** The new list may have it before the old one has lost it. */
    private void put(Pen from, Pen to, Bird bird) {
        done.append(" move ").append(bird.id).append(" to ").append(to.id);
        moves++;
        if (from != to && random.nextBoolean()) {
            to.birds.add(bird);
            from.birds.remove(bird);
        } else {
            from.birds.remove(bird);
            to.birds.add(bird);
        }
        bird.pen = to;
    }

    private void moveToy(Pen from, Pen to) {
        if (!from.toys.isEmpty()) {
            Toy toy = from.toys.remove(random.nextInt(from.toys.size()));
            boolean isLost = random.nextInt(4) == 0;
            done.append(" toy ").append(toy.id).append(isLost ? " lost" : " to " + to.id);
            if (!isLost) {
                to.toys.add(toy);
            }
        }
    }

    private void add() {
        Bird bird = Aviary.bird(next++, "new");
        bird.pen = pen();
        bird.pen.birds.add(bird);
        done.append(" add ").append(bird.id).append(" to ").append(bird.pen.id);
        if (random.nextBoolean()) {
            manager.persist(bird);
        }
    }

    private void takeOut() {
        Pen from = pen();
        Bird bird = any(random, from);
        if (bird != null && rows.containsKey(bird.id)) {
            done.append(" out ").append(bird.id);
            from.birds.remove(bird);
            bird.pen = random.nextBoolean() ? null : pen();
        }
    }

    private void removeBird() {
        Pen from = pen();
        Bird bird = any(random, from);
        if (bird != null && rows.containsKey(bird.id)) {
            done.append(" remove ").append(bird.id);
            manager.remove(bird);
            if (random.nextInt(3) > 0) {
                from.birds.remove(bird);
            }
        }
    }

    private void change() {
        Bird bird = any(random, pen());
        if (bird != null) {
            done.append(" change ").append(bird.id);
            if (random.nextBoolean()) {
                bird.name += random.nextInt(10);
            } else {
                bird.meals.add("meal" + random.nextInt(10));
            }
        }
    }

    /** What was dropped by a flush is persisted anew, with all that it had. */
    private void putBack() {
        if (!dropped.isEmpty()) {
            Bird bird = dropped.remove(random.nextInt(dropped.size()));
            Pen to = pen();
            done.append(" back ").append(bird.id).append(" to ").append(to.id);
            bird.pen = to;
            to.birds.add(bird);
            if (random.nextBoolean()) {
                manager.persist(bird);
            }
        }
    }

    private void flush() {
        done.append(" flush");
        List<Bird> there = new ArrayList<>();
        rows.keySet().forEach(id -> there.add(manager.find(Bird.class, id)));
        written();
        manager.flush();
        there.stream().filter(bird -> bird != null && !rows.containsKey(bird.id)).forEach(dropped::add);
    }

    /** Two detached pens, between which a bird moves, and of which one may lose another: merged one behind the other. */
    private void mergeMoved() {
        List<Pen> both = read(other -> {
            List<Pen> read = new ArrayList<>();
            pens.forEach(pen -> read.add(other.find(Pen.class, pen.id)));
            read.forEach(pen -> pen.birds.forEach(Aviary::shown));
            read.forEach(pen -> pen.toys.size());
            read.forEach(pen -> pen.caged.size());
            read.remove(random.nextInt(PENS));
            return read;
        });
        Pen from = both.get(0);
        Bird bird = any(random, from);
        if (bird == null) {
            return;
        }
        put(from, both.get(1), bird);
        moveToy(from, both.get(1));
        bird.name += "m";
        Bird lost = any(random, from);
        if (lost != null && random.nextBoolean()) {
            done.append(" out ").append(lost.id);
            from.birds.remove(lost);
        }
        int place = random.nextInt(2);
        done.append(" merge ").append(both.get(place).id).append(" first");
        manager.merge(both.get(place));
        manager.merge(both.get(1 - place));
    }

    /** The rows are what a flush leaves of the lists that there are now: what stands in none is gone. */
    private void written() {
        Map<Long, Row> now = new TreeMap<>();
        for (Pen pen : pens) {
            for (Bird bird : pen.birds) {
                Row before = rows.get(bird.id);
                List<String> meals = List.copyOf(bird.meals);
                now.put(bird.id, before == null ? new Row(pen.id, bird.name, meals, 0) : before.next(pen.id, bird.name, meals));
            }
        }
        rows = now;
        toys = toysOf(pens) + pens.stream().mapToInt(pen -> pen.toys.size()).sum();
    }

    private static String toysOf(List<Pen> pens) {
        return pens.stream().map(pen -> pen.toys.stream().map(toy -> toy.id + " v" + toy.version).sorted().toList()).toList().toString();
    }

    private String expected() {
        return rows.entrySet().stream().map(each -> {
            Row row = each.getValue();
            String id = String.valueOf(each.getKey());
            return id + " " + row.name + " v" + row.version + " pen" + row.pen + " " + sorted(row.meals)
                + "[" + id + "][" + id + "]" + id;
        }).collect(Collectors.joining("\n")) + toys;
    }

    private static List<String> sorted(List<String> meals) {
        return meals.stream().sorted().toList();
    }

    private String stored() {
        return read(other -> {
            List<Bird> birds = other.createQuery("SELECT b FROM Bird b WHERE b.id >= :first ORDER BY b.id", Bird.class)
                .setParameter("first", first).getResultList();
            return birds.stream().map(bird -> {
                bird.meals.sort(null);
                return bird.id + " " + Aviary.shown(bird);
            }).collect(Collectors.joining("\n"))
                + toysOf(pens.stream().map(pen -> other.find(Pen.class, pen.id)).toList())
                + other.createQuery("SELECT COUNT(t) FROM Toy t WHERE t.id >= :first", Long.class)
                    .setParameter("first", first).getSingleResult();
        });
    }
}
