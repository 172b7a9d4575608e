package karzhoul.jpa.context;

import static org.junit.jupiter.api.Assertions.assertEquals;
import static org.junit.jupiter.api.Assertions.assertTrue;

import jakarta.persistence.EntityManager;
import jakarta.persistence.OptimisticLockException;
import jakarta.persistence.RollbackException;
import java.util.ArrayList;
import java.util.Collections;
import java.util.HashMap;
import java.util.List;
import java.util.Map;
import java.util.Random;
import java.util.Set;
import java.util.TreeMap;
import karzhoul.jpa.context.Page.Mark;
import karzhoul.jpa.context.Page.Spot;
import org.junit.jupiter.params.ParameterizedTest;
import org.junit.jupiter.params.provider.ValueSource;

/** Random work on collections of values, with a second manager that commits between: a reload is what was committed. */
class RandomElementsTest {
    private static final int PAGES = 4;
    private static final int COMMITS = 120;

    private final Map<Long, List<Object>> expected = new TreeMap<>();
    private Random random;
    private Factory factory;

    private static List<Object> content(Page page) {
        List<String> words = new ArrayList<>(page.words);
        Collections.sort(words);
        Map<Mark, String> places = new TreeMap<>();
        page.places.forEach((mark, spot) -> places.put(mark, spot.toString()));
        return List.of(words, List.copyOf(page.steps), Set.copyOf(page.marks), Map.copyOf(page.titles), places,
            page.spots.stream().map(Spot::toString).sorted().toList());
    }

    private static int rowsOf(Page page) {
        return page.words.size() + page.steps.size() + page.marks.size() + page.titles.size() + page.places.size()
            + page.spots.size();
    }

    private String word() {
        return "w" + random.nextInt(6);
    }

    private void change(Page page) {
        switch (random.nextInt(16)) {
            case 0 -> page.words.add(word());
            case 1 -> page.words.remove(word());
            case 2 -> page.words = new ArrayList<>(List.of(word(), word()));
            case 3 -> page.steps.add(random.nextInt(page.steps.size() + 1), word());
            case 4 -> page.steps.removeIf(step -> random.nextInt(3) == 0);
            case 5 -> Collections.shuffle(page.steps, random);
            case 6 -> page.marks.add(Mark.values()[random.nextInt(3)]);
            case 7 -> page.marks.remove(Mark.values()[random.nextInt(3)]);
            case 8 -> page.titles.put(word(), word());
            case 9 -> page.titles.remove(word());
            case 10 -> page.titles = new HashMap<>(page.titles);
            case 11 -> page.places.computeIfAbsent(Mark.values()[random.nextInt(3)], none -> new Spot(1, word())).left++;
            case 12 -> page.places.clear();
            case 13 -> page.spots.add(new Spot(random.nextInt(3), word()));
            case 14 -> page.spots.forEach(spot -> spot.word = random.nextInt(4) == 0 ? word() : spot.word);
            default -> page.spots.removeIf(spot -> random.nextInt(2) == 0);
        }
    }

    /** Changes some pages; what they have then, where it is another, is expected once the commit is done. */
    private Map<Long, List<Object>> work(EntityManager manager) {
        Map<Long, List<Object>> before = new TreeMap<>();
        Map<Long, List<Object>> now = new TreeMap<>();
        for (int i = random.nextInt(4); i >= 0; i--) {
            Page page = manager.find(Page.class, 1L + random.nextInt(PAGES));
            before.putIfAbsent(page.id, content(page));
            change(page);
            if (random.nextInt(4) == 0) {
                manager.flush();
            }
            now.put(page.id, content(page));
        }
        now.entrySet().removeIf(entry -> entry.getValue().equals(before.get(entry.getKey())));
        return now;
    }

    private boolean commits(EntityManager manager, boolean hasRival) {
        manager.getTransaction().begin();
        Map<Long, List<Object>> now = work(manager);
        boolean isMerged = !now.isEmpty() && random.nextInt(4) == 0;
        if (isMerged) {
            Page page = manager.find(Page.class, now.keySet().iterator().next());
            now.put(page.id, content(page));
            manager.flush();
            manager.detach(page);
            change(page);
            now.put(page.id, content(page));
            Page image = manager.merge(page);
            assertEquals(content(page), content(image));
        }
        if (hasRival) {
            try (EntityManager rival = factory.createEntityManager()) {
                assertTrue(commits(rival, false));
            }
        }
        try {
            manager.getTransaction().commit();
        } catch (RollbackException refused) {
            assertTrue(hasRival && refused.getCause() instanceof OptimisticLockException, () -> "" + refused.getCause());
            return false;
        }
        expected.putAll(now);
        return true;
    }

    @ParameterizedTest
    @ValueSource(ints = {1, 2, 3, 4})
    void aReloadIsWhatWasCommitted(int seed) {
        random = new Random(seed);
        factory = Units.over("karzhoul:memory", Page.class);
        try (EntityManager manager = factory.createEntityManager()) {
            manager.getTransaction().begin();
            for (int i = 0; i < PAGES; i++) {
                Page page = new Page("p" + i);
                manager.persist(page);
                expected.put(page.id, content(page));
            }
            manager.getTransaction().commit();
            int refused = 0;
            int restarts = 0;
            for (int i = 0; i < COMMITS; i++) {
                boolean hasRival = random.nextInt(4) == 0;
                refused += commits(manager, hasRival) ? 0 : 1;
                if (hasRival || random.nextInt(5) == 0) {
                    manager.clear();
                }
                restarts += random.nextInt(6) == 0 && factory.pool().restartIfIdle() ? 1 : 0;
                check(seed + ", commit " + i);
            }
            assertTrue(refused > 0 && restarts > 0, refused + " stale commits, " + restarts + " restarts");
        } finally {
            factory.close();
        }
    }

    private void check(String when) {
        try (EntityManager other = factory.createEntityManager()) {
            int rows = 0;
            for (long id = 1; id <= PAGES; id++) {
                Page page = other.find(Page.class, id);
                assertEquals(expected.get(id), content(page), when);
                rows += rowsOf(page);
            }
            assertEquals(rows, Units.rowsOfElements(factory), when + ": rows that belong to nobody");
        }
    }
}
