package karzhoul.jpa.context;

import static org.junit.jupiter.api.Assertions.assertEquals;
import static org.junit.jupiter.api.Assertions.assertTrue;

import java.util.List;
import karzhoul.jpa.model.Attribute;
import karzhoul.jpa.shop.Shop;
import org.junit.jupiter.api.Test;
import org.junit.jupiter.params.ParameterizedTest;
import org.junit.jupiter.params.provider.ValueSource;

/** What commits leave of random work, alone, beside others, and over ends of runs. */
class RandomWorkTest {
    private static final int ROUNDS = Integer.getInteger("karzhoul.rounds", 150);

    @ParameterizedTest
    @ValueSource(longs = {1, 2, 3, 4})
    void whatIsReloadedIsWhatWasCommitted(long seed) {
        try (Factory factory = Shop.open()) {
            RandomWork work = new RandomWork(factory, seed, false, false).rounds(ROUNDS);
            assertEquals(List.of(), work.wrong, work.toString());
            assertTrue(work.commits > ROUNDS / 2, work.toString());
            System.out.println(work);
        }
    }

    @ParameterizedTest
    @ValueSource(longs = {11, 12, 13, 14})
    void managersLiveOverRestartsOfRuns(long seed) {
        try (Factory factory = Shop.open()) {
            RandomWork work = new RandomWork(factory, seed, false, true).rounds(ROUNDS);
            assertEquals(List.of(), work.wrong, work.toString());
            System.out.println(work);
            assertTrue(work.commits > ROUNDS / 2 && work.restarts > 0, work.toString());
        }
    }

    @ParameterizedTest
    @ValueSource(longs = {21, 22, 23, 24})
    void othersCommitBetween(long seed) {
        try (Factory factory = Shop.open()) {
            RandomWork work = new RandomWork(factory, seed, true, true).rounds(ROUNDS);
            assertEquals(List.of(), work.wrong, work.toString());
            System.out.println(work);
            assertTrue(work.commits > ROUNDS / 3 && work.others > 0, work.toString());
        }
    }

    @ParameterizedTest
    @ValueSource(longs = {51, 52})
    void programsAreKilledBetween(long seed) {
        try (Factory factory = Shop.open()) {
            RandomWork work = new RandomWork(factory, seed, false, true).kills().rounds(ROUNDS);
            System.out.println(work);
            assertEquals(List.of(), work.wrong, work.toString());
            assertTrue(work.commits > ROUNDS / 4 && work.kills > 0, work.toString());
        }
    }

    @Test
    void aDoorThatLosesOneSetInAThousandIsFound() {
        int found = 0;
        for (long seed = 31; seed < 41 && found == 0; seed++) {
            try (Factory factory = Shop.open()) {
                int[] sets = new int[1];
                factory.pushing(context -> new Push(context) {
                    @Override
                    void set(Entry entry, Attribute attribute, Object column) {
                        if (++sets[0] % 1000 != 0) {
                            super.set(entry, attribute, column);
                        }
                    }
                });
                RandomWork work = new RandomWork(factory, seed, false, false).rounds(4 * ROUNDS);
                found += work.wrong.size() + (int) work.refused.keySet().stream()
                    .filter(why -> why.startsWith("PersistenceException")).count();
            }
        }
        assertTrue(found > 0, "no seed found it");
    }
}
