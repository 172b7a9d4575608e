package karzhoul.jpa.context;

import static org.junit.jupiter.api.Assertions.assertEquals;
import static org.junit.jupiter.api.Assertions.assertThrows;
import static org.junit.jupiter.api.Assertions.assertTrue;

import jakarta.persistence.CascadeType;
import jakarta.persistence.Entity;
import jakarta.persistence.EntityManager;
import jakarta.persistence.GeneratedValue;
import jakarta.persistence.GenerationType;
import jakarta.persistence.Id;
import jakarta.persistence.ManyToOne;
import jakarta.persistence.PersistenceException;
import jakarta.persistence.SequenceGenerator;
import jakarta.persistence.Table;
import jakarta.persistence.TableGenerator;
import jakarta.persistence.Version;
import java.nio.file.Path;
import java.util.ArrayList;
import java.util.List;
import java.util.Set;
import java.util.concurrent.ConcurrentHashMap;
import java.util.concurrent.ExecutorService;
import java.util.concurrent.Executors;
import java.util.concurrent.TimeUnit;
import java.util.concurrent.atomic.AtomicReference;
import java.util.function.Consumer;
import org.junit.jupiter.api.Test;
import org.junit.jupiter.api.io.TempDir;

/** Keys of generators that have a name, a beginning and blocks (chapters 11.1.48 and 11.1.50). */
class GeneratorsTest {
    @Entity
    @SequenceGenerator(name = "bills", sequenceName = "bill_numbers", initialValue = 100, allocationSize = 10)
    static class Bill {
        @Id @GeneratedValue(strategy = GenerationType.SEQUENCE, generator = "bills") long id;
        @Version int version;
        @ManyToOne(cascade = {CascadeType.PERSIST, CascadeType.MERGE}) Stamp stamp;
    }

    @Entity
    static class Credit {
        @Id @GeneratedValue(generator = "bills") Integer id;
    }

    @Entity
    @TableGenerator(name = "stamps", table = "counters", pkColumnName = "what", valueColumnName = "last", pkColumnValue = "stamp",
            initialValue = 500, allocationSize = 3)
    static class Stamp {
        @Id @GeneratedValue(strategy = GenerationType.TABLE, generator = "stamps") Long id;
    }

    @Entity
    static class Seal {
        @Id
        @GeneratedValue(strategy = GenerationType.TABLE, generator = "seals")
        @TableGenerator(name = "seals", table = "counters", pkColumnValue = "stamp", initialValue = 500, allocationSize = 3)
        Long id;
    }

    @Entity
    static class Wax {
        @Id
        @GeneratedValue(strategy = GenerationType.TABLE, generator = "wax")
        @TableGenerator(name = "wax", table = "counters", pkColumnValue = "wax", initialValue = 500, allocationSize = 3)
        Long id;
    }

    @Entity(name = "Wax") @Table(name = "Wax")
    static class OtherWax {
        @Id
        @GeneratedValue(strategy = GenerationType.TABLE, generator = "wax")
        @TableGenerator(name = "wax", table = "counters", pkColumnValue = "wax", initialValue = 500, allocationSize = 5)
        Long id;
    }

    @TempDir Path folder;

    private Factory open() {
        return Units.over("karzhoul:" + folder.resolve("office.db"), Bill.class, Credit.class, Stamp.class, Seal.class, Wax.class);
    }

    private static void commit(Factory factory, Consumer<EntityManager> done) {
        try (EntityManager manager = factory.createEntityManager()) {
            manager.getTransaction().begin();
            done.accept(manager);
            manager.getTransaction().commit();
        }
    }

    private static long bill(EntityManager manager) {
        Bill bill = new Bill();
        manager.persist(bill);
        return bill.id;
    }

    private static long wax(EntityManager manager) {
        Wax wax = new Wax();
        manager.persist(wax);
        return wax.id;
    }

    @Test
    void theyBeginWhereTheySay() {
        try (Factory factory = open()) {
            commit(factory, manager -> {
                assertEquals(100, bill(manager));
                assertEquals(101, bill(manager));
                Credit credit = new Credit();
                manager.persist(credit);
                assertEquals(102, credit.id, "hierarchies share a generator");
                assertEquals(501, wax(manager), "a table has the number that was given last");
            });
            commit(factory, manager -> {
                assertEquals(103, bill(manager));
                Stamp stamp = new Stamp();
                Seal seal = new Seal();
                manager.persist(stamp);
                manager.persist(seal);
                assertEquals(List.of(501L, 502L), List.of(stamp.id, seal.id), "generators of one row count together");
                assertEquals(502, wax(manager), "one of another row counts by itself");
            });
        }
    }

    @Test
    void aNewRunBeginsTheNextBlock() {
        try (Factory factory = open()) {
            commit(factory, manager -> assertEquals(100, bill(manager)));
        }
        try (Factory factory = open()) {
            commit(factory, manager -> {
                for (int i = 0; i < 11; i++) {
                    assertEquals(110 + i, bill(manager));
                }
            });
        }
    }

    @Test
    void byCascadesAndMerges() {
        try (Factory factory = open()) {
            commit(factory, manager -> {
                Bill bill = new Bill();
                manager.persist(bill);
                bill.stamp = new Stamp();
                manager.flush();
                assertEquals(501, bill.stamp.id);
                Bill merged = manager.merge(new Bill());
                assertEquals(101, merged.id);
                Bill other = new Bill();
                other.stamp = new Stamp();
                assertEquals(502, manager.merge(other).stamp.id);
            });
            Bill[] detached = new Bill[1];
            commit(factory, manager -> detached[0] = manager.find(Bill.class, 100L));
            commit(factory, manager -> assertEquals(100, manager.merge(detached[0]).id));
            commit(factory, manager -> assertEquals(3L, manager.createQuery("SELECT COUNT(b) FROM Bill b").getSingleResult()));
        }
    }

    @Test
    void whatIsRolledBackKeepsItsNumber() {
        try (Factory factory = open()) {
            try (EntityManager manager = factory.createEntityManager()) {
                manager.getTransaction().begin();
                assertEquals(100, bill(manager));
                manager.getTransaction().rollback();
            }
            commit(factory, manager -> assertEquals(101, bill(manager)));
            assertThrows(PersistenceException.class, () -> commit(factory, manager -> {
                Bill taken = new Bill();
                taken.id = 101;
                manager.persist(taken);
            }));
        }
    }

    @Test
    void twoFactoriesAndEightThreadsGetNoNumberTwice() throws InterruptedException {
        Set<Long> all = ConcurrentHashMap.newKeySet();
        AtomicReference<Throwable> fault = new AtomicReference<>();
        try (Factory one = open(); Factory two = open()) {
            ExecutorService threads = Executors.newFixedThreadPool(8);
            for (int i = 0; i < 8; i++) {
                Factory factory = i % 2 == 0 ? one : two;
                threads.execute(() -> {
                    try {
                        for (int k = 0; k < 25; k++) {
                            boolean isKept = k % 5 != 0;
                            try (EntityManager manager = factory.createEntityManager()) {
                                manager.getTransaction().begin();
                                assertTrue(all.add(bill(manager)));
                                assertTrue(all.add(bill(manager)));
                                if (isKept) {
                                    manager.getTransaction().commit();
                                } else {
                                    manager.getTransaction().rollback();
                                }
                            }
                        }
                    } catch (Throwable e) {
                        fault.set(e);
                    }
                });
            }
            threads.shutdown();
            assertTrue(threads.awaitTermination(120, TimeUnit.SECONDS));
            assertEquals(null, fault.get());
            assertEquals(400, all.size());
            assertEquals(499, all.stream().mapToLong(it -> it).max().getAsLong());
            commit(one, manager -> assertEquals(320L, manager.createQuery("SELECT COUNT(b) FROM Bill b").getSingleResult()));
        }
    }

    @Test
    void aKillLosesAtMostABlock() {
        List<Long> stored = new ArrayList<>();
        try (Factory factory = open()) {
            for (int run = 0; run < 4; run++) {
                commit(factory, manager -> stored.add(bill(manager)));
                try (EntityManager manager = factory.createEntityManager()) {
                    manager.getTransaction().begin();
                    for (int i = 0; i < 15; i++) {
                        bill(manager);
                    }
                    ProcessHandle.of(factory.pool().engine().pid()).orElseThrow().destroyForcibly();
                    assertThrows(PersistenceException.class, () -> manager.getTransaction().commit());
                }
            }
            commit(factory, manager -> stored.add(bill(manager)));
        }
        assertEquals(List.of(100L, 110L, 120L, 130L, 140L), stored);
    }

    @Test
    void anotherSizeOverAStoreIsRefused() {
        String url = "karzhoul:" + folder.resolve("wax.db");
        try (Factory factory = Units.over(url, Wax.class)) {
            commit(factory, GeneratorsTest::wax);
        }
        String words = assertThrows(PersistenceException.class, () -> Units.over(url, OtherWax.class)).getMessage();
        assertTrue(words.contains("from 501 on, 3 at a time in the store, and number"), words);
    }
}
