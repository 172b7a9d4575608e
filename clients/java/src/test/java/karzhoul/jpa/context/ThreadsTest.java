package karzhoul.jpa.context;

import static org.junit.jupiter.api.Assertions.assertEquals;
import static org.junit.jupiter.api.Assertions.assertFalse;
import static org.junit.jupiter.api.Assertions.assertNotNull;
import static org.junit.jupiter.api.Assertions.assertNull;
import static org.junit.jupiter.api.Assertions.assertThrows;
import static org.junit.jupiter.api.Assertions.assertTrue;

import jakarta.persistence.Entity;
import jakarta.persistence.EntityManager;
import jakarta.persistence.Id;
import jakarta.persistence.OptimisticLockException;
import jakarta.persistence.PersistenceException;
import jakarta.persistence.RollbackException;
import java.nio.file.Path;
import java.time.Duration;
import java.util.ArrayList;
import java.util.List;
import java.util.Queue;
import java.util.concurrent.BrokenBarrierException;
import java.util.concurrent.ConcurrentLinkedQueue;
import java.util.concurrent.CyclicBarrier;
import java.util.concurrent.TimeUnit;
import java.util.concurrent.atomic.AtomicInteger;
import karzhoul.jpa.shop.Depot;
import karzhoul.jpa.shop.Order;
import karzhoul.jpa.shop.Person;
import karzhoul.jpa.shop.Shop;
import karzhoul.jpa.shop.Tag;
import net.bytebuddy.ByteBuddy;
import org.junit.jupiter.api.Test;
import org.junit.jupiter.api.Timeout;
import org.junit.jupiter.api.io.TempDir;

/** Many threads over one factory, many managers of one thread, ends of runs, and programs that are killed. */
@Timeout(180)
class ThreadsTest extends Tried {
    private static void inThreads(int threads, Runnable work) {
        Queue<Throwable> faults = new ConcurrentLinkedQueue<>();
        List<Thread> all = new ArrayList<>();
        for (int i = 0; i < threads; i++) {
            Thread thread = new Thread(() -> {
                try {
                    work.run();
                } catch (Throwable e) {
                    faults.add(e);
                }
            });
            all.add(thread);
            thread.start();
        }
        for (Thread thread : all) {
            try {
                thread.join();
            } catch (InterruptedException e) {
                throw new IllegalStateException(e);
            }
        }
        faults.forEach(Throwable::printStackTrace);
        assertEquals(0, faults.size());
    }

    static class A {}
    static class B {}
    static class C {}
    static class D {}
    static class E {}
    static class F {}
    static class G {}
    static class H {}

    @Test
    void aClassOfProxiesIsMadeOnceByManyThreads() {
        for (Class<?> entity : List.of(A.class, B.class, C.class, D.class, E.class, F.class, G.class, H.class)) {
            CyclicBarrier together = new CyclicBarrier(6);
            inThreads(6, () -> {
                try {
                    together.await();
                } catch (InterruptedException | BrokenBarrierException e) {
                    throw new IllegalStateException(e);
                }
                assertTrue(Proxies.canHave(entity), entity.getName());
            });
        }
    }

    @Entity
    static class Lone {
        @Id int id;
    }

    @Test
    void whoGetsNoManagerCanOnlyRollBack(@TempDir Path folder) {
        List<EntityManager> all = new ArrayList<>();
        try (Factory few = Units.over("karzhoul:" + folder.resolve("few.db"), Duration.ofMillis(200), Lone.class)) {
            for (int i = 0; i < 16; i++) {
                EntityManager holds = few.createEntityManager();
                holds.getTransaction().begin();
                assertNull(holds.find(Lone.class, 1));
                all.add(holds);
            }
            EntityManager late = few.createEntityManager();
            late.getTransaction().begin();
            assertThrows(PersistenceException.class, () -> late.find(Lone.class, 1));
            assertTrue(late.getTransaction().getRollbackOnly());
            all.forEach(holds -> holds.getTransaction().rollback());
            assertThrows(RollbackException.class, () -> late.getTransaction().commit());
            assertFalse(late.getTransaction().isActive());
        }
    }

    @Test
    void twoHundredThreadsOverOneFactory() {
        store(new Person("Ada"));
        AtomicInteger numbers = new AtomicInteger(100);
        inThreads(200, () -> {
            for (int i = 0; i < 5; i++) {
                try (EntityManager mine = factory.createEntityManager()) {
                    mine.getTransaction().begin();
                    Person person = new Person("p");
                    person.add(new Order(numbers.incrementAndGet(), 1));
                    mine.persist(person);
                    assertNotNull(mine.find(Person.class, 1L));
                    mine.getTransaction().commit();
                    mine.clear();
                    assertEquals(1, mine.find(Person.class, person.getId()).getOrders().size());
                }
            }
        });
        assertEquals(1_001L, manager.createQuery("SELECT COUNT(p) FROM Person p").getSingleResult());
        assertEquals(1_000L, manager.createQuery("SELECT COUNT(o) FROM Order o").getSingleResult());
    }

    @Test
    void manyManagersWithObjectsNeedNoManagerOfTheProgramEach() {
        store(new Person("Ada"), new Person("Bea"));
        List<EntityManager> managers = new ArrayList<>();
        List<Person> persons = new ArrayList<>();
        for (int i = 0; i < 50; i++) {
            EntityManager one = factory.createEntityManager();
            managers.add(one);
            persons.add(one.find(Person.class, 1L));
        }
        for (int i = 0; i < 50; i++) {
            assertTrue(managers.get(i).contains(persons.get(i)));
            assertEquals(0, persons.get(i).getOrders().size());
        }
        managers.get(3).getTransaction().begin();
        persons.get(3).setName("changed");
        managers.get(3).getTransaction().commit();
        managers.get(4).getTransaction().begin();
        persons.get(4).setName("stale");
        RollbackException refused =
            assertThrows(RollbackException.class, () -> managers.get(4).getTransaction().commit());
        assertEquals(persons.get(4), ((OptimisticLockException) refused.getCause()).getEntity());
        assertEquals("changed", read(other -> other.find(Person.class, 1L)).getName());
        managers.forEach(EntityManager::close);
    }

    @Test
    void managersThatAreForgottenWithATransactionOpenAreGivenBack() throws InterruptedException {
        store(new Person("Ada"));
        for (int i = 0; i < 40; i++) {
            forget(i);
            System.gc();
            Thread.sleep(10);
        }
        assertEquals("Ada", read(other -> other.find(Person.class, 1L)).getName());
    }

    private void forget(int round) {
        EntityManager forgotten = factory.createEntityManager();
        forgotten.getTransaction().begin();
        forgotten.find(Person.class, 1L).setName("forgotten " + round);
        forgotten.flush();
        if (round % 2 == 0) {
            forgotten.close();
        }
    }

    @Test
    void aManagerIsCarriedOverTheEndOfARun() {
        store(new Person("Ada").add(new Order(1, 1)), new Person("Bea"), new Person("Cy"), new Depot("d", "here"));
        Person ada = manager.find(Person.class, 1L);
        Person bea = manager.find(Person.class, 2L);
        Person cy = manager.find(Person.class, 3L);
        Depot depot = manager.find(Depot.class, "d");
        assertEquals(1, ada.getOrders().size());
        bea.setName("Bee");
        Order fresh = new Order(5, 5);
        fresh.setPerson(bea);
        manager.persist(fresh);
        manager.remove(depot);
        other(it -> it.find(Person.class, 3L).setName("other"));
        assertTrue(factory.pool().restartIfIdle());
        commit(() -> ada.add(new Order(2, 2)));
        assertEquals("Bee", read(other -> other.find(Person.class, 2L)).getName());
        assertEquals(2, orders());
        assertEquals("Bee", read(other -> other.find(Order.class, 5L).getPerson().getName()));
        assertNull(read(other -> other.find(Depot.class, "d")));
        assertTrue(manager.contains(cy));
        manager.getTransaction().begin();
        cy.setName("stale");
        RollbackException refused = assertThrows(RollbackException.class, () -> manager.getTransaction().commit());
        assertEquals(cy, ((OptimisticLockException) refused.getCause()).getEntity());
    }

    private int orders() {
        return read(other -> other.find(Person.class, 1L).getOrders().size());
    }

    @Test
    void whatOthersAddedMeanwhileIsNoOrphanOfAManagerThatIsCarriedOver() {
        store(new Person("Ada").add(new Order(1, 1)));
        Person ada = manager.find(Person.class, 1L);
        assertEquals(1, ada.getOrders().size());
        other(it -> it.find(Person.class, 1L).add(new Order(2, 2)));
        assertTrue(factory.pool().restartIfIdle());
        commit(() -> ada.add(new Order(3, 3)));
        assertEquals(3, orders());
    }

    @Test
    void whatOthersAddedMeanwhileIsRemovedByWhoIsCarriedOver() {
        store(new Person("Ada").add(new Order(1, 1)).add(new Order(2, 2)));
        Person ada = manager.find(Person.class, 1L);
        assertEquals(2, ada.getOrders().size());
        ada.getOrders().remove(manager.find(Order.class, 2L));
        ada.add(new Order(3, 3));
        other(it -> it.find(Person.class, 1L).add(new Order(4, 4)));
        assertTrue(factory.pool().restartIfIdle());
        commit(() -> manager.remove(manager.find(Order.class, 4L)));
        assertNotNull(read(other -> other.find(Order.class, 4L)), "it is in the list still, and managed again");
        assertEquals(List.of(4L, 3L, 1L), read(other -> other.find(Person.class, 1L).getOrders().stream()
            .map(Order::getNumber).toList()));
        commit(() -> {
            Order fourth = manager.find(Order.class, 4L);
            ada.getOrders().remove(fourth);
            manager.remove(fourth);
        });
        assertEquals(List.of(3L, 1L), read(other -> other.find(Person.class, 1L).getOrders().stream()
            .map(Order::getNumber).toList()));
    }

    @Test
    void anInverseSetThatNobodyReadRefusesNoRemovalAfterTheEndOfARun() {
        Person ada = new Person("Ada");
        store(ada);
        Person found = manager.find(Person.class, 1L);
        Tag tag = new Tag("x");
        commit(() -> found.getTags().add(tag));
        assertTrue(factory.pool().restartIfIdle());
        commit(() -> manager.remove(found));
        assertNull(read(other -> other.find(Person.class, 1L)));
        assertTrue(manager.contains(tag));
    }

    @Test
    void whatWasToldBeforeTheEndOfARunIsToldAgain() {
        store(new Person("Ada"), new Tag("x"));
        Person ada = manager.find(Person.class, 1L);
        ada.getTags().add(manager.find(Tag.class, "x"));
        ada.add(new Order(1, 1));
        ada.setName("Bea");
        manager.persist(ada);
        assertTrue(factory.pool().restartIfIdle());
        commit(() -> { });
        assertEquals("Bea 1 1", read(other -> {
            Person stored = other.find(Person.class, 1L);
            return stored.getName() + " " + stored.getTags().size() + " " + stored.getOrders().size();
        }));
    }

    @Test
    void aRowThatIsGoneIsStale() {
        store(new Person("Ada"), new Person("Bea"));
        Person ada = manager.find(Person.class, 1L);
        Person bea = manager.find(Person.class, 2L);
        manager.remove(bea);
        other(it -> it.remove(it.find(Person.class, 1L)));
        assertTrue(factory.pool().restartIfIdle());
        commit(() -> { });
        assertNull(read(other -> other.find(Person.class, 2L)));
        manager.getTransaction().begin();
        ada.setName("stale");
        assertThrows(RollbackException.class, () -> manager.getTransaction().commit());
    }

    @Test
    void aProgramThatIsKilledRollsBackAndIsStartedAgain() {
        store(new Person("Ada"));
        EntityManager idle = factory.createEntityManager();
        Person seen = idle.find(Person.class, 1L);
        manager.getTransaction().begin();
        Person ada = manager.find(Person.class, 1L);
        ada.setName("lost");
        manager.persist(new Person("lost"));
        kill();
        PersistenceException ended = assertThrows(PersistenceException.class, () -> manager.flush());
        assertTrue(ended.getMessage().contains("ended"), ended.getMessage());
        assertTrue(manager.getTransaction().getRollbackOnly());
        assertThrows(RollbackException.class, () -> manager.getTransaction().commit());
        assertFalse(manager.getTransaction().isActive());
        assertFalse(manager.contains(ada));
        assertEquals("Ada", manager.find(Person.class, 1L).getName());
        assertNull(manager.find(Person.class, 2L));
        idle.getTransaction().begin();
        seen.setName("Bea");
        idle.getTransaction().commit();
        assertEquals("Bea", read(other -> other.find(Person.class, 1L)).getName());
    }

    @Test
    void aProgramThatIsKilledWithinACommitLeavesAllOrNothing() {
        store(new Person("Ada"));
        for (int i = 0; i < 10; i++) {
            int round = i;
            Thread killer = new Thread(() -> {
                try {
                    Thread.sleep(round * 7L);
                } catch (InterruptedException e) {
                    return;
                }
                kill();
            });
            killer.start();
            boolean isDone = false;
            try {
                manager.getTransaction().begin();
                for (int k = 0; k < 50; k++) {
                    manager.persist(new Order(round * 100 + k, round));
                }
                manager.getTransaction().commit();
                isDone = true;
            } catch (PersistenceException e) {
                if (manager.getTransaction().isActive()) {
                    manager.getTransaction().rollback();
                }
            }
            try {
                killer.join();
            } catch (InterruptedException e) {
                throw new IllegalStateException(e);
            }
            manager.clear();
            long stored = count(round);
            assertTrue(stored == 50 || stored == 0 && !isDone, stored + " of 50, done " + isDone);
        }
    }

    private long count(long amount) {
        for (;;) {
            try {
                return read(other -> other.createQuery("SELECT COUNT(o) FROM Order o WHERE o.amount = :a", Long.class)
                    .setParameter("a", amount).getSingleResult());
            } catch (PersistenceException e) {
                assertTrue(e.getMessage().contains("ended"), e.getMessage());      // the kill came late
            }
        }
    }

    private void kill() {
        ProcessHandle program = ProcessHandle.of(factory.pool().engine().pid()).orElseThrow();
        program.destroyForcibly();
        program.onExit().join();
    }

    @Test
    void aJvmThatIsKilledEndsItsProgram() throws Exception {
        StringBuilder path = new StringBuilder();
        for (Class<?> each : List.of(ThreadsTest.class, Factory.class, EntityManager.class, ByteBuddy.class)) {
            path.append(Path.of(each.getProtectionDomain().getCodeSource().getLocation().toURI())).append(':');
        }
        Process other = new ProcessBuilder(ProcessHandle.current().info().command().orElse("java"),
            "-Dkarzhoul.program=" + Shop.program(), "-cp", path.toString(), Held.class.getName())
            .redirectError(ProcessBuilder.Redirect.INHERIT).start();
        long pid = Long.parseLong(other.inputReader().readLine());
        ProcessHandle program = ProcessHandle.of(pid).orElseThrow();
        assertTrue(program.isAlive());
        other.destroyForcibly();
        program.onExit().get(60, TimeUnit.SECONDS);
        assertFalse(program.isAlive());
    }

    /** Holds a factory open in a JVM of its own, and tells the program's process. */
    static final class Held {
        public static void main(String[] words) throws InterruptedException {
            Factory factory = Shop.open();
            EntityManager manager = factory.createEntityManager();
            manager.getTransaction().begin();
            manager.persist(new Person("Ada"));
            manager.flush();
            System.out.println(factory.pool().engine().pid());
            Thread.sleep(600_000);
        }
    }

    @Test
    void loadsByEightThreadsOverEndsOfRuns() {
        store(new Person("Ada").add(new Order(1, 1)));
        int loads = Integer.getInteger("karzhoul.loads", 100_000);
        inThreads(8, () -> {
            try (EntityManager mine = factory.createEntityManager()) {
                for (int i = 0; i < loads / 8; i++) {
                    assertEquals("Ada", mine.find(Person.class, 1L).getName());
                    mine.clear();
                    if (i % 5_000 == 0) {
                        factory.pool().restartIfIdle();
                    }
                }
            }
        });
    }
}
