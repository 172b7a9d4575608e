package karzhoul.jpa.engine;

import static org.junit.jupiter.api.Assertions.assertEquals;
import static org.junit.jupiter.api.Assertions.assertFalse;
import static org.junit.jupiter.api.Assertions.assertNotSame;
import static org.junit.jupiter.api.Assertions.assertSame;
import static org.junit.jupiter.api.Assertions.assertThrows;
import static org.junit.jupiter.api.Assertions.assertTrue;

import jakarta.persistence.PersistenceException;
import java.util.ArrayList;
import java.util.List;
import java.util.concurrent.CompletableFuture;
import java.util.concurrent.TimeUnit;
import java.util.concurrent.atomic.AtomicReference;
import karzhoul.jpa.shop.Shop;
import org.junit.jupiter.api.AfterEach;
import org.junit.jupiter.api.Test;

/** The program's sixteen managers, and its runs. */
class PoolTest {
    private final Pool pool = new Pool(millis -> new Engine(new ProcessTransport(List.of(Shop.program())), new Journal(null, true, 0)));

    @AfterEach
    void close() {
        pool.close();
    }

    @Test
    void sixteenAtATimeAndAClearErrorForTheNext() {
        List<Session> busy = new ArrayList<>();
        for (int i = 0; i < Pool.MANAGERS; i++) {
            busy.add(pool.enter(null, 1_000));
        }
        assertEquals(16, busy.stream().map(Session::manager).distinct().count());
        PersistenceException refused = assertThrows(PersistenceException.class, () -> pool.enter(null, 50));
        assertTrue(refused.getMessage().contains("karzhoul.pool.wait"), refused.getMessage());
        CompletableFuture<Session> waits = CompletableFuture.supplyAsync(() -> pool.enter(null, 10_000));
        pool.giveBack(busy.get(0), false);
        assertEquals(busy.get(0).manager(), waits.orTimeout(5, TimeUnit.SECONDS).join().manager());
    }

    @Test
    void whoIsInterruptedWhileItWaitsStaysInterrupted() throws InterruptedException {
        for (int i = 0; i < Pool.MANAGERS; i++) {
            pool.enter(null, 1_000);
        }
        AtomicReference<String> told = new AtomicReference<>();
        Thread waits = new Thread(() -> {
            try {
                pool.enter(null, 60_000);
            } catch (PersistenceException e) {
                told.set(e.getMessage() + Thread.currentThread().isInterrupted());
            }
        });
        waits.start();
        Thread.sleep(50);
        waits.interrupt();
        waits.join(10_000);
        assertEquals("interrupted while it waited for a manager of the programtrue", told.get());
    }

    @Test
    void whoIsIdleLosesItsManagerToWhoNeedsOne() {
        List<Session> held = new ArrayList<>();
        for (int i = 0; i < Pool.MANAGERS; i++) {
            held.add(pool.enter(null, 1_000));
        }
        held.forEach(pool::leave);
        Session seventeenth = pool.enter(null, 1_000);
        assertTrue(seventeenth.needsClear());
        assertEquals(held.get(0).manager(), seventeenth.manager());
        assertSame(held.get(1), pool.enter(held.get(1), 1_000), "who was used later keeps its own");
        assertNotSame(held.get(0), pool.enter(held.get(0), 1_000));
    }

    @Test
    void aRunEndsOnceNobodyIsBusy() {
        Session first = pool.enter(null, 1_000);
        assertFalse(pool.restartIfIdle());
        pool.leave(first);
        assertTrue(pool.restartIfIdle());
        Session second = pool.enter(first, 1_000);
        assertEquals(first.run() + 1, second.run());
        assertEquals(1, second.manager());
        assertEquals(1, pool.numbers().take(second.engine(), "Person"));
    }

    @Test
    void aRunThatMadeItsObjectsEndsByItself() {
        Session session = pool.enter(null, 1_000);
        Lines lines = new Lines();
        for (int i = 0; i < 10_000; i++) {
            lines.newObject("Person");
        }
        for (int i = 0; i < 50; i++) {
            session.engine().ask(lines);
        }
        assertEquals(500_000, session.engine().made());
        Session other = pool.enter(null, 5_000);       // a thread may wait for itself: it is let through after a while
        assertEquals(session.run(), other.run());
        pool.leave(session);
        pool.leave(other);
        assertEquals(session.run() + 1, pool.enter(session, 1_000).run());
    }

    @Test
    void aProgramThatWasKilledIsStartedAgain() {
        Session session = pool.enter(null, 1_000);
        ProcessHandle.of(session.engine().pid()).orElseThrow().destroyForcibly();
        ProgramEnded ended = assertThrows(ProgramEnded.class, () -> {
            for (;;) {
                session.engine().ask(new Lines().newObject("Person"));
            }
        });
        assertTrue(ended.getMessage().contains("starts it again"), ended.getMessage());
        pool.leave(session);
        Session next = pool.enter(session, 1_000);
        assertNotSame(session.engine(), next.engine());
        assertEquals(1, next.engine().ask(new Lines().newObject("Person"))[0].number());
    }

    @Test
    void aWindowOfLinesIsLessThanAPipe() {
        Session session = pool.enter(null, 1_000);
        Lines lines = new Lines();
        String text = "é".repeat(30_000);
        long number = session.engine().ask(new Lines().newObject("Person"))[0].number();
        for (int i = 0; i < 200; i++) {
            lines.set(number, "name", text + i).get(number, "name");
        }
        Reply[] replies = session.engine().ask(lines);
        assertEquals(text + 199, replies[399].ok());
    }
}
