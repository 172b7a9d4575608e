package karzhoul.jpa.context;

import jakarta.persistence.EntityManager;
import jakarta.persistence.OptimisticLockException;
import jakarta.persistence.PersistenceException;
import java.nio.file.Path;
import java.util.Iterator;
import java.util.concurrent.ThreadLocalRandom;
import java.util.concurrent.TimeUnit;
import java.util.function.Function;
import karzhoul.jpa.CommitUnknownException;
import karzhoul.jpa.Karzhoul;
import karzhoul.jpa.ServerEndingException;
import karzhoul.jpa.engine.Program;
import karzhoul.jpa.engine.ProgramEnded;

/** What a factory does beside the standard. */
final class KarzhoulOf implements Karzhoul {
    private static final int LONGEST_PAUSE = 100;

    private final Factory factory;
    private final Program program;

    KarzhoulOf(Factory factory, Program program) {
        this.factory = factory;
        this.program = program;
    }

    @Override
    public Statistics statistics() {
        factory.needOpen();
        return program.pool().statistics();
    }

    @Override
    public <T> T retry(int attempts, Function<EntityManager, T> work) {
        if (attempts < 1) {
            throw new IllegalArgumentException("there are " + attempts + " attempts, and one is the least");
        }
        for (int done = 1;; done++) {
            try {
                return once(work);
            } catch (PersistenceException refused) {
                if (done == attempts || !isLost(refused)) {
                    throw refused;
                }
                awaitNext(done, refused);
            }
        }
    }

    private <T> T once(Function<EntityManager, T> work) {
        EntityManager manager = factory.createEntityManager();
        try {
            manager.getTransaction().begin();
            T answer = work.apply(manager);
            if (manager.getTransaction().isActive()) {
                manager.getTransaction().commit();
            }
            return answer;
        } finally {
            if (manager.getTransaction().isActive()) {
                manager.getTransaction().rollback();
            }
            manager.close();
        }
    }

    /** Whether it was lost through no fault of its own, and nothing of it is stored. */
    private static boolean isLost(Throwable refused) {
        for (Throwable cause = refused; cause != null; cause = cause.getCause()) {
            if (cause instanceof CommitUnknownException) {
                return false;
            } else if (cause instanceof OptimisticLockException || cause instanceof ProgramEnded
                    || cause instanceof ServerEndingException) {
                return true;
            }
        }
        return false;
    }

    private static boolean isEnding(Throwable refused) {
        Throwable cause = refused;
        while (cause != null && !(cause instanceof ServerEndingException)) {
            cause = cause.getCause();
        }
        return cause != null;
    }

    /** Pauses, so that those who met don't meet again; a server that is ending ends before, or the refusal stands. */
    private void awaitNext(int done, PersistenceException refused) {
        try {
            if (isEnding(refused) && !program.pool().awaitEnd(factory.waitMillis())) {
                throw refused;
            }
            TimeUnit.MILLISECONDS.sleep(ThreadLocalRandom.current().nextInt(Math.min(LONGEST_PAUSE, 2 << Math.min(done, 8))));
        } catch (InterruptedException e) {
            Thread.currentThread().interrupt();
            throw refused;
        }
    }

    @Override
    public long load(Iterator<?> instances, int together) {
        if (together < 1) {
            throw new IllegalArgumentException(together + " together, and one is the least");
        }
        EntityManager manager = factory.createEntityManager();
        long stored = 0;
        int waiting = 0;
        try {
            manager.getTransaction().begin();
            while (instances.hasNext()) {
                manager.persist(instances.next());
                waiting++;
                if (waiting == together) {
                    commit(manager);
                    stored += waiting;
                    waiting = 0;
                    manager.getTransaction().begin();
                }
            }
            commit(manager);
            return stored + waiting;
        } catch (CommitUnknownException e) {
            throw new CommitUnknownException(stored + " of them are stored, and of the " + waiting + " behind them all or none: "
                + e.getMessage(), e);
        } catch (PersistenceException | IllegalArgumentException e) {
            throw new PersistenceException(stored + " of them are stored, and of the " + waiting + " behind them none: "
                + e.getMessage(), e);
        } finally {
            if (manager.getTransaction().isActive()) {
                manager.getTransaction().rollback();
            }
            manager.close();
        }
    }

    private static void commit(EntityManager manager) {
        manager.getTransaction().commit();
        manager.clear();
    }

    @Override
    public long backup(Path file) {
        factory.needOpen();
        return program.backup(file);
    }
}
