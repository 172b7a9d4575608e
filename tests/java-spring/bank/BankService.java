package bank;

import java.io.IOException;
import java.util.concurrent.BrokenBarrierException;
import java.util.concurrent.CyclicBarrier;
import javax.persistence.EntityManager;
import javax.persistence.LockModeType;
import javax.persistence.PersistenceContext;
import org.springframework.beans.factory.annotation.Autowired;
import org.springframework.stereotype.Service;
import org.springframework.transaction.annotation.Transactional;
import org.springframework.transaction.support.TransactionSynchronizationManager;

/** Each service is a transaction. */
@Service
@Transactional
class BankService implements Bank {
    @PersistenceContext
    private EntityManager manager;

    @Autowired
    private Journal journal;

    @Override
    public void open(long number, String owner, long amount) {
        manager.persist(new Account(number, owner, amount));
    }

    @Override
    public void move(long from, long to, long amount) {
        Account giver = manager.find(Account.class, from);
        giver.money.amount -= amount;
        manager.find(Account.class, to).money.amount += amount;
        // (so that a rollback has something to take back)
        manager.flush();
        if (giver.money.amount < 0) {
            throw new Overdrawn(from);
        }
    }

    @Override
    public long moveNoted(long from, long to, long amount) {
        manager.find(Account.class, from).money.amount -= amount;
        manager.flush();
        long seen = journal.note("move " + amount, from);
        manager.find(Account.class, to).money.amount += amount;
        if (manager.find(Account.class, from).money.amount < 0) {
            throw new Overdrawn(from);
        }
        return seen;
    }

    @Override
    public void addThenFail(long number, long amount) throws IOException {
        manager.find(Account.class, number).money.amount += amount;
        throw new IOException("the receipt wasn't printed");
    }

    @Override
    @Transactional(rollbackFor = IOException.class)
    public void addUnlessFailed(long number, long amount) throws IOException {
        addThenFail(number, amount);
    }

    @Override
    public void moveCarelessly(Bank bank, long from, long to, long amount) {
        try {
            bank.move(from, to, amount);
        } catch (Overdrawn ignored) {
            journal.noteWithin("nobody reads this");
        }
    }

    @Override
    public void addTogether(long number, long amount, CyclicBarrier allHaveRead)
            throws InterruptedException, BrokenBarrierException {
        Account account = manager.find(Account.class, number);
        allHaveRead.await();
        account.money.amount += amount;
    }

    @Override
    public void add(long number, long amount) {
        manager.find(Account.class, number).money.amount += amount;
    }

    @Override
    public void lock(long number) {
        manager.find(Account.class, number, LockModeType.OPTIMISTIC_FORCE_INCREMENT);
    }

    @Override
    @Transactional(readOnly = true)
    public long total() {
        if (!TransactionSynchronizationManager.isCurrentTransactionReadOnly()) {
            throw new IllegalStateException("it isn't read-only");
        }
        return manager.createNamedQuery("total", Long.class).getSingleResult();
    }

    @Override
    @Transactional(readOnly = true)
    public Account account(long number) {
        return manager.find(Account.class, number);
    }

    @Override
    @Transactional(readOnly = true)
    public void addWhileReading(long number, long amount) {
        manager.find(Account.class, number).money.amount += amount;
    }

    @Override
    @Transactional(readOnly = true)
    public Booking booking(String text) {
        return manager.createQuery("SELECT b FROM Booking b WHERE b.text = ?1", Booking.class)
                .setParameter(1, text).getSingleResult();
    }
}
