package bank;

import java.io.IOException;
import java.util.concurrent.BrokenBarrierException;
import java.util.concurrent.CyclicBarrier;

/** The services of the bank. */
public interface Bank {
    void open(long number, String owner, long amount);

    /** @throws Overdrawn where the giver has less than that */
    void move(long from, long to, long amount);

    /** As move; what was tried stands in the journal. Answers the giver's balance as the journal saw it. */
    long moveNoted(long from, long to, long amount);

    /** Adds, and fails then: a checked exception commits, as Spring has it. */
    void addThenFail(long number, long amount) throws IOException;

    /** As addThenFail, but takes the checked exception as a reason to roll back. */
    void addUnlessFailed(long number, long amount) throws IOException;

    /** Goes on where a part of its transaction has failed, which it mustn't. */
    void moveCarelessly(Bank bank, long from, long to, long amount);

    /** Adds once all threads have read. */
    void addTogether(long number, long amount, CyclicBarrier allHaveRead)
            throws InterruptedException, BrokenBarrierException;

    void add(long number, long amount);

    /** Raises the version of an account. */
    void lock(long number);

    /** What all accounts have. */
    long total();

    Account account(long number);

    /** Adds, though it says that it only reads. */
    void addWhileReading(long number, long amount);

    Booking booking(String text);
}
