package clinic;

import java.util.List;
import java.util.Map;
import java.util.Queue;
import java.util.Set;
import java.util.concurrent.ConcurrentHashMap;
import java.util.concurrent.ConcurrentLinkedQueue;
import java.util.concurrent.TimeUnit;
import java.util.concurrent.atomic.AtomicInteger;

/** What the users were told: what was confirmed, and what isn't known. */
final class Told {
    private static final int ENOUGH = 100;
    private final Map<Long, String> booked = new ConcurrentHashMap<>();
    private final Set<Long> cancelled = ConcurrentHashMap.newKeySet();
    private final Set<String> wanted = ConcurrentHashMap.newKeySet();
    private final Map<Long, String> invoices = new ConcurrentHashMap<>();
    private final Map<Long, Integer> documents = new ConcurrentHashMap<>();
    private final Queue<String> odd = new ConcurrentLinkedQueue<>();
    private final AtomicInteger counted = new AtomicInteger();
    private final AtomicInteger perhapsCounted = new AtomicInteger();
    private final AtomicInteger confirmed = new AtomicInteger();
    private final AtomicInteger refused = new AtomicInteger();
    private final AtomicInteger unknown = new AtomicInteger();
    private volatile int beforeKill;
    private volatile int killsToCome;

    /** Appointments that stand, by their keys: the doctor and the time. */
    Map<Long, String> booked() {
        return booked;
    }

    Set<Long> cancelled() {
        return cancelled;
    }

    /** Sums by invoices. */
    Map<Long, String> invoices() {
        return invoices;
    }

    /** What documents were made of. */
    Map<Long, Integer> documents() {
        return documents;
    }

    void wants(String reason) {
        wanted.add(reason);
    }

    boolean wasWanted(String reason) {
        return wanted.contains(reason);
    }

    /** Takes an answer, and tells whether it confirms; what is neither this, a conflict nor unknown is odd. */
    boolean confirms(int status, String text) {
        if (status == 409) {
            refused.incrementAndGet();
        } else if (status == 503) {
            unknown.incrementAndGet();
        } else if (status >= 200 && status < 300) {
            confirmed.incrementAndGet();
            return true;
        } else {
            odd.add(status + " " + text);
        }
        return false;
    }

    void counts(boolean isConfirmed, int status) {
        if (isConfirmed) {
            counted.incrementAndGet();
        } else if (status == 503) {
            perhapsCounted.incrementAndGet();
        }
    }

    int counted() {
        return counted.get();
    }

    int perhapsCounted() {
        return perhapsCounted.get();
    }

    List<String> odd() {
        return List.copyOf(odd);
    }

    /** So many kills are to come, after each of which something is to be confirmed. */
    void expectKills(int kills) {
        killsToCome = kills;
    }

    void killed() {
        beforeKill = confirmed.get();
        killsToCome--;
    }

    /** Whether all kills were done, and enough was confirmed before and since. */
    boolean isEnough() {
        return killsToCome == 0 && confirmedSinceKill() >= ENOUGH && !booked.isEmpty() && !invoices.isEmpty();
    }

    /** Waits until enough was confirmed since the last kill, for so many seconds at most. */
    void awaitConfirmed(int seconds) throws InterruptedException {
        for (var wait = 0; wait < seconds * 20 && confirmedSinceKill() < ENOUGH; wait++) {
            TimeUnit.MILLISECONDS.sleep(50);
        }
    }

    int confirmedSinceKill() {
        return confirmed.get() - beforeKill;
    }

    @Override
    public String toString() {
        return confirmed + " confirmed, " + confirmedSinceKill() + " of them since the last kill, " + refused
                + " refused, " + unknown + " unknown: " + booked.size() + " appointments, " + cancelled.size()
                + " cancelled, " + invoices.size() + " invoices, " + documents.size() + " documents, " + counted + " changes";
    }
}
