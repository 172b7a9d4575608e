import jakarta.persistence.EntityManager;
import jakarta.persistence.EntityManagerFactory;
import jakarta.persistence.Persistence;
import java.lang.management.ManagementFactory;
import java.time.Duration;
import java.util.HashMap;
import java.util.Map;
import java.util.function.IntConsumer;

/**
 * Queries of one provider, each told with its nanoseconds an operation by the clock and of processor time, the
 * program's with it: Queries PROPERTY=VALUE..
 */
public class Queries {
    private static final int PERSONS = 1_000;
    private static final int ORDERS = 10_000;

    private final EntityManager manager;

    private Queries(EntityManager manager) {
        this.manager = manager;
    }

    public static void main(String[] words) {
        Map<String, String> properties = new HashMap<>();
        for (String word : words) {
            int mark = word.indexOf('=');
            properties.put(word.substring(0, mark), word.substring(mark + 1));
        }
        EntityManagerFactory factory = Persistence.createEntityManagerFactory("bench", properties);
        EntityManager manager = factory.createEntityManager();
        Queries queries = new Queries(manager);
        queries.fill();
        for (int round = 0; round < 4; round++) {
            queries.round();
        }
        manager.close();
        factory.close();
    }

    private void fill() {
        manager.getTransaction().begin();
        for (long id = 1; id <= PERSONS; id++) {
            Bench.Person person = new Bench.Person();
            person.id = id;
            person.name = "person " + id;
            manager.persist(person);
        }
        for (long id = 1; id <= ORDERS; id++) {
            Bench.Order order = new Bench.Order();
            order.id = id;
            order.amount = (int) (id * 7919 % 1_000);
            order.person = manager.getReference(Bench.Person.class, id % PERSONS + 1);
            manager.persist(order);
        }
        manager.getTransaction().commit();
        manager.clear();
    }

    private void round() {
        measured("query of one row by its key", 4_000, 1, i -> {
            if (manager.createQuery("SELECT p FROM Person p WHERE p.id = :id", Bench.Person.class)
                    .setParameter("id", (long) (i % PERSONS + 1)).getSingleResult().name == null) {
                throw new IllegalStateException("no name");
            }
            manager.clear();
        });
        measured("one value by its key", 4_000, 1, i -> manager.createQuery(
                "SELECT p.name FROM Person p WHERE p.id = :id", String.class)
                .setParameter("id", (long) (i % PERSONS + 1)).getSingleResult());
        measured("row of two numbers, 10,000 of them", 20, ORDERS, i -> need(ORDERS, "SELECT o.id, o.amount FROM Purchase o"));
        measured("1,000 groups over 10,000 joined rows", 20, 1, i -> need(PERSONS,
                "SELECT p.name, COUNT(o), SUM(o.amount) FROM Person p JOIN p.orders o GROUP BY p.name"));
    }

    private void need(int rows, String text) {
        if (manager.createQuery(text, Object[].class).getResultList().size() != rows) {
            throw new IllegalStateException("not " + rows + " rows: " + text);
        }
    }

    private static void measured(String what, int times, int operations, IntConsumer operation) {
        long processor = processor();
        long start = System.nanoTime();
        for (int i = 0; i < times; i++) {
            operation.accept(i);
        }
        long count = (long) times * operations;
        System.out.println(what + "\t" + (System.nanoTime() - start) / count + "\t" + (processor() - processor) / count);
    }

    /** The processor's time of this thread, and of the programs that this process has started. */
    private static long processor() {
        return ManagementFactory.getThreadMXBean().getCurrentThreadCpuTime() + ProcessHandle.current().children()
                .mapToLong(child -> child.info().totalCpuDuration().orElse(Duration.ZERO).toNanos()).sum();
    }
}
