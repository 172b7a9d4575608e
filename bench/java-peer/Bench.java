import jakarta.persistence.Entity;
import jakarta.persistence.EntityManager;
import jakarta.persistence.EntityManagerFactory;
import jakarta.persistence.FetchType;
import jakarta.persistence.Id;
import jakarta.persistence.ManyToOne;
import jakarta.persistence.OneToMany;
import jakarta.persistence.Persistence;
import jakarta.persistence.Version;
import java.lang.management.ManagementFactory;
import java.time.Duration;
import java.util.ArrayList;
import java.util.HashMap;
import java.util.List;

/**
 * Workloads of one provider, each told as its nanoseconds an operation: by the clock, of the processor for this thread,
 * and of the processor for the program that the provider started. {@code Bench ROUNDS PROPERTY=VALUE..}; with no round
 * it is a first run alone: open, persist, commit, find.
 */
public class Bench {
    @Entity(name = "Person")
    public static class Person {
        @Id Long id;
        @Version int version;
        String name;
        @OneToMany(mappedBy = "person") List<Order> orders = new ArrayList<>();

        protected Person() {}

        public Person(long id) {
            this.id = id;
            name = "person " + id;
        }

        public int countOrders() {
            return orders.size();
        }
    }

    @Entity(name = "Purchase")
    public static class Order {
        @Id Long id;
        int amount;
        @ManyToOne(fetch = FetchType.LAZY) Person person;

        protected Order() {}

        public Order(long id, Person person) {
            this.id = id;
            this.person = person;
        }
    }

    /** When a piece of work began. */
    private record Moment(long clock, long thread, long program) {
        static Moment now() {
            var program = ProcessHandle.current().children().map(child -> child.info().totalCpuDuration())
                .mapToLong(used -> used.map(Duration::toNanos).orElse(0L)).sum();
            return new Moment(System.nanoTime(), ManagementFactory.getThreadMXBean().getCurrentThreadCpuTime(), program);
        }
    }

    private static long next = 0;
    private final EntityManager manager;

    private Bench(EntityManager manager) {
        this.manager = manager;
    }

    public static void main(String[] words) {
        var properties = new HashMap<String, String>();
        for (var word : List.of(words).subList(1, words.length)) {
            var mark = word.indexOf('=');
            properties.put(word.substring(0, mark), word.substring(mark + 1));
        }
        EntityManagerFactory factory = Persistence.createEntityManagerFactory("bench", properties);
        EntityManager manager = factory.createEntityManager();
        var bench = new Bench(manager);
        bench.persist(1);
        manager.clear();
        if (manager.find(Person.class, 1L) == null) {
            throw new IllegalStateException("the first person isn't there");
        }
        for (var round = 0; round < Integer.parseInt(words[0]); round++) {
            bench.round();
        }
        manager.close();
        factory.close();
    }

    private static void tell(String what, Moment start, int operations) {
        var end = Moment.now();
        System.out.println(what + "\t" + (end.clock - start.clock) / operations
            + "\t" + (end.thread - start.thread) / operations + "\t" + (end.program - start.program) / operations);
    }

    private void round() {
        var first = next + 1;
        var start = Moment.now();
        persist(10_000);
        tell("10,000 persisted in one transaction", start, 10_000);
        manager.clear();
        lists(first);
        manager.clear();
        start = Moment.now();
        for (var id = first; id < first + 5_000; id++) {
            manager.find(Person.class, id);
            manager.clear();
        }
        tell("loaded find, cleared after each", start, 5_000);
        manager.find(Person.class, first);
        start = Moment.now();
        for (var i = 0; i < 500_000; i++) {
            manager.find(Person.class, first);
        }
        tell("managed find", start, 500_000);
        manager.clear();
        start = Moment.now();
        for (var i = 0; i < 2_000; i++) {
            persist(1);
            manager.clear();
        }
        tell("small commit, cleared after each", start, 2_000);
        start = Moment.now();
        for (var i = 0; i < 2_000; i++) {
            persist(1);
        }
        tell("small commit, all 2,000 kept", start, 2_000);
        manager.clear();
    }

    private void persist(int count) {
        manager.getTransaction().begin();
        for (var i = 0; i < count; i++) {
            manager.persist(new Person(++next));
        }
        manager.getTransaction().commit();
    }

    private void lists(long first) {
        manager.getTransaction().begin();
        for (var id = first; id < first + 1_000; id++) {
            for (var k = 0; k < 5; k++) {
                manager.persist(new Order(++next, manager.getReference(Person.class, id)));
            }
        }
        manager.getTransaction().commit();
        manager.clear();
        manager.getEntityManagerFactory().getCache().evictAll();     // it has the persons without what was added
        var start = Moment.now();
        for (var id = first; id < first + 1_000; id++) {
            if (manager.find(Person.class, id).countOrders() != 5) {
                throw new IllegalStateException("person " + id + " has not five orders");
            }
        }
        tell("list of five read", start, 1_000);
    }
}
