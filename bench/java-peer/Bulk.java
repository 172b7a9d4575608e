import jakarta.persistence.Entity;
import jakarta.persistence.EntityManager;
import jakarta.persistence.EntityManagerFactory;
import jakarta.persistence.Id;
import jakarta.persistence.Persistence;
import jakarta.persistence.Version;
import java.io.BufferedReader;
import java.io.IOException;
import java.lang.management.ManagementFactory;
import java.lang.management.MemoryType;
import java.nio.file.Files;
import java.nio.file.Path;
import java.time.Duration;
import java.util.HashMap;
import java.util.List;

/**
 * Loads a file of lines {@code number,name,price} by plain persist in one transaction, with flush and clear behind each
 * thousand: {@code Bulk FILE PROPERTY=VALUE..}. It tells the nanoseconds by the clock, of the processor for the JVM and for
 * the program that the provider started, and how many bytes its heap had in use behind a collection halfway and at the end.
 */
public class Bulk {
    private static final int TOGETHER = 1_000;

    @Entity(name = "Article")
    public static class Article {
        @Id Long id;
        @Version int version;
        String name;
        int price;

        protected Article() {}

        Article(String[] columns) {
            id = Long.valueOf(columns[0]);
            name = columns[1];
            price = Integer.parseInt(columns[2]);
        }
    }

    public static void main(String[] words) throws IOException {
        var properties = new HashMap<String, String>();
        for (var word : List.of(words).subList(1, words.length)) {
            var mark = word.indexOf('=');
            properties.put(word.substring(0, mark), word.substring(mark + 1));
        }
        EntityManagerFactory factory = Persistence.createEntityManagerFactory("bulk", properties);
        EntityManager manager = factory.createEntityManager();
        manager.find(Article.class, 1L);
        long clock = System.nanoTime();
        long jvm = processor();
        long program = program();
        long half = 0;
        long rows = 0;
        manager.getTransaction().begin();
        try (BufferedReader file = Files.newBufferedReader(Path.of(words[0]))) {
            for (String line = file.readLine(); line != null; line = file.readLine()) {
                manager.persist(new Article(line.split(",")));
                if (++rows % TOGETHER == 0) {
                    manager.flush();
                    manager.clear();
                    half = rows == 50_000 ? heap() : half;
                }
            }
        }
        manager.getTransaction().commit();
        clock = System.nanoTime() - clock;
        jvm = processor() - jvm;
        program = program() - program;
        long end = heap();
        long stored = manager.createQuery("SELECT COUNT(a) FROM Article a", Long.class).getSingleResult();
        if (stored != rows) {
            throw new IllegalStateException(stored + " of " + rows + " are stored");
        }
        System.out.println(clock + "\t" + jvm + "\t" + program + "\t" + half + "\t" + end);
        manager.close();
        factory.close();
    }

    private static long processor() {
        return ((com.sun.management.OperatingSystemMXBean) ManagementFactory.getOperatingSystemMXBean()).getProcessCpuTime();
    }

    private static long program() {
        return ProcessHandle.current().children().map(child -> child.info().totalCpuDuration())
            .mapToLong(used -> used.map(Duration::toNanos).orElse(0L)).sum();
    }

    private static long heap() {
        System.gc();
        return ManagementFactory.getMemoryPoolMXBeans().stream().filter(pool -> pool.getType() == MemoryType.HEAP)
            .mapToLong(pool -> pool.getUsage().getUsed()).sum();
    }
}
