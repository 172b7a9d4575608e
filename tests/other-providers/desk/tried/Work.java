package desk.tried;

import desk.common.DeskException;
import desk.orders.OrderDesk;
import desk.reports.Report;
import desk.reports.Shown;
import jakarta.persistence.EntityManager;
import jakarta.persistence.Persistence;
import java.time.LocalDate;
import java.util.LinkedHashMap;
import java.util.List;
import java.util.Map;
import java.util.Random;
import java.util.regex.Matcher;
import java.util.regex.Pattern;

/**
 * Does the same work at the desk over any provider, and prints what comes of each step, and all that is there at its
 * end: {@code Work URL SEED STEPS}. Generated keys are told by their place among all, since providers leave gaps.
 */
public final class Work {
    /** How often PreUpdate is called for a flush the standard leaves to providers, and the desk counts by it. */
    private static final Pattern COUNT = Pattern.compile(", changed [0-9]+ times");
    private static final Pattern NUMBER = Pattern.compile("(order|invoice) ([0-9]+)");

    private final EntityManager manager;
    private final OrderDesk desk;
    private final Random random;

    private Work(EntityManager manager, long seed) {
        this.manager = manager;
        this.desk = new OrderDesk(manager);
        this.random = new Random(seed);
    }

    public static void main(String[] words) {
        var factory = Persistence.createEntityManagerFactory("desk", Map.of("jakarta.persistence.jdbc.url", words[0]));
        try {
            var work = new Work(factory.createEntityManager(), Long.parseLong(words[1]));
            for (var step = 1; step <= Integer.parseInt(words[2]); step++) {
                System.out.println(work.placed(step + ": " + work.step()));
            }
            work.manager.clear();
            System.out.println(work.placed(work.everything()));
        } finally {
            factory.close();
        }
    }

    /** One step, in words; what is refused is told too. */
    private String step() {
        var orders = keys("SELECT o.id FROM Order o ORDER BY o.id");
        var day = LocalDate.of(2026, 1, 1).plusDays(random.nextInt(400));
        var sort = random.nextInt(10);
        var wanted = wanted();
        var chosen = orders.isEmpty() ? 0L : (Long) orders.get(random.nextInt(orders.size()));
        try {
            if (sort < 4 || orders.isEmpty()) {
                var order = desk.place(1 + random.nextInt(22), wanted, day);
                return "order " + order.id() + " is placed: " + order.total();
            }
            return switch (sort) {
                case 4, 5, 6 -> "order " + chosen + " is changed: " + desk.change(chosen, wanted).total();
                case 7 -> "order " + chosen + " is shipped: invoice " + desk.ship(chosen, day).number();
                case 8 -> "order " + desk.cancel(chosen).id() + " is cancelled";
                default -> {
                    var words = "order " + chosen + " is deleted";
                    words = placed(words);
                    desk.delete(chosen);
                    yield words;
                }
            };
        } catch (DeskException refused) {
            manager.clear();
            return "refused: " + refused.getMessage();
        }
    }

    private Map<String, Long> wanted() {
        var wanted = new LinkedHashMap<String, Long>();
        for (var count = 1 + random.nextInt(3); count > 0; count--) {
            wanted.put("P%05d".formatted(1 + random.nextInt(40)), (long) random.nextInt(4));
        }
        return wanted;
    }

    private String everything() {
        var words = new StringBuilder();
        for (var report : Report.values()) {
            words.append(report).append(":\n").append(report.of(manager)).append('\n');
        }
        for (var shown : Shown.values()) {
            var text = switch (shown) {
                case ORDER -> "SELECT o.id FROM Order o ORDER BY o.id";
                case CUSTOMER -> "SELECT c.number FROM Customer c ORDER BY c.number";
                case PRODUCT -> "SELECT p.sku FROM Product p ORDER BY p.sku";
            };
            keys(text).forEach(key -> words.append(shown.of(manager, key.toString())).append('\n'));
        }
        return COUNT.matcher(words).replaceAll("");
    }

    private List<Object> keys(String text) {
        return manager.createQuery(text, Object.class).getResultList();
    }

    /** The words with the places of keys that are generated, from 1. */
    private String placed(String words) {
        var orders = keys("SELECT o.id FROM Order o ORDER BY o.id");
        var invoices = keys("SELECT i.number FROM Invoice i ORDER BY i.number");
        return NUMBER.matcher(words).replaceAll(found -> {
            var among = found.group(1).equals("order") ? orders : invoices;
            var place = among.indexOf(Long.valueOf(found.group(2)));
            return Matcher.quoteReplacement(found.group(1) + (place < 0 ? " none" : " #" + (place + 1)));
        });
    }
}
