package desk.reports;

import desk.common.Money;
import jakarta.persistence.EntityManager;
import java.math.BigDecimal;
import java.util.ArrayList;
import java.util.List;
import java.util.Locale;
import java.util.stream.IntStream;

/** A query with the headings of its columns. */
public enum Report {
    CUSTOMERS(List.of("number", "name", "orders", "turnover"), """
            SELECT c.number, c.name, COUNT(DISTINCT o), SUM(l.quantity * l.price) AS turnover
            FROM OrderLine l JOIN l.order o JOIN o.customer c
            WHERE o.status <> desk.orders.OrderStatus.CANCELLED
            GROUP BY c.number, c.name ORDER BY turnover DESC, c.number"""),
    PRODUCTS(List.of("sku", "name", "sold", "turnover"), """
            SELECT p.sku, p.name, SUM(l.quantity) AS sold, SUM(l.quantity * l.price)
            FROM OrderLine l JOIN l.order o JOIN l.product p
            WHERE o.status <> desk.orders.OrderStatus.CANCELLED
            GROUP BY p.sku, p.name HAVING SUM(l.quantity) > 0 ORDER BY sold DESC, p.sku"""),
    CATEGORIES(List.of("category", "products", "stock"), """
            SELECT c.title, COUNT(p), COALESCE(SUM(p.stock), 0) FROM Category c LEFT JOIN c.products p
            GROUP BY c.code, c.title ORDER BY c.code"""),
    STATUSES(List.of("status", "orders"), """
            SELECT o.status, COUNT(o) AS orders FROM Order o
            GROUP BY o.status ORDER BY orders DESC, o.status"""),
    COMPANIES(List.of("number", "name", "vat"), """
            SELECT c.number, c.name, c.vat FROM Company c
            WHERE EXISTS (SELECT o FROM c.orders o) ORDER BY c.number""");

    private static final String MONEY = "turnover";

    private final List<String> headings;
    private final String text;

    Report(List<String> headings, String text) {
        this.headings = headings;
        this.text = text;
    }

    /** The report in columns, its headings first. */
    public String of(EntityManager manager) {
        var rows = new ArrayList<List<String>>();
        rows.add(headings);
        for (var row : manager.createQuery(text, Object[].class).getResultList()) {
            rows.add(IntStream.range(0, row.length).mapToObj(at -> words(headings.get(at), row[at])).toList());
        }
        return columns(rows);
    }

    @Override
    public String toString() {
        return name().toLowerCase(Locale.ROOT);
    }

    /** Of which class a number is that was summed up hangs on the database. */
    private static String words(String heading, Object value) {
        if (heading.equals(MONEY)) {
            return Money.words(new BigDecimal(value.toString()));
        }
        return value instanceof BigDecimal number ? number.toBigInteger().toString() : String.valueOf(value);
    }

    private static String columns(List<List<String>> rows) {
        var widths = new int[rows.get(0).size()];
        for (var row : rows) {
            for (var at = 0; at < widths.length; at++) {
                widths[at] = Math.max(widths[at], row.get(at).length());
            }
        }
        return String.join("\n", rows.stream().map(row -> line(row, widths)).toList());
    }

    private static String line(List<String> row, int[] widths) {
        var line = new StringBuilder();
        for (var at = 0; at < widths.length; at++) {
            line.append(row.get(at)).append(" ".repeat(widths[at] - row.get(at).length() + 2));
        }
        return line.toString().stripTrailing();
    }
}
