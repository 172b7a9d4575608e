package desk;

import desk.common.DeskException;
import desk.common.Journal;
import desk.common.Money;
import desk.imports.CustomerRow;
import desk.imports.Importer;
import desk.imports.ProductRow;
import desk.imports.Progress;
import desk.imports.Samples;
import desk.orders.OrderDesk;
import desk.reports.Report;
import desk.reports.Shown;
import jakarta.persistence.EntityManager;
import jakarta.persistence.Persistence;
import jakarta.persistence.PersistenceException;
import java.nio.file.Path;
import java.util.List;
import java.util.Map;

/** The command line of the desk. It ends with 1 where a command is refused, and with 2 where it is none. */
public final class Main {
    private static final String HELP = """
            desk [--db FILE | --url URL] [--events] COMMAND
              samples FOLDER [--products N] [--customers N]   write products.csv and customers.csv
              import products|customers FILE [--size N]       import a CSV file, N rows a transaction (500)
              place CUSTOMER SKU=QUANTITY.. [--day DAY]       place an order
              change ORDER SKU=QUANTITY..                     set what an order takes; 0 takes a line out
              ship ORDER [--day DAY]                          ship an order, with an invoice
              cancel ORDER                                    cancel an order
              delete ORDER                                    delete a cancelled order
              report customers|products|categories|statuses|companies
              show order|customer|product KEY""";

    private Main() {}

    public static void main(String[] given) {
        System.exit(run(List.of(given)));
    }

    private static int run(List<String> given) {
        try {
            var words = new Words(given);
            if (words.has("--help") || given.isEmpty()) {
                System.out.println(HELP);
            } else {
                answer(words);
            }
            return 0;
        } catch (Words.NoCommand fault) {
            System.err.println("desk: " + fault.getMessage() + "\n" + HELP);
            return 2;
        } catch (DeskException | PersistenceException refused) {
            System.err.println("desk: " + refused.getMessage());
            return 1;
        }
    }

    private static void answer(Words words) {
        var command = words.word("a command");
        if (command.equals("samples")) {
            Samples.write(
                    Path.of(words.word("a folder")), words.count("--products", 20_000), words.count("--customers", 200));
            return;
        }
        if (words.has("--events")) {
            Journal.readBy(System.err::println);
        }
        var url = words.url().orElseGet(() -> "karzhoul:" + words.path("--db", "desk.db"));
        var factory = Persistence.createEntityManagerFactory("desk", Map.of("jakarta.persistence.jdbc.url", url));
        try { // Neither can be a resource before version 3.1 of the standard.
            var manager = factory.createEntityManager();
            System.out.println(answer(command, words, manager));
            manager.close();
        } finally {
            factory.close();
        }
    }

    private static String answer(String command, Words words, EntityManager manager) {
        var desk = new OrderDesk(manager);
        return switch (command) {
            case "import" -> imported(words, manager);
            case "place" -> {
                var order = desk.place(words.number(), words.wanted(), words.day());
                yield "order " + order.id() + " is placed: " + Money.words(order.total());
            }
            case "change" -> {
                var order = desk.change(words.number(), words.wanted());
                yield "order " + order.id() + " is changed: " + Money.words(order.total());
            }
            case "ship" -> {
                var id = words.number();
                var invoice = desk.ship(id, words.day());
                yield "order " + id + " is shipped, with invoice " + invoice.number() + ": "
                        + Money.words(invoice.total());
            }
            case "cancel" -> "order " + desk.cancel(words.number()).id() + " is cancelled";
            case "delete" -> "order " + desk.delete(words.number()).id() + " is deleted";
            case "report" -> words.one(Report.class).of(manager);
            case "show" -> words.one(Shown.class).of(manager, words.word("a key"));
            default -> throw new Words.NoCommand(command + " is no command");
        };
    }

    private static String imported(Words words, EntityManager manager) {
        var kind = words.word("products or customers");
        var file = Path.of(words.word("a file"));
        var size = words.count("--size", 500);
        var count = switch (kind) {
            case "products" -> {
                var rows = ProductRow.read(file);
                try (var progress = new Progress(rows.size())) {
                    new Importer(manager, size, progress).importProducts(rows);
                }
                yield rows.size();
            }
            case "customers" -> {
                var rows = CustomerRow.read(file);
                try (var progress = new Progress(rows.size())) {
                    new Importer(manager, size, progress).importCustomers(rows);
                }
                yield rows.size();
            }
            default -> throw new Words.NoCommand(kind + " is neither products nor customers");
        };
        return count + " " + kind + " are stored";
    }
}
