package desk.imports;

import desk.common.DeskException;
import java.io.IOException;
import java.math.BigDecimal;
import java.nio.file.Files;
import java.nio.file.Path;
import java.util.List;
import java.util.function.LongFunction;
import java.util.stream.LongStream;
import java.util.stream.Stream;

/** CSV files to try the desk with: the same ones for the same numbers of rows. */
public final class Samples {
    private static final List<String> THINGS =
            List.of("Lamp", "Chair", "Kettle", "Brush", "Ladder", "Clock", "Basket", "Mirror");
    private static final List<String> KINDS =
            List.of("oak", "brass", "blue", "small", "folding", "plain", "grand");
    private static final List<String> CATEGORIES = List.of("kitchen", "garden", "office", "bath", "light");
    private static final List<String> NAMES =
            List.of("Ada", "Bob", "Cleo", "Dan", "Eve", "Finn", "Gwen", "Hal");
    private static final List<String> CITIES = List.of("Bergen", "Ghent", "Porto", "Tartu", "Graz");

    private Samples() {}

    /** Writes products.csv and customers.csv into a folder, which is made where there is none. */
    public static void write(Path folder, int products, int customers) {
        try {
            Files.createDirectories(folder);
            CsvFile.write(folder.resolve("products.csv"), ProductRow.COLUMNS, rows(products, Samples::product));
            CsvFile.write(folder.resolve("customers.csv"), CustomerRow.COLUMNS, rows(customers, Samples::customer));
        } catch (IOException fault) {
            throw new DeskException(folder + ": " + fault.getMessage(), fault);
        }
    }

    private static List<List<String>> rows(int count, LongFunction<List<String>> rowOf) {
        return LongStream.rangeClosed(1, count).mapToObj(rowOf).toList();
    }

    private static List<String> product(long n) {
        var price = BigDecimal.valueOf(100 + n * 37 % 20_000, 2);
        var categories = Stream.of(n, n * n).map(place -> pick(CATEGORIES, place)).distinct().toList();
        return List.of(
                String.format("P%05d", n),
                pick(THINGS, n) + ", " + pick(KINDS, n),
                price.toPlainString(),
                String.valueOf(n * 7 % 500),
                String.join(";", categories));
    }

    /** A customer; every fourth one is a company. */
    private static List<String> customer(long n) {
        var isCompany = n % 4 == 0;
        return List.of(
                String.valueOf(n),
                pick(NAMES, n) + (isCompany ? " & Co" : ""),
                pick(CITIES, n),
                isCompany ? String.format("EU%08d", n) : "");
    }

    private static String pick(List<String> words, long n) {
        return words.get((int) (n % words.size()));
    }
}
