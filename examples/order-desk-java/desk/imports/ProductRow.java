package desk.imports;

import java.math.BigDecimal;
import java.nio.file.Path;
import java.util.List;
import java.util.stream.Stream;

/** A product with the codes of its categories. */
public record ProductRow(String sku, String name, BigDecimal price, long stock, List<String> categories) {
    static final List<String> COLUMNS = List.of("sku", "name", "price", "stock", "categories");

    public static List<ProductRow> read(Path path) {
        return CsvFile.read(path, COLUMNS, ProductRow::of);
    }

    private static ProductRow of(List<String> cells) {
        var categories = Stream.of(cells.get(4).split(";")).filter(code -> !code.isEmpty()).distinct();
        return new ProductRow(
                Cells.text("sku", cells.get(0)),
                Cells.text("name", cells.get(1)),
                Cells.money("price", cells.get(2)),
                Cells.whole("stock", cells.get(3)),
                categories.toList());
    }
}
