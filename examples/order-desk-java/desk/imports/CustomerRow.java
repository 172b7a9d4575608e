package desk.imports;

import java.nio.file.Path;
import java.util.List;

/** A customer; one with a VAT number is a company. */
public record CustomerRow(long number, String name, String city, String vat) {
    static final List<String> COLUMNS = List.of("number", "name", "city", "vat");

    public static List<CustomerRow> read(Path path) {
        return CsvFile.read(path, COLUMNS, CustomerRow::of);
    }

    boolean isCompany() {
        return !vat.isEmpty();
    }

    private static CustomerRow of(List<String> cells) {
        return new CustomerRow(
                Cells.whole("number", cells.get(0)), Cells.text("name", cells.get(1)), cells.get(2), cells.get(3));
    }
}
