package desk.imports;

import desk.common.DeskException;
import java.math.BigDecimal;

/** What is read off a cell; a {@link DeskException} says what its column takes. */
final class Cells {
    private static final long LARGEST = 1_000_000_000_000L;

    private Cells() {}

    static String text(String column, String cell) {
        if (cell.isEmpty()) {
            throw new DeskException(column + " is missing");
        }
        return cell;
    }

    static long whole(String column, String cell) {
        if (!cell.matches("[0-9]{1,13}") || Long.parseLong(cell) > LARGEST) {
            throw new DeskException(
                    column + " is to be a whole number up to " + LARGEST + ", and is '" + cell + "'");
        }
        return Long.parseLong(cell);
    }

    static BigDecimal money(String column, String cell) {
        if (!cell.matches("[0-9]{1,10}\\.[0-9]{2}")) {
            throw new DeskException(column + " is to be a sum such as 12.50, and is '" + cell + "'");
        }
        return new BigDecimal(cell);
    }
}
