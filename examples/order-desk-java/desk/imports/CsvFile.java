package desk.imports;

import desk.common.DeskException;
import java.io.IOException;
import java.nio.charset.CharacterCodingException;
import java.nio.file.Files;
import java.nio.file.NoSuchFileException;
import java.nio.file.Path;
import java.util.ArrayList;
import java.util.HashMap;
import java.util.List;
import java.util.function.Function;

/** CSV files of one line a row; a cell with a comma or a quotation mark stands in quotation marks. */
final class CsvFile {
    private CsvFile() {}

    /** The rows of a file, each with a key of its own; a {@link DeskException} names the line of a fault. */
    static <R> List<R> read(Path path, List<String> columns, Function<List<String>, R> rowOf) {
        var lines = lines(path);
        if (lines.isEmpty() || !cells(lines.get(0)).equals(columns)) {
            throw new DeskException(path + ":1: the columns are to be " + String.join(",", columns));
        }
        var rows = new ArrayList<R>();
        var firsts = new HashMap<String, Integer>();
        for (var number = 2; number <= lines.size(); number++) {
            try {
                var cells = cells(lines.get(number - 1));
                if (cells.size() != columns.size()) {
                    throw new DeskException(columns.size() + " cells are to stand here");
                }
                var first = firsts.putIfAbsent(cells.get(0), number);
                if (first != null) {
                    throw new DeskException(
                            columns.get(0) + " " + cells.get(0) + " stands in line " + first + " already");
                }
                rows.add(rowOf.apply(cells));
            } catch (DeskException fault) {
                throw new DeskException(path + ":" + number + ": " + fault.getMessage(), fault);
            }
        }
        return rows;
    }

    /** Writes rows below their columns. */
    static void write(Path path, List<String> columns, List<List<String>> rows) throws IOException {
        var lines = new ArrayList<String>();
        lines.add(line(columns));
        rows.forEach(row -> lines.add(line(row)));
        Files.write(path, lines);
    }

    private static List<String> lines(Path path) {
        try {
            return Files.readAllLines(path);
        } catch (NoSuchFileException fault) {
            throw new DeskException(path + ": there is no such file", fault);
        } catch (CharacterCodingException fault) {
            throw new DeskException(path + ": this is no CSV file in UTF-8", fault);
        } catch (IOException fault) {
            throw new DeskException(path + ": " + fault.getMessage(), fault);
        }
    }

    private static List<String> cells(String line) {
        var cells = new ArrayList<String>();
        var cell = new StringBuilder();
        var quoted = false;
        for (var at = 0; at < line.length(); at++) {
            var character = line.charAt(at);
            if (character == '"' && quoted && at + 1 < line.length() && line.charAt(at + 1) == '"') {
                cell.append('"');
                at++;
            } else if (character == '"') {
                quoted = !quoted;
            } else if (character == ',' && !quoted) {
                cells.add(cell.toString());
                cell.setLength(0);
            } else {
                cell.append(character);
            }
        }
        if (quoted) {
            throw new DeskException("a quotation mark isn't closed");
        }
        cells.add(cell.toString());
        return cells;
    }

    private static String line(List<String> cells) {
        var words = cells.stream().map(cell ->
                cell.contains(",") || cell.contains("\"") ? '"' + cell.replace("\"", "\"\"") + '"' : cell);
        return String.join(",", words.toList());
    }
}
