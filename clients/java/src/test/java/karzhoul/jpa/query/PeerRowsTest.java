package karzhoul.jpa.query;

import static org.junit.jupiter.api.Assertions.assertEquals;
import static org.junit.jupiter.api.Assertions.assertTrue;

import java.io.BufferedReader;
import java.io.IOException;
import java.io.InputStreamReader;
import java.nio.charset.StandardCharsets;
import java.util.ArrayList;
import java.util.List;
import org.junit.jupiter.api.Test;

/**
 * Texts of all kinds, and the rows that EclipseLink 2.7 over H2 gives of the same entities: peer.tsv has a text and its
 * rows in each line.
 */
class PeerRowsTest extends OverShop {
    @Test
    void rowsAreThoseOfAnotherProvider() throws IOException {
        List<String> wrong = new ArrayList<>();
        int count = 0;
        try (BufferedReader lines = new BufferedReader(new InputStreamReader(
                PeerRowsTest.class.getResourceAsStream("peer.tsv"), StandardCharsets.UTF_8))) {
            for (String line = lines.readLine(); line != null; line = lines.readLine()) {
                String[] parts = line.split("\t");
                count++;
                String found = found(parts[0]);
                if (!found.equals(parts[1])) {
                    wrong.add(parts[0] + "\n  is " + found + "\n  not " + parts[1]);
                }
            }
        }
        assertEquals(List.of(), wrong);
        assertTrue(count > 300, count + " texts");
    }

    private String found(String text) {
        try {
            String rows = rows(text);
            manager.clear();
            return rows;
        } catch (RuntimeException e) {
            return e.toString();
        }
    }
}
