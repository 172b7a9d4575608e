package karzhoul.jpa.criteria;

import static org.junit.jupiter.api.Assertions.assertEquals;
import static org.junit.jupiter.api.Assertions.assertTrue;

import jakarta.persistence.criteria.CriteriaQuery;
import java.io.BufferedReader;
import java.io.IOException;
import java.io.InputStreamReader;
import java.nio.charset.StandardCharsets;
import java.util.ArrayList;
import java.util.List;
import java.util.Map;
import karzhoul.jpa.query.OverShop;
import karzhoul.jpa.query.Told;
import org.junit.jupiter.api.Test;

/**
 * Criteria queries of all kinds, and the rows that EclipseLink 2.7 over H2 gives of the same queries and entities:
 * peer.tsv has a name and its rows in each line.
 */
class CriteriaPeerTest extends OverShop {
    @Test
    void rowsAreThoseOfAnotherProvider() throws IOException {
        Map<String, CriteriaQuery<?>> queries = PeerQueries.of(manager.getCriteriaBuilder());
        List<String> wrong = new ArrayList<>();
        int count = 0;
        try (BufferedReader lines = new BufferedReader(new InputStreamReader(
                CriteriaPeerTest.class.getResourceAsStream("peer.tsv"), StandardCharsets.UTF_8))) {
            for (String line = lines.readLine(); line != null; line = lines.readLine()) {
                String[] parts = line.split("\t");
                count++;
                String found = found(queries.get(parts[0]));
                if (!found.equals(parts[1])) {
                    wrong.add(parts[0] + "\n  is " + found + "\n  not " + parts[1]);
                }
            }
        }
        assertEquals(List.of(), wrong);
        assertTrue(count > 60, count + " queries");
    }

    private String found(CriteriaQuery<?> query) {
        try {
            String rows = Told.rows(manager.createQuery(query).getResultList(), !query.getOrderList().isEmpty());
            manager.clear();
            return rows;
        } catch (RuntimeException e) {
            return e.toString();
        }
    }
}
