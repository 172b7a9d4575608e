package karzhoul.jpa.query;

import static org.junit.jupiter.api.Assertions.assertEquals;
import static org.junit.jupiter.api.Assertions.assertThrows;

import jakarta.persistence.Query;
import java.math.BigDecimal;
import java.util.List;
import org.junit.jupiter.api.Test;
import org.junit.jupiter.params.ParameterizedTest;
import org.junit.jupiter.params.provider.CsvSource;

/** Decimals beside parameters and literals: what is computed is exact, or refused (chapters 4.7.1 and 4.10). */
class MoneyTest extends OverShop {
    private Query query(String text, String decimal) {
        Query query = manager.createQuery(text);
        return decimal == null ? query : query.setParameter("d", new BigDecimal(decimal));
    }

    private String rows(String text, String decimal) {
        return Told.rows(query(text, decimal).getResultList(), text.contains("ORDER BY"));
    }

    /** The values are those of EclipseLink 2.7 over H2. */
    @ParameterizedTest
    @CsvSource(delimiter = '|', value = {
        "p.credit + :d | 0.05 | 10.55", "p.credit + :d | 0.5000 | 11", ":d + p.credit | 1 | 11.5", "p.credit - :d | 0.05 | 10.45",
        ":d - p.credit | 0.05 | -10.45", "p.credit * :d | 0.05 | 0.525", "p.credit * :d | 1.19 | 12.495", "p.credit - -:d | 0.05 | 10.55",
        "p.credit + :d * 2 | 0.05 | 10.6", "2 * :d + p.credit | 0.05 | 10.6", "ABS(:d - p.credit) | 0.05 | 10.45",
        "SUM(p.credit + :d) | 0.05 | 10.55", "p.credit * p.age + :d | 0.05 | 378.05",
        "p.credit + :d | 0.005 | 10.505", "p.credit * :d | 0.077 | 0.8085", "(p.credit + 1) * (:d - p.credit) | 0.125 | -119.3125",
        "COALESCE(p.credit * :d, 1) | 0.001 | 0.0105", "(1 + :d) * p.credit | 0.19 | 12.495", "p.credit * -:d | 0.05 | -0.525"})
    void aDecimalIsTakenAsItIs(String value, String decimal, String expected) {
        String where = " FROM Person p WHERE p.id = 1";
        assertEquals("[BigDecimal " + expected + "]", rows("SELECT " + value + where, decimal));
        if (!value.startsWith("SUM")) {
            assertEquals("[Long 1]", rows("SELECT p.id" + where + " AND " + value + " = " + expected, decimal));
            assertEquals("[Long 1]", rows("SELECT p.id" + where + " AND " + expected + " <= " + value, decimal));
            assertEquals("[]", rows("SELECT p.id" + where + " AND " + value + " > " + expected, decimal));
            assertEquals("[Long 1]", rows("SELECT q.id FROM Person q WHERE EXISTS (SELECT p" + where + " AND p = q AND "
                    + value + " = " + expected + ")", decimal));
        }
    }

    @Test
    void orderedAndGroupedToo() {
        for (String decimal : List.of("0.05", "0.005")) {
            String sorted = "SELECT p.id FROM Person p WHERE p.credit > 0 ORDER BY p.credit * :d DESC";
            assertEquals("[Long 4, Long 1]", Told.rows(query(sorted, decimal).setMaxResults(2).getResultList(), true));
        }
        assertEquals("[[BigDecimal 0.05625, Integer 36]]", rows("SELECT SUM(p.credit * :d), p.age FROM Person p WHERE p.age = 36"
                + " GROUP BY p.age HAVING SUM(p.credit * :d) > 0.05", "0.005"));
    }

    @Test
    void inEachClauseAndInSubqueries() {
        for (String decimal : List.of("0.25", "0.025")) {
            assertEquals("[Long 4]", rows("SELECT p.id FROM Person p WHERE p.credit * :d > (SELECT MAX(q.credit) * :d FROM Person q"
                    + " WHERE q.age = 36)", decimal));
            assertEquals("[Long 4]", rows("SELECT p.id FROM Person p WHERE p.credit - :d > ALL (SELECT q.credit + :d FROM Person q"
                    + " WHERE q.age = 36)", decimal));
            assertEquals("[Person 4]", Told.rows(query("SELECT p FROM Person p WHERE p.credit + :d > 80 AND p.credit - :d < 110",
                    decimal).getResultStream().toList(), false));
        }
        assertEquals("[Long 4]", rows("SELECT p.id FROM Person p WHERE :d * 2 < p.credit AND p.credit > :d * 3", "10.25"));
        IllegalArgumentException refused = assertThrows(IllegalArgumentException.class, () -> rows(
                "SELECT p.id, b.id FROM Person p LEFT JOIN p.boss b ON b.credit + :d > 1", "0.005"));
        assertEquals("the parameter :d: 0.005 has more than the 2 decimal places that are computed with there", refused.getMessage());
    }

    @Test
    void setTakesWhatIsExact() {
        manager.getTransaction().begin();
        String set = "UPDATE Person p SET p.credit = ";
        String one = " WHERE p.id = 1";
        String[][] changes = {{"p.credit + :d", "0.05", "10.55"}, {"p.credit + 0.05", null, "10.6"}, {"p.credit - :d", "0.600", "10"},
            {"p.credit - 0.5", null, "9.5"}, {":d + 1", "0.25", "1.25"}, {"p.age + 0.75", null, "36.75"}, {"p.age * :d", "0.25", "9"},
            {"p.credit * 2", null, "18"}, {"p.credit * :d", "3.0", "54"}, {"p.credit * (1 + :d)", "2", "162"},
            {"-:d * p.credit", "-1", "162"}, {"p.credit - 144", null, "18"}};
        for (String[] change : changes) {
            assertEquals(1, query(set + change[0] + one, change[1]).executeUpdate());
            assertEquals("[BigDecimal " + change[2] + "]", rows("SELECT p.credit FROM Person p" + one), change[0]);
        }
        IllegalArgumentException refused = assertThrows(IllegalArgumentException.class,
                () -> query(set + "p.credit + :d" + one, "0.005").executeUpdate());
        assertEquals("the parameter :d: 0.005 has more than the 2 decimal places that are computed with there", refused.getMessage());
        refused = assertThrows(IllegalArgumentException.class, () -> query(set + "p.credit * :d" + one, "1.5").executeUpdate());
        assertEquals("the parameter :d: 1.5 is no whole number, as is computed with there", refused.getMessage());
        assertEquals("[BigDecimal 18]", rows("SELECT p.credit FROM Person p" + one));
    }

    @Test
    void changesWhereItIsExact() {
        manager.getTransaction().begin();
        assertEquals(1, query("UPDATE Person p SET p.credit = p.credit + :d, p.name = 'x' WHERE p.credit * :d = 2.625", "0.25")
                .executeUpdate());
        assertEquals("[[BigDecimal 10.75, x]]", rows("SELECT p.credit, p.name FROM Person p WHERE p.id = 1"));
        assertEquals(1, query("UPDATE Person p SET p.name = 'y' WHERE p.credit + :d = 0.755", "0.005").executeUpdate());
        assertEquals("[Long 3]", rows("SELECT p.id FROM Person p WHERE p.name = 'y'"));
        assertEquals(1, query("DELETE FROM Order o WHERE o.price - :d = 9.999", "0.001").executeUpdate());
    }

    /** What the program would have no room for with more places. */
    @Test
    void aWholeFactorTakesNoPlaces() {
        manager.getTransaction().begin();
        assertEquals(1, query("UPDATE Person p SET p.credit = :d WHERE p.id = 1", "20000000000000.01").executeUpdate());
        assertEquals("[BigDecimal 60000000000000.03]", rows("SELECT p.credit * :d FROM Person p WHERE p.id = 1", "3"));
    }

    @Test
    void whatIsBesideAWholeNumberIsWhole() {
        assertEquals("[Integer 38]", rows("SELECT p.age + :d FROM Person p WHERE p.id = 1", "2.0"));
        IllegalArgumentException refused = assertThrows(IllegalArgumentException.class,
                () -> rows("SELECT p.age + :d FROM Person p WHERE p.id = 1", "0.05"));
        assertEquals("the parameter :d: 0.05 is no whole number, as is computed with there", refused.getMessage());
        manager.getTransaction().begin();
        refused = assertThrows(IllegalArgumentException.class,
                () -> query("UPDATE Person p SET p.credit = p.credit + :d", "1e30").executeUpdate());
        assertEquals("the parameter :d: 1E+30 with 2 decimal places is beyond 64 bits", refused.getMessage());
    }

    @ParameterizedTest
    @CsvSource(delimiter = '|', value = {"10.4999 | [Long 3]", "10.50000 | [Long 1, Long 3]", "1e40 | [Long 3]"})
    void inHasNoMatchWhereItHasMorePlaces(String decimal, String expected) {
        assertEquals(expected, rows("SELECT p.id FROM Person p WHERE p.credit IN (:d, 0.75)", decimal));
        assertEquals(expected.equals("[Long 3]") ? "[]" : "[Long 1]", rows("SELECT p.id FROM Person p WHERE p.credit IN (:d, 0.333)", decimal));
        assertEquals(expected.equals("[Long 3]") ? "[Long 1, Long 4]" : "[Long 4]",
                rows("SELECT p.id FROM Person p WHERE p.credit NOT IN (:d, 0.75)", decimal));
        assertEquals(expected.equals("[Long 3]") ? "[Long 1, Long 3, Long 4]" : "[Long 3, Long 4]",
                rows("SELECT p.id FROM Person p WHERE p.credit NOT IN (:d, :d)", decimal));
    }
}
