package karzhoul.jpa.query;

import static org.junit.jupiter.api.Assertions.assertEquals;
import static org.junit.jupiter.api.Assertions.assertThrows;

import jakarta.persistence.PersistenceException;
import jakarta.persistence.Tuple;
import jakarta.persistence.criteria.CriteriaBuilder;
import jakarta.persistence.criteria.CriteriaQuery;
import jakarta.persistence.criteria.Root;
import java.math.BigDecimal;
import org.junit.jupiter.api.Test;
import org.junit.jupiter.params.ParameterizedTest;
import org.junit.jupiter.params.provider.CsvSource;

/** The types of numbers that are computed or chosen: numeric promotion, in each row alike (chapters 4.7.1 and 4.8.6). */
class NumberTypesTest extends OverShop {
    /** The types are those of EclipseLink 2.7 over H2, but for CASE of literals, which are BigDecimals there. */
    @ParameterizedTest
    @CsvSource(delimiter = '|', value = {
        "CASE WHEN p.id = 1 THEN p.age ELSE p.credit END | BigDecimal 36, BigDecimal 0.75",
        "CASE p.id WHEN 1 THEN p.age ELSE p.weight END | Double 36, Double 2.25",
        "CASE WHEN p.id = 1 THEN p.age ELSE p.id END | Long 36, Long 3",
        "CASE WHEN p.id = 1 THEN p.credit WHEN p.id = 3 THEN p.age ELSE NULL END | BigDecimal 10.5, BigDecimal 36",
        "CASE WHEN p.id = 1 THEN 1 ELSE 2.5 END | Double 1, Double 2.5",
        "CASE WHEN p.id = 1 THEN 1 ELSE 2.5F END | Float 1, Float 2.5",
        "COALESCE(b.age, p.credit, p.age) | BigDecimal 10.5, BigDecimal 36",
        "COALESCE(NULLIF(p.age, 36), p.credit) | BigDecimal 10.5, BigDecimal 0.75",
        "COALESCE(p.age, p.weight) | Double 36, Double 36",
        "CASE WHEN p.id = 1 THEN p.age ELSE p.credit END * 2 | BigDecimal 72, BigDecimal 1.5"})
    void branchesHaveOneType(String value, String expected) {
        String from = " FROM Person p LEFT JOIN p.boss b WHERE p.id IN (1, 3) ORDER BY p.id";
        assertEquals("[" + expected + "]", rows("SELECT " + value + from));
    }

    /** As there too, but for a signed Float, which is a Double there. */
    @ParameterizedTest
    @CsvSource(delimiter = '|', value = {"s.price * 2 | Float 19", "s.price + s.price | Float 19", "s.price - s.row | Float 8.5",
        "s.price / 2 | Float 4.75", "-s.price | Float -9.5", "ABS(s.price) | Float 9.5", "s.price * 2.5 | Double 23.75",
        "SUM(s.price * 2) | Double 19", "MAX(s.price * 2) | Float 19", "AVG(s.price) | Double 9.5", "s.price * 0.1F | Float 0.949999988079"})
    void aFloatStaysOne(String value, String expected) {
        assertEquals("[" + expected + "]", rows("SELECT " + value + " FROM Seat s WHERE s.row = 1 AND s.letter = 'a'"));
    }

    @Test
    void aFloatIsNotDividedByZero() {
        assertThrows(PersistenceException.class, () -> rows("SELECT s.price / 0 FROM Seat s"));
    }

    @Test
    void aParameterIsOfTheTypeOfItsBranches() {
        String text = "SELECT CASE WHEN p.id = 1 THEN p.age ELSE :d END FROM Person p WHERE p.id = 3";
        assertEquals("[Integer 7]", Told.rows(manager.createQuery(text).setParameter("d", 7L).getResultList(), true));
        assertEquals("the parameter :d: 2.5 is no whole number, as is computed with there", assertThrows(IllegalArgumentException.class,
                () -> manager.createQuery(text).setParameter("d", 2.5).getResultList()).getMessage());
    }

    @Test
    void inCriteriaAndTuples() {
        CriteriaBuilder cb = factory.getCriteriaBuilder();
        CriteriaQuery<Tuple> query = cb.createTupleQuery();
        Root<Shop.Person> p = query.from(Shop.Person.class);
        query.multiselect(cb.selectCase().when(cb.equal(p.get("id"), 1), p.get("age")).otherwise(p.get("credit")));
        query.where(cb.lt(p.<Long>get("id"), 4), cb.isNotNull(p.get("credit"))).orderBy(cb.asc(p.get("id")));
        for (Tuple row : manager.createQuery(query).getResultList()) {
            assertEquals(BigDecimal.class, row.get(0).getClass());
        }
    }
}
