package karzhoul.jpa.query;

import static org.junit.jupiter.api.Assertions.assertEquals;

import org.junit.jupiter.api.Test;
import org.junit.jupiter.params.ParameterizedTest;
import org.junit.jupiter.params.provider.CsvSource;

/** Tests of collections behind WHEN: by the program, by the door, and in SET; the rows are worked by hand. */
class CaseOfCollectionsTest extends OverShop {
    @ParameterizedTest
    @CsvSource(delimiter = '|', value = {
        "SELECT p.id, CASE WHEN p.orders IS EMPTY THEN 'none' WHEN p.tags IS NOT EMPTY THEN 'both' ELSE 'some' END FROM Person p"
            + " ORDER BY p.id | [[Long 1, both], [Long 2, some], [Long 3, both], [Long 4, none]]",
        "SELECT p.id FROM Person p ORDER BY CASE WHEN p.tags IS EMPTY THEN 0 ELSE 1 END, p.id | [Long 2, Long 4, Long 1, Long 3]",
        "SELECT p.id, CASE WHEN p.orders IS EMPTY THEN SQRT(p.age - 1) ELSE 1.5 END FROM Person p ORDER BY p.id"
            + " | [[Long 1, Double 1.5], [Long 2, Double 1.5], [Long 3, Double 1.5], [Long 4, Double 7]]",
        "SELECT p.id, CASE WHEN t MEMBER OF p.tags THEN 1 WHEN t NOT MEMBER OF b.tags THEN 2 ELSE 3 END FROM Person p JOIN p.boss b, Tag t"
            + " WHERE t.code = 'a' ORDER BY p.id | [[Long 2, Integer 3], [Long 3, Integer 3], [Long 4, Integer 2]]",
        "SELECT p.id FROM Person p, Tag t WHERE t.code = 'b' AND CASE WHEN t MEMBER OF p.tags THEN p.age ELSE 0 END > 30"
            + " ORDER BY p.id | [Long 1, Long 3]",
        "SELECT p.id, CASE WHEN EXISTS (SELECT o FROM p.orders o WHERE o.amount > 6) THEN 1 ELSE 0 END FROM Person p ORDER BY p.id"
            + " | [[Long 1, Integer 1], [Long 2, Integer 1], [Long 3, Integer 0], [Long 4, Integer 0]]",
        "SELECT p.id, CASE WHEN EXISTS (SELECT o FROM p.orders o WHERE o.items IS EMPTY) THEN 1 ELSE 0 END FROM Person p ORDER BY p.id"
            + " | [[Long 1, Integer 0], [Long 2, Integer 1], [Long 3, Integer 0], [Long 4, Integer 0]]"})
    void isServed(String text, String rows) {
        assertEquals(rows, rows(text));
    }

    @Test
    void inSet() {
        manager.getTransaction().begin();
        assertEquals(4, manager.createQuery("UPDATE Person p SET p.age = CASE WHEN p.orders IS EMPTY THEN 0"
            + " WHEN NOT p.age BETWEEN 30 AND 40 THEN 1 ELSE p.age END").executeUpdate());
        assertEquals("[[Long 1, Integer 36], [Long 2, Integer 1], [Long 3, Integer 36], [Long 4, Integer 0]]",
            rows("SELECT p.id, p.age FROM Person p ORDER BY p.id"));
    }
}
