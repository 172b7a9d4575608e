package karzhoul.jpa.query;

import static org.junit.jupiter.api.Assertions.assertEquals;

import java.util.List;
import java.util.stream.Stream;
import org.junit.jupiter.params.ParameterizedTest;
import org.junit.jupiter.params.provider.MethodSource;

/** CASE as the program is asked it, and where the door computes it; the rows are worked by hand from {@link Shopping}. */
class CaseFormsTest extends OverShop {
    @ParameterizedTest
    @MethodSource("forms")
    void isAskedAndAnswered(String form) {
        String[] parts = form.strip().split("\\s*\n\\s*(?=[-=]> )");
        String rows = rows(parts[0]);
        List<String> asked = askedAndFound();
        assertEquals(Stream.of(parts).filter(part -> part.startsWith("-> ")).map(part -> part.substring(3)).toList(), asked);
        assertEquals(parts[parts.length - 1].substring(3), rows);
    }

    static Stream<String> forms() {
        return Stream.of("""
                SELECT o.number FROM Order o WHERE CASE WHEN o.amount > 5 THEN 'much' ELSE 'little' END = 'much'
                -> SELECT o.number FROM Order o WHERE CASE WHEN o.amount > 5 THEN 'much' ELSE 'little' END = 'much'
                => [Long 11, Long 13]

                SELECT CASE o.amount WHEN 5 THEN 'five' WHEN 5.5 THEN 'none' WHEN 7 THEN 'seven' ELSE 'other' END FROM Order o
                -> SELECT CASE WHEN o.amount = 5 THEN 'five' WHEN (o.amount IS NULL AND o.amount IS NOT NULL) THEN 'none' WHEN o.amount = 7 THEN 'seven' ELSE 'other' END FROM Order o
                => [five, other, other, seven, seven]

                SELECT CASE WHEN o.price > 2 THEN o.price ELSE 0 END FROM Order o WHERE o.number < 12
                -> SELECT CASE WHEN o.price > 200 THEN o.price ELSE 0 END FROM Order o WHERE o.number < 12
                => [BigDecimal 0, BigDecimal 2.25]

                SELECT SUM(CASE WHEN o.amount > 5 THEN 1 ELSE 0 END), COUNT(o) FROM Order o
                -> SELECT SUM(CASE WHEN o.amount > 5 THEN 1 ELSE 0 END), COUNT(o) FROM Order o
                => [[Long 2, Long 5]]

                SELECT p.name FROM Person p WHERE p.name IS NOT NULL ORDER BY CASE WHEN p.age > 40 THEN 0 ELSE 1 END, p.name
                -> SELECT p.name AS c0, CASE WHEN p.age > 40 THEN 0 ELSE 1 END AS c1 FROM Person p WHERE p.name IS NOT NULL ORDER BY c1, p.name
                => [Cy, Ada, Bob]

                SELECT CASE WHEN p.age > 40 THEN p.name ELSE NULL END FROM Person p WHERE p.id > 2
                -> SELECT CASE WHEN p.age > 40 THEN p.name ELSE NULLIF('', '') END FROM Person p WHERE p.id > 2
                => [Cy, null]

                SELECT p.id FROM Person p WHERE p.mood = CASE WHEN p.age > 40 THEN karzhoul.jpa.query.Shop.Mood.CALM ELSE karzhoul.jpa.query.Shop.Mood.GLAD END
                -> SELECT p.id FROM Person p WHERE p.mood = CASE WHEN p.age > 40 THEN 2 ELSE 0 END
                => [Long 1, Long 4]

                SELECT CASE WHEN NOT (p.age > 40 OR p.name IS NULL) THEN p.age ELSE -1 END FROM Person p
                -> SELECT CASE WHEN p.age <= 40 AND p.name IS NOT NULL THEN p.age ELSE -1 END FROM Person p
                => [Integer -1, Integer -1, Integer 36, Integer 36]

                SELECT CASE WHEN SQRT(p.age) > 6 THEN 'old' ELSE 'young' END FROM Person p
                -> SELECT p.age FROM Person p
                => [old, young, young, young]

                SELECT CASE WHEN p.id = 1 THEN p.age ELSE p.credit END FROM Person p WHERE p.id = 1
                -> SELECT p.id, p.age, p.credit FROM Person p WHERE p.id = 1
                => [BigDecimal 36]
                """.strip().split("\n\n"));
    }
}
