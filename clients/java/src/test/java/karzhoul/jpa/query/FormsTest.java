package karzhoul.jpa.query;

import static org.junit.jupiter.api.Assertions.assertEquals;

import java.util.List;
import java.util.stream.Stream;
import org.junit.jupiter.params.ParameterizedTest;
import org.junit.jupiter.params.provider.MethodSource;

/**
 * Each form that the door rewrites: the query, the texts that the program is asked, and the rows, worked by hand from
 * {@link Shopping}.
 */
class FormsTest extends OverShop {
    @ParameterizedTest
    @MethodSource("forms")
    void isAskedAndAnswered(String form) {
        String[] parts = form.strip().split("\\s*\n\\s*(?=[-=]> )");
        String rows = rows(parts[0]);
        List<String> asked = askedAndFound();
        assertEquals(Stream.of(parts).filter(part -> part.startsWith("-> ")).map(part -> part.substring(3)).toList(), asked);
        assertEquals(parts[parts.length - 1].substring(3), rows);
    }

    static Stream<String> forms() {
        return Stream.of("""
                SELECT p FROM Person p
                -> SELECT p FROM Person p
                => [Person 1, Person 2, Person 3, Person 4]

                SELECT OBJECT(o) FROM Order AS o WHERE o.number = 10
                -> find Order [10]
                => [Order 10]

                SELECT l FROM Place l WHERE 1 = l.at.row AND l.at.shelf = 'x'
                -> find Place [1,"x"]
                => [Place 1/x]

                SELECT v FROM Vip v WHERE v.id = 4
                -> SELECT v FROM Vip v WHERE v.id = 4
                => [Person 4]

                SELECT p FROM Person p WHERE p.id = 1.5
                -> SELECT p FROM Person p WHERE (p.id IS NULL AND p.id IS NOT NULL)
                => []

                SELECT p.address.city FROM Person p WHERE p.address.city <> 'Paris'
                -> SELECT p.address__city FROM Person p WHERE p.address__city <> 'Paris'
                => [London, London]

                SELECT s.letter FROM Seat s WHERE s.row = 2
                -> SELECT s.id_.letter FROM Seat s WHERE s.id_.row = 2
                => [a]

                SELECT l.at FROM Place l WHERE l.at.shelf = 'x'
                -> SELECT l.at.row, l.at.shelf FROM Place l WHERE l.at.shelf = 'x'
                => [1/x, 2/x]

                SELECT p FROM Person p WHERE p.mood = karzhoul.jpa.query.Shop.Mood.CALM
                -> SELECT p FROM Person p WHERE p.mood = 2
                => [Person 4]

                SELECT o FROM Order o WHERE o.status IN (karzhoul.jpa.query.Shop.Status.PAID, karzhoul.jpa.query.Shop$Status.SENT)
                -> SELECT o FROM Order o WHERE o.status IN ('PAID', 'SENT')
                => [Order 11, Order 13]

                SELECT p FROM Person p WHERE p.active = TRUE AND NOT p.active = FALSE
                -> SELECT p FROM Person p WHERE p.active = 1 AND p.active <> 0
                => [Person 1, Person 3]

                SELECT p FROM Person p WHERE p.born = {d '1900-01-01'}
                -> SELECT p FROM Person p WHERE p.born = -25567
                => [Person 3]

                SELECT o FROM Order o WHERE o.price = 2.25 OR o.price = 10
                -> SELECT o FROM Order o WHERE (o.price = 225 OR o.price = 1000)
                => [Order 11, Order 13]

                SELECT o FROM Order o WHERE o.price > 2.245 AND o.price < 10.001
                -> SELECT o FROM Order o WHERE o.price > 224 AND o.price < 1001
                => [Order 11, Order 13]

                SELECT o FROM Order o WHERE o.amount >= 6.5 AND 7.5 >= o.amount
                -> SELECT o FROM Order o WHERE o.amount >= 7 AND o.amount <= 7
                => [Order 11, Order 13]

                SELECT o FROM Order o WHERE o.amount <> 5.5 AND o.amount < 1e30
                -> SELECT o FROM Order o WHERE o.amount IS NOT NULL AND o.amount IS NOT NULL
                => [Order 10, Order 11, Order 13, Order 14]

                SELECT o FROM Order o WHERE o.price + 1 < o.amount
                -> SELECT o FROM Order o WHERE o.price + 100 < o.amount * 100
                => [Order 10, Order 11]

                SELECT o.price * o.amount - 0.5 FROM Order o WHERE o.number = 11
                -> SELECT o.price * o.amount FROM Order o WHERE o.number = 11
                => [Double 15.25]

                SELECT o.number FROM Order o WHERE NOT (o.amount = 7 OR o.price > 5)
                -> SELECT o.number FROM Order o WHERE o.amount <> 7 AND o.price <= 500
                => [Long 10, Long 14]

                SELECT p FROM Person p WHERE NOT (p.age BETWEEN 21 AND 40)
                -> SELECT p FROM Person p WHERE (p.age < 21 OR p.age > 40)
                => [Person 2, Person 4]

                SELECT i.what FROM Person p, IN (p.orders) o JOIN o.items i WHERE p.boss IS NULL
                -> SELECT i.what FROM Person p JOIN p.orders o JOIN o.items i WHERE p.boss IS NULL
                => [ink, pen, pen]

                SELECT o.number, t.code FROM Order o JOIN o.person.tags t
                -> SELECT o.number, t.code FROM Order o JOIN o.person o_2 JOIN o_2.tags t
                => [[Long 10, a], [Long 10, b], [Long 11, a], [Long 11, b], [Long 14, b]]

                SELECT o.number, t.code FROM Order o LEFT JOIN o.person.tags t
                -> SELECT o.number, t.code FROM Order o JOIN o.person o_2 LEFT JOIN o_2.tags t
                => [[Long 10, a], [Long 10, b], [Long 11, a], [Long 11, b], [Long 13, null], [Long 14, b]]

                SELECT o.number FROM Order o JOIN o.person p ON p.team.name = 'Red'
                -> SELECT o.number FROM Order o JOIN o.person p WHERE p.team.name = 'Red'
                => [Long 10, Long 11, Long 14]

                SELECT p FROM Person p JOIN FETCH p.orders
                -> SELECT p FROM Person p JOIN p.orders fetched
                => [Person 1, Person 1, Person 2, Person 3]

                SELECT DISTINCT p FROM Person p LEFT JOIN FETCH p.orders LEFT JOIN FETCH p.tags
                -> SELECT DISTINCT p FROM Person p
                => [Person 1, Person 2, Person 3, Person 4]

                SELECT o FROM Order o LEFT JOIN FETCH o.person
                -> SELECT o FROM Order o
                => [Order 10, Order 11, Order 12, Order 13, Order 14]

                SELECT o FROM Order o JOIN FETCH o.person
                -> SELECT o FROM Order o JOIN o.person fetched
                => [Order 10, Order 11, Order 13, Order 14]

                SELECT p, COUNT(o) FROM Person p LEFT JOIN p.orders o GROUP BY p ORDER BY p.name
                -> SELECT p AS c0, COUNT(o) AS c1 FROM Person p LEFT JOIN p.orders o GROUP BY p, p.name ORDER BY p.name
                => [[Person 2, Long 1], [Person 1, Long 2], [Person 3, Long 1], [Person 4, Long 0]]

                SELECT AVG(o.amount), AVG(DISTINCT o.amount), AVG(o.price) FROM Order o
                -> SELECT SUM(o.amount), COUNT(o.amount), SUM(DISTINCT o.amount), COUNT(DISTINCT o.amount), SUM(o.price), COUNT(o.price) FROM Order o
                => [[Double 5, Double 4.33333333333, Double 3.4625]]

                SELECT p.team.name, AVG(p.age) FROM Person p GROUP BY p.team.name HAVING AVG(p.age) > 40
                -> SELECT p.team.name, SUM(p.age), COUNT(p.age) FROM Person p GROUP BY p.team.name
                => [[Blue, Double 50]]

                SELECT p.team.name, SUM(p.weight), MIN(p.weight) FROM Person p GROUP BY p.team.name ORDER BY SUM(p.weight) DESC
                -> SELECT p.team.name AS c0, p.weight AS c1 FROM Person p
                => [[Red, Double 3.75, Double 1.5], [Blue, Double -0.5, Double -0.5]]

                SELECT COUNT(o), SUM(o.amount), SUM(o.price), MIN(o.placed), MAX(o.status), MAX(o.hour) FROM Order o
                -> SELECT COUNT(o), SUM(o.amount), SUM(o.price), MIN(o.placed), MAX(o.status), MAX(o.hour) FROM Order o
                => [[Long 5, Long 20, BigDecimal 13.85, 2026-01-01T08:00, SENT, 12:00]]

                SELECT o.amount / 2, o.price / 4, o.amount / 2.0 FROM Order o WHERE o.number = 11
                -> SELECT o.amount, o.price FROM Order o WHERE o.number = 11
                => [[Integer 3, BigDecimal 0.5625, Double 3.5]]

                SELECT p.name FROM Person p WHERE SQRT(p.age) >= 6 AND p.age < 50
                -> SELECT p.name, p.age FROM Person p WHERE p.age < 50
                => [Ada, Bob]

                SELECT COUNT(p) FROM Person p WHERE SQRT(p.age) <> 6
                -> SELECT p.id, p.age FROM Person p
                => [Long 2]

                SELECT DISTINCT CONCAT(p.address.city, CASE WHEN p.age > 0 THEN '!' ELSE '' END) AS c FROM Person p ORDER BY c DESC
                -> SELECT DISTINCT CONCAT(p.address__city, CASE WHEN p.age > 0 THEN '!' ELSE '' END) AS c0 FROM Person p ORDER BY c0 DESC
                => [Paris!, London!, null]

                SELECT UPPER(p.name), LOWER(p.address.city) FROM Person p WHERE UPPER(p.name) LIKE 'A%' AND p.age > 30
                -> SELECT UPPER(p.name), LOWER(p.address__city) FROM Person p WHERE UPPER(p.name) LIKE 'A%' AND p.age > 30
                => [[ADA, london]]

                SELECT COUNT(p), MIN(UPPER(p.name)) FROM Person p WHERE LOWER(p.name) <> 'ada'
                -> SELECT COUNT(p), MIN(UPPER(p.name)) FROM Person p WHERE LOWER(p.name) <> 'ada'
                => [[Long 2, BOB]]

                SELECT DISTINCT UPPER(p.address.city) AS c FROM Person p ORDER BY c DESC
                -> SELECT DISTINCT UPPER(p.address__city) AS c0 FROM Person p ORDER BY c0 DESC
                => [PARIS, LONDON, null]

                SELECT p.name FROM Person p WHERE p.name IS NOT NULL ORDER BY LOWER(p.address.city) DESC, LENGTH(p.name)
                -> SELECT p.name AS c0, LOWER(p.address__city) AS c1, LENGTH(p.name) AS c2 FROM Person p WHERE p.name IS NOT NULL ORDER BY c1 DESC, c2
                => [Bob, Cy, Ada]

                SELECT TRIM(p.name), TRIM(BOTH FROM p.name), TRIM(LEADING FROM p.name), TRIM('b' FROM p.name) FROM Person p WHERE TRIM(TRAILING 'a' FROM p.name) = 'Ad'
                -> SELECT TRIM(p.name), TRIM(LEADING FROM p.name), TRIM(BOTH 'b' FROM p.name) FROM Person p WHERE TRIM(TRAILING 'a' FROM p.name) = 'Ad'
                => [[Ada, Ada, Ada, Ada]]

                SELECT TRIM(SUBSTRING(p.name, 1, 1) FROM p.name), UPPER(CASE WHEN p.age > 40 THEN 'old' ELSE p.name END) FROM Person p WHERE p.name = 'Ada'
                -> SELECT SUBSTRING(p.name, 1, 1), p.name, UPPER(CASE WHEN p.age > 40 THEN 'old' ELSE p.name END) FROM Person p WHERE p.name = 'Ada'
                => [[da, ADA]]

                SELECT o.number, p.name FROM Order o LEFT JOIN o.person p ON UPPER(p.name) = 'ADA' WHERE o.number > 10
                -> SELECT o.number, p.name FROM Order o LEFT JOIN o.person p ON UPPER(p.name) = 'ADA' WHERE o.number > 10
                => [[Long 11, Ada], [Long 12, null], [Long 13, null], [Long 14, null]]

                SELECT p.id FROM Person p WHERE p.mood <> ALL (SELECT q.mood FROM Person q WHERE LOWER(q.name) = 'ada')
                -> SELECT p.id FROM Person p WHERE NOT EXISTS (SELECT q FROM Person q WHERE LOWER(q.name) = 'ada' AND (p.mood = q.mood OR q.mood IS NULL OR p.mood IS NULL))
                => [Long 2, Long 4]

                SELECT CASE WHEN p.orders IS EMPTY THEN 0 ELSE SIZE(p.orders) END FROM Person p
                -> SELECT CASE WHEN SIZE(p.orders) = 0 THEN 0 ELSE SIZE(p.orders) END FROM Person p
                => [Integer 0, Integer 1, Integer 1, Integer 2]

                SELECT p FROM Person p WHERE CASE WHEN NOT p.orders IS EMPTY THEN 'some' ELSE 'none' END = 'none' OR p.age < 0
                -> SELECT p FROM Person p WHERE (CASE WHEN SIZE(p.orders) <> 0 THEN 'some' ELSE 'none' END = 'none' OR p.age < 0)
                => [Person 4]

                SELECT CASE WHEN p.age > 40 THEN 'old' WHEN p.name IS NULL THEN 'none' ELSE p.name END FROM Person p
                -> SELECT CASE WHEN p.age > 40 THEN 'old' WHEN p.name IS NULL THEN 'none' ELSE p.name END FROM Person p
                => [Ada, Bob, none, old]

                SELECT o.number FROM Order o WHERE o.amount > ALL (SELECT x.amount FROM Order x WHERE x.number < o.number)
                -> SELECT o.number FROM Order o WHERE NOT EXISTS (SELECT x FROM Order x WHERE x.number < o.number AND (o.amount <= x.amount OR x.amount IS NULL OR o.amount IS NULL))
                => [Long 10, Long 11]

                SELECT o.number FROM Order o WHERE NOT (o.amount > ANY (SELECT x.amount FROM Order x WHERE x.number > 12))
                -> SELECT o.number FROM Order o WHERE NOT EXISTS (SELECT x FROM Order x WHERE x.number > 12 AND (o.amount > x.amount OR x.amount IS NULL OR o.amount IS NULL))
                => [Long 14]

                SELECT p.name FROM Person p WHERE p.name NOT IN (SELECT t.name FROM Team t)
                -> SELECT p.name FROM Person p WHERE NOT EXISTS (SELECT t FROM Team t WHERE (p.name = t.name OR t.name IS NULL OR p.name IS NULL))
                => [Ada, Bob, Cy]

                SELECT p FROM Person p WHERE p NOT IN (SELECT o.person FROM Order o)
                -> SELECT p FROM Person p WHERE NOT EXISTS (SELECT o FROM Order o WHERE (p = o.person OR o.person IS NULL))
                => []

                SELECT o.number FROM Order o WHERE o.person.name NOT IN (SELECT q.name FROM Person q WHERE q.age > 40) OR o.number = 12
                -> SELECT o.number FROM Order o WHERE (NOT EXISTS (SELECT q FROM Person q WHERE q.age > 40 AND (o.person.name = q.name OR q.name IS NULL OR o.person.name IS NULL)) OR o.number = 12) AND (o.person.name IS NULL OR o.person.name IS NOT NULL)
                => [Long 10, Long 11, Long 14]

                SELECT o.number FROM Order o WHERE o.number = (SELECT MAX(x.number) FROM Order x WHERE x.person = o.person)
                -> SELECT o.number FROM Order o WHERE EXISTS (SELECT x FROM Order x WHERE x.person = o.person AND x.number = o.number) AND NOT EXISTS (SELECT x_2 FROM Order x_2 WHERE x_2.person = o.person AND x_2.number > o.number)
                => [Long 11, Long 13, Long 14]

                SELECT o.number FROM Order o WHERE o.amount > (SELECT AVG(x.amount) FROM Order x)
                -> SELECT SUM(x.amount), COUNT(x.amount) FROM Order x
                -> SELECT o.number FROM Order o WHERE o.amount > 5
                => [Long 11, Long 13]

                SELECT p FROM Person p WHERE (SELECT COUNT(o) FROM p.orders o) >= 2
                -> SELECT p FROM Person p WHERE SIZE(p.orders) >= 2
                => [Person 1]

                SELECT p FROM Person p WHERE (SELECT COUNT(o) FROM Order o WHERE o.person = p) = 0
                -> SELECT p FROM Person p WHERE NOT EXISTS (SELECT o FROM Order o WHERE o.person = p AND 1 = 1)
                => [Person 4]

                SELECT p FROM Person p WHERE p.age = (SELECT q.age FROM Person q WHERE q.id = p.boss.id)
                -> SELECT p FROM Person p WHERE EXISTS (SELECT q FROM Person q WHERE q.id = p.boss.id AND p.age = q.age)
                => [Person 3]

                SELECT p FROM Person p WHERE p.team = (SELECT t FROM Team t WHERE t.name = 'Red')
                -> SELECT t FROM Team t WHERE t.name = 'Red'
                -> SELECT p FROM Person p WHERE p.team = :p0
                => [Person 1, Person 3]

                SELECT o FROM Order o WHERE TYPE(o.person) = Person
                -> SELECT o FROM Order o WHERE EXISTS (SELECT one FROM o.person one WHERE TYPE(one) IN (Person))
                => [Order 10, Order 11, Order 13, Order 14]

                SELECT TYPE(p), p.id FROM Person p WHERE TYPE(p) <> Person
                -> SELECT p, p.id FROM Person p WHERE TYPE(p) NOT IN (Person)
                => [[Vip, Long 4]]

                SELECT p FROM Person p WHERE EXISTS (SELECT COUNT(o) FROM Order o WHERE o.person = p)
                -> SELECT p FROM Person p WHERE 1 = 1
                => [Person 1, Person 2, Person 3, Person 4]

                SELECT DISTINCT p.team FROM Person p WHERE p.team IS NOT NULL ORDER BY p.team.name
                -> SELECT p.team AS c0, p.team.name AS c1 FROM Person p WHERE p.team IS NOT NULL
                => [Team 2, Team 1]

                SELECT NEW karzhoul.jpa.query.Shop.PlaceKey(p.age, p.name) FROM Person p WHERE p.id = 3
                -> SELECT p.age, p.name FROM Person p WHERE p.id = 3
                => [36/Bob]

                SELECT c0.name FROM Person c0 WHERE c0.age = 50 ORDER BY c0.name
                -> SELECT v.name AS c0 FROM Person v WHERE v.age = 50 ORDER BY v.name
                => [Cy]

                SELECT o.number FROM Order o ORDER BY o.status DESC, o.number / 1
                -> SELECT o.number AS c0, o.status AS c1 FROM Order o
                => [Long 13, Long 11, Long 10, Long 14, Long 12]

                SELECT 'x', 1, 2.5, TRUE FROM Team t
                -> SELECT 1 FROM Team t
                => [[x, Integer 1, Double 2.5, true], [x, Integer 1, Double 2.5, true]]

                SELECT o.person, COUNT(o) FROM Order o GROUP BY o.person
                -> SELECT o.person, COUNT(o) FROM Order o GROUP BY o.person
                => [[Person 1, Long 2], [Person 2, Long 1], [Person 3, Long 1], [null, Long 1]]

                SELECT p.name FROM Person p WHERE p.id IN (SELECT o.person.id FROM Order o) AND p.name IN (SELECT o.name FROM Person o)
                -> SELECT p.name FROM Person p WHERE EXISTS (SELECT o.person.id FROM Order o WHERE p.id = o.person.id) AND EXISTS (SELECT o_2 FROM Person o_2 WHERE p.name = o_2.name)
                => [Ada, Bob]

                SELECT p FROM Person p WHERE 2 <= (SELECT COUNT(o) FROM Order o WHERE o.person = p)
                -> SELECT p FROM Person p
                -> SELECT COUNT(o) FROM Order o WHERE o.person = :p0
                -> SELECT COUNT(o) FROM Order o WHERE o.person = :p0
                -> SELECT COUNT(o) FROM Order o WHERE o.person = :p0
                -> SELECT COUNT(o) FROM Order o WHERE o.person = :p0
                => [Person 1]

                SELECT p.name FROM Person p WHERE p.team.name = 'Red' AND 1 < (SELECT SUM(o.amount) FROM p.orders o)
                -> SELECT p.name, p FROM Person p WHERE p.team.name = 'Red'
                -> SELECT SUM(o.amount) FROM Person p JOIN p.orders o WHERE p = :p0
                -> SELECT SUM(o.amount) FROM Person p JOIN p.orders o WHERE p = :p0
                => [Ada]

                SELECT o.number FROM Order o WHERE o.amount >= (SELECT AVG(x.amount) FROM Order x WHERE x.status = o.status)
                -> SELECT o.number, o.amount, o.status FROM Order o
                -> SELECT SUM(x.amount), COUNT(x.amount) FROM Order x WHERE x.status = :p0
                -> SELECT SUM(x.amount), COUNT(x.amount) FROM Order x WHERE x.status = :p0
                -> SELECT SUM(x.amount), COUNT(x.amount) FROM Order x WHERE x.status = :p0
                -> SELECT SUM(x.amount), COUNT(x.amount) FROM Order x WHERE x.status = :p0
                => [Long 10, Long 11, Long 13]

                SELECT p FROM Person p WHERE p.age = (SELECT q.age FROM Person q WHERE q.id <> p.id AND q.team = p.team)
                -> SELECT p, p.age, p.id, p.team FROM Person p
                -> SELECT q.age FROM Person q WHERE q.id <> 1 AND q.team = :p0
                -> SELECT q.age FROM Person q WHERE q.id <> 2 AND q.team = :p0
                -> SELECT q.age FROM Person q WHERE q.id <> 3 AND q.team = :p0
                -> SELECT q.age FROM Person q WHERE q.id <> 4 AND q.team = :p0
                => [Person 1, Person 3]

                SELECT o.number, (SELECT MAX(i.count) FROM Item i WHERE i.order = o) FROM Order o WHERE o.number > 12
                -> SELECT o.number, o FROM Order o WHERE o.number > 12
                -> SELECT MAX(i.count) FROM Item i WHERE i.order = :p0
                -> SELECT MAX(i.count) FROM Item i WHERE i.order = :p0
                => [[Long 13, null], [Long 14, Long 10]]

                SELECT p FROM Person p WHERE UPPER(p.name) = 'CY' OR EXISTS (SELECT o FROM Order o WHERE o.person.id = p.id AND o.amount / 2 > 2)
                -> SELECT p, UPPER(p.name), p.id FROM Person p
                -> SELECT o.amount FROM Order o WHERE o.person.id = 1
                -> SELECT o.amount FROM Order o WHERE o.person.id = 2
                -> SELECT o.amount FROM Order o WHERE o.person.id = 3
                => [Person 1, Person 2, Person 4]

                SELECT p.id FROM Person p WHERE p.age IN (SELECT q.age FROM Person q GROUP BY q.age HAVING COUNT(q) > 1)
                -> SELECT p.id, p.age FROM Person p
                -> SELECT q.age FROM Person q GROUP BY q.age HAVING COUNT(q) > 1
                => [Long 1, Long 3]

                SELECT p.id FROM Person p WHERE p.mood <> ALL (SELECT q.mood FROM Person q WHERE q.id / 1 = 1)
                -> SELECT p.id, p.mood FROM Person p
                -> SELECT q.mood, q.id FROM Person q
                => [Long 2, Long 4]

                SELECT t.name FROM Person p JOIN p.team t GROUP BY t HAVING EXISTS (SELECT v FROM Vip v WHERE v.team = t)
                -> SELECT t.name, t FROM Person p JOIN p.team t GROUP BY t, t.name
                -> SELECT 1 FROM Vip v WHERE v.team = :p0
                -> SELECT 1 FROM Vip v WHERE v.team = :p0
                => [Blue]

                SELECT p.id FROM Person p WHERE p.tags IS EMPTY OR EXISTS (SELECT o FROM Order o WHERE o.person.id = p.id AND o.amount / 2 > 2)
                -> SELECT p.id, p FROM Person p
                -> SELECT 1 FROM Person p JOIN p.tags one WHERE p = :p0
                -> SELECT o.amount FROM Order o WHERE o.person.id = 1
                -> SELECT 1 FROM Person p JOIN p.tags one WHERE p = :p0
                -> SELECT 1 FROM Person p JOIN p.tags one WHERE p = :p0
                -> SELECT o.amount FROM Order o WHERE o.person.id = 3
                -> SELECT 1 FROM Person p JOIN p.tags one WHERE p = :p0
                => [Long 1, Long 2, Long 4]

                SELECT p FROM Person p WHERE TREAT(p AS Vip).discount > 5
                -> SELECT p FROM Person p WHERE EXISTS (SELECT treated FROM Vip treated WHERE treated = p AND treated.discount > 5)
                => [Person 4]

                SELECT p FROM Person p WHERE NOT TREAT(p AS Vip).discount > 50 OR p.age < 30
                -> SELECT p FROM Person p WHERE (EXISTS (SELECT treated FROM Vip treated WHERE treated = p AND treated.discount <= 50) OR p.age < 30)
                => [Person 2, Person 4]

                SELECT o.number FROM Order o WHERE TREAT(o.person.boss AS Vip).discount = 1 OR o.number = 10
                -> SELECT o.number FROM Order o WHERE (EXISTS (SELECT treated FROM Vip treated WHERE treated = o.person.boss AND treated.discount = 1) OR o.number = 10) AND (o.person.boss IS NULL OR o.person.boss IS NOT NULL)
                => [Long 10]

                SELECT p.name, TREAT(p AS Vip).discount FROM Person p LEFT JOIN p.orders o WHERE p.age > 20 ORDER BY TREAT(p AS Vip).discount
                -> SELECT p.name AS c0, treated.discount AS c1 FROM Person p LEFT JOIN p.orders o, Vip treated WHERE p.age > 20 AND treated = p ORDER BY treated.discount
                => [[Cy, Integer 10]]

                SELECT TREAT(o.boss AS Vip), COUNT(o) FROM Person o WHERE TREAT(o.boss AS Vip).discount > 5 GROUP BY TREAT(o.boss AS Vip) HAVING MIN(TREAT(o AS Vip).discount) > 5
                -> SELECT treated, COUNT(o) FROM Person o, Vip treated, Vip treated_2 WHERE EXISTS (SELECT treated_3 FROM Vip treated_3 WHERE treated_3 = o.boss AND treated_3.discount > 5) AND treated = o.boss AND treated_2 = o GROUP BY treated HAVING MIN(treated_2.discount) > 5
                => []

                SELECT TREAT(p AS Vip) FROM Person p
                -> SELECT treated FROM Person p, Vip treated WHERE treated = p
                => [Person 4]

                SELECT t FROM Team t JOIN FETCH TREAT(t.members AS Vip)
                -> SELECT t FROM Team t JOIN t.members fetched, Vip fetched_2 WHERE fetched_2 = fetched
                => [Team 2]

                SELECT t, v.name FROM Team t LEFT JOIN FETCH TREAT(t.members AS Vip) v JOIN FETCH t.leader
                -> SELECT t, v.name FROM Team t LEFT JOIN t.members v ON TYPE(v) IN (Vip) JOIN t.leader fetched
                => [[Team 1, null]]

                SELECT v.name, v.discount FROM Team t JOIN TREAT(t.members AS Vip) v
                -> SELECT v_2.name, v_2.discount FROM Team t JOIN t.members v, Vip v_2 WHERE v_2 = v
                => [[Cy, Integer 10]]

                SELECT v.discount, g.code FROM Team t JOIN TREAT(t.members AS Vip) v LEFT JOIN t.leader.tags g
                -> SELECT v_2.discount, g.code FROM Team t JOIN t.members v, Vip v_2 JOIN t.leader t_2 LEFT JOIN t_2.tags g WHERE v_2 = v
                => []

                SELECT t.name, v.name FROM Team t LEFT JOIN TREAT(t.members AS Vip) v
                -> SELECT t.name, v.name FROM Team t LEFT JOIN t.members v ON TYPE(v) IN (Vip)
                => [[Blue, Cy], [Red, null]]

                SELECT t.name FROM Team t WHERE EXISTS (SELECT v FROM TREAT(t.members AS Vip) v WHERE v.discount = 10)
                -> SELECT t.name FROM Team t WHERE EXISTS (SELECT v FROM t.members v, Vip v_2 WHERE v_2.discount = 10 AND v_2 = v)
                => [Blue]

                SELECT p.address, p.id FROM Person p WHERE p.address IS NOT NULL
                -> SELECT p.address__street, p.address__city, p.id FROM Person p WHERE (p.address__street IS NOT NULL OR p.address__city IS NOT NULL)
                => [[in London, Long 1], [in London, Long 4], [in Paris, Long 3]]

                SELECT DISTINCT o.person.address FROM Order o
                -> SELECT o.person.address__street, o.person.address__city FROM Order o
                => [in London, in Paris, null]
                """.split("\n\n"));
    }
}
