package karzhoul.jpa.query;

import static org.junit.jupiter.api.Assertions.assertEquals;
import static org.junit.jupiter.api.Assertions.assertThrows;
import static org.junit.jupiter.api.Assertions.assertTrue;

import java.util.stream.Stream;
import org.junit.jupiter.api.Test;
import org.junit.jupiter.params.ParameterizedTest;
import org.junit.jupiter.params.provider.MethodSource;

/** Each production of the grammar (chapter 4.14), and what is none of it, with line, column and what was expected. */
class ParserTest {
    @ParameterizedTest
    @MethodSource("good")
    void reads(String text) {
        Parser.parse(text);
    }

    @ParameterizedTest
    @MethodSource("bad")
    void refuses(String row) {
        String[] parts = row.split(" ## ");
        QueryFault fault = assertThrows(QueryFault.class, () -> Parser.parse(parts[0].replace("\\n", "\n")));
        assertEquals(parts[1], fault.line() + ":" + fault.column() + " " + fault.reason());
        assertTrue(fault.getMessage().startsWith("line " + fault.line() + ", column " + fault.column() + ": "));
    }

    /** Deep texts are refused in words before the stack ends. */
    @Test
    void refusesWhatIsTooDeep() {
        String deep = "(".repeat(100_000) + "1" + ")".repeat(100_000);
        QueryFault tooLong = assertThrows(QueryFault.class, () -> Parser.parse("SELECT 1" + " + 1".repeat(50_000) + " FROM P p"));
        assertEquals("more than 200 values in one sum or product", tooLong.reason());
        for (String value : new String[] {deep, "ABS".concat(deep.replace("(", "(ABS(")), "NOT ".repeat(100_000) + "1 = 1"}) {
            QueryFault fault = assertThrows(QueryFault.class, () -> Parser.parse("SELECT p FROM P p WHERE " + value));
            assertTrue(fault.reason().startsWith("more than 200 parentheses"), fault.reason());
        }
    }

    /** Whatever is cut off or put in, a text is read or refused by a QueryFault. */
    @Test
    void readsOrRefusesEachPartOfEachText() {
        for (String text : good().toList()) {
            for (int at = 0; at <= text.length(); at++) {
                for (String changed : new String[] {text.substring(0, at), text.substring(at),
                        text.substring(0, at) + "(" + text.substring(at), text.substring(0, at) + "'" + text.substring(at)}) {
                    try {
                        Parser.parse(changed);
                    } catch (QueryFault fault) {
                        assertTrue(fault.line() >= 1 && fault.column() >= 1 && !fault.reason().isEmpty());
                    }
                }
            }
        }
    }

    static Stream<String> good() {
        return Stream.of("""
                SELECT p FROM Person p
                select P from Person As p
                SELECT DISTINCT p FROM Person p
                SELECT OBJECT(p) FROM Person p
                SELECT p.a, p.b.c, p.d.e.f FROM Person p
                SELECT p AS x, p.a y FROM Person p
                SELECT p, q FROM Person p, Person q
                SELECT o FROM Order o
                SELECT g FROM Group g
                SELECT s FROM Select s
                SELECT p.order, p.group, p.from FROM Person p
                SELECT NEW a.b.C(p.a, COUNT(p), 1) FROM Person p
                SELECT NEW C(p) AS c, p.a FROM Person p
                SELECT KEY(m), VALUE(m), ENTRY(m), INDEX(m) FROM P p JOIN p.m m
                SELECT KEY(m).a, VALUE(m).b.c FROM P p JOIN p.m m
                SELECT p FROM Person p JOIN p.a x
                SELECT p FROM Person p INNER JOIN p.a AS x
                SELECT p FROM Person p LEFT JOIN p.a x LEFT OUTER JOIN x.b y
                SELECT p FROM Person p JOIN p.a x ON x.b = 1 AND x.c = 2
                SELECT p FROM Person p LEFT JOIN p.a.b.c x ON x.d > 1
                SELECT p FROM Person p JOIN FETCH p.a
                SELECT p FROM Person p LEFT JOIN FETCH p.a LEFT OUTER JOIN FETCH p.b INNER JOIN FETCH p.c
                SELECT p FROM Person p JOIN FETCH p.a x JOIN FETCH x.b AS y
                SELECT p FROM Person p JOIN TREAT(p.a AS Vip) v
                SELECT p FROM Person p, IN (p.a) x
                SELECT p FROM Person p, IN (p.a) AS x JOIN x.b y, Order o
                SELECT p FROM Person p WHERE p.a = 1 OR p.b = 2 AND NOT p.c = 3
                SELECT p FROM Person p WHERE NOT NOT (p.a = 1)
                SELECT p FROM Person p WHERE ((p.a = 1 OR (p.b = 2)) AND (p.c + 1) * 2 > 3)
                SELECT p FROM Person p WHERE p.a = 1 AND p.b <> 1 AND p.c != 1 AND p.d < 1 AND p.e <= 1 AND p.f > 1 AND p.g >= 1
                SELECT p FROM Person p WHERE p.a BETWEEN 1 AND 2 AND p.b NOT BETWEEN :a AND :b
                SELECT p FROM Person p WHERE p.a IN (1, 2, :c) AND p.b NOT IN ('x')
                SELECT p FROM Person p WHERE p.a IN :list AND p.b NOT IN (?1)
                SELECT p FROM Person p WHERE p.a IN (SELECT q.a FROM Person q)
                SELECT p FROM Person p WHERE p.a NOT IN (SELECT DISTINCT q.a FROM Person q WHERE q.b = 1)
                SELECT p FROM Person p WHERE p.a LIKE 'x%' AND p.b NOT LIKE :x ESCAPE '!'
                SELECT p FROM Person p WHERE p.a LIKE CONCAT(:x, '%') ESCAPE ?1
                SELECT p FROM Person p WHERE p.a IS NULL AND p.b IS NOT NULL AND :x IS NULL
                SELECT p FROM Person p WHERE p.a IS EMPTY OR p.b IS NOT EMPTY
                SELECT p FROM Person p WHERE :x MEMBER OF p.a AND p NOT MEMBER p.b
                SELECT p FROM Person p WHERE EXISTS (SELECT o FROM Order o) AND NOT EXISTS (SELECT o FROM p.orders o)
                SELECT p FROM Person p WHERE EXISTS (SELECT o FROM IN (p.orders) o)
                SELECT p FROM Person p WHERE EXISTS (SELECT o FROM p.orders o, IN(o.x) y JOIN y.z z, Order q)
                SELECT p FROM Person p WHERE EXISTS (SELECT o FROM IN p.orders o)
                SELECT p FROM Person p WHERE p.a > ALL (SELECT q.a FROM Person q)
                SELECT p FROM Person p WHERE p.a = ANY (SELECT q.a FROM Person q) OR p.a <> SOME (SELECT q.a FROM Person q)
                SELECT p FROM Person p WHERE p.a = (SELECT MAX(q.a) FROM Person q) AND (SELECT COUNT(q) FROM Person q) > 1
                SELECT p FROM Person p WHERE p.a > 2 * (SELECT AVG(q.a) FROM Person q GROUP BY q.b HAVING COUNT(q) > 1)
                SELECT p FROM Person p WHERE p.a = TRUE OR p.b = false
                SELECT p FROM Person p WHERE p.a = a.b.Color.RED
                SELECT p FROM Person p WHERE TYPE(p) = Vip OR TYPE(p.boss) IN (Vip, Person) OR TYPE(p) = :t
                SELECT p FROM Person p WHERE TREAT(p AS Vip).a > 1
                SELECT p FROM Person p WHERE p.a = {d '2020-02-29'} OR p.b = {t '10:20:30'} OR p.c = {ts '2020-01-01 10:20:30.5'}
                SELECT p FROM Person p WHERE p.a < CURRENT_DATE AND p.b < CURRENT_TIME AND p.c < CURRENT_TIMESTAMP
                SELECT p FROM Person p WHERE p.a < LOCAL DATE AND p.b < LOCAL TIME AND p.c < LOCAL DATETIME
                SELECT p FROM Person p WHERE p.a = 1 + 2 - 3 * 4 / 5 AND -p.b = +1 AND p.c = -(1 + p.d)
                SELECT p FROM Person p WHERE p.a IN (1, 1L, 1.5, 1.5f, 1.5F, 1.5d, 1e3, 1.5E-3, .5, 0x1F, 9223372036854775807)
                SELECT p FROM Person p WHERE p.a = 'it''s' OR p.b = ''
                SELECT LENGTH(p.a), CONCAT(p.a, 'x', p.b), SUBSTRING(p.a, 1), SUBSTRING(p.a, 1, 2) FROM Person p
                SELECT LOCATE('x', p.a), LOCATE('x', p.a, 2), UPPER(p.a), LOWER(p.a) FROM Person p
                SELECT TRIM(p.a), TRIM(BOTH FROM p.a), TRIM('x' FROM p.a), TRIM(LEADING 'x' FROM p.a) FROM Person p
                SELECT TRIM(TRAILING :c FROM p.a) FROM Person p
                SELECT ABS(p.a), SQRT(p.a), MOD(p.a, 2), SIZE(p.b), CEILING(p.a), FLOOR(p.a) FROM Person p
                SELECT EXP(p.a), LN(p.a), SIGN(p.a), POWER(p.a, 2), ROUND(p.a, 2) FROM Person p
                SELECT EXTRACT(YEAR FROM p.a), EXTRACT(SECOND FROM p.b), EXTRACT(DATE FROM p.c) FROM Person p
                SELECT CASE WHEN p.a = 1 THEN 'x' WHEN p.a > 2 AND p.b = 1 THEN 'y' ELSE 'z' END FROM Person p
                SELECT CASE p.a WHEN 1 THEN 'x' WHEN :b THEN 'y' ELSE NULL END FROM Person p
                SELECT COALESCE(p.a, p.b, 1), NULLIF(p.a, 1) FROM Person p
                SELECT COUNT(p), COUNT(DISTINCT p.a), SUM(p.a), AVG(DISTINCT p.a), MIN(p.a), MAX(p.a) FROM Person p
                SELECT SUM(p.a * 2) / COUNT(p) AS x FROM Person p
                SELECT p.a, COUNT(p) FROM Person p GROUP BY p.a, p.b HAVING COUNT(p) > 1 AND p.a LIKE 'x%'
                SELECT p FROM Person p GROUP BY p ORDER BY p.a
                SELECT p.a AS x FROM Person p ORDER BY x, p.b ASC, p.c DESC
                SELECT p FROM Person p ORDER BY UPPER(p.a) DESC
                SELECT p FROM Person p WHERE p.name = :name AND p.größe > 1
                UPDATE Person p SET p.a = 1
                UPDATE Person SET a = 1, b = NULL, c.d = :x WHERE e > 1
                UPDATE Person AS p SET p.a = p.a + 1, p.boss = :b WHERE EXISTS (SELECT o FROM p.orders o)
                DELETE FROM Person
                DELETE FROM Person p
                DELETE FROM Person AS p WHERE p.a = 1
                DELETE FROM Person WHERE a IN (1, 2)
                SELECT key FROM Person key WHERE key.a = 1
                SELECT p FROM Person p WHERE p.type = 1 AND p.value = 2 AND p.count = 3
                """.split("\n"));
    }

    static Stream<String> bad() {
        return Stream.of("""
                 ## 1:1 expected SELECT, UPDATE or DELETE, found the end
                FROM Person p ## 1:1 expected SELECT, UPDATE or DELETE, found "FROM"
                SELECT ## 1:7 expected a value, found the end
                SELECT p ## 1:9 expected FROM, found the end
                SELECT p Form Person p ## 1:15 expected FROM, found "Person"
                SELECT p, FROM Person p ## 1:11 expected a value, found "FROM"
                SELECT p FROM ## 1:14 expected the name of an entity, found the end
                SELECT p FROM Person ## 1:21 expected an identification variable, found the end
                SELECT p FROM Person where p.a = 1 ## 1:22 expected an identification variable, but "where" is a reserved word
                SELECT p FROM Person p, ## 1:24 expected the name of an entity, found the end
                SELECT p FROM Person p Order o ## 1:30 expected BY, found "o"
                SELECT p FROM Person p x ## 1:24 expected a variable, a join, WHERE, GROUP BY, ORDER BY or the end, found "x"
                SELECT p\\nFROM Person p\\nWHERE p.a == 1 ## 3:12 expected a value, found "="
                SELECT p\\nFROM Person p\\n  WHERE ## 3:8 expected a value, found the end
                SELECT p FROM Person p WHERE p.a ## 1:33 expected a comparison, BETWEEN, IN, LIKE, IS or MEMBER OF, found the end
                SELECT p FROM Person p WHERE p.a = ## 1:35 expected a value, found the end
                SELECT p FROM Person p WHERE p.a = 1 p.b = 2 ## 1:38 expected AND, OR, GROUP BY, HAVING, ORDER BY or the end, found "p"
                SELECT p FROM Person p WHERE p.a = 1 AND ## 1:41 expected a value, found the end
                SELECT p FROM Person p WHERE (p.a = 1 ## 1:38 expected ")", found the end
                SELECT p FROM Person p WHERE p.a = 1) ## 1:37 expected AND, OR, GROUP BY, HAVING, ORDER BY or the end, found ")"
                SELECT p FROM Person p WHERE NOT p.a ## 1:34 expected a condition, found a value
                SELECT p FROM Person p WHERE (p.a = 1) = 2 ## 1:40 expected AND, OR, GROUP BY, HAVING, ORDER BY or the end, found "="
                SELECT p FROM Person p WHERE 1 + (p.a = 1) > 2 ## 1:34 expected a value, found a condition
                SELECT p FROM Person p WHERE p.a BETWEEN 1 ## 1:43 expected AND, found the end
                SELECT p FROM Person p WHERE p.a NOT 1 ## 1:38 expected BETWEEN, IN, LIKE or MEMBER OF after NOT, found "1"
                SELECT p FROM Person p WHERE p.a IS 1 ## 1:37 expected NULL, EMPTY or NOT, found "1"
                SELECT p FROM Person p WHERE p.a IS NOT 1 ## 1:41 expected NULL or EMPTY, found "1"
                SELECT p FROM Person p WHERE p.a = NULL ## 1:36 expected a value: nothing is equal to NULL, IS NULL asks for it
                SELECT p FROM Person p WHERE p.a IN 1 ## 1:37 expected "(" or a parameter after IN, found "1"
                SELECT p FROM Person p WHERE p.a IN () ## 1:38 expected a value, found ")"
                SELECT p FROM Person p WHERE p.a IN (1, ## 1:40 expected a value, found the end
                SELECT p FROM Person p WHERE EXISTS p.a ## 1:37 expected "(", found "p"
                SELECT p FROM Person p WHERE EXISTS (p.a) ## 1:38 expected SELECT, found "p"
                SELECT p FROM Person p WHERE p.a = ALL (1) ## 1:41 expected SELECT, found "1"
                SELECT p FROM Person p WHERE p.a IN (SELECT q.a, q.b FROM Q q) ## 1:48 expected FROM, found ","
                SELECT p FROM Person p WHERE p.a = 'x ## 1:36 the text that begins here has no closing quote
                SELECT p FROM Person p WHERE p.a = "x" ## 1:36 "\"" is no character of a query
                SELECT p FROM Person p WHERE p.a = 5x ## 1:36 "5x" is no number, or too great for its type
                SELECT p FROM Person p WHERE p.a = 9223372036854775808 ## 1:36 "9223372036854775808" is no number, or too great for its type
                SELECT p FROM Person p WHERE p.a = :1 ## 1:36 expected the name of a parameter after ":"
                SELECT p FROM Person p WHERE p.a = : ## 1:36 expected the name of a parameter after ":"
                SELECT p FROM Person p WHERE p.a = ? ## 1:36 expected the number of a parameter, from 1, after "?"
                SELECT p FROM Person p WHERE p.a = ?0 ## 1:36 expected the number of a parameter, from 1, after "?"
                SELECT p FROM Person p WHERE p.a = ?x ## 1:36 expected the number of a parameter, from 1, after "?"
                SELECT p FROM Person p WHERE p.a = {d 2020} ## 1:36 expected {d 'yyyy-mm-dd'}, {t 'hh:mm:ss'} or {ts 'yyyy-mm-dd hh:mm:ss.f'}
                SELECT p FROM Person p WHERE p.a = {d '2021-02-29'} ## 1:36 "2021-02-29" is no date, as 2026-11-29
                SELECT p FROM Person p WHERE p.a = {t '25:00:00'} ## 1:36 "25:00:00" is no time, as 08:15:00
                SELECT p FROM Person p WHERE p.a = {d '2020-01-01' ## 1:51 expected "}" at the end of the literal
                SELECT p.a || 'x' FROM Person p ## 1:12 "||" is no mark of Jakarta Persistence 3.1; write CONCAT(a, b)
                SELECT p FROM Person p WHERE p.a # 1 ## 1:34 "#" is no character of a query
                SELECT p. FROM Person p ## 1:23 expected FROM, found "p"
                SELECT p.1 FROM Person p ## 1:9 expected FROM, found ".1"
                SELECT COUNT(*) FROM Person p ## 1:14 expected a path: COUNT(*) is none of Jakarta Persistence; write COUNT(v)
                SELECT COUNT() FROM Person p ## 1:14 expected a value, found ")"
                SELECT UPER(p.a) FROM Person p ## 1:8 "UPER" is no function; did you mean "UPPER"?
                SELECT UPPER() FROM Person p ## 1:14 expected a value, found ")"
                SELECT UPPER(p.a, p.b) FROM Person p ## 1:19 expected ")": UPPER takes at most 1 value
                SELECT CONCAT(p.a) FROM Person p ## 1:18 expected ",": CONCAT takes at least 2 values, found ")"
                SELECT SUBSTRING(p.a, 1, 2, 3) FROM Person p ## 1:29 expected ")": SUBSTRING takes at most 3 values
                SELECT FUNCTION('f', 1) FROM Person p ## 1:8 FUNCTION isn't served: there is no database with functions of its own
                SELECT CASE END FROM Person p ## 1:13 expected a value, found "END"
                SELECT CASE WHEN p.a = 1 THEN 2 END FROM Person p ## 1:33 expected ELSE, found "END"
                SELECT CASE p.a ELSE 1 END FROM Person p ## 1:17 expected WHEN, found "ELSE"
                SELECT TRIM(LEADING p.a) FROM Person p ## 1:24 expected FROM, found ")"
                SELECT NEW (p.a) FROM Person p ## 1:12 expected the name of a class, found "("
                SELECT NEW a.B FROM Person p ## 1:16 expected "(", found "FROM"
                SELECT OBJECT(p.a) FROM Person p ## 1:16 expected ")", found "."
                SELECT p FROM Person p JOIN x ## 1:30 expected ".": a join is along a relation, as v.relation; an entity of its own stands behind a comma in FROM, with its condition in WHERE
                SELECT p FROM Person p JOIN Order o ON o.a = 1 ## 1:35 expected ".": a join is along a relation, as v.relation; an entity of its own stands behind a comma in FROM, with its condition in WHERE
                SELECT p FROM Person p JOIN p.a ## 1:32 expected an identification variable, found the end
                SELECT p FROM Person p JOIN FETCH p.a x ON x.b = 1 ## 1:41 a fetch join has no ON: it reads the whole relation
                SELECT p FROM Person p WHERE p.a = 1e999 ## 1:36 "1e999" is no number, or too great for its type
                SELECT p FROM Person p LEFT p.a x ## 1:29 expected JOIN, found "p"
                SELECT p FROM Person p OUTER JOIN p.a x ## 1:24 expected a variable, a join, WHERE, GROUP BY, ORDER BY or the end, found "OUTER"
                SELECT p FROM IN (p.a) x ## 1:18 expected an identification variable, found "("
                SELECT p FROM Person p GROUP p.a ## 1:30 expected BY, found "p"
                SELECT p FROM Person p ORDER BY p.a p.b ## 1:37 expected "," or the end, found "p"
                SELECT p FROM Person p ORDER BY p.a NULLS LAST ## 1:37 NULLS FIRST and NULLS LAST are none of Jakarta Persistence 3.1; nulls come first, and with DESC last
                SELECT p FROM Person p HAVING COUNT(p) > 1 x ## 1:44 expected AND, OR, ORDER BY or the end, found "x"
                SELECT p AS FROM Person p ## 1:13 expected a result variable, but "FROM" is a reserved word
                UPDATE Person p ## 1:16 expected SET, found the end
                UPDATE Person p SET p.a ## 1:24 expected "=", found the end
                UPDATE Person p SET p.a = ## 1:26 expected a value, found the end
                UPDATE Person p SET 1 = 2 ## 1:21 expected a path, found "1"
                DELETE Person p ## 1:8 expected FROM, found "Person"
                DELETE FROM Person p WHERE ## 1:27 expected a value, found the end
                DELETE FROM Person p x ## 1:22 expected the end, found "x"
                """.split("\n"));
    }
}
