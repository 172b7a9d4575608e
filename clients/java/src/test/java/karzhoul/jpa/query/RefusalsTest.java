package karzhoul.jpa.query;

import static org.junit.jupiter.api.Assertions.assertEquals;
import static org.junit.jupiter.api.Assertions.assertThrows;

import java.util.stream.Stream;
import karzhoul.jpa.model.Reader;
import org.junit.jupiter.params.ParameterizedTest;
import org.junit.jupiter.params.provider.MethodSource;

/** What is no query of the unit, and what isn't served: each with its place and its words, as it is created. */
class RefusalsTest {
    private static final Statements STATEMENTS = new Statements(Reader.read("shop", Shop.classes()));

    @ParameterizedTest
    @MethodSource("refused")
    void isRefused(String row) {
        String[] parts = row.split(" ## ");
        QueryFault fault = assertThrows(QueryFault.class, () -> STATEMENTS.prepare(parts[0]));
        assertEquals(parts[1], fault.column() + " " + fault.reason());
    }

    static Stream<String> refused() {
        return Stream.of("""
                SELECT p FROM Persn p ## 15 there is no entity "Persn"; did you mean "Person"?
                SELECT p.nam FROM Person p ## 8 Person has no "nam"; did you mean "name"?
                SELECT p.address.ciy FROM Person p ## 8 Person has no "address.ciy"; did you mean "address.city"?
                SELECT p FROM Person p WHERE p.address = :a ## 30 "address" of Person is an embedded object, which is served as a whole in SELECT and IS NULL; name its attributes, as "address.street"
                SELECT COUNT(p.address) FROM Person p ## 14 "address" of Person is an embedded object, which is served as a whole in SELECT and IS NULL; name its attributes, as "address.street"
                SELECT p FROM Person p ORDER BY p.address ## 33 "address" of Person is an embedded object, which is served as a whole in SELECT and IS NULL; name its attributes, as "address.street"
                SELECT p.address.city FROM Person p GROUP BY p.address ## 46 GROUP BY takes paths and variables
                SELECT TREAT(p AS Vip).discount, p.name FROM Person p GROUP BY TREAT(p AS Vip).discount ## 34 "p.name" stands outside of aggregates, and isn't one of GROUP BY
                SELECT p FROM Person p WHERE TREAT(p AS Team).limit = 1 ## 30 TREAT takes what is below Person, and Team isn't
                SELECT p FROM Person p WHERE TREAT(p.name AS Vip).discount = 1 ## 36 TREAT takes a variable or a path to one entity
                SELECT p FROM Person p WHERE TREAT(p AS Vip).discont = 1 ## 30 Vip has no "discont"; did you mean "discount"?
                SELECT p FROM Person p JOIN FETCH TREAT(p.boss AS Team) ## 35 TREAT takes what is below Person, and Team isn't
                SELECT v.discount FROM Person p LEFT JOIN TREAT(p.boss AS Vip) v ## 8 "v.discount" of a LEFT JOIN of TREAT is what Person hasn't, which isn't served; leave LEFT out, or ask EXISTS
                SELECT p FROM Person p JOIN TREAT(p AS Vip).tags t ## 29 a join is along a path of a variable; join TREAT(..) first, and go on from the variable of that
                SELECT p FROM Person p LEFT JOIN p.boss b ON TREAT(b AS Vip).discount = 1 ## 46 TREAT isn't served in the ON of a LEFT JOIN; join it, as LEFT JOIN TREAT(p.relation AS Entity) v, or ask EXISTS of a variable over the entity
                SELECT FUNCTION('lower', p.name) FROM Person p ## 8 FUNCTION isn't served: there is no database with functions of its own
                SELECT INDEX(p) FROM Person p ## 8 INDEX takes a variable along a List of values with @OrderColumn, and "p" is of Person
                SELECT q FROM Person p ## 8 there is no variable "q"; did you mean "p"?
                SELECT q.name FROM Person p ## 8 there is no variable "q" and no enum "q"; did you mean "p"?
                SELECT p.name.first FROM Person p ## 8 "name" of Person is a value, and "first" stands behind it
                SELECT p.orders.number FROM Person p ## 8 "orders" of Person is a collection: join it, and ask its variable for "number"
                SELECT p.orders FROM Person p ## 8 "p.orders" is a collection, which is no value: join it, or ask for SIZE, IS EMPTY or MEMBER OF
                SELECT p.discount FROM Person p ## 8 Person has no "discount", its subclass Vip has; let a variable range over Vip
                SELECT p FROM Person p, Order p ## 25 the variable "p" is declared twice
                SELECT p.name AS n, p.age AS n FROM Person p ## 21 two items are named "n"
                SELECT p FROM Person p JOIN p.name n ## 29 expected a path to a relation
                SELECT p FROM Person p, IN (p.boss) b ## 25 IN asks for a collection, and "p.boss" is none
                SELECT p FROM Person p WHERE p.mood = karzhoul.jpa.query.Shop.Mood.GLED ## 39 karzhoul.jpa.query.Shop$Mood has no constant "GLED"; did you mean "GLAD"?
                SELECT p FROM Person p WHERE p.age = 'x' ## 30 a number is compared with a text
                SELECT p FROM Person p WHERE p.name > 1 ## 30 a text is compared with a number
                SELECT p FROM Person p WHERE p.mood = 'GLAD' ## 30 karzhoul.jpa.query.Shop$Mood is compared with a text
                SELECT p FROM Person p WHERE p.mood < karzhoul.jpa.query.Shop.Mood.SAD ## 30 "<" compares what has an order, and this is karzhoul.jpa.query.Shop$Mood; = and <> do
                SELECT p FROM Person p WHERE p.boss = p.team ## 30 the entity Person is compared with the entity Team
                SELECT p FROM Person p WHERE p.boss < p ## 30 "<" compares what has an order, and this is the entity Person; = and <> do
                SELECT p FROM Person p WHERE p.active ## 38 expected a comparison, BETWEEN, IN, LIKE, IS or MEMBER OF, found the end
                SELECT p FROM Person p WHERE p.cents = 100 ## 30 karzhoul.jpa.query.Shop$Cents is compared with a number
                SELECT p FROM Person p WHERE p.age LIKE 'x' ## 30 LIKE takes texts, and this is a number
                SELECT p FROM Person p WHERE p.name LIKE 'x' ESCAPE 'ab' ## 53 expected one character after ESCAPE
                SELECT p FROM Person p WHERE p.age IN (1, 'x') ## 43 expected a number, and this is a text
                SELECT p FROM Person p WHERE p.age BETWEEN 1 AND 'x' ## 50 expected a number, and this is a text
                SELECT p FROM Person p WHERE p.name IS EMPTY ## 30 IS EMPTY takes a path to a collection
                SELECT p FROM Person p WHERE p MEMBER OF p.orders ## 30 the members of "p.orders" are of the entity Order, and this is the entity Person
                SELECT p FROM Person p WHERE COUNT(p) > 1 ## 30 COUNT stands in SELECT and HAVING alone
                SELECT SUM(p.name) FROM Person p ## 12 SUM takes numbers, and this is a text
                SELECT MAX(p) FROM Person p ## 12 MAX takes values that have an order, and this is the entity Person
                SELECT p.name + 1 FROM Person p ## 8 expected a number, and this is a text
                SELECT UPPER(p.age) FROM Person p ## 14 expected a text, and this is a number
                SELECT SIZE(p.name) FROM Person p ## 13 SIZE takes a path to a collection
                SELECT EXTRACT(EPOCH FROM p.born) FROM Person p ## 16 "EPOCH" is no field; there are YEAR, QUARTER, MONTH, WEEK, DAY, HOUR, MINUTE, SECOND, DATE and TIME
                SELECT TYPE(p.name) FROM Person p ## 13 TYPE takes an entity, and this is a text
                SELECT COALESCE(p.name, p.age) FROM Person p ## 25 expected a text, and this is a number
                SELECT p.age FROM Person p GROUP BY p.name ## 8 "p.age" stands outside of aggregates, and isn't one of GROUP BY
                SELECT p.age, COUNT(p) FROM Person p ## 8 "p.age" stands outside of aggregates, and isn't one of GROUP BY
                SELECT p.name FROM Person p GROUP BY p.name HAVING p.age > 1 ## 52 "p.age" stands outside of aggregates, and isn't one of GROUP BY
                SELECT p.name FROM Person p GROUP BY UPPER(p.name) ## 38 GROUP BY takes paths and variables
                SELECT NEW karzhoul.jpa.query.Shop.PlaceKey(p.age, p.name) AS k FROM Person p ORDER BY k ## 88 ORDER BY takes values that have an order, and this is NEW of a class
                SELECT p FROM Person p ORDER BY p ## 33 ORDER BY takes values that have an order, and this is the entity Person
                SELECT DISTINCT p.name FROM Person p ORDER BY p.age ## 47 with DISTINCT, ORDER BY takes what is selected, and "p.age" isn't
                SELECT DISTINCT p.name FROM Person p ORDER BY UPPER(p.address.city) ## 53 with DISTINCT, ORDER BY takes what is selected, and "p.address.city" isn't; select the whole expression AS a name, and order by that
                SELECT DISTINCT UPPER(p.name) FROM Person p ORDER BY UPPER(p.name) ## 60 with DISTINCT, ORDER BY takes what is selected, and "p.name" isn't; select the whole expression AS a name, and order by that
                SELECT o.number FROM Person p JOIN FETCH p.orders o ## 31 JOIN FETCH reads a relation of what is selected, and "p" isn't
                SELECT NEW a.b.C(p.name) FROM Person p ## 8 there is no class a.b.C
                SELECT NEW karzhoul.jpa.query.Shop.PlaceKey(p.name, p.age) FROM Person p ## 8 karzhoul.jpa.query.Shop$PlaceKey has no constructor of (String, Integer)
                SELECT p FROM Person p WHERE p.age = :a AND p.name = ?1 ## 54 named and positional parameters stand in one query
                SELECT KEY(t) FROM Person p JOIN p.tags t ## 8 KEY takes a variable along a Map, and "t" is of Tag
                SELECT p FROM Person p JOIN p.tags t WHERE ENTRY(t) = 1 ## 44 ENTRY is an item of SELECT, and stands nowhere else
                SELECT ENTRY(t) FROM Person p JOIN p.tags t ## 8 KEY takes a variable along a Map, and "t" is of Tag
                SELECT p FROM Person p LEFT JOIN p.team t ON t.leader.name = 'x' ## 46 in the ON of a LEFT JOIN a path has one step at most; join what it goes along before, and name that variable
                SELECT o FROM Order o WHERE o.hour < CURRENT_TIMESTAMP ## 29 a time of day is compared with a date
                SELECT a FROM Tag a, Tag b, Tag c, Tag d, Tag e, Tag f, Tag g, Tag h, Tag i ## 1 the statement takes 9 variables, those of its subqueries and of its joins over several steps too, and there are at most 8
                SELECT CASE WHEN t MEMBER OF p.boss.tags THEN 1 ELSE 2 END FROM Person p, Tag t ## 30 a test of the collection "p.boss.tags" isn't served there; join what it goes along before, and name that variable
                UPDATE Person p SET p.id = 1 ## 21 "p.id" is part of the key, which SET doesn't change
                UPDATE Person p SET p.orders = NULL ## 21 SET takes attributes and links to one entity, and "p.orders" is neither
                UPDATE Person p SET p.boss.name = 'x' ## 21 SET takes attributes and links to one entity, and "p.boss.name" is neither
                UPDATE Person p SET p.age = 'x' ## 29 "p.age" is a number, and is set to a text
                UPDATE Person p SET p.boss = p.boss.boss ## 30 SET gives a link a parameter or NULL
                UPDATE Person p SET p.credit = p.credit * 1.1 ## 32 "*" has 3 decimal places, and what it stands beside 2; in SET give a parameter that has the value, or load the entities and set it
                UPDATE Person p SET p.credit = p.credit + 0.005 ## 32 "+" has 3 decimal places, and what it stands beside 2; in SET give a parameter that has the value, or load the entities and set it
                UPDATE Person p SET p.age = p.credit ## 29 "p.credit" has 2 decimal places, and what it stands beside 0; in SET give a parameter that has the value, or load the entities and set it
                UPDATE Person SET age = SQRT(age) ## 25 SQRT isn't among what the program computes; in SET give a parameter that has the value, or load the entities and set it
                UPDATE Person p SET p.weight = p.weight * 2 ## 32 "p.weight" is a value of Double, and the program computes with whole numbers and decimals; in SET give a parameter that has the value, or load the entities and set it
                UPDATE Person p SET p.weight = 5 + :p ## 32 "+" is a whole number, and what it stands beside a value of Double; in SET give a parameter that has the value, or load the entities and set it
                UPDATE Person p SET p.age = p.age / 2 ## 29 "/" isn't among what the program computes; in SET give a parameter that has the value, or load the entities and set it
                UPDATE Person p SET p.age = CASE WHEN EXISTS (SELECT o FROM p.orders o) THEN 1 ELSE 2 END ## 39 EXISTS isn't among what a CASE of the program tests; in SET put what CASE asks into WHERE, with an UPDATE for each value, or load the entities and set it
                UPDATE Person p SET p.age = CASE WHEN :o MEMBER OF p.orders THEN 1 ELSE 2 END ## 39 MEMBER OF isn't among what a CASE of the program tests; in SET put what CASE asks into WHERE, with an UPDATE for each value, or load the entities and set it
                UPDATE Person SET nam = 1 ## 19 there is no variable "nam"; did you mean "name"?
                """.split("\n"));
    }
}
