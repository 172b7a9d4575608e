"""The check of queries: the program's own worked examples, and what it says of mistakes."""

from __future__ import annotations

import json
import re
import unittest
from typing import Dict, Iterator, List, Optional, Tuple

from karzhoul.jpql import statements as jpql
from karzhoul.jpql.statements import LanguageName
from karzhoul.jpql.check import BYTES, INT, TEXT, Kind, Kinds, QueryFinding, check
from karzhoul.mapping.unit import entities_of

from ..support import TOP

DATA = TOP / "crates" / "jpa_examples" / "data"
ALONE = ": write {} = TRUE where it is a bool of classes, else compare it too"
KINDS = {"int": INT, "text": TEXT, "bytes": BYTES, "null": None}


def blocks(name: str) -> Iterator[List[str]]:
    """The blocks of a file of worked examples, as their lines."""
    for block in re.split(r"\n\n+", (DATA / name).read_text(encoding="utf-8").strip("\n")):
        yield block.split("\n")


def unescaped(line: str) -> str:
    """A line without its mark, and without its escapes."""
    return re.sub(r"\\([0-9a-f]{2})", lambda found: chr(int(found[1], 16)), line[2:])


def pairs(lines: List[str]) -> Iterator[Tuple[str, str]]:
    """The texts of a block, each with what is answered."""
    for text, answer in zip(lines, lines[1:]):
        if text[:1] == ">" and answer[:1] == "<":
            yield unescaped(text), answer[2:]


class Worked(unittest.TestCase):
    def test_which_texts_are_statements(self) -> None:
        count = 0
        for head, *lines in blocks("queries"):
            kind = head.split(" ")[0]
            language: LanguageName = "wide" if kind in ("wide", "repeated-wide") else "profile"
            lists = [line[2:].split(" ") for line in lines if kind == "wide" and line[:1] == "="]
            given: Kinds = {name: [None] * int(size) for name, size in lists}
            texts = list(pairs(lines))
            if kind in ("repeated", "repeated-wide"):
                front, again, back = (unescaped(line) for line in lines if line[:1] == ">")
                texts = [(front + int(lines[0][2:]) * again + back, lines[-1][2:])]
            for text, answer in texts:
                count += 1
                found = check(text, {}, given, language)
                told = found[0].refusal if found else None
                with self.subTest(head, text=text):
                    if answer in ("syntax", "limit"):
                        wanted = "Limit" if answer == "limit" else "IllegalArgument(syntax)"
                        self.assertEqual(told, wanted)
                    else:  # It names entities that there aren't here.
                        self.assertEqual(told, "IllegalArgument(typing)")
        self.assertGreater(count, 200)

    def test_which_statements_are_well_typed(self) -> None:
        count, mapping = 0, {}
        for head, *lines in blocks("typed"):
            if head == "unit":
                mapping = json.loads("\n".join(lines))
                continue
            given: Dict[str, Optional[Kind]] = {}
            for line in lines:
                if line[:1] == "=":
                    name, kind = line[2:].split(" ")
                    given[name] = KINDS[kind] if kind in KINDS else self.root(mapping, int(kind))
            for text, answer in pairs(lines):
                count += 1
                wanted = None if answer == "typed" else f"IllegalArgument({answer})"
                with self.subTest(head, text=text):
                    found = check(text, entities_of(mapping), given)
                    self.assertEqual(found[0].refusal if found else None, wanted, found)
        self.assertGreater(count, 300)

    @staticmethod
    def root(mapping: Dict[str, List[Dict[str, str]]], number: int) -> Kind:
        """The kind of the objects of the entity of this number."""
        declared = {entity["name"]: entity for entity in mapping["entities"]}
        entity = mapping["entities"][number]
        while "extends" in entity:
            entity = declared[entity["extends"]]
        return Kind(entity["name"], True)


class Told(unittest.TestCase):
    """What is said of a mistake."""

    UNIT = next(json.loads("\n".join(lines)) for head, *lines in blocks("typed") if head == "unit")

    def says(
        self, text: str, given: Optional[Kinds] = None, language: LanguageName = "profile"
    ) -> List[str]:
        return [self.said(each) for each in check(text, entities_of(self.UNIT), given, language)]

    @staticmethod
    def said(finding: QueryFinding) -> str:
        return f"{finding.line}:{finding.column}: {finding.word}: {finding.message}"

    def tells(self, text: str, *wanted: str) -> None:
        self.assertEqual(self.says(text), list(wanted), text)

    def test_a_finding_has_its_place_and_the_refusal(self) -> None:
        [found] = check("SELECT p\nFROM Person p\n  WHERE p.nmae = 1", entities_of(self.UNIT))
        told = "3:11: nmae: Person has no member nmae: did you mean 'name'? [IllegalArgument(typing)]"
        self.assertEqual(str(found), told)

    def test_keywords(self) -> None:
        for text, place, word, meant in (
            ("SELCT p FROM Person p", 1, "SELCT", "SELECT"),
            ("SELECT p FORM Person p", 10, "FORM", "FROM"),
            ("SELECT p FROM Person p WEHRE p.id = 1", 24, "WEHRE", "WHERE"),
            ("SELECT p FROM Person p ODER BY p.id", 24, "ODER", "ORDER"),
            ("SELECT p FROM Person p JION p.orders o", 24, "JION", "JOIN"),
            ("SELECT p FROM Person p WHERE p.name LIEK 'a'", 37, "LIEK", "LIKE"),
            ("SELECT p FROM Person p WHERE p.name IS NUL", 40, "NUL", "NULL"),
            ("UPDATE Person p STE p.name = 'a'", 17, "STE", "SET"),
        ):
            self.tells(text, f"1:{place}: {word}: did you mean {meant}?")

    def test_what_may_stand_there(self) -> None:
        for text, told in (
            ("", "1:1: the end: the text ends where SELECT, UPDATE or DELETE is expected"),
            ("SELECT p FROM Person", "1:21: the end: a variable is missing behind Person, as in Person p"),
            ("SELECT p FROM Person WHERE p.id = 1", "1:22: WHERE: a variable is missing behind Person, as in Person p"),
            ("SELECT p FROM Person p WHERE", "1:29: the end: the text ends where EXISTS, TYPE or a value is expected"),
            ("SELECT p FROM Person p WHERE p.id", "1:34: the end: the text ends where a comparison, BETWEEN, IN, LIKE, MEMBER or IS is expected" + ALONE.format("p.id")),
            ("SELECT p FROM Person p WHERE NOT p.id AND p.id = 1", "1:39: AND: 'AND' stands where a comparison, BETWEEN, IN, LIKE, MEMBER or IS is expected" + ALONE.format("p.id")),
            ("SELECT p FROM Person p WHERE p.id = 1 OR (p.id) AND p.id = 1", "1:49: AND: 'AND' stands where a comparison, BETWEEN, IN, LIKE or MEMBER is expected" + ALONE.format("p.id")),
            ("SELECT o FROM Order o WHERE o.person.id", "1:40: the end: the text ends where a comparison, BETWEEN, IN, LIKE, MEMBER or IS is expected" + ALONE.format("o.person.id")),
            ("SELECT p FROM Person p WHERE LENGTH(p.name)", "1:44: the end: the text ends where a comparison, BETWEEN, IN, LIKE or MEMBER is expected"),
            ("SELECT p FROM Person p WHERE 1 + p.id", "1:38: the end: the text ends where a comparison, BETWEEN, IN, LIKE or MEMBER is expected"),
            ("SELECT p FROM Person p WHERE p.id == 1", "1:35: ==: '=' is meant"),
            ("SELECT p FROM Person p WHERE p.id => 1", "1:35: =>: '>=' is meant"),
            ("SELECT p FROM Person p WHERE p.id =< 1", "1:35: =<: '<=' is meant"),
            ("SELECT p FROM Person p WHERE p.id = 1 && p.id = 2", "1:39: &&: AND is meant"),
            ("SELECT p FROM Person p WHERE ! p.id = 1", "1:30: !: NOT is meant"),
            ("SELECT p FROM Person p WHERE p.id = ", "1:37: the end: the text ends where a value is expected"),
            ("SELECT p.id AS count FROM Person p", "1:16: count: 'count' stands where a name is expected, and it is a keyword"),
            ("SELECT * FROM Person p", "1:8: *: SELECT takes variables and paths, as SELECT p FROM Person p"),
            ("SELECT COUNT(*) FROM Person p", "1:14: *: COUNT takes a variable or a path, as COUNT(p)"),
            ("SELECT p FROM Person p WHERE p.name = NULL", "1:39: NULL: nothing is compared with NULL: IS NULL and IS NOT NULL ask for it"),
            ("SELECT p FROM Person p WHERE p.name = 'a", "1:39: 'a: the text that begins here has no end: a quote within it is written twice"),
            ('SELECT p FROM Person p WHERE p.name = "a"', '1:39: ": a text stands in single quotes'),
            ("SELECT p FROM Person p WHERE p.id != 1", "1:35: !=: '<>' is meant"),
            ("SELECT p FROM Person p;", "1:23: ;: a statement ends without ';'"),
            ("SELECT p FROM Person p WHERE p.id = 9223372036854775808", "1:37: 9223372036854775808: a whole number is at most 9223372036854775807"),
            ("SELECT p FROM Person p WHERE p.id = 1.5", "1:38: .: numbers with a fraction aren't "
             "served: over classes a manager takes a Decimal as a parameter, or in quotes, as '1.50'; by a mapping alone money is whole hundredths, as 150"),
            *((f"SELECT p FROM Person p WHERE p.id {text}", f"1:{at}: .: numbers with a fraction aren't "
               "served: over classes a manager takes a Decimal as a parameter, or in quotes, as '1.50'; by a mapping alone money is whole hundredths, as 150")
              for text, at in (("> .5", 37), ("= -.5", 38), ("IN (.5)", 39), ("BETWEEN 1 AND 2.", 50))),
            ("SELECT p FROM Person p WHERE p.id = ?0", "1:37: ?0: the number of a parameter is 1 or more, with no 0 first"),
            ("SELECT p FROM Person p WHERE p.id = :", "1:37: :: a parameter is :name or ?1"),
            ("SELECT MOD(p.id) FROM Person p", "1:16: ): ')' stands where ',' or the end of 2 values of MOD is expected"),
        ):
            self.tells(text, told)

    def test_what_is_not_served(self) -> None:
        for text, word, told in (
            ("SELECT UPPER(p.name) FROM Person p", "UPPER", "LENGTH, CONCAT, SUBSTRING and LOCATE"),
            ("SELECT AVG(p.id) FROM Person p", "AVG", "SUM and COUNT"),
            ("SELECT p FROM Person p JOIN FETCH p.orders", "FETCH", "manager.fetch"),
            ("SELECT p FROM Person p LIMIT 10", "LIMIT", "max="),
            ("SELECT CASE WHEN p.id > 1 THEN 1 ELSE 2 END FROM Person p", "WHEN", "COALESCE and NULLIF"),
            ("SELECT NEW a.B(p.id) FROM Person p", "NEW", "items by name"),
            ("SELECT p FROM Person p WHERE p.id = TRUE", "TRUE", "select p.paid itself"),
            ("SELECT p FROM Person p WHERE (p.id, p.name) = (1, 'a')", "(", "one by one"),
            ("SELECT p FROM Person p WHERE p.id > CURRENT_DATE", "CURRENT_DATE", "hand the date or the time in"),
            ("SELECT p FROM Person p WHERE p.id > ALL (SELECT o.number FROM Order o)", "ALL", "EXISTS"),
            ("SELECT p FROM Person p UNION SELECT p FROM Person p", "UNION", "one SELECT"),
            ("SELECT p FROM Person p WHERE p.id IN (SELECT o.number FROM Order o)", "SELECT", "EXISTS alone"),
            ("SELECT p.name || 'a' FROM Person p", "||", "CONCAT"),
            ("SELECT p.id / 2 FROM Person p", "/", "division"),
            ("SELECT LENGHT(p.name) FROM Person p", "LENGHT", "did you mean LENGTH"),
            ("SELECT p FROM Person p RIGHT JOIN p.orders o", "RIGHT", "LEFT JOIN"),
            ("SELECT p FROM Person p ORDER BY p.name NULLS LAST", "NULLS", "nulls come first"),
            ("INSERT INTO Person VALUES (1)", "INSERT", "persist_all"),
        ):
            [said] = self.says(text)
            self.assertIn(f": {word}: ", said)
            self.assertIn(told, said)

    def test_names(self) -> None:
        for text, told in (
            ("SELECT p FROM Persn p", "1:15: Persn: there is no entity Persn: did you mean 'Person'?"),
            ("SELECT p FROM Zebra p", "1:15: Zebra: there is no entity Zebra; there are Person, Customer, Order, Item"),
            ("SELECT person FROM Person p", "1:8: person: there is no variable person here; there are p"),
            ("SELECT person FROM Person persn", "1:8: person: there is no variable person here: did you mean 'persn'?"),
            ("SELECT p.points FROM Person p", "1:10: points: Person has no member points; its subclass Customer has: let FROM range over Customer"),
            ("SELECT p FROM Person p JOIN p.order o", "1:31: order: Person has no relation order: did you mean 'orders'?"),
            ("SELECT p FROM Person p, Order p", "1:31: p: a second variable has the name p"),
            ("SELECT p.id AS x, p.name AS x FROM Person p", "1:29: x: a second item has the name x"),
            ("SELECT i.at FROM Item i", "1:10: at: at is an embedded id, of which a part is named: at.row, at.shelf"),
            ("SELECT p.id FROM Person p ORDER BY p", "1:36: p: ORDER BY names no item p: it takes a path, as p.id, or a name behind AS"),
            ("UPDATE Person p SET p.id = 1", "1:23: id: Person has no member that SET takes, as a key, is id; it has version, name, photo, orders"),
        ):
            self.tells(text, told)

    def test_names_that_stand_again(self) -> None:
        text = "SELECT p FROM Person p WHERE EXISTS (SELECT o FROM p.orders o WHERE o.number = 1)"
        for other in ("AND EXISTS (SELECT o FROM p.orders o)", "OR p.id IN (SELECT O.number FROM Order O)"):
            self.assertEqual(self.says(f"{text} {other}", None, "wide"), [], other)
        self.tells(f"{text} AND EXISTS (SELECT o FROM p.orders o)", "1:118: o: a second variable has the name o")
        for text, told in (
            ("SELECT p FROM Person p, Order P", "1:31: P: a second variable has the name P"),
            ("SELECT p FROM Person p WHERE EXISTS (SELECT o FROM p.orders o WHERE EXISTS (SELECT 1 FROM Order o))",
             "1:97: o: a second variable has the name o"),
            ("SELECT p FROM Person p JOIN p.orders o WHERE EXISTS (SELECT 1 FROM Order O)", "1:74: O: a second variable has the name O"),
            ("SELECT p FROM Person p WHERE EXISTS (SELECT o FROM p.orders o) AND o.number = 1", "1:68: o: there is no variable o here; there are p"),
        ):
            self.assertEqual(self.says(text, None, "wide"), [told], text)

    def test_kinds(self) -> None:
        for text, told in (
            ("SELECT p FROM Person p WHERE p.id = 'a'", "1:37: 'a': p.id is a whole number, and 'a' is a text"),
            ("SELECT p FROM Person p WHERE p > p", "1:30: p > p: objects are only equal or not: compare members of theirs, as p.id"),
            ("SELECT p.orders FROM Person p", "1:8: p.orders: p.orders is a collection, which stands in SIZE, IS EMPTY and MEMBER OF alone: JOIN it, as JOIN p.orders o"),
            ("SELECT p.orders.number FROM Person p", "1:8: p.orders.number: orders is a collection, and a path goes along links to one object alone: JOIN it under a variable of its own"),
            ("SELECT p.name.x FROM Person p", "1:8: p.name.x: name is a text, and no path goes on from it"),
            ("SELECT LENGTH(p.id) FROM Person p", "1:15: p.id: LENGTH takes a text, and p.id is a whole number"),
            ("SELECT p.name + 1 FROM Person p", "1:8: p.name: arithmetic takes a whole number, and p.name is a text"),
            ("SELECT SIZE(p.name) FROM Person p", "1:13: p.name: p.name is no collection"),
            ("SELECT p.id, COUNT(p) FROM Person p", "1:8: p.id: p.id stands neither in GROUP BY nor within COUNT, SUM, MIN or MAX, as what is grouped does"),
            ("SELECT p FROM Person p WHERE COUNT(p) = 1", "1:30: COUNT(p): COUNT stands in SELECT and HAVING alone, and in no other one"),
            ("SELECT p FROM Person p WHERE p.name LIKE 'a' ESCAPE 'ab'", "1:30: p.name LIKE 'a' ESCAPE 'ab': the text behind ESCAPE is one character"),
            ("SELECT DISTINCT p.id FROM Person p ORDER BY p.name", "1:45: p.name: with DISTINCT, ORDER BY takes what is selected alone"),
            ("UPDATE Order o SET o.person = 1", "1:22: person: person becomes NULL, or a parameter that is an object of Person"),
            ("UPDATE Person p SET p.name = 1", "1:23: name: name is a text, and gets a whole number"),
        ):
            self.tells(text, told)

    def test_keys_that_are_values(self) -> None:
        for text, told in (
            ("SELECT p FROM Person p ORDER BY LENGTH(p.name) DESC, p.id * 2, (p.name)", ""),
            ("SELECT p.name FROM Person p GROUP BY p.name ORDER BY COUNT(p) DESC, LENGTH(p.name)", ""),
            ("SELECT DISTINCT p.id FROM Person p ORDER BY (p.id)", "1:45: (p.id): with DISTINCT, ORDER BY takes what is selected alone: select (p.id) under a name behind AS, and order by that name"),
            ("SELECT DISTINCT p.id FROM Person p ORDER BY LENGTH(p.name)", "1:45: LENGTH(p.name): with DISTINCT, ORDER BY takes what is selected alone: select LENGTH(p.name) under a name behind AS, and order by that name"),
            ("SELECT p.id FROM Person p ORDER BY 1", "1:36: 1: 1 is the same for each row: ORDER BY takes what a variable has, as p.id, or a name behind AS"),
            ("SELECT p.id FROM Person p ORDER BY p.id, :x + 1", "1:42: :x + 1: :x + 1 is the same for each row: ORDER BY takes what a variable has, as p.id, or a name behind AS"),
            ("SELECT p.id FROM Person p ORDER BY (p)", "1:36: (p): objects have no order: ORDER BY takes a member of theirs, as p.id"),
            ("SELECT o.number FROM Order o ORDER BY (o.person) DESC", "1:39: (o.person): objects have no order: ORDER BY takes a member of theirs, as p.id"),
            ("SELECT p.name FROM Person p ORDER BY COUNT(p)", "1:8: p.name: p.name stands neither in GROUP BY nor within COUNT, SUM, MIN or MAX, as what is grouped does"),
            ("SELECT COUNT(p) FROM Person p GROUP BY p.name ORDER BY p.id + 1", "1:56: p.id: p.id stands neither in GROUP BY nor within COUNT, SUM, MIN or MAX, as what is grouped does"),
            ("SELECT LENGTH(p.name) AS n FROM Person p ORDER BY n * 2", "1:51: n: n is the name of an item, which ORDER BY takes alone, as ORDER BY n: write its value here"),
            ("SELECT p.id FROM Person p ORDER BY LENGTH(p.id)", "1:43: p.id: LENGTH takes a text, and p.id is a whole number"),
            ("SELECT p FROM Person p WHERE COUNT(p) = 1", "1:30: COUNT(p): COUNT stands in SELECT, HAVING and ORDER BY alone, and in no other one"),
            ("SELECT p.id FROM Person p ORDER BY p", "1:36: p: ORDER BY names no item p: it takes a path, as p.id, or a name behind AS"),
            ("SELECT p.id FROM Person p ORDER BY", "1:35: the end: the text ends where a value is expected"),
        ):
            self.assertEqual(self.says(text, None, "wide"), [told] if told else [], text)

    def test_keys_that_are_values_are_of_the_wider_language(self) -> None:
        for key, place in (
            ("LENGTH(p.name)", "36: LENGTH"), ("p.name, (p.id)", "44: ("), ("p.id * 2", "41: *"),
            ("- p.id", "36: -"), ("1", "36: 1"), ("'a'", "36: 'a'"), (":x", "36: :x"), ("COUNT(p)", "36: COUNT"),
        ):
            way = "ORDER BY takes values in the wider language, language='wide': here it takes paths, as p.id, and names behind AS"
            self.tells(f"SELECT p.id FROM Person p ORDER BY {key}", f"1:{place}: {way}")
        [said] = self.says("SELECT p.id FROM Person p ORDER BY LOWER(p.name)")
        self.assertIn("language='wide'", said)

    def test_parameters(self) -> None:
        text = "SELECT p FROM Person p WHERE p.name = :name AND p.id = ?1"
        self.assertEqual(self.says(text, {"name": TEXT, "1": INT}), [])
        self.assertEqual(
            self.says(text, {"nmae": TEXT}),
            [
                "1:39: :name: the parameter 'name' isn't given: did you mean 'nmae'?",
                "1:56: ?1: the parameter '1' isn't given",
                "1:1: the query: the query has no parameter 'nmae': did you mean 'name'?",
            ],
        )
        self.assertEqual(self.says(text, {"name": INT, "1": INT}), ["1:39: :name: p.name is a text, and :name is a whole number"])

    def test_several_mistakes_are_told_together(self) -> None:
        self.assertEqual(len(self.says("SELECT p.nam, q FROM Person p WHERE p.id = 'a'")), 3)

    def test_limits(self) -> None:
        self.tells("SELECT p FROM Person p".ljust(20_000), "1:1: the query: the text has 20,000 bytes, and 16,384 are the most")
        many = ", ".join(f"Person p{number}" for number in range(9))
        self.tells(f"SELECT p0 FROM {many}", "1:1: the query: 9 variables are declared, and 8 are the most")
        nested = f"SELECT p FROM Person p WHERE {'(' * 33}1 = 1{')' * 33}"
        self.tells(nested, "1:1: the query: more than 32 parentheses stand within one another")
        deep = f"SELECT p FROM Person p WHERE {'(' * 32}1 = 1{')' * 32}"
        self.tells(deep)

    def test_a_text_is_read_in_little_time_however_deep(self) -> None:
        deep = f"SELECT p FROM Person p WHERE {'(' * 16}p.id{' + 1)' * 16} = {'(' * 16}1{')' * 16}"
        self.assertIsInstance(jpql.statement_of(deep), jpql.Block)


if __name__ == "__main__":
    unittest.main()
