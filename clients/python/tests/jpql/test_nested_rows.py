"""Values beside the rows of nested SELECTs, in the wider language: what is read and told of mistakes, the
types of what stands there, and what the program finds."""

from __future__ import annotations

import json
import subprocess
import unittest
from datetime import date
from decimal import Decimal
from typing import Any, Dict, List, Tuple

import karzhoul
from karzhoul.jpql import statements as jpql
from karzhoul.jpql.statements import LanguageName
from karzhoul.jpql.check import check
from karzhoul.queries.rewriting import counting, with_lists
from karzhoul.mapping.unit import entities_of

from ..classed import ClassesTest
from ..support import PROGRAM, TOP

PERSONS: Dict[str, Any] = json.loads((TOP / "tests" / "mappings" / "persons.json").read_text())
ORDERS = "(SELECT o.number FROM p.orders o)"
LIBRARY = '''
class State(Enum):
    OPEN = 1
    BACK = 2

class Member(Entity):
    id: int = generated()
    name: str
    loans: List["Loan"] = one_to_many("member", cascade="all")

class Loan(Entity):
    id: int = generated()
    member: Member = many_to_one()
    state: State
    due: date | None = None
    fee: Decimal = money(2)
'''


def _serves_rows() -> bool:
    """Whether the program compares values with rows."""
    if PROGRAM is None:
        return False
    text = "SELECT p FROM Person p WHERE p.id IN (SELECT q.id FROM Person q)"
    lines = [{"call": "createEntityManager"}, {"call": "query", "em": 1, "text": text}]
    said = "".join(json.dumps(line) + "\n" for line in lines)
    mapping = str(TOP / "tests" / "mappings" / "persons.json")
    words = [str(PROGRAM), "--mapping", mapping, "--language", "wide"]
    found = subprocess.run(words, input=said, capture_output=True, text=True)
    return '"ok":[]' in found.stdout


needs_rows = unittest.skipUnless(
    _serves_rows(), "the program compares no values with rows: it is an older one"
)


class Read(unittest.TestCase):
    """Which texts are read, and as what."""

    def rows(self, test: str) -> jpql.Node:
        """The one comparison with rows in a condition of persons."""
        statement = jpql.statement_of(f"SELECT p FROM Person p WHERE {test}", "wide")
        [found] = [node for node in jpql.nodes_of(statement) if node.sort == "rows"]
        return found

    def test_each_form(self) -> None:
        for test, operator, words in (
            (f"p.id IN {ORDERS}", "=", ["IN"]),
            (f"p.id NOT IN {ORDERS}", "=", ["IN"]),
            (f"p.id <> ANY {ORDERS}", "<>", ["ANY"]),
            (f"p.id = some{ORDERS}", "=", ["some"]),
            (f"NOT p.id <= ALL {ORDERS}", "<=", ["ALL"]),
            ("p.id > (SELECT MAX(DISTINCT o.number) FROM p.orders o)", ">", []),
            ("((SELECT COUNT(o) FROM p.orders o) < p.id + 1)", "<", []),
        ):
            found = self.rows(test)
            self.assertEqual((found.said, [word.said for word in found.words]), (operator, words))
            value, block = found.parts
            self.assertIsInstance(block, jpql.Block)
            self.assertEqual([each.said for each in value.words[:1]] or ["p"], ["p"])

    def test_it_stands_where_its_text_does(self) -> None:
        for test in (f"p.id NOT IN {ORDERS}", "(SELECT COUNT(o) FROM p.orders o) < p.id + 1"):
            found, front = self.rows(test), "SELECT p FROM Person p WHERE "
            self.assertEqual((found.at, found.end), (len(front), len(front) + len(test)))

    def test_variables_and_parameters_in_it_are_found(self) -> None:
        text = "SELECT p FROM Person p WHERE p.id IN (SELECT o.number FROM p.orders o WHERE o.name = :n)"
        statement = jpql.read(text)
        assert statement is not None
        self.assertEqual([it.said for it in jpql.variables_of(statement)], ["p", "o"])
        self.assertEqual([it.said for it in jpql.parameters_of(statement)], ["n"])
        self.assertEqual(counting(text), text.replace("SELECT p ", "SELECT COUNT(p) ").replace("WHERE p", "WHERE (p") + ")")
        with_more = text.replace(":n", "'a' AND o.number IN (:n, 9)")
        spread, values = with_lists(with_more, {"n": [1, 2]}, "wide")
        self.assertIn("o.number IN (:n_1, :n_2, 9)", spread)
        self.assertEqual(values, {"n_1": 1, "n_2": 2})

    def test_the_profile_reads_none(self) -> None:
        for test in (f"p.id IN {ORDERS}", f"p.id = ALL {ORDERS}", "p.id = (SELECT COUNT(o) FROM p.orders o)"):
            with self.assertRaises(jpql.Unreadable):
                jpql.statement_of(f"SELECT p FROM Person p WHERE {test}")


BESIDE = "beside a comparison a nested SELECT selects"
ALONE = "a nested SELECT stands alone on its side of a comparison"
BEHIND = "stands behind =, <>, <, <=, > or >="
MISTAKES: List[Tuple[str, str, str]] = [
    ("p.id IN (SELECT o.number, o.name FROM p.orders o)", "25: ,", "a nested SELECT has one item"),
    ("p.id IN SELECT o.number FROM p.orders o", "9: SELECT", "stands in parentheses, as in IN (SELECT ..)"),
    ("p.id IN (SELECT o.number FROM p.orders o", "10: SELECT", "never closed: ')' is missing"),
    (f"p.id IN ANY {ORDERS}", "9: ANY", "IN takes the nested SELECT alone, as IN (SELECT ..): leave ANY out"),
    (f"p.name LIKE ANY {ORDERS}", "13: ANY", f"ANY {BEHIND} alone, and not behind LIKE"),
    (f"some {ORDERS} = p.id", "1: some", f"SOME {BEHIND}, as in p.id = SOME (SELECT ..), and is no name"),
    ("p.id = ANY (1, 2)", "13: 1", "ANY takes a nested SELECT in parentheses, as ANY (SELECT ..); among values IN asks"),
    ("p.id = ALL SELECT o.number FROM p.orders o", "12: SELECT", "ALL takes a nested SELECT in parentheses"),
    ("p.id > (SELECT MAX(o.number))", "29: )", "the nested SELECT has no FROM"),
    ("(SELECT MAX(o.number) FROM p.orders o) = (SELECT MIN(x.number) FROM p.orders x)", "43: SELECT", "on one side of a comparison"),
    ("p.id = ALL (SELECT o.number FROM p.orders o GROUP BY o.number)", "45: GROUP", "ends behind its WHERE: it has no GROUP BY"),
    ("p.id = ALL (SELECT o.number FROM p.orders o WHERE 1 = 1 ORDER BY o.number)", "57: ORDER", "it has no ORDER BY"),
    (f"p.id = {ORDERS}", "16: o", f"{BESIDE} COUNT, SUM, MIN or MAX: of single rows = ANY (SELECT ..) asks"),
    ("p.id = (SELECT DISTINCT COUNT(o) FROM p.orders o)", "16: DISTINCT", "as in COUNT(DISTINCT p.name)"),
    ("p.id = (SELECT COUNT(o) AS c FROM p.orders o)", "25: AS", f"{BESIDE} COUNT(..) alone"),
    ("p.id = (SELECT COUNT(o) + 1 FROM p.orders o)", "25: +", f"{BESIDE} COUNT(..) alone"),
    ("p.id = 1 + (SELECT COUNT(o) FROM p.orders o)", "13: SELECT", ALONE),
    ("p.id BETWEEN (SELECT COUNT(o) FROM p.orders o) AND 3", "15: SELECT", ALONE),
    ("p.id IN (1, (SELECT COUNT(o) FROM p.orders o))", "14: SELECT", ALONE),
    ("(SELECT COUNT(o) FROM p.orders o) IS NULL", "35: IS", "where a comparison is expected"),
    ("p.id IN (SELECT o.number FORM p.orders o)", "26: FORM", "did you mean FROM?"),
]
ILL_TYPED: List[Tuple[str, str, str]] = [
    ("p.id = ANY (SELECT MAX(o.number) FROM p.orders o)", "20: MAX(o.number)", "as = (SELECT MAX(o.number) FROM ..)"),
    ("p.id IN (SELECT o.person FROM p.orders o)", "17: o.person", "p.id is a whole number, and o.person is an object of Person"),
    ("p.name = (SELECT COUNT(o) FROM p.orders o)", "18: COUNT(o)", "p.name is a text, and COUNT(o) is a whole number"),
    ("p.id = (SELECT SUM(q.name) FROM Person q)", "20: q.name", "SUM takes whole numbers"),
    ("p < ALL (SELECT o.person FROM p.orders o)", "1: p < ALL (SELECT o.person FROM p.orders o)", "objects are only equal or not"),
    ("p = (SELECT MAX(o.person) FROM p.orders o)", "17: o.person", "objects have no order: MAX takes"),
    ("p.id = ANY (SELECT x.number FROM p.orders o)", "20: x", "there is no variable x here"),
    ("p.id IN (SELECT p.id FROM Person p)", "34: p", "a second variable has the name p"),
]


class Told(unittest.TestCase):
    """What is said of a mistake, and where."""

    def says(self, test: str, language: LanguageName = "wide") -> List[str]:
        found = check(f"SELECT p FROM Person p WHERE\n{test}", entities_of(PERSONS), None, language)
        return [str(finding) for finding in found]

    def test_what_is_well_formed(self) -> None:
        for test in (
            f"p.id IN {ORDERS}", f"p.id >= SOME {ORDERS}", "p IN (SELECT o.person FROM Order o)",
            "p.name = (SELECT MIN(q.name) FROM Person q WHERE q <> p)",
            "(SELECT COUNT(o.person) FROM Order o) > 1", ":x = (SELECT SUM(o.number) FROM p.orders o)",
            "EXISTS (SELECT o FROM p.orders o WHERE o.number = ALL (SELECT x.number FROM Order x))",
        ):
            self.assertEqual(self.says(test), [], test)

    def test_texts_that_cannot_be_read(self) -> None:
        for test, place, told in MISTAKES:
            [said] = self.says(test)
            self.assertTrue(said.startswith(f"2:{place}: "), said)
            self.assertIn(told, said)
            self.assertTrue(said.endswith("[IllegalArgument(syntax)]"), said)

    def test_items_keys_and_assignments_take_none(self) -> None:
        counted = "(SELECT COUNT(o) FROM p.orders o)"
        for text, column in (
            (f"SELECT {counted} FROM Person p", 9), (f"SELECT p FROM Person p ORDER BY {counted}", 34),
            (f"UPDATE Person p SET p.name = {counted}", 31),
        ):
            [found] = check(text, entities_of(PERSONS), None, "wide")
            self.assertEqual((found.word, found.column, found.refusal), ("SELECT", column, "IllegalArgument(syntax)"))
            self.assertIn(ALONE, found.message)

    def test_texts_that_are_ill_typed(self) -> None:
        for test, place, told in ILL_TYPED:
            [said] = self.says(test)
            self.assertTrue(said.startswith(f"2:{place}: "), said)
            self.assertIn(told, said)
            self.assertTrue(said.endswith("[IllegalArgument(typing)]"), said)

    def test_in_having_there_is_none(self) -> None:
        text = f"SELECT COUNT(p) FROM Person p GROUP BY p.id HAVING p.id IN {ORDERS.replace('p.orders', 'Order')}"
        [said] = check(text, entities_of(PERSONS), None, "wide")
        self.assertEqual((said.message, said.column), ("nested SELECTs aren't served in HAVING", 52))

    def test_the_profile_names_the_wider_language(self) -> None:
        for test, place in (
            (f"p.id IN {ORDERS}", "10: SELECT"), (f"p.id > ALL {ORDERS}", "8: ALL"),
            ("p.id = (SELECT COUNT(o) FROM p.orders o)", "9: SELECT"),
            ("(SELECT COUNT(o) FROM p.orders o) = p.id", "2: SELECT"),
        ):
            [said] = self.says(test, "profile")
            self.assertTrue(said.startswith(f"2:{place}: "), said)
            self.assertIn("language='wide'", said)


class OfTypes(ClassesTest):
    """A parameter or a literal beside rows is of the type of what the rows are of, and the other way round."""

    def stored(self, text: str, **given: Any) -> Tuple[str, Dict[str, Any]]:
        app = self.open(self.models, in_memory=True)
        assert app.conversions is not None
        return app.conversions.stored(text, given)

    def setUp(self) -> None:
        super().setUp()
        self.models = self.module(LIBRARY)

    def test_a_parameter_is_converted_by_the_attribute_of_the_rows(self) -> None:
        day, State = date(2026, 1, 2), self.models.State
        front = "SELECT m FROM Member m WHERE "
        plain = self.stored("SELECT l FROM Loan l WHERE l.due = :x", x=day)[1]
        self.assertNotEqual(plain, {"x": day})
        for test in (
            ":x IN (SELECT l.due FROM Loan l)", ":x >= ALL (SELECT l.due FROM m.loans l)",
            ":x > (SELECT MAX(l.due) FROM m.loans l)", "(SELECT MIN(l.due) FROM m.loans l) <= :x",
        ):
            self.assertEqual(self.stored(front + test, x=day)[1], plain, test)
        state = self.stored("SELECT l FROM Loan l WHERE l.state = :x", x=State.BACK)[1]
        self.assertEqual(self.stored(f"{front}:x = ANY (SELECT l.state FROM m.loans l)", x=State.BACK)[1], state)
        fee = self.stored(f"{front}(SELECT SUM(l.fee) FROM m.loans l) > :x", x=Decimal("2.50"))[1]
        self.assertEqual(fee, {"x": 250})
        with self.assertRaisesRegex(karzhoul.WrongValue, "'x'"):
            self.stored(f"{front}:x IN (SELECT l.due FROM Loan l)", x="today")

    def test_the_item_is_converted_by_the_attribute_beside_it(self) -> None:
        text = "SELECT l FROM Loan l WHERE l.fee IN (SELECT :x FROM Member m) AND l.fee > ALL (SELECT 2 FROM Member n)"
        said, values = self.stored(text, x=Decimal("0.05"))
        self.assertEqual((said, values), (text.replace("SELECT 2 ", "SELECT 200 "), {"x": 5}))

    def test_a_literal_is_converted_by_the_attribute_of_the_rows(self) -> None:
        said, _ = self.stored("SELECT m FROM Member m WHERE 3 < (SELECT MAX(l.fee) FROM m.loans l)")
        self.assertEqual(said, "SELECT m FROM Member m WHERE 300 < (SELECT MAX(l.fee) FROM m.loans l)")
        counted = "SELECT m FROM Member m WHERE 3 < (SELECT COUNT(l.fee) FROM m.loans l)"
        self.assertEqual(self.stored(counted)[0], counted)

    def test_what_is_stored_otherwise_is_not_compared(self) -> None:
        with self.assertRaisesRegex(karzhoul.WrongValue, "can't be compared"):
            self.stored("SELECT l FROM Loan l WHERE l.fee IN (SELECT x.id FROM Loan x)")


@needs_rows
class Found(unittest.TestCase):
    """What the program finds, and that the check refuses what it refuses."""

    def setUp(self) -> None:
        self.app = karzhoul.open(PERSONS, program=PROGRAM, language="wide")
        self.addCleanup(self.app.close)
        self.em = self.app.create_entity_manager()
        Person, Order = self.app.entity("Person"), self.app.entity("Order")
        with self.em.transaction():
            ada, bob, nameless = people = [Person(name=name) for name in ("Ada", "Bob", None)]
            orders = [Order(number=10, person=ada), Order(number=2, person=ada), Order(number=3, person=bob)]
            for each in [*people, *orders, Order(number=7, person=None)]:
                self.em.persist(each)

    def ids(self, test: str) -> List[int]:
        return list(self.em.query(f"SELECT p.id FROM Person p WHERE {test} ORDER BY p.id"))

    def test_rows(self) -> None:
        for test, wanted in (
            ("p.id IN (SELECT o.number FROM Order o)", [2, 3]),
            ("p.id NOT IN (SELECT o.number FROM Order o)", [1]),
            ("p IN (SELECT o.person FROM Order o)", [1, 2]),
            ("p NOT IN (SELECT o.person FROM Order o)", []),
            ("p.id >= ALL (SELECT o.number FROM p.orders o)", [3]),
            ("p.id < SOME (SELECT o.number FROM p.orders o)", [1, 2]),
            ("p.name <> ANY (SELECT q.name FROM Person q)", [1, 2]),
            ("(SELECT COUNT(o) FROM p.orders o) = 0", [3]),
            ("(SELECT MAX(o.number) FROM p.orders o) > 3", [1]),
            ("p.id = (SELECT COUNT(DISTINCT o.person) FROM Order o)", [2]),
        ):
            self.assertEqual(self.ids(test), wanted, test)
        self.assertEqual(self.em.page("SELECT p FROM Person p WHERE p IN (SELECT o.person FROM Order o)", 1, 1, total=True).total, 2)

    def test_the_check_judges_as_the_program_does(self) -> None:
        for test, *_ in [*MISTAKES, *ILL_TYPED]:
            with self.assertRaises(karzhoul.IllegalArgument) as refused:
                self.ids(test)
            [found] = check(f"SELECT p FROM Person p WHERE {test}", entities_of(PERSONS), None, "wide")
            self.assertEqual(refused.exception.word, found.refusal, test)


if __name__ == "__main__":
    unittest.main()
