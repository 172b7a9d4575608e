"""Wrong texts of the wider language: each has its refusal, its place and what to do instead, in words.

The words are the check's own, so they are told without a program. One that serves CASE is asked each text too.
"""

from __future__ import annotations

import json
import re
import subprocess
import unittest
from typing import Any, Dict, List, Mapping, Tuple, Union

import karzhoul
from karzhoul.explain.limits import kind_of
from karzhoul.jpql import statements as jpql
from karzhoul.jpql.check import INT, TEXT, Kinds, check
from karzhoul.mapping.unit import entities_of

from ..support import PROGRAM, TOP

PERSONS = json.loads((TOP / "tests" / "mappings" / "persons.json").read_text())
SYNTAX, TYPING, PARAMETER = "IllegalArgument(syntax)", "IllegalArgument(typing)", "IllegalArgument(parameter)"
ORDERS, PEOPLE = "SELECT {} FROM Order o", "SELECT p.id FROM Person p {}"
NULL = "THEN :none gives null, with None handed in for it"
FRACTION = "numbers with a fraction aren't served: over classes a manager takes a Decimal as a parameter, or in quotes, as '1.50'; by a mapping alone money is whole hundredths"
INSIDE = "behind WHEN stand tests of values alone, and no"
# The item of `SELECT .. FROM Order o`, the place and the word that are told, and the words.
CASES: List[Tuple[str, str, str, str]] = [
    ("CASE WHEN o.amount > 1 THEN 1 END", SYNTAX, "38: END", "ELSE is missing here, which each CASE has before its END: ELSE :none gives null"),
    ("CASE o.amount WHEN 1 THEN 1 END", SYNTAX, "36: END", "ELSE is missing here"),
    ("CASE WHEN o.amount > 1 THEN 1 ELSE 2", SYNTAX, "45: FROM", "END is missing here, which ends CASE"),
    ("(CASE WHEN o.amount > 1 THEN 1 ELSE 2)", SYNTAX, "45: )", "END is missing here, which ends CASE"),
    ("CASE WHEN o.amount > 1 1 ELSE 2 END", SYNTAX, "31: 1", "THEN is missing here, with what this WHEN gives"),
    ("CASE WHEN o.amount > 1 THEN 1.5 ELSE 2 END", SYNTAX, "37: .", FRACTION),
    ("CASE WHEN o.amount > 1.5 THEN 1 ELSE 2 END", SYNTAX, "30: .", FRACTION),
    ("CASE WHEN o.amount > 1 THEN 1 ELSE 2.5 END", SYNTAX, "44: .", FRACTION),
    ("CASE o.amount WHEN 1.5 THEN 1 ELSE 2 END", SYNTAX, "28: .", FRACTION),
    ("CASE ELSE 1 END", SYNTAX, "13: ELSE", "a CASE has a WHEN first: CASE WHEN a test THEN a value"),
    ("CASE o.amount ELSE 1 END", SYNTAX, "22: ELSE", "a CASE has a WHEN first"),
    ("CASE END", SYNTAX, "13: END", "a CASE has a WHEN first"),
    ("CASE WHEN o.amount THEN 1 ELSE 2 END", SYNTAX, "27: THEN", "behind WHEN stands a test, as o.amount > 1, and a value alone is none: CASE o.amount WHEN 1"),
    ("CASE o.amount WHEN o.amount > 1 THEN 1 ELSE 2 END", SYNTAX, "36: >", "what that may equal: write CASE WHEN o.amount > 1 THEN .., with nothing before WHEN"),
    ("CASE o.amount = 1 WHEN 1 THEN 1 ELSE 3 END", SYNTAX, "22: =", "a test stands behind WHEN: write CASE WHEN before it"),
    ("CASE WHEN o.amount > 1 THEN o.amount > 2 ELSE 2 END", SYNTAX, "45: >", "behind THEN stands a value, and no test: CASE WHEN .. THEN 1 ELSE 0 END"),
    ("CASE WHEN o.amount > 1 THEN 1 ELSE o.amount > 2 END", SYNTAX, "52: >", "behind ELSE stands a value, and no test"),
    ("CASE WHEN o.amount > 1 THEN NULL ELSE 2 END", SYNTAX, "36: NULL", f"NULL is no value, and stands behind no THEN: {NULL}"),
    ("CASE WHEN o.amount > 1 THEN 2 ELSE NULL END", SYNTAX, "43: NULL", "NULL is no value, and stands behind no ELSE: ELSE :none gives null"),
    ("CASE o.amount WHEN NULL THEN 2 ELSE 3 END", SYNTAX, "27: NULL", "nothing is equal to NULL: CASE WHEN o.amount IS NULL THEN .. asks for it"),
    ("CASE WHEN o.amount = NULL THEN 1 ELSE 2 END", SYNTAX, "29: NULL", "nothing is compared with NULL: IS NULL and IS NOT NULL ask for it"),
    ("CASE WHEN EXISTS (SELECT p FROM Person p) THEN 1 ELSE 2 END", SYNTAX, "18: EXISTS", f"{INSIDE} EXISTS: of a collection SIZE(p.orders) > 0 asks it"),
    ("CASE WHEN o.amount = ANY (SELECT p.id FROM Person p) THEN 1 ELSE 2 END", SYNTAX, "29: ANY", f"{INSIDE} nested SELECT: ask it in WHERE, or hand in what it finds, as IN :found"),
    ("CASE WHEN o.amount IN (SELECT p.id FROM Person p) THEN 1 ELSE 2 END", SYNTAX, "31: SELECT", f"{INSIDE} nested SELECT"),
    ("CASE WHEN o.amount = (SELECT MAX(p.id) FROM Person p) THEN 1 ELSE 2 END", SYNTAX, "30: SELECT", f"{INSIDE} nested SELECT"),
    ("CASE WHEN o.amount > 1 THEN (SELECT MAX(p.id) FROM Person p) ELSE 2 END", SYNTAX, "37: SELECT", "a nested SELECT is no value, and stands in no CASE: ask it in WHERE"),
    ("CASE WHEN TYPE(o) = Order THEN 1 ELSE 2 END", SYNTAX, "18: TYPE", f"{INSIDE} TYPE: ask it in WHERE"),
    ("CASE WHEN o MEMBER OF o.person.orders THEN 1 ELSE 2 END", SYNTAX, "20: MEMBER", f"{INSIDE} MEMBER: compare from the other side of the relation"),
    ("CASE WHEN o.person.orders IS EMPTY THEN 1 ELSE 2 END", SYNTAX, "37: EMPTY", f"{INSIDE} IS EMPTY: SIZE(p.orders) = 0 asks it"),
    ("CASE WHEN o.amount > 1 THEN 1 THEN 2 ELSE 3 END", SYNTAX, "38: THEN", "a second THEN follows on one WHEN: write WHEN and a test before it"),
    ("CASE WHEN o.amount > 1 THEN 1 ELSE 3 WHEN o.amount > 2 THEN 4 END", SYNTAX, "45: WHEN", "ELSE stands once, behind each WHEN"),
    ("CASE WHEN o.amount > 1 THNE 1 ELSE 3 END", SYNTAX, "31: THNE", "did you mean THEN?"),
    ("CASE WHEN o.amount > 1 THEN 1 ESLE 3 END", SYNTAX, "38: ESLE", "did you mean ELSE?"),
    ("CASE WHEN o.amount > 1 THEN 1 ELSE 3 ENDE", SYNTAX, "45: ENDE", "did you mean END?"),
    ("o.amount AS end", SYNTAX, "20: end", "END belongs to CASE, of which none is open here, and is no name"),
    ("o.amount THEN 1", SYNTAX, "17: THEN", "THEN belongs to CASE, of which none is open here"),
    ("CASE WHEN o.amount > 1 THEN 1 ELSE 'b' END", TYPING, "43: 'b'", "behind THEN and ELSE stand values of one kind: 1 is a whole number, and 'b' is a text"),
    ("CASE WHEN o.amount > 1 THEN o.person ELSE o.person END", TYPING, "36: o.person", "CASE gives values, and no objects: give a member of each, as o.person.id"),
    ("CASE WHEN o.amount > 'a' THEN 1 ELSE 2 END", TYPING, "29: 'a'", "o.amount is a whole number, and 'a' is a text"),
    ("CASE WHEN o.person > o.person THEN 1 ELSE 2 END", TYPING, "18: o.person > o.person", "objects are only equal or not: compare members of theirs, as p.id"),
    ("CASE WHEN o.amount LIKE 'a' THEN 1 ELSE 2 END", TYPING, "18: o.amount", "LIKE takes a text, and o.amount is a whole number"),
    ("CASE o.amount WHEN 1 THEN 1 WHEN 'a' THEN 2 ELSE 3 END", TYPING, "41: 'a'", "behind CASE and its WHENs stand values of one kind: o.amount is a whole number"),
    ("CASE o.person WHEN 1 THEN 1 ELSE 2 END", TYPING, "27: 1", "o.person is an object of Person, and 1 is a whole number"),
    ("CASE WHEN o.nothing IS NULL THEN 1 ELSE 2 END", TYPING, "20: nothing", "Order has no member nothing; it has number, amount, person"),
    ("CASE WHEN x.amount > 1 THEN 1 ELSE 2 END", TYPING, "18: x", "there is no variable x here"),
    ("COUNT(CASE WHEN COUNT(o) > 1 THEN 1 ELSE 2 END)", TYPING, "24: COUNT(o)", "COUNT stands in SELECT, HAVING and ORDER BY alone"),
]
# What follows on `SELECT p.id FROM Person p`.
OTHERS: List[Tuple[str, str, str, str]] = [
    ("WHERE EXISTS (SELECT p FROM Order p)", TYPING, "61: p", "a second variable has the name p"),
    ("WHERE EXISTS (SELECT o FROM Order o WHERE EXISTS (SELECT o FROM Order o))", TYPING, "97: o", "a second variable has the name o"),
    ("WHERE EXISTS (SELECT o FROM Order o) AND o.amount = 1", TYPING, "68: o", "there is no variable o here"),
    ("WHERE EXISTS (SELECT o.number AS o FROM Order o)", TYPING, "60: o", "a variable has the name o"),
    ("WHERE EXISTS (SELECT o FROM Order o, Order o)", TYPING, "70: o", "a second variable has the name o"),
    ("WHERE UPPER(p.name, p.name) = 'A'", SYNTAX, "53: )", "the end of 1 value of UPPER"),
    ("WHERE LOWER(p.id) = 'a'", TYPING, "39: p.id", "LOWER takes a text, and p.id is a whole number"),
    ("WHERE TRIM(p.name FROM p.name) = 'a'", SYNTAX, "45: FROM", "'FROM' stands where"),
    ("WHERE TRIM(LEADING p.name) = 'a'", SYNTAX, "46: p", "'p' stands where"),
    ("WHERE p.id IN ()", SYNTAX, "42: )", "')' stands where a value is expected"),
    ("WHERE p.id IN :ns, 3", SYNTAX, "44: ,", "',' stands where"),
    ("WHERE p.id IN :n", SYNTAX, "41: :n", "IN (:n) takes one value, and IN alone a list"),
    ("WHERE p.id = :ns", PARAMETER, "40: :ns", "'ns' is a list, which stands behind IN alone"),
    ("WHERE p.id IN (:ns, 3)", PARAMETER, "42: :ns", "'ns' is a list, which stands behind IN alone"),
    ("WHERE CASE WHEN p.id IN (:ns, 3) THEN 1 ELSE 2 END = 1", PARAMETER, "52: :ns", "'ns' is a list, which stands behind IN alone"),
    ("WHERE CASE p.id WHEN :ns THEN 1 ELSE 2 END = 1", PARAMETER, "48: :ns", "'ns' is a list, which stands behind IN alone"),
    ("WHERE CASE WHEN p.id IN :ts THEN 1 ELSE 2 END = 1", TYPING, "51: :ts", "p.id is a whole number, and :ts is a text"),
    ("WHERE p.id IN (SELECT MAX(o.number) FROM Order o)", TYPING, "49: MAX(o.number)", "IN takes the rows of a nested SELECT, and no MAX: compare with what it gives"),
    ("WHERE p.id = (SELECT o.number FROM Order o)", SYNTAX, "48: o", "beside a comparison a nested SELECT selects COUNT, SUM, MIN or MAX: of single rows = ANY (SELECT ..) asks"),
    ("WHERE p.id LIKE ANY (SELECT o.number FROM Order o)", SYNTAX, "43: ANY", "ANY stands behind ="),
    ("WHERE p.name IN (SELECT o.number FROM Order o)", TYPING, "51: o.number", "p.name is a text, and o.number is a whole number"),
    ("ORDER BY (p)", TYPING, "36: (p)", "objects have no order"),
    ("ORDER BY 1", TYPING, "36: 1", "1 is the same for each row"),
    ("ORDER BY CASE WHEN 1 = 1 THEN 1 ELSE 2 END", TYPING, "36: CASE WHEN 1 = 1 THEN 1 ELSE 2 END", "is the same for each row: ORDER BY takes what a variable has"),
    ("ORDER BY COUNT(p)", TYPING, "8: p.id", "stands neither in GROUP BY nor within COUNT, SUM, MIN or MAX"),
]
VALUES: Mapping[str, Union[int, List[int], List[str]]] = {"n": 1, "ns": [1, 2], "ts": ["a"]}
KINDS: Dict[str, Any] = {"n": INT, "ns": [INT, INT], "ts": [TEXT]}


def _texts() -> List[Tuple[str, str, str, str]]:
    texts = [(ORDERS.format(item), *told) for item, *told in CASES]
    return [*texts, *((PEOPLE.format(behind), *told) for behind, *told in OTHERS)]  # type: ignore[list-item]


def _given(text: str) -> Dict[str, Union[int, List[int], List[str]]]:
    """The parameters that a text has, but for the one that is null."""
    names = [node.said for node in jpql.tokens_of(text) if node.sort == "parameter"]
    return {name: value for name, value in VALUES.items() if name in names}


def _replies(*lines: Dict[str, object]) -> List[str]:
    """What the program answers to lines in the wider language."""
    calls: List[Dict[str, object]] = [{"call": "createEntityManager"}, *lines]
    said = "".join(json.dumps(line) + "\n" for line in calls).encode()
    ran = subprocess.run([str(PROGRAM), "--language", "wide"], input=said, capture_output=True)
    return ran.stdout.decode().splitlines()[1:]


def query(text: str, **params: object) -> Dict[str, object]:
    return {"call": "query", "em": 1, "text": text, "params": params}


def serves_cases() -> bool:
    """Whether the program reads CASE."""
    return PROGRAM is not None and '"ok"' in "".join(_replies(query(ORDERS.format("CASE WHEN 1 = 1 THEN 1 ELSE 2 END"))))


needs_cases = unittest.skipUnless(serves_cases(), "the program reads no CASE: it is an older one")


def _nested(count: int) -> str:
    """So many CASEs, each behind the THEN of another one."""
    return ORDERS.format("CASE WHEN 1 = 1 THEN " * count + "1" + " ELSE 2 END" * count)


def _within_tests(count: int) -> str:
    """The same behind WHEN."""
    return ORDERS.format("CASE WHEN " * count + "1" + " = 1 THEN 1 ELSE 2 END" * count)


class WrongTexts(unittest.TestCase):
    def kinds(self, text: str) -> Kinds:
        return {name: KINDS[name] for name in _given(text)}

    def test_each_is_told_at_its_place_with_what_to_do(self) -> None:
        self.assertGreater(len(_texts()), 60)
        for text, refusal, place, words in _texts():
            with self.subTest(text):
                found = check(text, entities_of(PERSONS), self.kinds(text), "wide")
                self.assertTrue(found, "nothing is wrong")
                self.assertEqual((found[0].refusal, f"{found[0].column}: {found[0].word}"), (refusal, place))
                self.assertIn(words, found[0].message)
                self.assertEqual({each.refusal for each in found}, {refusal})

    @needs_cases
    def test_the_program_refuses_each_so(self) -> None:
        texts = _texts()
        replies = _replies(*(query(text, **_given(text)) for text, *_ in texts))
        for (text, refusal, *_), reply in zip(texts, replies):
            error = json.loads(reply)["error"]
            self.assertEqual(f"{error['name']}({error['why']})", refusal, text)

    def test_how_many_cases_a_text_has(self) -> None:
        for text in (_nested, _within_tests):
            self.assertEqual(check(text(64), entities_of(PERSONS), {}, "wide"), [])
            [found] = check(text(65), entities_of(PERSONS), {}, "wide")
            self.assertEqual(found.refusal, "Limit")
            self.assertIn("65 words CASE, and 64 are the most: hand in what some give", found.message)
            self.assertIs(kind_of(json.dumps(query(text(65)))), karzhoul.QueryLimit)
            self.assertIsNot(kind_of(json.dumps(query(text(64)))), karzhoul.QueryLimit)
        [found] = check(ORDERS.format("o.case " * 65), entities_of(PERSONS), {}, "wide")
        self.assertEqual(found.refusal, "Limit")

    def test_the_profile_says_where_it_is_read(self) -> None:
        text = ORDERS.format("CASE WHEN o.amount > 1 THEN 1 ELSE 2 END")
        found = check(text, entities_of(PERSONS), {})
        self.assertEqual([each.refusal for each in found], [SYNTAX])
        self.assertIn("CASE is of the wider language, language='wide'", found[0].message)
        for name in ("case", "when", "end"):  # There they are names as any other.
            self.assertEqual(check(f"SELECT {name}.number FROM Order {name}", entities_of(PERSONS), {}), [])


class Right(unittest.TestCase):
    """Texts that are read, each in each clause."""

    ITEMS = (
        "CASE WHEN o.amount > 1 THEN 'much' ELSE 'little' END",
        "CASE WHEN NOT (o.amount = 1 OR o.amount IS NULL) AND (o.number) > (1) THEN 'a' ELSE 'b' END",
        "CASE WHEN o.amount IN (1, 2) THEN 'a' WHEN o.amount NOT BETWEEN 1 AND 3 THEN 'b' ELSE 'c' END",
        "CASE WHEN o.amount IN :ns THEN 'a' WHEN o.amount NOT IN (:ns) THEN 'b' ELSE 'c' END",
        "CASE WHEN o.person = o.person THEN 'same' ELSE 'other' END",
        "CASE WHEN o.person.name LIKE 'a' ESCAPE '!!' THEN 'a' ELSE 'b' END",
        "case o.amount when 1 then 'a' when :n then 'b' else UPPER('c') end",
        "CASE CASE o.amount WHEN 1 THEN 1 ELSE 2 END WHEN 1 THEN CASE WHEN o.amount > 1 THEN 'x' ELSE 'y' END ELSE 'z' END",
        "CASE WHEN o.person.name IS NOT NULL THEN o.person.name ELSE :none END",
        "CASE WHEN SIZE(o.person.orders) > 0 THEN 'a' ELSE 'b' END",
    )

    def test_they_are_read_and_well_typed(self) -> None:
        for item in self.ITEMS:
            given: Dict[str, Any] = {name: KINDS[name] for name in _given(item)}
            given.update({"none": None} if ":none" in item else {})
            for text in (
                f"SELECT {item} FROM Order o", f"SELECT o.number FROM Order o WHERE {item} = 'a'",
                f"SELECT o.number FROM Order o WHERE 'a' IN ({item}, 'b') AND NOT {item} IS NULL",
                f"SELECT o.number, {item} AS n FROM Order o ORDER BY n DESC, LENGTH({item}), o.number",
                f"SELECT COUNT(DISTINCT {item}), MAX({item}) FROM Order o",
                f"UPDATE Person p SET p.name = {re.sub('o.(amount|number)', 'p.id', item.replace('o.person', 'p'))}",
            ):
                with self.subTest(text):
                    self.assertEqual(check(text, entities_of(PERSONS), given, "wide"), [])

    def test_its_parts(self) -> None:
        statement = jpql.statement_of(ORDERS.format("CASE o.amount WHEN 1 THEN 2 WHEN 3 THEN 4 ELSE 5 END"), "wide")
        assert isinstance(statement, jpql.Block)
        case = statement.items[0].value
        operand, whens, results = jpql.branches_of(case)
        self.assertEqual(operand and operand.sort, "path")
        self.assertEqual(([it.value for it in whens], [it.value for it in results]), ([1, 3], [2, 4, 5]))
        self.assertEqual((case.at, case.end), (7, 7 + len("CASE o.amount WHEN 1 THEN 2 WHEN 3 THEN 4 ELSE 5 END")))

    def test_siblings_may_have_one_name(self) -> None:
        text = PEOPLE.format("WHERE EXISTS (SELECT o FROM Order o WHERE o.amount = 5) AND p.id IN (SELECT o.number FROM Order o)")
        self.assertEqual(check(text, entities_of(PERSONS), {}, "wide"), [])


if __name__ == "__main__":
    unittest.main()
