"""What a query counts by, computes with and compares over classes is of one type, and a parameter is of one wherever it stands."""

from __future__ import annotations

import unittest
from datetime import timedelta
from decimal import Decimal
from enum import Enum
from typing import Any, Dict, List, Tuple

import karzhoul
from karzhoul import Entity, by_value, key, money, typed
from karzhoul.classes.values import WrongValue

from ..jpql.test_wrong_texts import needs_cases
from ..support import needs_program


class Rank(Enum):
    LOW = 1
    MID = 5


class Item(Entity):
    id: int = key()
    label: str = "abcdef"
    count: int = 2
    total: Decimal = money(2, default=Decimal(2))
    tax: Decimal = money(3, default=Decimal(2))
    lasts: timedelta = timedelta(microseconds=2)
    rank: Rank = by_value(default=Rank.LOW)
    sold: bool = True
    # Written each in its own way, and the third as the second.
    own: complex = typed(lambda it: str(it), complex, default=1j)
    same: complex = typed(repr, complex, default=1j)
    third: complex = typed(repr, complex, default=1j)
    degrees: float = typed(lambda it: int(it * 10), lambda it: it / 10, stored=int, default=0.2)


class OfItems(unittest.TestCase):
    def setUp(self) -> None:
        self.app = karzhoul.open([Item])
        self.addCleanup(self.app.close)
        with self.app.begin() as manager:
            manager.persist(Item(id=1))

    def asked(self, item: str, where: str = "i.id = 1", **given: Any) -> List[Any]:
        with self.app.begin() as manager:
            return list(manager.query(f"SELECT {item} FROM Item i WHERE {where}", **given))

    def refuse(self, item: str, words: str, where: str = "i.id = 1", **given: Any) -> None:
        with self.subTest(item=item, where=where), self.assertRaisesRegex(WrongValue, words):
            self.asked(item, where, **given)


@needs_program
class CountedBy(OfItems):
    def test_a_start_and_a_length(self) -> None:
        """Money would count hundredths."""
        for item, named in (
            ("SUBSTRING(i.label, i.total)", "SUBSTRING takes a start in whole numbers, and Item.total is a Decimal of 2 digits"),
            ("SUBSTRING(i.label, 1, i.total)", "SUBSTRING takes a length in whole numbers, and Item.total"), ("SUBSTRING(i.label, i.lasts)", "Item.lasts is a timedelta"),
            ("SUBSTRING(i.label, i.rank)", "Item.rank is one of"), ("SUBSTRING(i.label, 1, i.sold)", "Item.sold is True or False"),
            ("SUBSTRING(i.label, i.degrees)", "Item.degrees is float"), ("LOCATE('b', i.label, i.total)", "LOCATE takes a start in whole numbers, and Item.total"),
            ("SUBSTRING(i.label, ABS(i.total))", "Item.total"), ("SUBSTRING(i.label, i.count + MOD(i.total, 2))", "Item.total"),
            ("SUBSTRING(i.label, COALESCE(i.total, 1))", "Item.total"), ("SUBSTRING(i.label, i.total * i.count)", "Item.total"),
            ("CONCAT(SUBSTRING(i.label, -i.lasts), 'x')", "Item.lasts"), ("LENGTH(SUBSTRING(i.label, i.total))", "Item.total"),
        ):
            self.refuse(item, rf"{named}.*hand the (number|one) in as a parameter, or ")
        self.refuse("i.id", "LOCATE takes a start", "LOCATE('b', i.label, i.total) > 0")
        with self.assertRaisesRegex(WrongValue, "SUBSTRING takes a start"), self.app.begin() as manager:
            manager.execute_update("UPDATE Item i SET i.label = SUBSTRING(i.label, i.total)")
        self.assertEqual(self.asked("i.label"), ["abcdef"])
        for item, found in (
            ("SUBSTRING(i.label, i.count)", "bcdef"), ("SUBSTRING(i.label, LENGTH(i.own), i.count - 1)", "b"), ("LOCATE('b', i.label, i.id)", 2),
            ("SUBSTRING(i.label, 2, 1)", "b"), ("SUBSTRING(i.label, ABS(-2), MOD(5, 4))", "b"),
        ):
            self.assertEqual(self.asked(item), [found], item)
        self.assertEqual(self.asked("SUBSTRING(i.label, :n)", n=2), ["bcdef"])

    def test_what_is_computed_of_two_types(self) -> None:
        for item, named in (
            ("MOD(i.count, i.total)", r"MOD\(i.count, i.total\) computes with Item.count, a whole number, and Item.total, a Decimal of 2"),
            ("MOD(i.total, i.count)", "Item.total, a Decimal.*, and Item.count, a whole number"), ("MOD(i.total, i.tax)", "Item.tax, a Decimal of 3"),
            ("ABS(i.total - i.count)", "i.total - i.count computes with"), ("ABS(i.lasts) + i.count", "Item.lasts, a timedelta"), ("i.total + i.lasts", "Item.lasts"),
        ):
            self.refuse(item, rf"{named}.*: hand the one in as a parameter, or select each by itself")
        self.assertEqual(self.asked("ABS(i.count - 5) + MOD(i.count, i.id)"), [3])
        self.assertEqual(self.asked("ABS(i.total - 5)"), [Decimal(3)])


@needs_program
class Parameters(OfItems):
    def test_one_is_of_its_type_wherever_it_stands(self) -> None:
        """It was hundredths beside what isn't money."""
        two = Decimal(2)
        for item, where in ((":p", "i.total = :p"), ("COALESCE(:p, i.total)", "i.total = :p"), ("MAX(:p)", "i.total <= :p"), ("i.total + :p - :p", "i.total > 0")):
            self.assertEqual([(it, type(it)) for it in self.asked(item, where, p=two)], [(two, Decimal)], item)
        self.refuse("SUBSTRING(i.label, :p)", "SUBSTRING takes a start in whole numbers, and the parameter 'p' of Item.total is", "i.total = :p", p=two)
        self.refuse("i.total * :p", "Item.total times the parameter 'p' of Item.total", "i.total = :p", p=two)
        self.refuse("i.id", "LENGTH.* is a whole number that the query computes", "i.total = :p AND LENGTH(i.label) > :p", p=two)
        self.assertEqual(self.asked("i.total * :n", "i.count = :n", n=2), [Decimal(4)])

    @needs_cases
    def test_those_of_a_case(self) -> None:
        case = "CASE WHEN i.count > 1 THEN :a ELSE :b END"
        cases: Tuple[Tuple[str, Any, Any], ...] = (
            (f"MAX({case}) = MAX(i.total)", Decimal(2), Decimal(1)), (f"MIN({case}) = MAX(i.rank)", Rank.LOW, Rank.MID),
            (f"SUM({case}) = SUM(i.total)", Decimal(2), Decimal(1)), (f"MAX(i.sold) = MAX({case})", True, False),
            (f"MAX({case}) = MAX(i.lasts)", timedelta(microseconds=2), None), (f"MAX({case}) = MAX(i.own)", 1j, 2j),
        )
        with self.app.begin() as manager:
            for test, one, other in cases:
                found = manager.query(f"SELECT i.id FROM Item i GROUP BY i.id HAVING {test}", a=one, b=other)
                self.assertEqual(list(found), [1], test)
            nested = f"SELECT i.id FROM Item i WHERE i.rank = (SELECT MAX({case.replace('i.', 'j.')}) FROM Item j)"
            self.assertEqual(list(manager.query(nested, a=Rank.LOW, b=Rank.MID)), [1])
            nested = "SELECT i.id FROM Item i WHERE i.sold = (SELECT MAX(CASE WHEN j.count > 1 THEN TRUE ELSE FALSE END) FROM Item j)"
            self.assertEqual(list(manager.query(nested)), [1])
        branches = self.asked("CASE WHEN i.total >= :a THEN :a ELSE :b END", a=Decimal(2), b=Decimal("5.5"))
        self.assertEqual(branches, [Decimal(2)])
        with self.assertRaisesRegex(WrongValue, "the parameter 'b', as the parameter 'a' of Item.total, .* has more digits"):
            self.asked("CASE WHEN i.total >= :a THEN :a ELSE :b END", a=Decimal(2), b=Decimal("1.555"))

    @needs_cases
    def test_one_that_stands_beside_none(self) -> None:
        for item in (":a", "CASE WHEN i.count > 1 THEN :a ELSE 1 END"):
            with self.assertRaisesRegex(TypeError, "the parameter 'a': .* and no Decimal: over classes a parameter has the type of the attribute that it "
                                        "stands beside, and this one stands beside none: compare it with one, or hand in what is stored"):
                self.asked(item, a=Decimal(2))

    @needs_cases
    def test_a_case_that_gives_parameters_alone(self) -> None:
        case = "CASE WHEN i.count > 1 THEN :a ELSE :b END"
        given: Tuple[Tuple[Any, Any], ...] = ((Decimal(1), Decimal(2)), (True, False), (Rank.LOW, Rank.MID), (timedelta(1), None))
        for one, other in given:
            self.refuse(case, "the parameter 'a': .* and no .*, or hand in what is stored; or have a THEN or the ELSE of this CASE give an attribute of its "
                        "type, as ELSE p.price, or let it give 1 and 2, and take the values by these$", a=one, b=other)
        self.assertEqual(self.asked(case.replace("ELSE", "WHEN i.count = 0 THEN i.total ELSE"), a=Decimal(1), b=Decimal("2.5")), [Decimal(1)])
        self.assertEqual(self.asked(case, a=1, b=2), [1])


@needs_program
class TypedByOthers(OfItems):
    def test_values_of_two_conversions(self) -> None:
        words = r"Item.own and Item.same are typed\(..\) by different functions: .*: let both be typed by the same two, or select both"
        for test in ("i.own = i.same", "i.own IN (i.own, i.same)", "i.own BETWEEN i.own AND i.same", "i.own = COALESCE(i.same, :c)", "i.own = ANY (SELECT j.same FROM Item j)"):
            self.refuse("i.id", words, test, **({"c": 1j} if ":c" in test else {}))
        self.refuse("COALESCE(i.own, i.same)", words)
        self.refuse("i.id", "the parameter 'c' stands beside Item.own, complex, and Item.same, complex: take two", "i.own = :c OR i.same = :c", c=1j)
        given: Dict[str, Any] = {"c": 1j}
        for test in ("i.same = i.third", "i.own = :c", "i.third = :c AND i.same = :c"):
            self.assertEqual(self.asked("i.id", test, **(given if ":c" in test else {})), [1], test)
        self.assertEqual(self.asked("COALESCE(i.third, i.same)"), [1j])

    @needs_cases
    def test_of_a_case(self) -> None:
        self.refuse("CASE WHEN i.count > 1 THEN i.own ELSE i.same END", "a CASE gives Item.own, complex, or Item.same, complex")
        self.assertEqual(self.asked("CASE WHEN i.count > 1 THEN i.third ELSE i.same END"), [1j])


if __name__ == "__main__":
    unittest.main()
