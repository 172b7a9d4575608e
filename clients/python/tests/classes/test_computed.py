"""What a query computes, or says by a literal, beside money, spans of time and dates."""

from __future__ import annotations

import unittest
from datetime import date, datetime, timedelta
from decimal import Decimal
from enum import Enum
from typing import Any, Dict, Tuple
from uuid import UUID

import karzhoul
from karzhoul import Entity, by_value, key, money, naive
from karzhoul.classes.values import WrongValue
from ..support import needs_program


class State(Enum):
    OPEN = 1


class Rank(Enum):
    LOW = 1
    MID = 5


class Fare(Entity):
    id: int = key()
    count: int
    price: Decimal = money(2)
    lasts: timedelta
    until: date | None = None
    sold: datetime | None = naive(default=None)
    name: str = ""
    state: State = State.OPEN
    rank: Rank = by_value(default=Rank.MID)
    ticket: UUID = UUID(int=5)
    paid: bool = False


@needs_program
class Computed(unittest.TestCase):
    def setUp(self) -> None:
        self.app = karzhoul.open([Fare])
        self.addCleanup(self.app.close)
        with self.app.begin() as manager:
            manager.persist(Fare(id=1, count=120, price=Decimal(10), lasts=timedelta(seconds=5)))

    def found(self, test: str, **given: Any) -> bool:
        with self.app.begin() as manager:
            return bool(manager.query(f"SELECT f.id FROM Fare f WHERE {test}", **given))

    def test_what_is_of_the_same_scale(self) -> None:
        for test, expected in (
            ("f.price > ABS(-20)", False), ("f.price < ABS(-20)", True), ("f.price > -(-20)", False),
            ("f.price = (-20)", False), ("f.price > (-20)", True), ("f.price = -(-10)", True),
            ("MOD(f.price, 4) = 2", True), ("f.price = MOD(30, 20)", True), ("f.price * 2 = 20", True),
            ("f.price + 5 = 15", True), ("f.price = (SELECT SUM(g.price) FROM Fare g)", True),
        ):
            with self.subTest(test):
                self.assertIs(self.found(test), expected)
        self.assertIs(self.found("f.price = -:n", n=Decimal(-10)), True)
        with self.app.begin() as manager:
            self.assertEqual(manager.query("SELECT MOD(f.price, 4) FROM Fare f"), [Decimal("2.00")])

    def test_what_is_computed_is_refused(self) -> None:
        for test in (
            "f.price > 10 * 2", "f.price > :n * 2", "f.price > LENGTH('abc')", "f.price + 2 * 3 > 0",
            "f.price BETWEEN 100 * 2 AND 1000", "f.price IN (1, 2 * 3)", "f.price - 200 * 1 > 0",
            "100 * 2 < ALL (SELECT g.price FROM Fare g)", "f.price > (SELECT COUNT(g) FROM Fare g)",
            "(SELECT SUM(g.count) FROM Fare g) > f.price", "f.lasts > 10 * 2",
        ):
            with self.subTest(test), self.assertRaisesRegex(WrongValue, "is a whole number that the "
                                                            "query computes: compute it before"):
                self.found(test, **({"n": 10} if ":n" in test else {}))

    def test_a_span_beside_a_bare_number(self) -> None:
        """It would count microseconds. Nothing is the same of each unit."""
        for test in (
            "f.lasts > 3", "f.lasts > -3", "f.lasts BETWEEN 1 AND 2", "3 < f.lasts", "f.lasts + 5 > f.lasts",
            "COALESCE(f.lasts, 7) > f.lasts", "f.lasts IN (0, 1)", "f.lasts > ABS(-20)", "f.lasts > 'PT3H'",
        ):
            with self.subTest(test), self.assertRaisesRegex(WrongValue, r"Fare\.lasts is a timedelta, which no literal of "
                                                            r"a query is: hand it in as a parameter, as timedelta\("):
                self.found(test)
        for test in ("f.lasts > 0", "COALESCE(f.lasts, 0) > :span", "f.lasts * 2 = :twice"):
            given = {"span": timedelta(seconds=4)} if ":span" in test else {}
            given.update({"twice": timedelta(seconds=10)} if ":twice" in test else {})
            self.assertTrue(self.found(test, **given), test)
        with self.app.begin() as manager:
            with self.assertRaises(WrongValue):
                manager.execute_update("UPDATE Fare f SET f.lasts = 3")
            self.assertEqual(manager.query("SELECT f.lasts FROM Fare f"), [timedelta(seconds=5)])

    def test_a_date_beside_a_computed_text(self) -> None:
        """What it is written like can't be told: `2026-1-3` comes behind `2026-01-30`."""
        with self.app.begin() as manager:
            fare = manager.find(Fare, 1)
            assert fare is not None
            fare.until, fare.sold = date(2026, 1, 30), datetime(2026, 1, 30, 12)
        for test in (
            "f.until > UPPER('2026-1-3')", "CONCAT('2026-', '1-3') < f.until", "f.until IN ('2026-01-30', LOWER('x'))",
            "f.sold > TRIM('2026-1-3')", "f.until = ANY (SELECT UPPER('2026-1-3') FROM Fare g)",
        ):
            with self.subTest(test), self.assertRaisesRegex(WrongValue, "is a date.* is a text that the query computes: "
                                                            "compute it before, and hand it in as a parameter"):
                self.found(test)
        for test in (
            "f.until > '2026-01-03'", "f.until = SUBSTRING(f.sold, 1, 10)", "SUBSTRING(f.until, 1, 4) = '2026'",
            "f.until = COALESCE(f.until, '2026-01-03')", "f.until = (SELECT MAX(g.until) FROM Fare g)",
        ):
            self.assertTrue(self.found(test), test)

    def test_an_attribute_without_a_form_of_its_own(self) -> None:
        """What is stored of the two means different things, as a number of a bool and a count."""
        for test in (
            "f.name > f.sold", "f.until = f.name", "f.name < f.state", "f.ticket = f.name", "f.count = f.rank", "f.paid <> f.count",
            "f.name BETWEEN f.until AND 'x'", "f.until BETWEEN '2026-01-01' AND f.name", "f.name IN ('a', f.state)", "f.rank IN (f.count, 5)",
            "COALESCE(f.until, f.name) IS NOT NULL", "NULLIF(f.name, f.state) IS NULL", "f.name = ANY (SELECT g.state FROM Fare g)",
            "(SELECT MAX(g.name) FROM Fare g) = f.until",
        ):
            with self.subTest(test), self.assertRaisesRegex(
                WrongValue, r"Fare\.\w+ is (a|one|True).*, and Fare\.\w+ .*: what is stored of the one is not of the other's kind"
            ):
                self.found(test)
        with self.app.begin() as manager:
            for item in ("COALESCE(f.until, f.name)", "NULLIF(f.count, f.paid)"):
                with self.subTest(item), self.assertRaisesRegex(WrongValue, "they can't be compared"):
                    manager.query(f"SELECT {item} FROM Fare f")
        rights: Tuple[Tuple[str, Dict[str, Any]], ...] = (
            ("f.state = 'OPEN'", {}), ("f.rank = 5", {}), ("f.name LIKE '%'", {}), ("f.state LIKE 'O%'", {}), ("f.paid = FALSE", {}),
            ("CONCAT(f.name, f.state) = 'OPEN'", {}), ("f.name = COALESCE(f.name, :x)", {"x": "a"}), ("f.count >= f.id", {}), ("f.rank >= :r", {"r": Rank.MID}),
            ("f.state IN (f.state, :s)", {"s": State.OPEN}), ("(SELECT COUNT(g) FROM Fare g) < f.count", {}), ("LENGTH(f.state) < f.count", {}),
        )
        for test, given in rights:
            self.assertTrue(self.found(test, **given), test)

    def test_what_is_no_number(self) -> None:
        """Beside it a literal that is none of it is told of first."""
        for test in (
            "f.rank * 5 > 1", "f.rank + 4 = 5", "-f.rank < 0", "ABS(f.rank) = 5", "MOD(f.rank, 2) = 1", "f.paid + 1 > 0", "ABS(f.paid) = 0",
            "f.count + f.rank > 1", "f.price * f.rank > 1", "f.count * COALESCE(f.rank, 1) > 1", "f.count - f.paid > 1", "MOD(f.count, f.rank) = 1",
        ):
            with self.subTest(test), self.assertRaisesRegex(WrongValue, r"Fare\.(rank|paid) is .*, and (no number to compute with: compare it, or let a CASE|. is none of Rank)"):
                self.found(test)
        with self.app.begin() as manager:
            for item in ("f.rank * 5", "ABS(f.rank)", "-f.paid", "SUM(f.rank * 2)"):
                with self.subTest(item), self.assertRaisesRegex(WrongValue, "no number to compute with"):
                    manager.query(f"SELECT {item} FROM Fare f")
            self.assertEqual(manager.query("SELECT f.rank, MAX(f.rank), SUM(f.paid) FROM Fare f GROUP BY f.rank"), [[Rank.MID, Rank.MID, 0]])
        self.assertTrue(self.found("f.rank = COALESCE(f.rank, 1)"))

    def test_like_of_what_is_stored_as_no_text(self) -> None:
        for test in ("f.price LIKE '1%'", "f.rank LIKE '5'", "NOT f.paid LIKE 'T%'", "f.lasts LIKE '3%'"):
            with self.subTest(test), self.assertRaisesRegex(WrongValue, r"Fare\.\w+ is .*, and LIKE takes texts"):
                self.found(test)
        self.assertTrue(self.found("f.until LIKE '2026-%' OR f.until IS NULL OR f.until IS NOT NULL"))

    def test_an_update(self) -> None:
        with self.app.begin() as manager:
            with self.assertRaises(WrongValue):
                manager.execute_update("UPDATE Fare f SET f.price = 10 * 2")
            self.assertEqual(manager.query("SELECT f.price FROM Fare f"), [Decimal(10)])
            manager.execute_update("UPDATE Fare f SET f.price = ABS(-7)")
            self.assertEqual(manager.query("SELECT f.price FROM Fare f"), [Decimal(7)])
