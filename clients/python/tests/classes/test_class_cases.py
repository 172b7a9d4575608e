"""CASE over classes: values are of the types of the attributes that they stand beside, and what it gives is too."""

from __future__ import annotations

import unittest
from datetime import date, timedelta
from decimal import Decimal
from enum import Enum
from typing import Any, Dict, List, Optional, Tuple

import karzhoul
from karzhoul import Entity, key, money
from karzhoul.classes.conversions import Conversions
from karzhoul.classes.values import WrongValue

from ..jpql.test_wrong_texts import needs_cases
from ..support import needs_program


class Mode(Enum):
    OPEN = 1
    DONE = 2


class Bill(Entity):
    id: int = key()
    name: str
    count: int
    price: Decimal = money(2)
    fee: Decimal = money(2)
    tax: Decimal = money(3)
    mode: Mode = Mode.OPEN
    paid: bool = False
    lasts: timedelta = timedelta()
    due: Optional[date] = None
    made: Optional[date] = None


SELECT = "SELECT {} FROM Bill b"


@needs_program
class Converted(unittest.TestCase):
    """What is told to the program, which needn't read CASE for that."""

    def setUp(self) -> None:
        self.app = karzhoul.open([Bill])
        self.addCleanup(self.app.close)
        conversions = self.app.conversions
        assert conversions is not None
        self.conversions: Conversions = conversions

    def tells(self, item: str, wanted: str, given: Dict[str, Any], stored: Dict[str, Any]) -> None:
        self.assertEqual(self.conversions.stored(SELECT.format(item), given), (SELECT.format(wanted), stored), item)

    def test_tests_behind_when(self) -> None:
        self.tells("CASE WHEN b.mode = 'DONE' AND b.price > 1.5 THEN 1 ELSE 2 END".replace("1.5", "'1.50'"),
                   "CASE WHEN b.mode = 'DONE' AND b.price > 150 THEN 1 ELSE 2 END", {}, {})
        self.tells("CASE WHEN b.paid = TRUE OR NOT (b.due <= '2026-01-05') THEN 1 ELSE 0 END",
                   "CASE WHEN b.paid = 1 OR NOT (b.due <= '2026-01-05') THEN 1 ELSE 0 END", {}, {})
        for test in ("b.due = :d", "b.due BETWEEN :d AND :d", "b.due IN (:d)", ":d > b.due", "NOT (b.count = 1 OR b.due < :d)"):
            item = f"CASE WHEN {test} THEN 1 ELSE 2 END"
            self.tells(item, item, {"d": date(2026, 1, 5)}, {"d": "2026-01-05"})
        listed = "CASE WHEN b.mode IN :modes THEN 1 WHEN b.price IN (:prices) THEN 2 ELSE 3 END"
        self.tells(listed, listed, {"modes": [Mode.DONE], "prices": [Decimal("1.5")]}, {"modes": ["DONE"], "prices": [150]})
        with self.assertRaisesRegex(WrongValue, "the parameter 'm', as Bill.mode"):
            self.conversions.stored(SELECT.format("CASE WHEN b.mode = :m THEN 1 ELSE 2 END"), {"m": "OPEN"})

    def test_a_value_and_its_whens(self) -> None:
        self.tells("CASE b.price WHEN 1 THEN 1 WHEN :p THEN 2 ELSE 3 END", "CASE b.price WHEN 100 THEN 1 WHEN :p THEN 2 ELSE 3 END",
                   {"p": Decimal(2)}, {"p": 200})
        self.tells("CASE b.mode WHEN :m THEN 'a' ELSE 'b' END", "CASE b.mode WHEN :m THEN 'a' ELSE 'b' END",
                   {"m": Mode.DONE}, {"m": "DONE"})
        self.tells("CASE b.paid WHEN TRUE THEN 1 ELSE 2 END", "CASE b.paid WHEN 1 THEN 1 ELSE 2 END", {}, {})
        self.tells("CASE :p WHEN b.price THEN 1 ELSE 2 END", "CASE :p WHEN b.price THEN 1 ELSE 2 END", {"p": Decimal(2)}, {"p": 200})

    def test_what_it_gives(self) -> None:
        """Beside one branch of a type the others are of that, and so is the result."""
        for item, wanted, found, value in (
            ("CASE WHEN b.count > 1 THEN b.price ELSE 0 END", "CASE WHEN b.count > 1 THEN b.price ELSE 0 END", 250, Decimal("2.50")),
            ("CASE WHEN b.count > 1 THEN 3 ELSE b.price END", "CASE WHEN b.count > 1 THEN 300 ELSE b.price END", 300, Decimal("3.00")),
            ("CASE WHEN b.paid = TRUE THEN b.due ELSE b.made END", "CASE WHEN b.paid = 1 THEN b.due ELSE b.made END", "2026-01-05", date(2026, 1, 5)),
            ("CASE b.count WHEN 1 THEN b.mode ELSE 'DONE' END", "CASE b.count WHEN 1 THEN b.mode ELSE 'DONE' END", "DONE", Mode.DONE),
            ("CASE WHEN b.count = 1 THEN b.paid ELSE FALSE END", "CASE WHEN b.count = 1 THEN b.paid ELSE 0 END", 0, False),
            ("CASE WHEN b.count = 1 THEN b.lasts ELSE 0 END", "CASE WHEN b.count = 1 THEN b.lasts ELSE 0 END", 5, timedelta(microseconds=5)),
            ("MAX(CASE WHEN b.count > 1 THEN b.price ELSE 1 END)", "MAX(CASE WHEN b.count > 1 THEN b.price ELSE 100 END)", 250, Decimal("2.50")),
            ("SUM(CASE WHEN b.count > 1 THEN b.price + 1 ELSE -1 END)", "SUM(CASE WHEN b.count > 1 THEN b.price + 100 ELSE -100 END)", 250, Decimal("2.50")),
            ("COALESCE(CASE WHEN b.count > 1 THEN b.price ELSE b.fee END, 1)", "COALESCE(CASE WHEN b.count > 1 THEN b.price ELSE b.fee END, 100)", 250, Decimal("2.50")),
            ("CASE WHEN b.count > 1 THEN CASE b.count WHEN 2 THEN b.price ELSE 1 END ELSE 2 END",
             "CASE WHEN b.count > 1 THEN CASE b.count WHEN 2 THEN b.price ELSE 100 END ELSE 200 END", 250, Decimal("2.50")),
            ("CASE WHEN b.price > 1 THEN 'dear' ELSE b.name END", "CASE WHEN b.price > 100 THEN 'dear' ELSE b.name END", "x", "x"),
            ("CASE WHEN b.price > 1 THEN 1 ELSE 2 END", "CASE WHEN b.price > 100 THEN 1 ELSE 2 END", 1, 1),
            ("COUNT(CASE WHEN b.count > 1 THEN b.price ELSE NULLIF(1, 1) END)", "COUNT(CASE WHEN b.count > 1 THEN b.price ELSE NULLIF(100, 100) END)", 3, 3),
        ):
            with self.subTest(item):
                self.tells(item, wanted, {}, {})
                rows = self.conversions.values(SELECT.format(item), [found, None])
                self.assertEqual((rows, type(rows[0])), ([value, None], type(value)))
        given = "CASE WHEN b.count > 1 THEN b.due ELSE :none END"
        self.tells(given, given, {"none": None}, {"none": None})

    def test_it_is_compared(self) -> None:
        text = "SELECT b.id FROM Bill b WHERE CASE WHEN b.count > 1 THEN {} ELSE {} END {}"
        for parts, wanted in (
            (("b.price", "b.fee", "> 5"), ("b.price", "b.fee", "> 500")), (("1", "2", "= b.price"), ("100", "200", "= b.price")),
            (("b.mode", "'OPEN'", "= 'DONE'"), ("b.mode", "'OPEN'", "= 'DONE'")),
        ):
            self.assertEqual(self.conversions.stored(text.format(*parts), {}), (text.format(*wanted), {}))
        by = text.format("b.due", "b.made", "= :d")
        self.assertEqual(self.conversions.stored(by, {"d": date(2026, 1, 5)}), (by, {"d": "2026-01-05"}))
        said = "UPDATE Bill b SET b.price = CASE WHEN b.mode = :m THEN 5 ELSE b.price * 2 END"
        self.assertEqual(self.conversions.stored(said, {"m": Mode.OPEN}), (said.replace("5", "500"), {"m": "OPEN"}))

    def test_what_cannot_be_told_is_refused(self) -> None:
        cases: Tuple[Tuple[str, str], ...] = (
            ("CASE WHEN b.count > 1 THEN b.due ELSE b.name END", "a CASE gives Bill.due, a date, or Bill.name, a text: what it gave can't be told"),
            ("CASE WHEN b.count > 1 THEN b.name ELSE b.due END", "a CASE gives Bill.due, a date, or Bill.name, a text"),
            ("CASE WHEN b.count > 1 THEN b.mode ELSE UPPER(b.name) END", r"a CASE gives Bill.mode, .*, or UPPER\(b.name\), which the query computes"),
            ("CASE WHEN b.count > 1 THEN b.paid ELSE b.count END", "a CASE gives Bill.paid, True or False, or Bill.count, a whole number"),
            ("CASE WHEN b.count > 1 THEN b.mode ELSE CONCAT(b.name, 'x') END", "let all behind THEN and ELSE be of one type, or select each by itself"),
            ("CASE WHEN b.count > 1 THEN b.price ELSE b.tax END", "a CASE gives Bill.price, a Decimal of 2 .*, or Bill.tax, a Decimal of 3"),
            ("CASE WHEN b.count > 1 THEN b.price ELSE b.count END", "a CASE gives Bill.price, a Decimal of .*, or Bill.count, a whole number: .*"
             "let all behind THEN and ELSE be of one type, or select each by itself"),
            ("CASE WHEN b.count > 1 THEN b.count ELSE b.price END", "a CASE gives Bill.price, a Decimal of .*, or Bill.count, a whole number: "),
            ("CASE WHEN b.count > 1 THEN b.count ELSE b.lasts END", "a CASE gives Bill.lasts, a timedelta, or Bill.count, a whole number: "),
            ("CASE WHEN b.count > 1 THEN b.price ELSE LENGTH(b.name) END", "is a whole number that the query computes"),
            ("CASE WHEN b.count > 1 THEN b.due ELSE UPPER('2026-1-3') END", "is a text that the query computes"),
            ("CASE WHEN b.count > 1 THEN b.lasts ELSE 7 END", "is a timedelta, which no literal of a query is"),
            ("CASE WHEN b.count > 1 THEN b.due ELSE 'today' END", "Bill.due is a date, and 'today'"),
            ("CASE b.due WHEN UPPER('2026-1-3') THEN 1 ELSE 2 END", "is a text that the query computes"),
            ("CASE WHEN b.lasts > 3 THEN 1 ELSE 2 END", "is a timedelta, which no literal of a query is"),
        )
        for item, words in cases:
            with self.subTest(item), self.assertRaisesRegex(WrongValue, words):
                self.conversions.stored(SELECT.format(item), {})


@needs_program
@needs_cases
class Asked(unittest.TestCase):
    """The same of a program that reads CASE."""

    def setUp(self) -> None:
        self.app = karzhoul.open([Bill])
        self.addCleanup(self.app.close)
        with self.app.begin() as manager:
            for number, (price, mode) in enumerate(((1, Mode.OPEN), (2, Mode.DONE), (3, Mode.OPEN)), 1):
                manager.persist(Bill(id=number, name=f"n{number}", count=number, price=Decimal(price), fee=Decimal("0.50"),
                                     tax=Decimal(0), mode=mode, due=date(2026, 1, number)))

    def asked(self, item: str, **given: Any) -> List[Any]:
        with self.app.begin() as manager:
            return list(manager.query(f"SELECT {item} FROM Bill b ORDER BY b.id", **given))

    def test_items(self) -> None:
        self.assertEqual(self.asked("CASE WHEN b.mode = :m THEN b.price ELSE b.fee END", m=Mode.OPEN),
                         [Decimal("1.00"), Decimal("0.50"), Decimal("3.00")])
        self.assertEqual(self.asked("CASE b.due WHEN :d THEN 'then' ELSE 'else' END", d=date(2026, 1, 2)), ["else", "then", "else"])
        self.assertEqual(self.asked("CASE WHEN b.due IN :days THEN b.mode ELSE 'DONE' END", days=[date(2026, 1, 1)]),
                         [Mode.OPEN, Mode.DONE, Mode.DONE])
        self.assertEqual(self.asked("CASE WHEN b.due IN :days THEN 1 ELSE 0 END", days=[]), [0, 0, 0])
        self.assertEqual(self.asked("CASE WHEN b.mode NOT IN (:modes) THEN 1 ELSE 0 END", modes=[Mode.OPEN]), [0, 1, 0])

    def test_in_other_clauses(self) -> None:
        with self.app.begin() as manager:
            text = "SELECT SUM(CASE WHEN b.paid = FALSE THEN b.price ELSE 0 END) FROM Bill b"
            self.assertEqual(manager.one(text), Decimal("6.00"))
            ordered = "SELECT b.id FROM Bill b ORDER BY CASE b.mode WHEN 'OPEN' THEN 2 ELSE 1 END, b.id"
            self.assertEqual(list(manager.query(ordered)), [2, 1, 3])
            said = "UPDATE Bill b SET b.price = CASE WHEN b.mode = :m THEN 5 ELSE b.price * 2 END"
            self.assertEqual(manager.execute_update(said, m=Mode.OPEN), 3)
        self.assertEqual(self.asked("b.price"), [Decimal(5), Decimal(4), Decimal(5)])

    def test_truth_values(self) -> None:
        """They are those of a bool that the CASE is compared with; else it is said what to write."""
        case = "CASE WHEN b.count > 1 THEN TRUE ELSE FALSE END"
        with self.app.create_entity_manager() as manager:
            for test in (f"{case} <> b.paid", f"b.paid <> {case}", f"COALESCE({case}, TRUE) <> b.paid", f"b.paid <> ALL (SELECT {case.replace('b.', 'c.')} FROM Bill c WHERE c.id > 1)"):
                self.assertEqual(len(manager.query(f"SELECT b.id FROM Bill b WHERE b.id > 1 AND {test}")), 2, test)
            for text in (f"SELECT {case} FROM Bill b", f"SELECT b.id FROM Bill b WHERE {case} = b.count", f"SELECT b.id FROM Bill b WHERE {case} = TRUE", f"SELECT SUM({case}) FROM Bill b"):
                with self.subTest(text), self.assertRaisesRegex(karzhoul.Refused, "TRUE: TRUE and FALSE stand beside a bool attribute of classes alone, as "
                                                                "p.paid = TRUE, or what a CASE gives that is compared with one"):
                    manager.query(text)
        with self.app.begin() as manager:
            self.assertEqual(manager.execute_update(f"UPDATE Bill b SET b.paid = {case}"), 3)
        self.assertEqual(self.asked("b.paid"), [False, True, True])

    def test_pages_and_parts(self) -> None:
        text = "SELECT CASE WHEN b.price > 1 THEN b.due ELSE :none END AS d FROM Bill b"
        with self.app.begin() as manager:
            page = manager.page(f"{text} ORDER BY b.id", 1, 2, total=True, none=None)
            self.assertEqual(([row for row in page], page.total), ([None, date(2026, 1, 2)], 3))
            walked = manager.iterate(text, 2, none=None)
            self.assertEqual(list(walked), [None, date(2026, 1, 2), date(2026, 1, 3)])


if __name__ == "__main__":
    unittest.main()
