"""What an UPDATE over classes sets is for certain of its attribute's type, so that each object can be read behind it."""

from __future__ import annotations

import unittest
from datetime import date, datetime, time, timedelta, timezone
from decimal import Decimal
from enum import Enum
from typing import Any, Dict, List, Tuple
from uuid import UUID

import karzhoul
from karzhoul import Entity, by_value, field, json_text, key, money, typed
from karzhoul.classes.values import WrongValue

from ..jpql.test_wrong_texts import needs_cases
from ..support import needs_program

TICKET = UUID("12345678-1234-1234-1234-1234567890ab")


class State(Enum):
    OPEN = 1
    PAID = 2


class Rank(Enum):
    LOW = 1
    MID = 5


class Thing(Entity):
    id: int = key()
    label: str = "no date"
    count: int = 7
    due: date = date(2026, 1, 5)
    until: date | None = date(2026, 2, 1)
    at: time = time(9, 30)
    placed: datetime = datetime(2026, 1, 5, tzinfo=timezone.utc)
    state: State = State.OPEN
    before: State = State.PAID
    rank: Rank = by_value(default=Rank.LOW)
    ticket: UUID = field(default=TICKET)
    lost: bool = False
    seen: bool = True
    price: Decimal = money(2, default=Decimal(3))
    lasts: timedelta = timedelta(seconds=5)
    tags: list[str] = json_text(default=[])
    own: complex = typed(lambda it: str(it), complex, default=1j)
    same: complex = typed(repr, complex, default=2j)


@needs_program
class Sets(unittest.TestCase):
    def setUp(self) -> None:
        self.app = karzhoul.open([Thing])
        self.addCleanup(self.app.close)
        with self.app.begin() as manager:
            manager.persist(Thing(id=1))

    def refuse(self, sets: str, words: str) -> None:
        with self.subTest(sets):
            with self.assertRaisesRegex(WrongValue, words), self.app.begin() as manager:
                manager.execute_update(f"UPDATE Thing t SET {sets}")
            with self.app.begin() as manager:  # All of it can be read.
                thing = manager.find(Thing, 1)
                assert thing is not None
                self.assertEqual((thing.due, thing.state, thing.lost), (date(2026, 1, 5), State.OPEN, False))

    def test_what_is_stored_in_another_form(self) -> None:
        for sets, named in (
            ("t.due = t.label", "Thing.due, a date, to Thing.label, a text"), ("t.placed = t.label", "Thing.placed, a datetime with a zone, to"),
            ("t.at = t.label", "Thing.at, a time, to Thing.label"), ("t.state = t.label", "Thing.state, one of State.OPEN, State.PAID, to Thing.label"),
            ("t.ticket = t.label", "Thing.ticket, a UUID, to"), ("t.rank = t.count", "Thing.rank, one of .*, to Thing.count, a whole number"),
            ("t.rank = t.id", "to Thing.id, a whole number"), ("t.lost = t.count", "Thing.lost, True or False, to Thing.count"),
            ("t.tags = t.label", "Thing.tags, a list of what JSON has, to Thing.label"), ("t.own = t.label", "Thing.own, .*, to Thing.label"),
            ("t.own = t.same", "Thing.own, .*, to Thing.same"),
            ("t.due = COALESCE(t.label, t.label)", "to Thing.label"), ("t.due = NULLIF(t.label, :x)", "to Thing.label"),
            ("t.state = COALESCE(t.before, NULLIF(t.label, :x))", "to Thing.label"),
        ):
            self.refuse(sets, rf"an UPDATE sets .*{named}.*: what is stored of that may be none of its type, so hand it in as a parameter")

    def test_what_is_computed(self) -> None:
        for sets, named in (
            ("t.rank = t.rank * 2", r"t\.rank \* 2"), ("t.rank = -t.rank", r"-t\.rank"), ("t.rank = -(-t.rank)", r"-\(-t\.rank\)"),
            ("t.rank = t.id + t.count", r"t\.id \+ t\.count"), ("t.rank = ABS(t.rank)", r"ABS\(t\.rank\)"), ("t.rank = LENGTH(t.label)", "LENGTH"),
            ("t.rank = -:n", "-:n"), ("t.rank = MOD(t.count, t.count)", "MOD"), ("t.rank = 2 * 3", r"2 \* 3"), ("t.lost = t.lost + 1", r"t\.lost \+ 1"),
            ("t.lost = ABS(t.count)", "ABS"), ("t.due = SUBSTRING(t.due, 1, 4)", r"SUBSTRING\(t\.due, 1, 4\)"),
            ("t.due = SUBSTRING(t.placed, 1, 10)", "SUBSTRING"), ("t.state = UPPER(t.label)", "UPPER"), ("t.ticket = CONCAT(t.label, '')", "CONCAT"),
            ("t.state = COALESCE(t.state, TRIM(t.label))", "TRIM"), ("t.own = CONCAT(t.own, '')", "CONCAT"), ("t.tags = UPPER(t.tags)", "UPPER"),
        ):
            self.refuse(sets, rf"an UPDATE sets Thing\..*, to {named}.*, which the query computes: what is stored of that")

    def test_a_parameter_that_is_of_what_it_stands_beside(self) -> None:
        for value in ("NULLIF(:x, t.label)", "NULLIF('2026-1-5', t.label)", "COALESCE(NULLIF('x', t.label), t.due)"):
            self.refuse(f"t.due = {value}", "")

    def test_what_is_right(self) -> None:
        cases: Tuple[Tuple[str, Dict[str, Any], str, Any], ...] = (
            ("t.due = t.until", {}, "due", date(2026, 2, 1)), ("t.due = :d", {"d": date(2026, 3, 1)}, "due", date(2026, 3, 1)),
            ("t.due = '2026-03-02'", {}, "due", date(2026, 3, 2)), ("t.until = NULL", {}, "until", None),
            ("t.due = COALESCE(t.until, :d)", {"d": date(2026, 3, 1)}, "due", date(2026, 3, 1)),
            ("t.until = NULLIF(t.due, '2026-03-01')", {}, "until", None), ("t.state = t.before", {}, "state", State.PAID),
            ("t.state = COALESCE(t.before, 'OPEN')", {}, "state", State.PAID), ("t.rank = 5", {}, "rank", Rank.MID),
            ("t.rank = :r", {"r": Rank.LOW}, "rank", Rank.LOW), ("t.rank = (t.rank)", {}, "rank", Rank.LOW), ("t.lost = TRUE", {}, "lost", True),
            ("t.lost = t.seen, t.seen = FALSE", {}, "seen", False), ("t.ticket = COALESCE(:u, t.ticket)", {"u": None}, "ticket", TICKET),
            ("t.price = t.price * 2 + 1", {}, "price", Decimal(7)), ("t.lasts = -t.lasts", {}, "lasts", timedelta(seconds=-5)),
            ("t.price = ABS(t.price - :p)", {"p": Decimal(9)}, "price", Decimal(2)), ("t.tags = :tags", {"tags": ["a"]}, "tags", ["a"]),
            ("t.own = COALESCE(t.own, :c)", {"c": 3j}, "own", 1j), ("t.own = t.own", {}, "own", 1j), ("t.label = t.due", {}, "label", "2026-03-01"),
            ("t.label = CONCAT(t.label, 'x'), t.count = t.count * 2", {}, "count", 14), ("t.due = t.due", {}, "due", date(2026, 3, 1)),
        )
        for sets, given, name, value in cases:
            with self.subTest(sets):
                with self.app.begin() as manager:
                    self.assertEqual(manager.execute_update(f"UPDATE Thing t SET {sets}", params=given), 1)
                with self.app.begin() as manager:
                    self.assertEqual(getattr(manager.find(Thing, 1), name), value)

    @needs_cases
    def test_cases(self) -> None:
        for sets in (
            "t.due = CASE WHEN t.count > 1 THEN t.label ELSE t.label END", "t.lost = CASE WHEN t.count > 1 THEN t.count ELSE t.count END",
            "t.rank = CASE WHEN t.count > 1 THEN t.rank * 2 ELSE t.rank END", "t.state = CASE t.rank WHEN 1 THEN t.label ELSE 'OPEN' END",
            "t.rank = CASE WHEN t.count > 1 THEN 1 ELSE COALESCE(t.count, 5) END",
        ):
            self.refuse(sets, r"an UPDATE sets Thing\..* to ")
        for sets in (
            "t.due = CASE WHEN t.count > 1 THEN t.label ELSE t.due END", "t.due = CASE WHEN t.count > 1 THEN UPPER(t.label) ELSE '2026-01-01' END",
            "t.rank = CASE WHEN t.count > 1 THEN 2 ELSE 5 END",
        ):
            self.refuse(sets, "")
        found: List[Any] = []
        for sets in ("t.state = CASE t.rank WHEN :low THEN 'PAID' ELSE t.state END", "t.state = CASE WHEN t.lost = TRUE THEN t.state ELSE t.before END"):
            with self.app.begin() as manager:
                manager.execute_update(f"UPDATE Thing t SET {sets}", params={"low": Rank.LOW} if ":low" in sets else None)
                found += manager.query("SELECT t.state FROM Thing t")
        self.assertEqual(found, [State.PAID, State.PAID])


if __name__ == "__main__":
    unittest.main()
