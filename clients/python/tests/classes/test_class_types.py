"""The types of values: their stored forms, whose order is the type's own, and what each refuses."""

from __future__ import annotations

import random
import unittest
from datetime import date, datetime, time, timedelta, timezone
from decimal import Decimal
from enum import Enum, IntEnum
from typing import Any, Callable, List, Tuple
from uuid import UUID

from karzhoul.classes import types
from karzhoul.classes.types import StoredType, Unfit
from karzhoul.classes.values import WrongValue, from_stored, to_stored

HOUR = timedelta(hours=1)


class State(Enum):
    OPEN = "open"
    BACK = "back"


class Rank(IntEnum):
    LOW = 1
    HIGH = 10


def days(r: random.Random) -> date:
    return date.fromordinal(r.randint(1, date.max.toordinal()))


def moments(r: random.Random) -> datetime:
    zone = timezone(timedelta(minutes=r.randint(-840, 840)))
    day = date.fromordinal(r.randint(5, date.max.toordinal() - 5))
    return datetime.combine(day, times(r), zone)


def times(r: random.Random) -> time:
    micro = r.choice((0, 1, 999_999, r.randrange(10**6)))
    return time(r.randrange(24), r.randrange(60), r.randrange(60), micro)


def decimals(r: random.Random) -> Decimal:
    return Decimal(r.randint(-(10**r.randint(1, 15)), 10**15)).scaleb(-r.randint(0, 3))


ORDERED: List[Tuple[StoredType, Callable[[random.Random], Any]]] = [
    (types.Plainly(int), lambda r: r.randint(-(2**63), 2**63 - 1)),
    (types.Plainly(bytes), lambda r: r.randbytes(r.randrange(9))),
    (types.Plainly(str), lambda r: "".join(chr(r.randrange(1, 0xD800)) for _ in range(4))),
    (types.Truth(), lambda r: r.random() < 0.5),
    (types.Iso(date), days),
    (types.Iso(time), times),
    (types.Iso(datetime), moments),
    (types.Iso(datetime, is_naive=True), lambda r: moments(r).replace(tzinfo=None)),
    (types.Span(), lambda r: timedelta(microseconds=r.randint(-(10**15), 10**15))),
    (types.Money(3), decimals),
    (types.Unique(), lambda r: UUID(int=r.getrandbits(128))),
    (types.Listed(Rank, by_value=True), lambda r: r.choice(list(Rank))),
]


class Forms(unittest.TestCase):
    def test_each_form_is_the_one_of_the_table(self) -> None:
        def boxed(value: Any) -> Any:
            return f"<{value}>"

        told: List[Tuple[StoredType, Any, Any]] = [
            (types.Truth(), True, 1),
            (types.Iso(date), date(1, 2, 3), "0001-02-03"),
            (types.Iso(time), time(9, 30), "09:30:00.000000"),
            (types.Iso(datetime), datetime(2026, 1, 5, 0, 30, tzinfo=timezone(HOUR)),
             "2026-01-04T23:30:00.000000Z"),
            (types.Iso(datetime, True), datetime(2026, 1, 5, 9), "2026-01-05T09:00:00.000000"),
            (types.Span(), timedelta(milliseconds=-1), -1000),
            (types.Money(2), Decimal("-12.3"), -1230),
            (types.Money(2), Decimal("1E+3"), 100_000),
            (types.Money(0), Decimal("7.00"), 7),
            (types.Listed(State), State.OPEN, "OPEN"),
            (types.Listed(State, True), State.OPEN, "open"),
            (types.Listed(Rank, True), Rank.HIGH, 10),
            (types.Unique(), UUID("12345678-1234-5678-1234-56781234ABCD"),
             "12345678-1234-5678-1234-56781234abcd"),
            (types.Json(list), ["é", {"a": None}], '["é",{"a":null}]'),
            (types.OwnType("Box", boxed, lambda it: it[1:-1], str), "a", "<a>"),
        ]
        for kind, value, stored in told:
            with self.subTest(form=kind.form):
                self.assertEqual(kind.to_stored(value), stored)
                self.assertEqual(kind.from_stored(stored), value)

    def test_values_come_back_and_their_order_is_that_of_what_is_stored(self) -> None:
        r = random.Random(7)
        for kind, make in ORDERED:
            for _ in range(500):
                one, other = make(r), make(r)
                stored, another = kind.to_stored(one), kind.to_stored(other)
                self.assertEqual(kind.from_stored(stored), one, kind.form)
                # A text is ordered by its characters, as UTF-8 is.
                told: List[Any] = [stored, another]
                a, b = (it.encode() if isinstance(it, str) else it for it in told)
                self.assertEqual((one < other, one == other), (a < b, a == b), (one, other))

    def test_what_is_of_another_type_is_refused(self) -> None:
        wrong: List[Tuple[StoredType, List[Any]]] = [
            (types.Plainly(int), [True, 1.0, "1", 2**63, -(2**63) - 1, Rank.LOW]),
            (types.Plainly(str), [b"a", 1, "a" * 65_536, "é" * 32_768]),
            (types.Plainly(bytes), ["a", b"a" * 65_536]),
            (types.Truth(), [1, 0, "True"]),
            (types.Iso(date), [datetime(2026, 1, 5), "2026-01-05", time(9)]),
            (types.Iso(time), [time(9, tzinfo=timezone.utc), datetime(2026, 1, 5), "09:00"]),
            (types.Iso(datetime), [datetime(2026, 1, 5), date(2026, 1, 5),
                                   datetime(1, 1, 1, tzinfo=timezone(HOUR))]),
            (types.Iso(datetime, True), [datetime(2026, 1, 5, tzinfo=timezone.utc)]),
            (types.Span(), [5, 1.5, timedelta.max]),
            (types.Money(2), [1.5, "1.5", True, Decimal("1.234"), Decimal("NaN"),
                              Decimal("Infinity"), Decimal("1E+30"), Decimal(2**63) / 100,
                              Decimal("1E-999999"), Decimal("1E+999999")]),
            (types.Listed(State), ["OPEN", Rank.LOW, None.__class__]),
            (types.Unique(), ["12345678-1234-5678-1234-567812345678", 5]),
            (types.Json(list), [{}, [object()], [float("nan")], [(1, 2)], [{1: 2}]]),
            (types.Json(dict), [[], {1: 2}]),
        ]
        for kind, values in wrong:
            for value in values:
                with self.subTest(form=kind.form, value=str(value)[:40]):
                    with self.assertRaises(Unfit):
                        kind.to_stored(value)

    def test_what_is_stored_and_is_no_value_is_refused(self) -> None:
        wrong: List[Tuple[StoredType, List[Any]]] = [
            (types.Truth(), [2, "1"]), (types.Iso(date), ["20260105", "2026-13-01", 5]),
            (types.Iso(time), ["09:30", "09:30:00.000000Z"]),
            (types.Iso(datetime), ["2026-01-05T09:30:00.000000", "2026-01-05"]),
            (types.Listed(State), ["open", 1]), (types.Unique(), ["x", 1]),
            (types.Json(list), ["{}", "[", 1]),
        ]
        for kind, values in wrong:
            for value in values:
                with self.subTest(form=kind.form, value=value), self.assertRaises(Unfit):
                    kind.from_stored(value)

    def test_a_message_has_no_long_value(self) -> None:
        """A value may have 65,535 bytes, and a message may stand in a log."""
        long: List[Any] = ["x" * 60_000, b"x" * 60_000, ["x" * 60_000], "x" * 70_000]
        kinds = [kind for kind, _ in ORDERED] + [types.Json(list), types.OwnType("Own", int, str, str)]
        told: List[str] = []
        for kind in kinds:
            for value in long:
                for work in (to_stored,) if isinstance(value, list) else (to_stored, from_stored):
                    try:
                        work(kind, value, "Loan.due")
                    except WrongValue as fault:
                        told.append(str(fault))
        self.assertGreater(len(told), 60)
        self.assertLess(max(map(len, told)), 1_000)
        with self.assertRaises(WrongValue) as raised:
            to_stored(types.Iso(date), "a" * 59_999 + "z", "Loan.due")
        self.assertRegex(
            str(raised.exception), r"^Loan.due is a date, and 'aa+ \.\. \(60,000 characters\) \.\. aa+z' "
        )
        with self.assertRaises(WrongValue) as raised:
            to_stored(types.Iso(date), "a" * 150, "Loan.due")
        self.assertIn(f"and '{'a' * 150}' ", str(raised.exception))

    def test_the_ends_of_money(self) -> None:
        kind = types.Money(2)
        for stored in (2**63 - 1, -(2**63)):
            self.assertEqual(kind.to_stored(kind.from_stored(stored)), stored)
        self.assertEqual(kind.to_stored(Decimal("-0.00")), 0)

    def test_what_json_was_read_takes_no_change_in_place(self) -> None:
        read = types.Json(dict).from_stored('{"a":[1]}')
        changes: List[Callable[[], Any]] = [
            lambda: read.update(b=1), lambda: read["a"].append(2), lambda: read.pop("a"),
            lambda: read["a"].sort(), lambda: read.setdefault("b", 1),
        ]
        for change in changes:
            with self.assertRaisesRegex(TypeError, "assign a new (list|dict) to the attribute"):
                change()
        self.assertEqual(read, {"a": [1]})
