"""Modules of classes at random, with every feature that classes have."""

from __future__ import annotations

import random
from datetime import date, datetime, time, timedelta, timezone
from decimal import Decimal
from types import ModuleType
from typing import Any, Callable, Dict, List, NamedTuple, Optional, Tuple
from uuid import UUID

HEAD = """
class State(Enum):
    OPEN = 1
    SHUT = 2

class Rank(Enum):
    LOW = 1
    HIGH = 10

class Point:
    def __init__(self, x: int, y: int) -> None:
        self.x, self.y = x, y
    def __eq__(self, other: object) -> bool:
        return isinstance(other, Point) and (self.x, self.y) == (other.x, other.y)

def said(it: Point) -> str:
    return f"{it.x},{it.y}"

def point(it: str) -> Point:
    return Point(*map(int, it.split(",")))

class Span(Embedded):
    begun: date
    ended: date | None = None

class Spot(Embedded):
    at: Point = typed(said, point)
    rank: Rank = by_value()
    span: Span | None = None

class Place(Embedded):
    row: int
    day: date

class Noted:
    noted: str = "no"
    heard: int = field(default=0, init=False)

    @validates("noted")
    def _shout(self, value: str) -> str:
        return value.upper()

    def pre_persist(self) -> None:
        self.heard += 1

class Base(Entity, abstract=True):
    id: int = generated()
    version: int = version()
    made: date = date(2026, 1, 1)
"""
Make = Callable[[random.Random, ModuleType], Any]
TEXT: Make = lambda r, m: r.choice(["", "é'\"\n", "a" * 99, "\U0001f600"])
DATE: Make = lambda r, m: date.fromordinal(r.randint(1, date.max.toordinal()))
# An annotation, the word that it needs, and values of it.
KINDS: List[Tuple[str, str, Make]] = [
    ("int", "", lambda r, m: r.randint(-(2**63), 2**63 - 1)),
    ("str", "", TEXT),
    ("str", "field:index=True", TEXT),
    ("bytes", "", lambda r, m: r.randbytes(r.randrange(20))),
    ("bool", "", lambda r, m: r.random() < 0.5),
    ("date", "", DATE),
    ("time", "", lambda r, m: time(r.randrange(24), 5, 0, r.randrange(10**6))),
    ("datetime", "", lambda r, m: datetime(
        r.randint(2, 9998), 1, 1, 1, tzinfo=timezone(timedelta(minutes=r.randint(-99, 99))))),
    ("datetime", "naive", lambda r, m: datetime(r.randint(1, 9999), 12, 31, 23, 59, 59, 999_999)),
    ("timedelta", "", lambda r, m: timedelta(microseconds=r.randint(-(2**60), 2**60))),
    ("Decimal", "money:3", lambda r, m: Decimal(r.randint(-(10**9), 10**9)).scaleb(-3)),
    ("State", "", lambda r, m: r.choice(list(m.State))),
    ("Rank", "by_value", lambda r, m: r.choice(list(m.Rank))),
    ("UUID", "", lambda r, m: UUID(int=r.getrandbits(128))),
    ("list[int]", "json_text", lambda r, m: [r.randrange(9) for _ in range(3)]),
    ("dict[str, str]", "json_text", lambda r, m: {"a": "b", "c": str(r.random())}),
    ("Point", "typed:said, point", lambda r, m: m.Point(r.randrange(9), r.randrange(9))),
    ("UUID", "field:unique=True", lambda r, m: UUID(int=r.getrandbits(128))),
    ("Spot", "embedded", lambda r, m: m.Spot(
        at=m.Point(r.randrange(9), 1), rank=r.choice(list(m.Rank)),
        span=r.choice([None, m.Span(begun=date(2026, 1, r.randint(1, 31)))]))),
]


class KeyKind(NamedTuple):
    """A key: its lines in a class, the paths of its parts, and the n-th of its values."""

    lines: List[str]
    paths: Tuple[str, ...]
    make: Callable[[int, ModuleType], Dict[str, Any]]


GENERATED = KeyKind([], ("id",), lambda n, m: {})
KEYS = [
    KeyKind(["number: int = key()"], ("number",), lambda n, m: {"number": 999 - n}),
    KeyKind(["code: str = key(index=True)"], ("code",), lambda n, m: {"code": f"c{n}"}),
    KeyKind(["day: date = key()"], ("day",), lambda n, m: {"day": date(1999, 1, 1) + timedelta(n)}),
    KeyKind(["uid: UUID = key()"], ("uid",), lambda n, m: {"uid": UUID(int=n)}),
    KeyKind(["isbn: str = key()", "copy: int = key()"], ("isbn", "copy"),
            lambda n, m: {"isbn": f"i{n % 3}", "copy": n}),
    KeyKind(["at: Place = key()"], ("at.row", "at.day"),
            lambda n, m: {"at": m.Place(row=n, day=date(2026, 1, 1))}),
]


class Made:
    """A class at random: its lines, and what each of its attributes takes."""

    def __init__(
        self, r: random.Random, name: str, above: Optional[Made], roots: List[str]
    ) -> None:
        self.name, self._low = name, name.lower()
        self.root: str = above.root if above else name
        self.key: KeyKind = above.key if above else r.choice([GENERATED] * 6 + KEYS)
        self.values: Dict[str, Make] = dict(above.values) if above else {}
        self.optional: List[str] = list(above.optional) if above else []
        self.links: Dict[str, str] = dict(above.links) if above else {}
        self.pairs: List[str] = list(above.pairs) if above else []
        self.lists: Dict[str, str] = dict(above.lists) if above else {}
        self.inverse: Dict[str, str] = dict(above.inverse) if above else {}
        self.backs: Dict[str, str] = dict(above.backs) if above else {}
        self.unique: List[Tuple[str, str]] = list(above.unique) if above else []
        lines = [] if above else self._beginning(r)
        lines += self._attributes(r) + self._relations(r, roots)
        bases = above.name if above else self._bases(r)
        if r.random() < 0.25:
            lines += self._unique_together()
            bases += f", unique={self.unique[-1]}"
        body = [f"    {line}" for line in lines or ["pass"]]
        self.text = "\n".join([f"class {name}({bases}):", *body])

    def _beginning(self, r: random.Random) -> List[str]:
        if self.key is GENERATED:
            self.values["made"] = DATE
            return []
        return self.key.lines + (["version: int = version()"] if r.random() < 0.5 else [])

    def _bases(self, r: random.Random) -> str:
        base = "Base" if self.key is GENERATED else "Entity"
        if r.random() < 0.3:
            self.values["noted"] = TEXT
            return f"Noted, {base}"
        return base

    def _attributes(self, r: random.Random) -> List[str]:
        lines: List[str] = []
        for place in range(r.randrange(6)):
            kind, word, make_value = r.choice(KINDS)
            attribute, may_be_none = f"{self._low}_{place}", r.random() < 0.4
            call, _, arguments = word.partition(":")
            default = "default=None" if may_be_none else ""
            told = ", ".join(filter(None, [arguments, default]))
            value = f" = {call}({told})" if call else " = None" if may_be_none else ""
            lines.append(f"{attribute}: {kind}{' | None' if may_be_none else ''}{value}")
            self.values[attribute] = make_value
            self.optional += [attribute] if may_be_none else []
        return lines

    def _unique_together(self) -> List[str]:
        one, other = f"{self._low}_one", f"{self._low}_other"
        self.values[one] = lambda r, m: r.choice(list(m.State))
        self.values[other] = lambda r, m: Decimal(r.getrandbits(50)).scaleb(-2)
        self.unique.append((one, other))
        return [f"{one}: State", f"{other}: Decimal = money(2)"]

    def _relations(self, r: random.Random, roots: List[str]) -> List[str]:
        name, low, lines = self.name, self._low, []
        some = r.choice([*roots, self.root])
        if r.random() < 0.5:
            self.links[f"{low}_to"] = some
            cascade = r.choice(["", ", cascade='persist'", ", cascade=('merge', 'refresh')"])
            lines.append(f"{low}_to: '{some} | None' = many_to_one(default=None{cascade})")
        if r.random() < 0.3:
            self.lists[f"{low}_all"] = some
            lines.append(f"{low}_all: list['{some}'] = many_to_many()")
        if r.random() < 0.3:
            self.links[f"{low}_up"], self.inverse[f"{low}_down"] = name, f"{low}_up"
            lines.append(f"{low}_up: Optional['{name}'] = many_to_one(default=None)")
            lines.append(f"{low}_down: list['{name}'] = one_to_many('{low}_up')")
        if r.random() < 0.3:
            self.lists[f"{low}_have"], self.inverse[f"{low}_of"] = name, f"{low}_have"
            lines.append(f"{low}_have: list['{name}'] = many_to_many()")
            lines.append(f"{low}_of: list['{name}'] = many_to_many('{low}_have')")
        if r.random() < 0.3:
            self.pairs.append(f"{low}_with")
            self.backs[f"{low}_held"] = f"{low}_with"
            lines.append(f"{low}_with: Optional['{name}'] = one_to_one(default=None)")
            lines.append(f"{low}_held: Optional['{name}'] = one_to_one('{low}_with')")
        return lines


def written(seed: int, size: int) -> Tuple[str, List[Made]]:
    """The text of a module of so many classes, and these."""
    r = random.Random(seed)
    made: List[Made] = []
    for number in range(size):
        tops = [each for each in made if each.root == each.name]
        above = r.choice(tops) if tops and r.random() < 0.3 else None
        made.append(Made(r, f"E{number}", above, [each.name for each in tops]))
    return "\n\n".join([HEAD, *(each.text for each in made)]) + "\n", made
