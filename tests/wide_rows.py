"""Trials of `--query TEXT --language wide` with values beside the rows of nested SELECTs (chapters 4.6.9, 4.6.15
and 4.6.16 of Jakarta Persistence), and of the values that docs/QUERIES.md works out. Which rows there must be is
what Python's `any` and `all` say, with None for what is unknown."""
from __future__ import annotations

import json, operator, os, re
from typing import Any, Callable, Iterator, Optional

from asking import Asking, made, stored
from runs import HERE
from trials import see
from wide import PROFILE, WIDE, lines_of

Number, Truth = Optional[int], Optional[bool]
# The persons and orders of docs/QUERIES.md: each person's name, and each order's number, amount and person.
NAMES: list[Optional[str]] = ["Ada", None, "Bob"]
ORDERS: list[tuple[int, Number, Number]] = [(10, 5, 1), (11, 7, 1), (12, None, None), (13, 7, 2)]
AMOUNTS: list[Number] = [None, 0, 1, 1, 3, None, 2]
COMPARISONS: dict[str, Callable[[int, int], bool]] = {
    "=": operator.eq, "<>": operator.ne, "<": operator.lt, "<=": operator.le, ">": operator.gt, ">=": operator.ge,
}
WORD = re.compile(r"(Overflow|Limit|IllegalArgument\(\w+\))")


def store_of(orders: list[tuple[int, Number, Number]]) -> bytes:
    """The lines that store the persons with these orders."""
    persons = [made("Person", at, **({"name": name} if name else {})) for at, name in enumerate(NAMES, 1)]
    made_orders = []
    for at, (number, amount, person) in enumerate(orders, len(NAMES) + 1):
        link = {"person": {"object": person}} if person else {}
        made_orders.append(made("Order", at, number=number, amount=amount, **link))
    return stored([*persons, *made_orders])


def asks(ask: Asking, text: str, rows: list[Any], *params: str) -> None:
    """A text has these rows in the wider language, and is refused in the profile's."""
    ask.answers([text, *params, *WIDE], lines_of(rows))
    for said in PROFILE:
        ask.refuses([text, *params, *said], "IllegalArgument(syntax)")


def worked() -> Iterator[tuple[str, str]]:
    """The conditions of docs/QUERIES.md with what they find."""
    with open(os.path.join(HERE, "..", "docs", "QUERIES.md"), encoding="utf-8") as file:
        section = file.read().partition("\n**Rows beside a value.**")[2].partition("\nThey stand")[0]
    yield from re.findall(r"^\| `(.+?)` \| `(.+)` \|$", section, re.MULTILINE)


def paper(ask: Asking) -> None:
    """The conditions of docs/QUERIES.md find what it says, or are refused so."""
    ask.filled(store_of(ORDERS))
    count = 0
    for condition, wanted in worked():
        text, count = f"SELECT p.id FROM Person p WHERE {condition}", count + 1
        if WORD.fullmatch(wanted):
            ask.refuses([text, *WIDE], wanted)
            ask.refuses([text], "IllegalArgument(syntax)")
        else:
            asks(ask, text, json.loads(wanted))
    see(count > 15, True, "worked values of rows")


def both(truths: list[Truth], sign: bool) -> Truth:
    """Whether one of these is so, or, of `sign` False, whether all are; None where that is unknown."""
    return sign if sign in truths else None if None in truths else not sign


def compared(comparison: str, value: Number, other: Number) -> Truth:
    return None if value is None or other is None else COMPARISONS[comparison](value, other)


def every_comparison(ask: Asking) -> None:
    """Each comparison of each amount with ANY and ALL amounts of the orders below a number, with none of them too."""
    ask.filled(store_of([(at, amount, None) for at, amount in enumerate(AMOUNTS, 1)]))
    for comparison in COMPARISONS:
        for word, sign in (("ANY", True), ("SOME", True), ("ALL", False)):
            for most in (0, 1, 2, 5, len(AMOUNTS)):
                rows = "(SELECT x.amount FROM Order x WHERE x.number <= :most)"
                test = f"o.amount {comparison} {word} {rows}"
                truths = [both([compared(comparison, amount, other) for other in AMOUNTS[:most]], sign)
                          for amount in AMOUNTS]
                for text, truth in ((test, True), (f"NOT {test}", False)):
                    found = [at for at, each in enumerate(truths, 1) if each is truth]
                    ask.answers([f"SELECT o.number FROM Order o WHERE {text}", "--param", f"most={most}", *WIDE],
                                lines_of(found))


def aggregates(ask: Asking) -> None:
    """Each comparison with an aggregate of the amounts below a number, on either side."""
    ask.filled(store_of([(at, amount, None) for at, amount in enumerate(AMOUNTS, 1)]))
    for comparison in COMPARISONS:
        for most in (0, 1, 4, len(AMOUNTS)):
            values = [amount for amount in AMOUNTS[:most] if amount is not None]
            for call, value in (
                ("COUNT(x.amount)", len(values)), ("COUNT(DISTINCT x.amount)", len(set(values))), ("COUNT(x)", most),
                ("SUM(x.amount)", sum(values) if values else None), ("MAX(x.amount)", max(values, default=None)),
                ("SUM(DISTINCT x.amount)", sum(set(values)) if values else None), ("MIN(x.amount)", min(values, default=None)),
            ):
                scalar = f"(SELECT {call} FROM Order x WHERE x.number <= {most})"
                right = [at for at, amount in enumerate(AMOUNTS, 1) if compared(comparison, amount, value)]
                left = [at for at, amount in enumerate(AMOUNTS, 1) if compared(comparison, value, amount)]
                for test, found in ((f"o.amount {comparison} {scalar}", right), (f"{scalar} {comparison} o.amount", left)):
                    ask.answers([f"SELECT o.number FROM Order o WHERE {test}", *WIDE], lines_of(found))


def plans(ask: Asking) -> None:
    """A question with rows by a key reads them, and one with rows alone reads all."""
    ask.filled(store_of(ORDERS))
    asks(ask, "SELECT o.number FROM Order o WHERE o.number = 11 AND o.amount IN (SELECT x.amount FROM Order x)", [11])
    asks(ask, "SELECT o.number FROM Order o WHERE o.number IN (SELECT x.number FROM Order x WHERE x.amount = 7)", [11, 13])
    ask.refuses(["DELETE FROM Order o WHERE o.number IN (SELECT p.id FROM Person p)", *WIDE], "IllegalState(statement)")


TRIALS = [paper, every_comparison, aggregates, plans]
