"""Trials of `--query TEXT --language wide` with CASE (chapter 4.7.4 of Jakarta Persistence), of tests and of a
value, in each clause, and of the values that docs/QUERIES.md works out. Which rows there must be sqlite3 says, or
Python by its own arithmetic."""
from __future__ import annotations

import json, os, re, sqlite3
from contextlib import closing
from typing import Any, Iterator, Optional

from asking import Asking
from runs import HERE
from trials import see
from wide import WIDE, lines_of
from wide_rows import NAMES, ORDERS, WORD, asks, store_of

AMOUNTS: list[Optional[int]] = [None, 0, 1, 1, 3, None, 2, 7, -4]
# CASEs of an order `o`, which sqlite3 reads as well.
VALUES = [
    "CASE WHEN o.amount > 1 THEN 'much' ELSE 'little' END",
    "CASE WHEN o.amount >= 1 THEN 1 WHEN o.amount >= 2 THEN 2 ELSE 3 END",
    "CASE WHEN o.amount >= 2 THEN 2 WHEN o.amount >= 1 THEN 1 ELSE o.amount END",
    "CASE WHEN o.amount = o.number THEN o.number WHEN o.amount < o.number THEN o.amount ELSE -1 END",
    "CASE WHEN o.amount <> 1 THEN NULLIF(1, 1) ELSE o.number END",
    "CASE WHEN o.amount IS NULL THEN 0 ELSE o.amount END + 1",
    "CASE WHEN o.amount IS NOT NULL THEN o.amount ELSE COALESCE(o.amount, o.number) END",
    "CASE WHEN o.amount BETWEEN 1 AND 3 THEN 'in' WHEN o.amount NOT BETWEEN 0 AND 5 THEN 'out' ELSE 'at' END",
    "CASE WHEN o.amount BETWEEN NULLIF(1, 1) AND 0 THEN 'low' WHEN o.amount BETWEEN 2 AND NULLIF(1, 1) THEN 'x' ELSE 'y' END",
    "CASE WHEN o.amount IN (0, o.number, 7) THEN 'in' WHEN o.amount NOT IN (1, NULLIF(1, 1)) THEN 'out' ELSE 'y' END",
    "CASE WHEN NOT o.amount = 1 THEN 'a' WHEN NOT (NOT o.amount = 1) THEN 'x' ELSE 'b' END",
    "CASE WHEN o.amount > 0 AND o.number < 5 OR o.amount IS NULL THEN 'a' ELSE 'b' END",
    "CASE WHEN o.amount > 0 AND (o.number < 5 OR o.amount IS NULL) THEN 'a' ELSE 'b' END",
    "CASE WHEN NOT (o.amount > 0 OR o.number < 3) THEN 'a' WHEN (o.amount) > (1) THEN 'b' ELSE 'c' END",
    "CASE WHEN CONCAT('a', 'b') LIKE 'a_' THEN 'like' ELSE 'no' END",
    "CASE WHEN 'a!b' LIKE 'a!b' THEN 1 ELSE 0 END",
    "CASE WHEN 'a!b' LIKE 'a!b' ESCAPE '!' THEN 1 ELSE 0 END",
    "CASE WHEN 'Ada' NOT LIKE NULLIF('a', 'a') THEN 1 ELSE 0 END",
    "CASE o.amount WHEN 1 THEN 'one' WHEN 3 THEN 'three' ELSE 'other' END",
    "CASE o.amount WHEN NULLIF(1, 1) THEN 'null' WHEN o.number THEN 'number' WHEN 1 THEN 'one' ELSE 'other' END",
    "CASE NULLIF(1, 1) WHEN NULLIF(1, 1) THEN 'null' ELSE 'other' END",
    "CASE o.amount + 1 WHEN 1 THEN o.number WHEN 1 THEN -1 ELSE NULLIF(1, 1) END",
    "CASE CASE WHEN o.amount > 1 THEN 'a' ELSE 'b' END WHEN 'a' THEN 1 ELSE 2 END",
    "CASE WHEN CASE o.amount WHEN 1 THEN 2 ELSE o.amount END = 2 THEN CASE WHEN o.number > 3 THEN 'x' ELSE 'y' END ELSE 'z' END",
    "(CASE WHEN o.number > 4 THEN o.number ELSE 0 END) * 2 - CASE WHEN o.amount > 0 THEN 1 ELSE 0 END",
    "- CASE WHEN o.number > 4 THEN o.number ELSE 0 END",
    "LENGTH(CASE WHEN o.amount > 1 THEN 'much' ELSE 'little' END)",
    "COALESCE(CASE WHEN o.amount > 1 THEN NULLIF(1, 1) ELSE o.number END, 99)",
]
PARTS = {
    "SELECT": "SELECT o.number, {} FROM Order o ORDER BY o.number",
    "ORDER BY": "SELECT o.number FROM Order o ORDER BY {}, o.number",
    "ORDER BY DESC": "SELECT o.number FROM Order o ORDER BY {} DESC, o.number DESC",
    "WHERE": "SELECT o.number FROM Order o WHERE {} IS NOT NULL AND o.number > 1 ORDER BY o.number",
    "=": "SELECT o.number, p.number FROM Order o, Order p WHERE {} = COALESCE(NULLIF({}, 'x'), {}) AND p.number = 1 ORDER BY o.number",
    "WHEN": "SELECT o.number FROM Order o WHERE CASE WHEN {} IS NULL THEN 1 ELSE 0 END = 1 ORDER BY o.number",
    "aggregates": "SELECT COUNT({}), MAX({}), COUNT(DISTINCT {}) FROM Order o",
}


def worked() -> Iterator[tuple[str, str]]:
    """The values of docs/QUERIES.md with what they are of the orders there."""
    with open(os.path.join(HERE, "..", "docs", "QUERIES.md"), encoding="utf-8") as file:
        section = file.read().partition("\n**CASE** ")[2].partition("\n**ORDER BY** ")[0]
    yield from re.findall(r"^\| `(.+?)` \| `(.+)` \|$", section, re.MULTILINE)


def paper(ask: Asking) -> None:
    """The values of docs/QUERIES.md are what it says, or are refused so."""
    ask.filled(store_of(ORDERS))
    count = 0
    for value, wanted in worked():
        text, count = f"SELECT {value} FROM Order o ORDER BY o.number", count + 1
        if WORD.fullmatch(wanted):
            ask.refuses([text, *WIDE], wanted)
            ask.refuses([text], "IllegalArgument(syntax)")
        else:
            asks(ask, text, json.loads(wanted))
    see(count > 12, True, "worked values of CASE")


def of_sqlite(amounts: list[Optional[int]]) -> sqlite3.Connection:
    """A table of orders, numbered from 1, in sqlite3."""
    store = sqlite3.connect(":memory:")
    store.execute("PRAGMA case_sensitive_like = ON")
    store.execute('CREATE TABLE "Order" (number, amount)')
    store.executemany('INSERT INTO "Order" VALUES (?, ?)', enumerate(amounts, 1))
    return store


def sql(text: str) -> str:
    """A text as sqlite3 reads it: its CONCAT is `||`."""
    text = re.sub(r"CONCAT\(('\w+'), ('\w+')\)", r"(\1 || \2)", text)
    return re.sub(r"\bOrder\b", '"Order"', text)


def each_clause(ask: Asking) -> None:
    """Each value in each clause gives what sqlite3 says."""
    ask.filled(store_of([(at, amount, None) for at, amount in enumerate(AMOUNTS, 1)]))
    with closing(of_sqlite(AMOUNTS)) as store:
        for value in VALUES:
            for clause, part in PARTS.items():
                if "o." not in value and clause.startswith("ORDER"):
                    ask.refuses([part.replace("{}", value), *WIDE], "IllegalArgument(typing)")
                    continue
                kinds = {type(row[0]) for row in store.execute(sql(f"SELECT {value} FROM Order o"))}
                text = part.replace("'x'", "'x'" if str in kinds else "77").replace("{}", value)
                rows = [list(row) if len(row) > 1 else row[0] for row in store.execute(sql(text))]
                ask.answers([text, *WIDE], lines_of(rows))
                ask.refuses([text], "IllegalArgument(syntax)")


def groups(ask: Asking) -> None:
    """CASE beside groups and joins, with aggregates in it, and in ON and HAVING."""
    ask.filled(store_of(ORDERS))
    asks(ask, "SELECT CASE WHEN COUNT(o) > 1 THEN 'some' ELSE 'one' END, p.id FROM Order o JOIN o.person p GROUP BY p.id",
         [["some", 1], ["one", 2]])
    asks(ask, "SELECT SUM(CASE WHEN o.amount > 5 THEN 1 ELSE 0 END), COUNT(o) FROM Order o", [[2, 4]])
    asks(ask, "SELECT p.id FROM Person p JOIN p.orders o GROUP BY p.id HAVING CASE COUNT(o) WHEN 2 THEN 1 ELSE 0 END = 1", [1])
    asks(ask, "SELECT p.id, o.number FROM Person p LEFT JOIN p.orders o ON CASE WHEN o.amount > 5 THEN 1 ELSE 0 END = 1",
         [[1, 11], [2, 13], [3, None]])
    asks(ask, "SELECT p.id FROM Person p ORDER BY CASE p.name WHEN 'Bob' THEN 1 ELSE 2 END, p.id", [3, 1, 2])
    asks(ask, "SELECT p.id FROM Person p WHERE EXISTS (SELECT o FROM p.orders o WHERE CASE WHEN o.amount = 5 THEN 1 ELSE 0 END = 1)",
         [1])
    asks(ask, "SELECT o.number FROM Order o WHERE CASE o.person WHEN :p THEN 1 ELSE 0 END = 0", [10, 11, 12, 13],
         "--param", "p=null")
    asks(ask, "SELECT o.number FROM Order o WHERE CASE WHEN o.amount IN (:a, :b) THEN 1 ELSE :c END = 1", [10], "--param", "a=5",
         "--param", "b=null", "--param", "c=null")
    # A null link in a part leaves the row out, whichever is chosen.
    asks(ask, "SELECT o.number FROM Order o WHERE CASE WHEN o.number > 0 THEN 'x' ELSE o.person.name END = 'x'", [10, 11, 13])
    # The orders of persons are equated beside a CASE.
    asks(ask, "SELECT p.id, o.number FROM Person p, Order o WHERE o.person = p AND CASE WHEN p.id > 1 THEN 1 ELSE 0 END = 1",
         [[2, 13]])


def refused(ask: Asking) -> None:
    """What is no CASE, what is ill typed, and Overflow of what isn't chosen."""
    ask.filled(store_of(ORDERS))
    for value, name in [
        ("CASE WHEN o.amount > 1 THEN 1 END", "IllegalArgument(syntax)"),
        ("CASE ELSE 1 END", "IllegalArgument(syntax)"),
        ("CASE o.amount ELSE 1 END", "IllegalArgument(syntax)"),
        ("CASE WHEN o.amount > 1 THEN 1 ELSE 2", "IllegalArgument(syntax)"),
        ("CASE WHEN o.amount > 1 1 ELSE 2 END", "IllegalArgument(syntax)"),
        ("CASE WHEN o.amount THEN 1 ELSE 2 END", "IllegalArgument(syntax)"),
        ("CASE o.amount WHEN o.amount > 1 THEN 1 ELSE 2 END", "IllegalArgument(syntax)"),
        ("CASE WHEN o.amount > 1 THEN NULL ELSE 2 END", "IllegalArgument(syntax)"),
        ("CASE WHEN o.amount > 1 THEN o.amount > 2 ELSE 2 END", "IllegalArgument(syntax)"),
        ("CASE WHEN NOT NOT o.amount > 1 THEN 1 ELSE 2 END", "IllegalArgument(syntax)"),
        ("CASE WHEN EXISTS (SELECT p FROM Person p) THEN 1 ELSE 2 END", "IllegalArgument(syntax)"),
        ("CASE WHEN o.amount = ANY (SELECT p.id FROM Person p) THEN 1 ELSE 2 END", "IllegalArgument(syntax)"),
        ("CASE WHEN o.amount IN (SELECT p.id FROM Person p) THEN 1 ELSE 2 END", "IllegalArgument(syntax)"),
        ("CASE WHEN TYPE(o) = Order THEN 1 ELSE 2 END", "IllegalArgument(syntax)"),
        ("CASE WHEN o MEMBER OF o.person.orders THEN 1 ELSE 2 END", "IllegalArgument(syntax)"),
        ("CASE WHEN o.person.orders IS EMPTY THEN 1 ELSE 2 END", "IllegalArgument(syntax)"),
        ("CASE WHEN o.amount IN () THEN 1 ELSE 2 END", "IllegalArgument(syntax)"),
        ("CASE WHEN o.amount > 1 THEN 1 ELSE 'b' END", "IllegalArgument(typing)"),
        ("CASE WHEN o.amount > 1 THEN 'a' WHEN o.amount > 2 THEN 1 ELSE 'b' END", "IllegalArgument(typing)"),
        ("CASE WHEN o.amount > 1 THEN o.person ELSE o.person END", "IllegalArgument(typing)"),
        ("CASE WHEN o.amount > 'a' THEN 1 ELSE 2 END", "IllegalArgument(typing)"),
        ("CASE WHEN o.person > o.person THEN 1 ELSE 2 END", "IllegalArgument(typing)"),
        ("CASE WHEN o.person BETWEEN o.person AND o.person THEN 1 ELSE 2 END", "IllegalArgument(typing)"),
        ("CASE WHEN o.amount IN (1, 'a') THEN 1 ELSE 2 END", "IllegalArgument(typing)"),
        ("CASE WHEN o.amount LIKE 'a' THEN 1 ELSE 2 END", "IllegalArgument(typing)"),
        ("CASE WHEN o.nothing IS NULL THEN 1 ELSE 2 END", "IllegalArgument(typing)"),
        ("CASE o.amount WHEN 'a' THEN 1 ELSE 2 END", "IllegalArgument(typing)"),
        ("CASE o.amount WHEN 1 THEN 1 WHEN 'a' THEN 2 ELSE 3 END", "IllegalArgument(typing)"),
        ("CASE o.person WHEN 1 THEN 1 ELSE 2 END", "IllegalArgument(typing)"),
        ("CASE WHEN o.number > 0 THEN 1 ELSE 9223372036854775807 + o.number END", "Overflow"),
        ("CASE WHEN o.number > 0 THEN 1 WHEN 9223372036854775807 + o.number > 0 THEN 2 ELSE 3 END", "Overflow"),
        ("CASE o.number WHEN 10 THEN 1 WHEN 9223372036854775807 + o.number THEN 2 ELSE 3 END", "Overflow"),
    ]:
        for text in (f"SELECT {value} FROM Order o", f"SELECT o.number FROM Order o WHERE {value} IS NULL"):
            ask.refuses([text, *WIDE], name)
            ask.refuses([text], "IllegalArgument(syntax)")


# Values with collections, which sqlite3 reads where they are written in parentheses, also without a value.
COLLECTED = [
    "CASE WHEN o.amount IN :p THEN 'in' ELSE 'out' END",
    "CASE WHEN o.amount IN (:p) THEN o.number WHEN o.amount NOT IN (:q) THEN -o.number ELSE 0 END",
    "CASE WHEN NOT o.amount IN :p THEN 'a' WHEN NOT (o.amount NOT IN :p) THEN 'b' ELSE 'c' END",
    "CASE WHEN o.amount NOT IN :p AND (o.number IN (:q) OR o.amount IS NULL) THEN 1 ELSE 0 END",
    "CASE WHEN (o.amount + 1 IN :p) THEN 'a' WHEN (o.amount) IN (:q) OR o.number IN (1, 2) THEN 'b' ELSE 'c' END",
    "CASE CASE WHEN o.number IN :q THEN 1 ELSE 0 END WHEN 1 THEN 'a' ELSE CASE WHEN o.amount IN :p THEN 'b' ELSE 'c' END END",
    "COALESCE(CASE WHEN NULLIF(1, 1) NOT IN :p THEN o.number ELSE NULLIF(1, 1) END, 99)",
]
COLLECTIONS: list[list[Optional[int]]] = [[], [1], [1, 3, 7], [None], [2, None, 1], [1, 1, 1]]


def given(**values: Any) -> list[str]:
    """The words that hand values in for parameters."""
    return [word for name, value in values.items() for word in ("--param", f"{name}={json.dumps(value)}")]


def written(values: list[Optional[int]]) -> str:
    return f"({', '.join('NULL' if value is None else str(value) for value in values)})"


def collections(ask: Asking) -> None:
    """A collection behind IN in a CASE means its values in parentheses, as in WHERE; an empty one has none."""
    ask.filled(store_of([(at, amount, None) for at, amount in enumerate(AMOUNTS, 1)]))
    with closing(of_sqlite(AMOUNTS)) as store:
        for value in COLLECTED:
            for p in COLLECTIONS:
                for q in COLLECTIONS[:3] if ":q" in value else COLLECTIONS[:1]:
                    sets = {name: it for name, it in (("p", p), ("q", q)) if f":{name}" in value}
                    said = re.sub(r"\(:(\w)\)|:(\w)", lambda found: written(sets[found[1] or found[2]]), value)
                    for clause in ("SELECT", "WHERE", "ORDER BY DESC"):
                        found = store.execute(sql(PARTS[clause].replace("{}", said)))
                        rows = [list(row) if len(row) > 1 else row[0] for row in found]
                        ask.answers([PARTS[clause].replace("{}", value), *given(**sets), *WIDE], lines_of(rows))


def worked_collections(ask: Asking) -> None:
    """Those of docs/QUERIES.md, and collections in each clause, of texts too."""
    ask.filled(store_of(ORDERS))

    def gives(text: str, rows: list[Any], **params: Any) -> None:
        ask.answers([text, *given(**params), *WIDE], lines_of(rows))

    with open(os.path.join(HERE, "..", "docs", "QUERIES.md"), encoding="utf-8") as file:
        said = file.read().partition("\nA collection stands behind IN there")[2].partition("\n\n")[0]
    see(re.findall(r"\[[12, ]+\]", said), ["[1, 2, 2, 2]", "[2, 1, 2, 1]", "[2, 2, 2, 2]", "[1, 1, 1, 1]"], "the paper's values")
    for value, some, none in [
        ("CASE WHEN o.amount IN :p THEN 1 ELSE 2 END", [1, 2, 2, 2], [2, 2, 2, 2]),
        ("CASE WHEN o.amount NOT IN (:p) THEN 1 ELSE 2 END", [2, 1, 2, 1], [1, 1, 1, 1]),
    ]:
        see(f"`{value}`" in said, True, value)
        gives(f"SELECT {value} FROM Order o ORDER BY o.number", some, p=[5])
        gives(f"SELECT {value} FROM Order o ORDER BY o.number", none, p=[])
    names = "SELECT p.id FROM Person p WHERE CASE WHEN p.name IN :p THEN 'in' ELSE 'out' END = "
    gives(f"{names}'in'", [1, 3], p=["Bob", "Ada", "x"])
    gives(f"{names}'out'", [2], p=["Bob", "Ada", "x"])
    gives("SELECT p.id, o.number FROM Person p LEFT JOIN p.orders o ON CASE WHEN o.amount IN :p THEN 1 ELSE 0 END = 1",
          [[1, 10], [2, None], [3, None]], p=[5, 6])
    gives("SELECT p.id FROM Person p JOIN p.orders o GROUP BY p.id HAVING CASE WHEN COUNT(o) IN :p THEN 1 ELSE 0 END = 1", [1],
          p=[2, 3])
    gives("SELECT SUM(CASE WHEN o.amount IN :p THEN 1 ELSE 0 END) FROM Order o WHERE o.amount IN :p OR o.number NOT IN (:p)", [2],
          p=[7])
    gives("SELECT p.id FROM Person p WHERE EXISTS (SELECT o FROM p.orders o WHERE CASE WHEN o.number IN :p THEN 1 ELSE 0 END = 1)",
          [2], p=[13, 12])
    # One value in parentheses is a value there.
    gives("SELECT o.number FROM Order o WHERE CASE WHEN o.amount IN (:p) THEN 1 ELSE 0 END = 1", [10], p=5)


def refused_collections(ask: Asking) -> None:
    """A collection stands behind IN alone there too, is typed as its values, and counts where it stands."""
    ask.filled(store_of(ORDERS))
    inside = "CASE WHEN o.amount IN :p THEN 1 ELSE 0 END"
    for value, handed, name in [
        ("CASE WHEN o.amount IN (:p, 3) THEN 1 ELSE 0 END", [1], "IllegalArgument(parameter)"),
        ("CASE WHEN o.amount = :p THEN 1 ELSE 0 END", [1], "IllegalArgument(parameter)"),
        ("CASE WHEN :p IN (1) THEN 1 ELSE 0 END", [1], "IllegalArgument(parameter)"),
        ("CASE o.amount WHEN :p THEN 1 ELSE 0 END", [1], "IllegalArgument(parameter)"),
        ("CASE WHEN o.amount IN (1) THEN :p ELSE 0 END", [], "IllegalArgument(parameter)"),
        (f"{inside} + :p", [1], "IllegalArgument(parameter)"),
        (inside, ["a"], "IllegalArgument(typing)"),
        (inside, [1, "a"], "IllegalArgument(typing)"),
        (inside, 1, "IllegalArgument(syntax)"),
        (inside, [1] * 4097, "Limit"),
        (" + ".join([inside] * 17), [1] * 4096, "Limit"),
        ("CASE WHEN o.amount IN (SELECT p.id FROM Person p WHERE p.id IN :p) THEN 1 ELSE 0 END", [1], "IllegalArgument(syntax)"),
    ]:
        for text in (f"SELECT {value} FROM Order o", f"SELECT o.number FROM Order o WHERE {value} = 1"):
            ask.refuses([text, *given(p=handed), *WIDE], name)
    most = f"SELECT {' + '.join([inside] * 16)} FROM Order o ORDER BY o.number"
    ask.answers([most, *given(p=[7] * 4096), *WIDE], lines_of([0, 16, 0, 16]))


def nested(count: int) -> str:
    """A SELECT of so many CASEs within one another, which gives 1."""
    return "SELECT " + "CASE WHEN 1 = 1 THEN " * count + "1" + " ELSE 2 END" * count + " FROM Order o WHERE o.number = 10"


def limits(ask: Asking) -> None:
    """64 words CASE are read, nested or not, and no more; many WHENs are."""
    ask.filled(store_of(ORDERS))
    asks(ask, nested(64), [1])
    ask.refuses([nested(65), *WIDE], "Limit")
    beside = " + ".join(["CASE o.number WHEN 10 THEN 1 ELSE 0 END"] * 64)
    asks(ask, f"SELECT {beside} FROM Order o ORDER BY o.number", [64, 0, 0, 0])
    ask.refuses([f"SELECT {beside} + CASE o.number WHEN 10 THEN 1 ELSE 0 END FROM Order o", *WIDE], "Limit")
    whens = " ".join(f"WHEN {at} THEN {-at}" for at in range(500, 9, -1))
    asks(ask, f"SELECT CASE o.number {whens} ELSE 0 END FROM Order o ORDER BY o.number", [-10, -11, -12, -13])


TRIALS = [paper, each_clause, groups, refused, collections, worked_collections, refused_collections, limits]
