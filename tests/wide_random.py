"""Random questions in the wider language: values of UPPER, LOWER, TRIM and CONCAT as items, in conditions
and among what is ordered, over random rows. Each answer is Python's own.
"""
from __future__ import annotations

import json, random
from typing import Any, Callable, NamedTuple, Optional

from asking import Asking
from wide import WIDE, Wide, lines_of, notes, of_text, quoted, trimmed

Row = dict[str, Any]
LETTERS = [
    *"abAB xx''", "ß", "é", "É", "Σ", "σ", "ς", "Ο", "ǆ", "ŉ", "ﬁ", "İ", "ı", "𐐀", "𐐨", "\u0301", "ᾳ", "ა", "Ა",
]


class Said(NamedTuple):
    """A value as it is written, and what it is for a row."""

    text: str
    of: Callable[[Row], Optional[str]]


def member(name: str) -> Said:
    def of(row: Row) -> Optional[str]:
        found: Optional[str] = row[name]
        return found

    return Said(f"n.{name}", of)


class Random:
    """Random rows and questions of them."""

    def __init__(self, seed: str) -> None:
        self.random = random.Random(seed)
        self.params: dict[str, Optional[str]] = {}

    def word(self) -> str:
        return "".join(self.random.choice(LETTERS) for _ in range(self.random.choice([0, 1, 1, 2, 3, 5, 8])))

    def word_or_null(self) -> Optional[str]:
        return self.word() if self.random.random() < 0.9 else None

    def constant(self) -> Said:
        """A text, or a parameter that stands for one or for null."""
        word: Optional[str] = self.word()
        if self.random.random() < 0.6:
            return Said(quoted(word or ""), lambda row: word)
        word = None if self.random.random() < 0.2 else word
        name = f"p{len(self.params)}"
        self.params[name] = word
        return Said(f":{name}", lambda row: word)

    def value(self, depth: int) -> Said:
        if depth == 0:
            name = self.random.choice(["t", "u"])
            return self.constant() if self.random.random() < 0.2 else member(name)
        of, kind = self.value(depth - 1), self.random.choice(["UPPER", "LOWER", "TRIM", "TRIM", "TRIM", "CONCAT"])
        if kind == "CONCAT":
            other = self.value(0)
            return Said(f"CONCAT({of.text}, {other.text})", lambda row: joined(of.of(row), other.of(row)))
        if kind == "TRIM":
            return self.trim(of)
        mapped = str.upper if kind == "UPPER" else str.lower
        return Said(f"{kind}({of.text})", lambda row: of_text(mapped, of.of(row)))

    def trim(self, of: Said) -> Said:
        side = self.random.choice(["LEADING", "TRAILING", "BOTH", ""])
        off = self.constant() if self.random.random() < 0.7 else None
        said = " ".join([word for word in (side, off.text if off else "") if word])
        begun = f"{said} FROM " if said else ""

        def found(row: Row) -> Optional[str]:
            text, taken = of.of(row), off.of(row) if off else " "
            return None if text is None or taken is None else trimmed(side or "BOTH", taken, text)

        return Said(f"TRIM({begun}{of.text})", found)

    def options(self) -> list[str]:
        return [word for name, value in self.params.items()
                for word in ("--param", f"{name}={json.dumps(value, ensure_ascii=False)}")]


def joined(first: Optional[str], second: Optional[str]) -> Optional[str]:
    return None if first is None or second is None else first + second


def random_questions(ask: Asking) -> None:
    """240 questions over random rows: items, conditions and what is ordered."""
    rows_of = Random("rows")
    texts = [(rows_of.word_or_null(), rows_of.word_or_null()) for _ in range(40)]
    rows = [{"id": at, "t": t, "u": u} for at, (t, u) in enumerate(texts, 1)]
    asked = Wide(ask, notes(texts))
    for seed in range(240):
        chance = Random(f"question {seed}")
        item, left, right = chance.value(2), chance.value(1), chance.value(chance.random.choice([0, 1]))
        op, holds = chance.random.choice([
            ("=", str.__eq__), ("<>", str.__ne__), ("<", str.__lt__), (">=", str.__ge__),
        ])
        if "(" not in left.text + item.text:
            continue
        kept = []
        for row in rows:
            a, b = left.of(row), right.of(row)
            if a is not None and b is not None and holds(a, b):
                kept.append([item.of(row), row["id"]])
        kept.sort(key=lambda row: (row[0] is not None, row[0] or "", row[1]))
        text = f"SELECT {item.text} AS s, n.id FROM Note n WHERE {left.text} {op} {right.text} ORDER BY s, n.id"
        ask.answers([text, *chance.options(), *WIDE], lines_of(kept), *asked.words)
        if seed % 8 == 0:
            ask.refuses([text, *chance.options()], "IllegalArgument(syntax)", *asked.words)
