"""Trials of `--query TEXT --language wide` with lists as parameters, which stand behind IN (chapter 4.6.9
of Jakarta Persistence). Which rows there must be is what the list says, by Python's own `in`."""
from __future__ import annotations

import json
from typing import Any

from asking import HINT, Asking
from wide import PROFILE, TEXTS, WIDE, Wide, lines_of

NUMBERS = list(range(1, len(TEXTS) + 1))
BEHIND_IN = "SELECT n.id FROM Note n WHERE n.id IN :p ORDER BY n.id"
NOT_BEHIND_IN = "SELECT n.id FROM Note n WHERE n.id NOT IN (:p) ORDER BY n.id"


def param(name: str, value: Any) -> list[str]:
    return ["--param", f"{name}={json.dumps(value, ensure_ascii=False)}"]


class Lists(Wide):
    """A store of notes that is asked with lists, which no word of the profile gives."""

    def answers(self, question: list[str], rows: list[Any]) -> None:
        self.ask.answers([*question, *WIDE], lines_of(rows), *self.words)


def lists(ask: Asking) -> None:
    """A list means its values in parentheses, with parentheses in the text or not, and may be empty."""
    asked = Lists(ask)
    for listed in ([1, 2], [7], [9, 3, 3, 12], [], NUMBERS):
        found = [number for number in NUMBERS if number in listed]
        others = [number for number in NUMBERS if number not in listed]
        for text, rows in ((BEHIND_IN, found), (NOT_BEHIND_IN, others)):
            asked.answers([text, *param("p", listed)], rows)
            asked.answers([text.replace(":p", "?1"), *param("1", listed)], rows)
    # With null among them IN is unknown where no other value is equal, and NOT IN is never true.
    asked.answers([BEHIND_IN, *param("p", [None, 4])], [4])
    asked.answers([NOT_BEHIND_IN, *param("p", [None, 4])], [])
    texts = ["straße", "", "ababa"]
    rows = [at for at, text in enumerate(TEXTS, 1) if text in texts]
    asked.answers(["SELECT n.id FROM Note n WHERE n.t IN :p ORDER BY n.id", *param("p", texts)], rows)
    scans = [{"hex": "00ff"}, {"hex": ""}]
    asked.answers(["SELECT n.id FROM Note n WHERE n.scan IN :p", *param("p", scans)], [])
    both = ["SELECT n.id FROM Note n WHERE n.id IN :p AND n.count IN (:q) AND n.id < :r ORDER BY n.id"]
    asked.answers([*both, *param("p", [1, 2, 3, 8]), *param("r", 8), *param("q", [2, 3, 8])], [2, 3])
    ask.answers([BEHIND_IN, *param("p", [5]), *WIDE, "--explain"], ["reads all rows of Note"], *asked.words)


def refused_lists(ask: Asking) -> None:
    """What the call `query` refuses is refused by the same names."""
    asked = Lists(ask)
    for text, params, name in [
        ("n.id IN :p", {"p": [1, "a"]}, "IllegalArgument(typing)"),
        ("n.t IN :p", {"p": [1]}, "IllegalArgument(typing)"),
        ("n.id = :p", {"p": [1]}, "IllegalArgument(parameter)"),
        ("n.id IN (:p, 3)", {"p": [1]}, "IllegalArgument(parameter)"),
        ("n.id IN (1)", {"p": [1]}, "IllegalArgument(parameter)"),
        ("n.id IN (1)", {"p": []}, "IllegalArgument(parameter)"),
        ("n.id IN :p", {"p": [1], "p,1": 2}, "IllegalArgument(parameter)"),
        ("n.id IN :p", {"p": [1], "q": []}, "IllegalArgument(parameter)"),
        ("n.id IN :p", {}, "IllegalArgument(syntax)"),
        ("n.id IN :p", {"p": 1}, "IllegalArgument(syntax)"),
        ("n.id IN ()", {"p": [1]}, "IllegalArgument(syntax)"),
        ("n.id IN :p", {"p": [1] * 4097}, "Limit"),
        ("n.t IN :p", {"p": ["x" * 65536]}, "Limit"),
        (" OR ".join(["n.id IN :p"] * 17), {"p": [1] * 4096}, "Limit"),
        (" OR ".join(["n.id IN :p"] * 17) + " OR", {"p": [1] * 4096}, "Limit"),
        (" OR ".join(["n.id IN :p"] * 17) + " #", {"p": [1] * 4096}, "IllegalArgument(syntax)"),
    ]:
        given = [word for name_of, value in params.items() for word in param(name_of, value)]
        asked.refuses(f"SELECT n.id FROM Note n WHERE {text}", name, *given)
    asked.refuses("DELETE FROM Note n WHERE n.id IN :p", "IllegalState(statement)", *param("p", [1]))
    most = " OR ".join(["n.id IN :p"] * 16)
    asked.answers([f"SELECT n.id FROM Note n WHERE {most}", *param("p", [1] * 4096)], [1])


def no_lists(ask: Asking) -> None:
    """In the profile a list is no parameter's value, and in neither language is one of lists or objects."""
    asked = Lists(ask)
    gives_none = "' gives no parameter as '--param <NAME=VALUE>', with its value as JSON and each name once" + HINT

    def misgives(word: str, *words: str) -> None:
        ask.asks([BEHIND_IN, "--param", word, *words], (2, "", f"error: '{word}{gives_none}"), *asked.words)

    for words in PROFILE:
        for word in ("p=[1]", "p=[]", 'p=["a"]'):
            misgives(word, *words)
    for word in ("p=[[1]]", 'p=[{"object":1}]', "p=[true]", "p=[1.5]", "p=[1", "p=[1,]", 'p={"p":[1]}', "=[1]"):
        misgives(word, *WIDE)
    twice = [BEHIND_IN, *WIDE, *param("p", [1]), "--param", "p=2"]
    ask.asks(twice, (2, "", f"error: 'p=2{gives_none}"), *asked.words)


TRIALS = [lists, refused_lists, no_lists]
