"""What the page may ask, by name: each takes a JSON object, and answers one."""

from __future__ import annotations

from typing import Any, Callable, Dict, Mapping

from .answers import Answer, Declined, declined
from .cells import Plain, Unread, reference_of, value_of
from .store import MOST_ROWS, Store

_CHANGES = ("set", "create", "remove", "add", "takeOut", "execute")


class Actions:
    """The answers of a store."""

    def __init__(self, store: Store) -> None:
        self._store = store
        self._ways: Dict[str, Callable[[Mapping[str, Any]], Answer]] = {
            "overview": lambda said: store.overview(),
            "object": lambda said: store.object(reference_of(said.get("object"))),
            "check": lambda said: store.check(_text(said), _params(said)),
            "query": self._query,
            "explain": lambda said: store.explain(_text(said), _params(said)),
            "csv": lambda said: {"csv": store.csv(_text(said), _params(said))},
            "commit": lambda said: store.end(True),
            "rollback": lambda said: store.end(False),
            **{name: self._change(name) for name in _CHANGES},
        }

    def answer(self, name: str, said: Any) -> Answer:
        """The answer to what is asked, with the open transaction's changes, or a refusal."""
        way = self._ways.get(name)
        try:
            if way is None or not isinstance(said, dict):
                raise Unread("there is no such question")
            told = way(said)
        except Declined as fault:
            told = fault.answer
        except Unread as fault:
            told = declined("Unread", [str(fault)])
        return {**told, "transaction": self._store.transaction()}

    def _query(self, said: Mapping[str, Any]) -> Answer:
        first, most = (_number(said.get(name)) for name in ("first", "max"))
        if not 1 <= most <= MOST_ROWS:
            raise Unread(f"a page has from 1 to {MOST_ROWS} rows")
        return self._store.query(_text(said), _params(said), first, most)

    def _change(self, name: str) -> Callable[[Mapping[str, Any]], Answer]:
        return lambda said: self._store.change(name, said)


def _text(said: Mapping[str, Any]) -> str:
    text = said.get("text")
    if not isinstance(text, str):
        raise Unread("a query is a text")
    return text


def _params(said: Mapping[str, Any]) -> Dict[str, Plain]:
    given = said.get("params", {})
    if not isinstance(given, dict):
        raise Unread("parameters are values by their names")
    return {name: value_of(cell) for name, cell in given.items()}


def _number(said: Any) -> int:
    if type(said) is not int or not 0 <= said < 2**63:
        raise Unread("rows are counted from 0")
    return said
