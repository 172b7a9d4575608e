"""Which limit a refused call has met. The program tells `Limit` and no more; but what was sent says
which it can have been: the call, and how long its texts are."""

from __future__ import annotations

import json
from contextlib import suppress
from itertools import chain
from typing import Any, Iterable, List, Mapping, Optional, Type

from ..jpql import statements as jpql
from ..mapping.converters import MOST_BYTES
from ..refusals import (
    MOST_LINE_BYTES, Limit, LineLimit, ManagerLimit, ObjectLimit, QueryLimit, TextLimit,
)

# The calls that make objects or load them, and hand in no value.
_LOADING = {
    "new", "get", "add", "takeOut", "remove", "refresh", "merge", "persist", "flush", "commit",
}
_BY_KEY = ("find", "getReference")
_QUERIES = ("query", "querySingle", "executeUpdate")


def told_apart(limit: Limit, managers_made: Optional[int] = None) -> Limit:
    """A limit that the program told without a word, as that of what its line may have too much of;
    itself where that can't be told. How many managers the run has made tells of these whether too
    many are open."""
    if type(limit) is not Limit or limit.detail is not None:
        return limit
    made = kind_of(limit.line)(None, limit.events, limit.line)
    if isinstance(made, ManagerLimit):
        made.made = managers_made
    if isinstance(made, QueryLimit):
        said = json.loads(limit.line)
        made.why = _why_lists(said["text"], said.get("params") or {})
    return made


def kind_of(line: str) -> Type[Limit]:
    """What kind of limit a line has met that was refused by one; `Limit` itself where it may have
    been one of several."""
    if len(line.encode(errors="replace")) > MOST_LINE_BYTES:
        return LineLimit
    try:
        said = json.loads(line)
    except (ValueError, RecursionError):
        return Limit
    return _kind_of_call(said) if isinstance(said, dict) else Limit


def _kind_of_call(said: Mapping[str, Any]) -> Type[Limit]:
    call = said.get("call")
    if call in _QUERIES:
        return _kind_of_query(said)
    if call == "createEntityManager":
        return ManagerLimit
    if call in _BY_KEY:
        return TextLimit if _is_any_long(_listed(said.get("key"))) else ObjectLimit
    if call == "set":
        return TextLimit if _is_any_long([said.get("value")]) else Limit
    return ObjectLimit if call in _LOADING else Limit


def _kind_of_query(said: Mapping[str, Any]) -> Type[Limit]:
    text, params = said.get("text"), said.get("params")
    if not isinstance(text, str):
        return Limit
    try:
        if _is_over(text):
            return QueryLimit
    except RecursionError:  # A text that this client can't read.
        return Limit
    handed = params if isinstance(params, dict) else {}
    given = list(handed.values())
    lists = [value for value in given if isinstance(value, list)]
    if _is_any_long(chain(given, *lists)):
        return TextLimit
    if _why_lists(text, handed):
        return QueryLimit
    # What an UPDATE puts together may be too long, or the flush before it loads too many orphans.
    is_either = said.get("call") == "executeUpdate" and "CONCAT" in text.upper()
    return Limit if is_either else ObjectLimit


def _is_over(text: str) -> bool:
    """Whether a query's text is over one of its limits."""
    if len(text.encode(errors="replace")) > jpql.MOST_BYTES:
        return True
    if jpql.nesting(text) > jpql.MOST_NESTED:
        return True
    for name, language in jpql.LANGUAGES.items():
        with suppress(jpql.Unreadable):
            cases = jpql.cases_in(jpql.tokens_of(text)) if language.has_cases else 0
            statement = jpql.statement_of(text, name)
            is_over = len(jpql.variables_of(statement)) > jpql.MOST_VARIABLES
            return is_over or cases > jpql.MOST_CASES
    return False


def _why_lists(text: str, params: Mapping[str, Any]) -> str:
    """In words, of what lists have more values than a query may have; nothing where none has."""
    for name, given in params.items():
        if len(_listed(given)) > jpql.MOST_LISTED:
            return (f"the list {name!r} has {len(given):,} values, and {jpql.MOST_LISTED:,} are the "
                    "most: ask in several queries")
    with suppress(jpql.Unreadable):
        together = _values_together(text, params)
        if together > jpql.MOST_LISTED_TOGETHER:
            return (f"the lists behind each IN have {together:,} values together, and "
                    f"{jpql.MOST_LISTED_TOGETHER:,} are the most: ask in several queries")
    return ""


def _values_together(text: str, params: Mapping[str, Any]) -> int:
    """How many values lists become in a text: those of each, wherever it stands alone behind IN."""
    found, tokens = 0, jpql.tokens_of(text)
    for at, token in enumerate(tokens):
        if token.is_word("IN"):
            behind = tokens[at + 1:at + 4]
            if len(behind) == 3 and behind[0].is_mark("(") and behind[2].is_mark(")"):
                behind = behind[1:]
            is_parameter = behind[0].sort == "parameter"
            found += len(_listed(params.get(behind[0].said))) if is_parameter else 0
    return found


def _is_any_long(values: Iterable[Any]) -> bool:
    return any(_length(value) > MOST_BYTES for value in values)


def _length(value: Any) -> int:
    """How many bytes a text or bytes have, as a line says them."""
    if isinstance(value, str):
        return len(value.encode(errors="replace"))
    given = value.get("hex") if isinstance(value, dict) else None
    return len(given) // 2 if isinstance(given, str) else 0


def _listed(value: Any) -> List[Any]:
    return value if isinstance(value, list) else []
