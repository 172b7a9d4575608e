"""What is told of a refusal: its word, what it is about, and where in a query it is."""

from __future__ import annotations

from typing import Any, Dict, Mapping, Sequence

from ..classes.naming import Naming
from ..objects.entities import Entity
from ..jpql.statements import LanguageName
from ..jpql.check import Kinds, QueryFinding
from ..refusals import Refused
from ..mapping.unit import EntityDescription

Answer = Dict[str, Any]


class Declined(Exception):
    """What was asked is refused; the answer says why."""

    def __init__(self, answer: Answer) -> None:
        super().__init__(answer)
        self.answer = answer


def mistakes_of(
    text: str, kinds: Kinds, entities: Mapping[str, EntityDescription], language: LanguageName,
    naming: Naming,
) -> Sequence[QueryFinding]:
    """What is wrong with a query by the linter, whose names are those of classes where it has any.
    """
    try:
        return naming.mistakes(text, entities, kinds, language)
    except RecursionError:  # The program says what there is to say.
        return ()


def said_mistake(found: QueryFinding) -> Answer:
    """A mistake as the page has it: lines and columns are counted from 1."""
    return {
        "line": found.line, "column": found.column, "word": found.word, "message": found.message,
        "refusal": found.refusal,
    }


def refusal_of(fault: BaseException, mistakes: Sequence[QueryFinding] = ()) -> Answer:
    """What is told of a refusal. The program may be asked for it, so it is told before its
    transaction ends."""
    if isinstance(fault, Declined):
        return fault.answer
    word: str = getattr(fault, "word", type(fault).__name__)
    told = fault.explain().splitlines() if isinstance(fault, Refused) else [_said(fault)]
    return declined(word, told, mistakes)


def declined(word: str, told: Sequence[str], mistakes: Sequence[QueryFinding] = ()) -> Answer:
    """A refusal by its word."""
    said = [said_mistake(found) for found in mistakes]
    return {"refused": {"word": word, "told": list(told), "mistakes": said}}


def _said(fault: BaseException) -> str:
    if isinstance(fault, UnicodeError):
        return "a text has half a character (a lone surrogate), which no store takes"
    told = fault.args[0] if isinstance(fault, KeyError) and fault.args else fault
    return repr(told) if isinstance(told, Entity) else str(told) or type(fault).__name__
