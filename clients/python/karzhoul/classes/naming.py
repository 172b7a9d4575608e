"""Queries by the names that classes have, where values are asked for and told as they are stored:
those of the command `query` and of the console."""

from __future__ import annotations

import re
from typing import Any, Dict, List, Mapping, NamedTuple, Optional, Sequence, Tuple

from ..jpql.statements import LanguageName, read
from ..jpql.check import Kinds, QueryFinding, check
from ..queries.rewriting import Edits
from ..queries.rows import Names
from ..mapping.unit import EntityDescription
from .conversions import Analysis, Conversions, Reader, Scope, Typed
from .declared import Model, declared_by
from .values import WrongValue

_HIDDEN = re.compile(r", _(?:unique|gone)_\w+")


class NoName(WrongValue):
    """A query names what it can't name so; `at` and `end` are where."""

    word = "IllegalArgument(typing)"

    def __init__(self, why: str, at: int, end: int) -> None:
        super().__init__(why)
        self.at, self.end = at, end


class Named(NamedTuple):
    """A query as a user wrote it, and as the program knows its names."""

    said: str
    text: str
    edits: Tuple[Edits, ...] = ()
    """What made the one of the other, the last first."""

    def titles(self, count: int, naming: Naming) -> List[str]:
        """What the items of its rows are called. An embedded value has an item for each part."""
        fields = Names(self.said).fields
        if len(fields) == count:
            return list(fields)
        from ..showing.asked import titles_of

        return [naming.told(title) for title in titles_of(self.text, count)]

    def found(self, finding: QueryFinding, naming: Naming) -> QueryFinding:
        """What is wrong with the program's text, told of the user's."""
        lines = self.text.split("\n")[: finding.line - 1]
        at = sum(len(line) + 1 for line in lines) + finding.column - 1
        end = at + len(finding.word) if self.text.startswith(finding.word, at) else at
        for edits in self.edits:
            at, end = edits.before(at, end)
        word = self.said[at:end] or finding.word
        return _finding(self.said, at, word, naming.told(finding.message), finding.refusal)


class Naming:
    """The names of a model; of none each query is as it is written."""

    def __init__(self, model: Model) -> None:
        self._model, self._conversions = model, Conversions(model)
        self._said: Dict[str, str] = {
            leaf.name: leaf.said
            for entity in model.values() for member in entity.members.values()
            for leaf in member.leaves() if leaf.name != leaf.said
        }
        stored = sorted(self._said, key=len, reverse=True)
        self._stored = re.compile(rf"(?<!\w)(?:{'|'.join(map(re.escape, stored))})(?!\w)")

    def named(self, text: str) -> Named:
        """A query with the names that the program knows; a `NoName` where it can't have them."""
        if not self._model:
            return Named(text, text)
        flat = self._conversions.flattening(text)
        statement = read(flat.text())
        if statement is None:  # The program refuses it, or knows more of queries.
            return Named(text, flat.text(), (flat,))
        reader = _Renaming(self._model, flat.text(), Analysis(flat.text()))
        try:
            reader.read(statement)
        except ValueError as fault:
            raise NoName(str(fault), *flat.before(*reader.place)) from None
        return Named(text, reader.edits.text(), (reader.edits, flat))

    def told(self, words: str) -> str:
        """What the program, or the linter, says, by the names that classes have."""
        if not self._model:
            return words
        shown = _HIDDEN.sub("", words)
        return self._stored.sub(lambda it: self._said[it[0]], shown) if self._said else shown

    def mistakes(
        self, text: str, entities: Mapping[str, EntityDescription], given: Optional[Kinds],
        language: LanguageName,
    ) -> Sequence[QueryFinding]:
        """What is wrong with a query by the linter, of parameters as they are stored."""
        try:
            named = self.named(text)
        except NoName as fault:
            word = text[fault.at : fault.end]
            return [_finding(text, fault.at, word, str(fault), fault.word)]
        return [named.found(it, self) for it in check(named.text, entities, given, language)]


def naming_of(given: Any) -> Naming:
    """The names of a module of classes; those of a mapping by hand are its own."""
    return Naming({}) if given is None or isinstance(given, str) else Naming(declared_by(given))


def _finding(text: str, at: int, word: str, message: str, refusal: str) -> QueryFinding:
    before = text[:at]
    line, column = before.count("\n") + 1, at - (before.rfind("\n") + 1) + 1
    return QueryFinding(refusal, message, line, column, word)


class _Renaming(Reader):
    """Gives paths the names of the mapping alone: values stay as they are written."""

    place: Tuple[int, int] = (0, 0)
    """Where it reads."""

    def _within(self, node: Any, scope: Scope) -> None:
        if hasattr(node, "at"):
            self.place = node.at, node.end
        super()._within(node, scope)

    def _alike(self, parts: Any, scope: Scope, known: Typed = None) -> None:
        pass

    def _product(self, node: Any, scope: Scope) -> None:
        pass

    def _check_counting(self, node: Any, scope: Scope) -> None:
        pass

    def _check_mixed(self, node: Any, scope: Scope) -> None:
        pass
