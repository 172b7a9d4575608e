"""Refusals as the replies to calls tell them: of which class each is, and what is known of it at
that moment."""

from __future__ import annotations

import re
from typing import TYPE_CHECKING, Any, Iterable, Mapping, Optional, Sequence, Tuple, Type

from ..objects.concern import Noted
from ..refusals import MARKING, REFUSALS, BadLine, Limit, Refused, StoreFault
from .limits import told_apart

if TYPE_CHECKING:
    from ..objects.entities import Event
    from ..session.runs import Run

_WRITTEN = {"PostPersist", "PostUpdate", "PostRemove"}
_COMMIT, _MERGE, _REMOVE = b'{"call":"commit"', b'{"call":"merge"', b'{"call":"remove"'
_MANAGER = re.compile(rb'"em":([0-9]+)')


def refusal_told(
    run: Run, error: Mapping[str, Any], events: Tuple[Event, ...], line: bytes,
    bad_line: Type[BadLine],
) -> Refused:
    """The refusal of a line that a reply tells; where the line was taken for no call, a
    `bad_line`."""
    kind = REFUSALS.get(error["name"], Refused)
    refused = (bad_line if kind is BadLine else kind)(
        error.get("why"), events, line.decode(errors="replace")
    )
    if isinstance(refused, Limit):
        refused = told_apart(refused, run.managers)
    elif isinstance(refused, StoreFault):
        refused.why = run.factory.why_unwritten()
    refused._factory, refused._run = run.factory, run
    _note_mark(run, refused, line)
    _say(refused)
    return refused


def refusal_of_words(refused: Refused, run: Run, line: bytes) -> Refused:
    """A refusal that the program told of a query in its words, as that of the line which would ask
    it."""
    refused.line = line.decode(errors="replace")
    refused._factory, refused._run = run.factory, run
    _say(refused)
    return refused


def _say(refused: Refused) -> None:
    """Has it say what can be told of it now, without asking, or that more can be told by asking."""
    from .explaining import sentence

    refused._sentence = sentence(refused)
    if refused._sentence is None:
        # Which a traceback of Python 3.11 and later tells.
        vars(refused)["__notes__"] = ["its explain() says more"]


def note_written(run: Run, line: bytes, events: Iterable[Sequence[Any]]) -> None:
    """Notes what a manager's flush has written or dropped, as that of a query, since the refusal of
    a later call of its transaction may be about it; what a merge has made; and what a removal has
    come to along cascades."""
    if line.startswith(_COMMIT):  # The transaction is over.
        return
    if run.factory.uniques is not None and (found := _MANAGER.search(line)):
        run.noted.setdefault(int(found[1]), Noted()).hear(events)
    if line.startswith(_MERGE) and (found := _MANAGER.search(line)):
        made = [event[1] for event in events if event[0] == "PrePersist"]
        run.merged.setdefault(int(found[1]), []).extend(made)
    if line.startswith(_REMOVE) and (found := _MANAGER.search(line)):
        gone = [event[1] for event in events if event[0] == "PreRemove"]
        run.removed.setdefault(int(found[1]), []).extend(gone)
    numbers = [event[1] for event in events if event[0] in _WRITTEN]
    if numbers and (found := _MANAGER.search(line)):
        run.written.setdefault(int(found[1]), {}).update(dict.fromkeys(numbers))


def manager_of(line: bytes) -> Optional[int]:
    """The number of the manager that a line calls."""
    found = _MANAGER.search(line)
    return None if found is None else int(found[1])


def _note_mark(run: Run, refused: Refused, line: bytes) -> None:
    """Notes the first refusal that marks a manager's transaction, which each later one knows."""
    if found := _MANAGER.search(line):
        manager = int(found[1])
        refused._before = run.marked.get(manager)
        refused._written = tuple(run.written.get(manager, ()))
        refused._removed = tuple(run.removed.get(manager, ()))
        if refused.name in MARKING:
            run.marked.setdefault(manager, (refused.word, refused.line))
