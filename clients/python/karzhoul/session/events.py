"""The events of a running unit: who hears of them, and in which order they are told."""

from __future__ import annotations

from collections import deque
from typing import Callable, Deque, FrozenSet, Iterator, List, Sequence, Tuple, Type

from ..objects.arguments import check_callback
from ..objects.entities import Entity, Event
from ..wire.lines import LifecycleEvent
from .pending import BEFORE, Due
from .runs import Run

Untold = Tuple[Callable[[Event], None], Event, Run, bytes]
"""A callback, the event that it is to be told, and the run and the line of the call that told it.
"""
_taken_off: Callable[[Deque[Untold]], Untold] = deque.popleft


class Events:
    """The callbacks of a factory, and the events that they are still to be told."""

    def __init__(self, mark: Callable[[Run, bytes, int, Exception], None]) -> None:
        """With what marks the transaction of a line's call, since a callback has raised this of
        what it told of an object."""
        self._mark = mark
        self.callbacks: List[Tuple[Callable[[Event], None], FrozenSet[LifecycleEvent]]] = []
        self.untold: Deque[Untold] = deque()
        self._is_telling = False
        # The names of the events that callbacks hear of; and whether one of these comes before a
        # flush writes.
        self.heard: FrozenSet[str] = frozenset()
        self.hears_before = False
        # The classes of objects that no callback hears of.
        self.hidden: FrozenSet[Type[Entity]] = frozenset()

    def listen(self, callback: Callable[[Event], None], *events: LifecycleEvent) -> None:
        """Has a callback hear of events of these kinds, or without any of all."""
        check_callback(callback)
        kinds = frozenset(map(LifecycleEvent, events or LifecycleEvent))
        self.callbacks.append((callback, kinds))
        self.heard |= {kind.value for kind in kinds}
        self.hears_before = self.hears_before or bool(kinds & BEFORE)

    def to_be_told(
        self, run: Run, lines: Sequence[bytes], events: Sequence[Tuple[Event, ...]],
        ran: FrozenSet[Due],
    ) -> Iterator[Untold]:
        """The events that the calls of lines told, with their callbacks, but for those that ran
        before."""
        return iter([
            (callback, event, run, line)
            for line, told in zip(lines, events)
            for event in told
            if not ran or event.due not in ran
            for callback, kinds in self.callbacks
            if event.kind in kinds
        ])

    def tell_before(self, events: Iterator[Event]) -> None:
        """Tells events of what is to come, and then those of the calls that callbacks made. What
        one raises is raised at once."""
        was_telling = self._is_telling
        try:
            self._is_telling = True
            self._tell_now(events)
            raised = self._tell_each()
        finally:
            self._is_telling = was_telling
        for fault in raised:  # It is none of the call that waits.
            vars(fault).pop("_karzhoul_is_told", None)
            raise fault

    def _tell_now(self, events: Iterator[Event]) -> None:
        for event in events:
            for callback, kinds in self.callbacks:
                if event.kind in kinds:
                    callback(event)

    def tell(self) -> List[Exception]:
        """Tells what is untold in its order, and answers what callbacks raise. The events of calls
        that a callback makes come after them."""
        if self._is_telling:
            return []
        try:
            self._is_telling = True
            return self._tell_each()
        finally:
            self._is_telling = False

    def _tell_each(self) -> List[Exception]:
        # (An interrupt of the jump at a loop's end passes by a `finally` of the same function in
        # Python 3.13.)
        raised: List[Exception] = []
        while self.untold:
            # An event is taken off by the same step that begins to tell it.
            for callback, event, run, line in map(_taken_off, (self.untold,)):
                try:
                    callback(event)
                except Exception as fault:
                    vars(fault)["_karzhoul_is_told"] = True
                    raised.append(fault)
                    if event.kind in BEFORE:
                        self._mark(run, line, event.due[1], fault)
        return raised
