"""What the replies of a run say: answers with their objects, values, events, and refusals."""

from __future__ import annotations

import json
from typing import (
    TYPE_CHECKING, Any, Container, Dict, FrozenSet, List, Mapping, Optional, Sequence, Tuple, Type,
    Union,
)

from ..explain.refusing import note_written, refusal_told
from ..objects.entities import Entity, Event
from ..objects.shown import Epoch, Owner, Shown
from ..refusals import BadLine, NotServed, Refused
from ..wire.lines import LifecycleEvent
from ..wire.replies import objects_in, rows_of_values_in, said_of, values_in

if TYPE_CHECKING:
    from .managers import EntityManager
    from .runs import Run

EVENTS = {kind.value: kind for kind in LifecycleEvent}


class Reader:
    """Reads the replies of a run, one at a time, as the calls of its factory have it do."""

    __slots__ = ("_run", "_factory", "_map")

    def __init__(self, run: Run) -> None:
        self._run, self._factory, self._map = run, run.factory, run.map

    def hear(
        self, line: bytes, reply: bytes, said: Mapping[str, Any], kind: Optional[Type[Entity]],
        heard: FrozenSet[str],
    ) -> List[int]:
        """Takes in what a reply tells of objects, of this class where their own isn't known; and
        whose class isn't known of those in the answer, and in the events that are heard of."""
        if "ok" not in said:  # It gives up the objects that it loaded, and their numbers.
            return []
        events = said["events"]
        if events:
            note_written(self._run, line, events)
        loaded = self._map.kinds.hear(events)
        if loaded:
            owner = self._map.known.owner(line)
            owner.loads += len(loaded)
            self._map.loaded.update(dict.fromkeys(loaded, owner))
        settled = self._map.kinds.settled
        told = objects_in(reply)
        self._map.told += told
        unknown = [number for number in told if settled(number, kind) is None]
        hidden = self._factory._events.hidden
        if events and hidden:
            kinds = self._map.kinds
            self._factory._tally.leave_out(it[0] for it in events if kinds[it[1]] in hidden)
        for event in events if heard else ():
            if event[0] in heard and settled(event[1], None) is None:
                unknown.append(event[1])
        return unknown

    def show(
        self, lines: Sequence[bytes], replies: Sequence[bytes], places: Dict[int, Shown]
    ) -> Optional[Refused]:
        """Takes in the replies to lines that ask for the values of objects, or their refusal."""
        coming = iter(places.items())
        read: Dict[int, Tuple[Shown, Sequence[Any]]] = {}
        for line, reply in zip(lines, replies):
            said = said_of(reply)
            if "ok" not in said:
                return self._refusal(line, said, NotServed)
            has_bytes = b'{"hex":' in reply
            for each, (number, place) in zip(said["ok"], coming):
                values = list(map(_value, each["values"])) if has_bytes else each["values"]
                read[number] = place, values
                self._map.kinds.settled(number, self._factory._classes[each["entity"]])
                entity = self._map.held_of(number)
                if entity is not None:
                    entity._karzhoul_values, entity._karzhoul_shown = values, place
        self._map.shown = read
        return None

    def show_one(
        self, entity: Entity, lines: Sequence[bytes], replies: Sequence[bytes],
        places: Dict[int, Shown],
    ) -> Optional[Refused]:
        """Takes in the reply to a line that asks for the values of an object, as `show` and `done`
        do."""
        refused = None
        values = values_in(replies[0])
        if values is None:
            refused = self.show(lines, replies, places)
            self._map.shown = {}
        else:
            self._map.show(entity, values, places[entity._karzhoul_number])
        self._map.known.have(places)
        return refused

    def rows_shown(
        self, numbers: Sequence[int], replies: List[bytes], owner: Owner, epoch: Epoch, turn: int
    ) -> Optional[List[Entity]]:
        """The objects of rows that were loaded, of which none was made before, with their values of
        an epoch, as one reply tells them all; None where that is any other one, or another call
        than the one of this turn was made since."""
        found = rows_of_values_in(replies, len(numbers))
        if found is None or min(numbers) <= self._map.kinds.made:
            return None
        entity, rows = found
        kind = self._factory._classes[entity]
        shown = Shown(epoch, owner)
        return self._map.rows(numbers, kind, rows, shown, lambda: self._factory._turn == turn)

    def answer(
        self, line: bytes, reply: bytes, said: Mapping[str, Any], bad_line: Type[BadLine],
        heard: FrozenSet[str],
    ) -> Tuple[Any, Tuple[Event, ...]]:
        """The answer to a line, or its refusal, and its events that are heard of."""
        if "ok" not in said:
            refused = self._refusal(line, said, bad_line)
            return refused, tuple([event for event in refused.events if event.kind.value in heard])
        answer = said["ok"]
        if reply.count(b"{") > 1:
            answer = self._found(answer)
        return answer, self.events(line, said, heard) if heard else ()

    def _refusal(self, line: bytes, said: Mapping[str, Any], bad_line: Type[BadLine]) -> Refused:
        if "error" not in said:
            raise ValueError(f"{json.dumps(said)[:100]!r} is no reply")
        return refusal_told(self._run, said["error"], self.events(line, said), line, bad_line)

    def events(
        self, line: bytes, said: Mapping[str, Any], heard: Container[str] = EVENTS
    ) -> Tuple[Event, ...]:
        """The events of these kinds that the reply to a line tells."""
        hidden = self._factory._events.hidden
        events = [
            event for event in said["events"]
            if EVENTS[event[0]].value in heard
            and (not hidden or self._map.kinds[event[1]] not in hidden)
        ]
        manager = self._manager(self._map.known.owner(line).manager) if events else None
        return tuple([self._event(manager, *event) for event in events])

    def _event(
        self, manager: Optional[EntityManager], name: str, number: int, *ran: str
    ) -> Event:
        """The event of an object, as a reply tells it."""
        of: Union[Entity, int] = number
        if self._map.kinds[number] is not None:
            of = self._map.object(number)
        return Event(EVENTS[name], of, ran, manager)

    def _manager(self, number: int) -> Optional[EntityManager]:
        """The manager of a number, as long as it is open."""
        held = self._run.opened.get(number)
        return None if held is None else held()

    def _found(self, answer: Any) -> Any:
        """What an answer says: values, bytes, and objects."""
        if isinstance(answer, list):
            return [self._found(item) for item in answer]
        if not isinstance(answer, dict):
            return answer
        if "object" in answer:
            return self._map.object(answer["object"])
        if "hex" in answer:
            return bytes.fromhex(answer["hex"])
        return {name: self._found(item) for name, item in answer.items()}


def _value(said: Any) -> Any:
    """A value as `values` says it."""
    return bytes.fromhex(said["hex"]) if isinstance(said, dict) else said
