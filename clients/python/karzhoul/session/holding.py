"""The few objects that a manager holds, as far as they are known one by one."""

from __future__ import annotations

from typing import Any, FrozenSet, Iterator, NamedTuple, Optional

from ..objects.entities import Entity
from ..objects.shown import Known

# More objects aren't looked at.
_MOST = 8


class Loads(NamedTuple):
    """How many objects had been loaded for a manager of this number before its call."""

    known: Known
    manager: bytes
    loaded: int

    @classmethod
    def before(cls, known: Known, manager: bytes) -> Loads:
        """Those until now."""
        return cls(known, manager, known.loads_of(manager))

    @property
    def since(self) -> int:
        """How many were since, also where their run is over."""
        return self.known.loads_of(self.manager) - self.loaded

    def found(self, answer: Any) -> Optional[Few]:
        """The objects that the manager holds behind its call, which held none before; None where
        they aren't known."""
        numbers = frozenset(each._karzhoul_number for each in objects_of(answer, _MOST))
        if len(numbers) != self.since:  # It has loaded others too.
            return None
        return Few(numbers, self.loaded + len(numbers), self.known.sets_of(self.manager))


class Few(NamedTuple):
    """Some objects by their numbers, of a manager for which so many had been loaded by then, and of
    whose objects so many were set: others can have come to it by these two alone."""

    numbers: FrozenSet[int]
    loads: int
    sets: int

    def without(self, number: int) -> Few:
        """The others."""
        return self._replace(numbers=self.numbers - {number})


def objects_of(answer: Any, most: int) -> Iterator[Entity]:
    """The objects in an answer, so many and one more."""
    for place, each in enumerate(_all_of(answer)):
        if place > most:
            return
        yield each


def _all_of(answer: Any) -> Iterator[Entity]:
    if isinstance(answer, Entity):
        yield answer
    elif isinstance(answer, (list, tuple)):
        for each in answer:
            yield from _all_of(each)
