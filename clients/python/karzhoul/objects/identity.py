"""The identity map of a run: one object of Python for each object of the program that is held."""

from __future__ import annotations

from collections import deque
from itertools import repeat
from typing import (
    TYPE_CHECKING, Any, Callable, Deque, Dict, Iterable, List, Mapping, Optional, Sequence, Tuple,
    Type,
)
from weakref import ref

from ..wire.replies import object_in, values_in
from .entities import E, Entity
from .kinds import Classes
from .shown import OVER, Known, Owner, Shown

if TYPE_CHECKING:
    from ..session.runs import Run

_set_number = Entity.__dict__["_karzhoul_number"].__set__
_set_run = Entity.__dict__["_karzhoul_run"].__set__
_set_shown = Entity.__dict__["_karzhoul_shown"].__set__
_set_values = Entity.__dict__["_karzhoul_values"].__set__
_bare: Callable[[Type[Entity]], Entity] = object.__new__
_weakly: Callable[[Entity], ref[Entity]] = ref
# Does all that an iterator does.
_nothing: Deque[object] = deque(maxlen=0)
_done = _nothing.extend


class IdentityMap:
    """The objects of a run by their numbers, as long as they are held, with their classes, and with
    what is known of their values."""

    __slots__ = ("kinds", "known", "loaded", "told", "shown", "_run", "_objects", "_most")

    def __init__(self, run: Run, named: Mapping[str, Type[Entity]]) -> None:
        self._run, self.kinds = run, Classes(named)
        self._objects: Dict[int, ref[Entity]] = {}
        self._most = 1000
        self.known = Known(self.held_of)
        # Of the replies that are being read: who loaded objects, which objects are in the answers,
        # and the values that were read, with for how long they are true.
        self.loaded: Dict[int, Owner] = {}
        self.told: List[int] = []
        self.shown: Dict[int, Tuple[Shown, Sequence[Any]]] = {}

    def end(self, named: Mapping[str, Type[Entity]]) -> None:
        """Its run is over: only those who hold its objects go on to hold them, and no more."""
        self.kinds, self._objects = Classes(named), {}
        self.known.forget()
        self.known = Known(_nobody)

    def objects(self, numbers: Iterable[int], kind: Optional[Type[Entity]] = None) -> List[Entity]:
        """The objects of these numbers, as `object` gives each, which takes longer."""
        found: List[Entity] = []
        for number in numbers:
            held = self._objects.get(number)
            known = held() if held else None
            found.append(self._made(number, kind) if known is None else known)
        return found

    def object(self, number: int, kind: Optional[Type[Entity]] = None) -> Entity:
        """The object of this number, of this class where its own isn't known."""
        held = self._objects.get(number)
        known = held() if held else None
        return self._made(number, kind) if known is None else known

    def one(self, reply: bytes, kind: Type[E], manager: bytes) -> Optional[E]:
        """The object that a reply is, of this class where its own isn't known, and that may have
        been loaded by the manager of this number; None where the reply is any other one."""
        loaded, number = object_in(reply)
        if loaded:
            kind, owner = self.kinds.load(number, kind), self.known.owner_of(manager)
            owner.loads += 1
            known = self.held_of(number)  # Where a handler of a signal has come between.
            if known is None:
                return self._new(number, kind, owner.unread)
            return known  # type: ignore[return-value]
        return self.object(number, kind) if number else None  # type: ignore[return-value]

    def one_shown(
        self, replies: Sequence[bytes], kind: Type[E], places: Dict[int, Shown]
    ) -> Optional[E]:
        """The object of this one number that a reply is, and that was loaded for it, with the
        values that another reply tells of it; None where they are any other ones."""
        loaded, number = object_in(replies[0])
        place = places.get(number)
        if place is None or not loaded:
            return None
        values, held = values_in(replies[1]), self._objects.get(number)
        if values is None or (held is not None and held() is not None):
            return None
        place.owner.loads += 1
        made = self._new(number, self.kinds.load(number, kind), place, values)
        self.known.have(places)
        return made

    def held(self) -> List[Entity]:
        """The objects that are held."""
        return [it for held in list(self._objects.values()) if (it := held()) is not None]

    def held_of(self, number: int) -> Optional[Entity]:
        """The object of a number, where it is held."""
        held = self._objects.get(number)
        return None if held is None else held()

    def _made(self, number: int, kind: Optional[Type[Entity]]) -> Entity:
        """The object of a number of which none is held."""
        own = self.kinds.settled(number, kind)
        if own is None:
            raise LookupError(f"the class of object #{number} isn't known")
        read = self.shown.get(number)
        if read is not None:
            return self._new(number, own, *read)
        owner = self.loaded.get(number, self.known.anyone)
        shown = owner.unread if len(self.told) < 2 else Shown(OVER, owner, self.told)
        return self._new(number, own, shown)

    def _new(
        self, number: int, kind: Type[E], shown: Shown, values: Sequence[Any] = ()
    ) -> E:
        """A new object of Python."""
        made = object.__new__(kind)
        _set_number(made, number)
        _set_run(made, self._run)
        _set_values(made, values)
        _set_shown(made, shown)
        self._objects[number] = ref(made)
        if len(self._objects) > self._most:
            self._clear()
        return made

    def _clear(self) -> None:
        """Lets go the objects that aren't held, where there are many."""
        if len(self._objects) > self._most:
            self._objects = {number: held for number, held in self._objects.items() if held()}
            self._most = 1000 + 2 * len(self._objects)

    def rows(
        self, numbers: Sequence[int], kind: Type[Entity], rows: Sequence[Sequence[Any]],
        shown: Shown, is_on: Callable[[], bool],
    ) -> Optional[List[Entity]]:
        """The objects of rows that were loaded, of which none was made before, with their values;
        None where another call was made since, as it is told."""
        # As `_new` does, in less time.
        made: List[Entity] = list(map(_bare, repeat(kind, len(numbers))))
        _done(map(_set_number, made, numbers))
        _done(map(_set_run, made, repeat(self._run)))
        _done(map(_set_values, made, rows))
        _done(map(_set_shown, made, repeat(shown)))
        items, keep = zip(numbers, list(map(_weakly, made))), self._objects.update
        if not is_on():  # A handler of a signal may have some of them.
            return None
        shown.owner.loads += len(numbers)
        keep(items)
        self.kinds.load_rows(min(numbers), len(numbers), kind)
        self._clear()
        return made

    @staticmethod
    def show(entity: Entity, values: Sequence[Any], shown: Shown) -> None:
        """Gives an object its values, with for how long they are true."""
        _set_values(entity, values)
        _set_shown(entity, shown)

    def are_known(self, numbers: Iterable[int]) -> bool:
        """Whether the classes of all these objects are known."""
        return None not in map(self.kinds.__getitem__, numbers)

    def done(self, places: Dict[int, Shown]) -> None:
        """All replies are read for which these values were. Those of the other objects in them are
        read together, once one of them is asked for."""
        self.known.have(places)
        told = self.told
        for number in told if len(told) > 1 else ():
            entity = self.held_of(number)
            if entity is not None:
                shown = entity._karzhoul_shown
                if shown.epoch.is_over and shown.group is not told:
                    entity._karzhoul_shown = Shown(OVER, shown.owner, told)
        self.shown, self.loaded, self.told = {}, {}, []

    def unread(self, objects: Iterable[Entity]) -> List[int]:
        """Of which objects the values are to be read before these have theirs, by their numbers:
        of them, and of those that were told together with them."""
        numbers: Dict[int, None] = {}
        groups: Dict[int, Sequence[int]] = {}
        for entity in objects:
            shown = entity._karzhoul_shown
            if shown.epoch.is_over:
                numbers[entity._karzhoul_number] = None
                if shown.group:
                    groups[id(shown.group)] = shown.group
        for group in groups.values():
            for number in group:
                held = self.held_of(number)
                if held is not None and held._karzhoul_shown.group is group:
                    numbers[number] = None
        return sorted(numbers)


def _nobody(_: int) -> Optional[Entity]:
    return None
