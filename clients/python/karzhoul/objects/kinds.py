"""Which class each object of a program is of.

An answer tells an object's number and no class. The class is what was asked for, where that has no
subclasses; else the program is asked for it, together with the object's values.
"""

from __future__ import annotations

from typing import Any, List, Mapping, Optional, Sequence, Type

from .entities import E, Entity

_LOADED, _CLASS = 0x80, 0x7F


class Classes:
    """The classes of objects by their numbers, of which none is given twice.

    It is a byte each, as there are 64 classes at most, whose highest bit says that the object was
    loaded. It is kept when no one holds the object any more, since the program may tell its number
    again.
    """

    def __init__(self, named: Mapping[str, Type[Entity]]) -> None:
        self._classes: Sequence[Optional[Type[Entity]]] = (None, *named.values())
        self._bytes = {kind: place for place, kind in enumerate(named.values(), 1)}
        self._places = bytearray(1000)
        # The highest number of an object that was told: so many have been made.
        self.made = 0

    def __getitem__(self, number: int) -> Optional[Type[Entity]]:
        """The class of an object; None where it isn't known."""
        return self._classes[self._places[number] & _CLASS] if number < len(self._places) else None

    def was_loaded(self, number: int) -> bool:
        """Whether an object was told to be loaded: it stood in the store then."""
        return number < len(self._places) and self._places[number] & _LOADED != 0

    def settled(self, number: int, kind: Optional[Type[Entity]]) -> Optional[Type[Entity]]:
        """The class of an object, which is this one from now on where it wasn't known."""
        try:
            place = self._places[number] & _CLASS
        except IndexError:
            self._places.extend(bytes(number + 1000))
            place = 0
        if place or kind is None:
            return self._classes[place]
        self._places[number] |= self._bytes[kind]
        if number > self.made:
            self.made = number
        return kind

    def load(self, number: int, kind: Type[E]) -> Type[E]:
        """The class of an object that was loaded, which is this one where it wasn't known."""
        if number <= self.made or number >= len(self._places):
            own = self.settled(number, kind)
            self._places[number] |= _LOADED
            return kind if own is None else own  # type: ignore[return-value]
        self._places[number] = self._bytes[kind] | _LOADED  # As above, in less time.
        self.made = number
        return kind

    def load_rows(self, first: int, count: int, kind: Type[Entity]) -> None:
        """So many objects were loaded of this class, which have numbers from the first on, and of
        which none was made before."""
        last = first + count - 1
        if last >= len(self._places):
            self._places.extend(bytes(last + 1000))
        self._places[first : last + 1] = bytes((self._bytes[kind] | _LOADED,)) * count
        self.made = last

    def hear(self, events: Sequence[Sequence[Any]]) -> List[int]:
        """Takes note of the events of a call that was done, and answers what was loaded."""
        loaded: List[int] = []
        for event in events:
            number = event[1]
            if number > self.made:
                self.made = number
                if number >= len(self._places):
                    self._places.extend(bytes(number + 1000))
            if event[0] == "PostLoad":
                self._places[number] |= _LOADED
                loaded.append(number)
        return loaded
