"""The values of objects that were read, and for how long they are true.

The values of an object are read together, by one line, and kept with it. They are true until a line
goes to the program that may change them. So each line is looked at before it is sent:

- the calls of `_PURE` change no value of an object that there was before;
- `set`, `add` and `takeOut` change the object that they name, and no other one;
- any other call of a manager may change all its objects, and what no manager had before: a flush
  gives versions and keys, cascades go on, listeners of the mapping assign. It changes no object of
  another manager, as what another manager holds is refused or left as it is;
- any other line may change all objects.
"""

from __future__ import annotations

import re
from typing import Callable, Dict, Iterable, Mapping, Optional, Sequence

from .entities import Entity


class Epoch:
    """A time in which the values of the objects of an owner stay as they are, but for those of an
    object that is set."""

    __slots__ = ("is_over",)

    def __init__(self, is_over: bool = False) -> None:
        self.is_over = is_over


OVER = Epoch(is_over=True)


class Owner:
    """Whose calls change an object: its manager's; those of any manager where it isn't known."""

    __slots__ = ("manager", "sets", "loads", "_epoch", "_others", "unread", "changed")

    def __init__(self, manager: int = 0) -> None:
        """With the number of its manager, 0 for any one."""
        self.manager = manager
        # How often one of its objects was set, and how many its calls and those of its objects
        # have loaded.
        self.sets = self.loads = 0
        self._epoch = OVER
        self._others: Optional[Owner] = None
        # What is known of the values of an object that weren't read, and of one that was set.
        self.unread, self.changed = Shown(OVER, self), Shown(OVER, self)

    def epoch(self) -> Epoch:
        """The epoch that is on."""
        if self._others is not None:
            return self._others.epoch()
        if self._epoch.is_over:
            self._epoch = Epoch()
        return self._epoch

    def end(self) -> None:
        """What was read in this epoch may be true no more."""
        self._epoch.is_over = True

    def leave(self, others: Owner) -> None:
        """Has no calls of its own any more: from now on it goes by the others' epochs."""
        self._others = others
        self.end()


class Shown:
    """For how long the values of objects are true that were read together: until the epoch is over.
    Those of an object are the key's parts, the version where there is one, and the attributes of
    the chain of classes, superclass first."""

    __slots__ = ("epoch", "owner", "group")

    def __init__(self, epoch: Epoch, owner: Owner, group: Sequence[int] = ()) -> None:
        self.epoch, self.owner = epoch, owner
        # Where they weren't read yet: the numbers of the objects that were told together.
        self.group = group


_FRONT = b'{"call":"'
# The line that asks for the values of objects of these numbers.
VALUES = b'{"call":"values","objects":[%b]}'
# What they may load is new, and a listener that hears of that assigns to it alone.
_PURE = (
    "get", "values", "pending", "find", "getReference", "contains", "new", "createEntityManager",
    "begin", "setFlushMode", "setRollbackOnly", "detach", "clear", "index",
)
_OF_OBJECT = re.compile(rb'\{"call":"\w+","object":([0-9]+),')
_OF_MANAGER = re.compile(rb'\{"call":"\w+","em":([0-9]+)[,}]')


class Known:
    """What is known of the values of a run's objects.

    It is used by the thread that has the factory's lock, and by what interrupts that: so values
    that are being read have their place before the line is sent, and what is sent from a handler
    of a signal meanwhile ends their epoch.
    """

    __slots__ = ("_held", "anyone", "reads", "_owners", "_coming", "_ended")

    def __init__(self, held: Callable[[int], Optional[Entity]]) -> None:
        """With the object of a number, where it is held."""
        self._held = held
        self.anyone = Owner()
        # How often values were read.
        self.reads = 0
        # By the number of the manager as lines have it.
        self._owners: Dict[bytes, Owner] = {}
        # The places of values that are being read, by the objects' numbers.
        self._coming: Dict[int, Shown] = {}
        # The front of the last line that ended the epochs of a manager's objects, up to the
        # manager, and how often values had been read then.
        self._ended = b"\n", -1

    def owner(self, line: bytes) -> Owner:
        """Whose the objects are that a line loads."""
        found = _OF_MANAGER.match(line)
        if found is not None:
            return self.owner_of(found[1])
        found = _OF_OBJECT.match(line)
        entity = self._held(int(found[1])) if found is not None else None
        return self.anyone if entity is None else entity._karzhoul_shown.owner

    def owner_of(self, manager: bytes) -> Owner:
        """Whose the objects are that a manager of this number loads."""
        owner = self._owners.get(manager)
        if owner is None:
            owner = self._owners[manager] = Owner(int(manager or b"0"))
        return owner

    # ---- what lines change

    def note(self, lines: Sequence[bytes]) -> None:
        """Takes note of lines, before they are sent."""
        if len(lines) > 4:  # As below, at once where all are of one call that changes nothing.
            front = lines[0][: lines[0].find(b'"', len(_FRONT)) + 1]
            is_pure = _CHANGES.get(front[:-1], Known.forget) is None
            if is_pure and b"\n".join(lines).count(b"\n" + front) == len(lines) - 1:
                return
        for line in lines:
            if self.reads == self._ended[1] and line.startswith(self._ended[0]):
                continue  # As the one before, and nothing was read since.
            change = _CHANGES.get(line[: line.find(b'"', len(_FRONT))], Known.forget)
            if change is not None:
                change(self, line)

    def forget(self, line: bytes = b"") -> None:
        """All values may be others."""
        self.anyone.end()
        for owner in list(self._owners.values()):
            owner.end()

    def _change_object(self, line: bytes) -> None:
        found = _OF_OBJECT.match(line)
        if found is None:
            self.anyone.sets += 1
            self.forget()
            return
        number = int(found[1])
        entity, coming = self._held(number), self._coming.get(number)
        if entity is not None:
            shown = entity._karzhoul_shown
            if not shown.epoch.is_over:
                entity._karzhoul_shown = shown.owner.changed
            shown.owner.sets += 1
        if coming is not None:
            coming.epoch = OVER

    def sets_of(self, manager: bytes) -> int:
        """How often an object was set that may be of the manager of this number."""
        return self.anyone.sets + self.own_sets_of(manager)

    def own_sets_of(self, manager: bytes) -> int:
        """How often an object was set that the manager of this number has loaded."""
        owner = self._owners.get(manager)
        return 0 if owner is None else owner.sets

    def loads_of(self, manager: bytes) -> int:
        """How many objects were loaded that may be of the manager of this number."""
        owner = self._owners.get(manager)
        return self.anyone.loads + (0 if owner is None else owner.loads)

    def _change_objects(self, line: bytes) -> None:
        found = _OF_MANAGER.match(line)
        if found is None:
            self.forget()
            return
        reads = self.reads
        self.anyone.end()
        owner = self._owners.get(found[1])
        if owner is not None:
            owner.end()
        self._ended = line[: found.end()], reads

    def _close(self, line: bytes) -> None:
        """What is left of a manager's objects when it is closed goes by what any manager does, so
        that no manager is kept that is gone."""
        self._change_objects(line)
        found = _OF_MANAGER.match(line)
        owner = self._owners.pop(found[1], None) if found is not None else None
        if owner is not None:
            owner.leave(self.anyone)

    # ---- values that are being read

    def expect(self, numbers: Iterable[int], loaded: Mapping[int, Owner]) -> Dict[int, Shown]:
        """The places of the values of these objects, which are being read now. Of those that were
        just loaded it is told by whom."""
        self.reads += 1
        for shown in self._coming.values():  # An interrupt, or a handler of one, has come between.
            shown.epoch = OVER
        places: Dict[int, Shown] = {}
        for number in numbers:
            entity = self._held(number)
            owner = (
                loaded.get(number, self.anyone)
                if entity is None
                else entity._karzhoul_shown.owner
            )
            places[number] = Shown(owner.epoch(), owner)
        self._coming = places
        return places

    def expect_one(self, entity: Entity) -> Dict[int, Shown]:
        """The place of the values of an object, as `expect` gives it."""
        self.reads += 1
        for shown in self._coming.values():
            shown.epoch = OVER
        owner = entity._karzhoul_shown.owner
        places = self._coming = {entity._karzhoul_number: Shown(owner.epoch(), owner)}
        return places

    def expect_loaded(self, number: int, manager: bytes) -> Dict[int, Shown]:
        """The place of the values of the object that a manager may load next, as `expect` gives it.
        """
        self.reads += 1
        for shown in self._coming.values():
            shown.epoch = OVER
        owner = self.owner_of(manager)
        places = self._coming = {number: Shown(owner.epoch(), owner)}
        return places

    def expect_rows(self, line: bytes) -> Owner:
        """Values are being read of objects that nobody has, and that a line has loaded: whose they
        are."""
        self.reads += 1
        for shown in self._coming.values():
            shown.epoch = OVER
        self._coming = {}
        return self.owner(line)

    def have(self, places: Dict[int, Shown]) -> None:
        """They were read, and the objects have them."""
        if self._coming is places:
            self._coming = {}


_CHANGES: Dict[bytes, Optional[Callable[[Known, bytes], None]]] = {
    **dict.fromkeys((_FRONT + name.encode() for name in _PURE)),
    **dict.fromkeys((_FRONT + name for name in (b"set", b"add", b"takeOut")), Known._change_object),
    **dict.fromkeys(
        (
            _FRONT + name
            for name in (
                b"persist", b"remove", b"refresh", b"merge", b"lock", b"flush", b"commit",
                b"rollback", b"query", b"querySingle", b"executeUpdate",
            )
        ),
        Known._change_objects,
    ),
    _FRONT + b"close": Known._close,
}
