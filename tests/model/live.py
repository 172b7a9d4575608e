"""What is live in the model: objects, and the managers that hold them; and all of it as it was
before a call."""
from __future__ import annotations

from typing import TYPE_CHECKING, Iterator

from model.cells import members

if TYPE_CHECKING:
    from model.cells import Stored
    from model.kinds import Identity, Key, Objects, Values
    from model.machine import Machine
    from model.unit import Entity, Relation


class Live:
    """A live object: its values, and what it holds in its relations, by their names; held is new,
    detached, or the manager that manages it or has it removed, then with a lock or without. The
    base is what was loaded or written last, if anything; known are the identities that each
    relation had when it was read or written last, None of a collection that wasn't.

    A relation to one holds None, an object, or the identity of one that was not read yet; a
    collection a list of objects, which is never changed but replaced, or UNREAD."""

    UNREAD = "unread"

    def __init__(self, entity: Entity, number: int) -> None:
        self.entity, self.number = entity, number
        self.values = dict.fromkeys(
            [*entity.key, *([entity.version["name"]] if entity.version else []), *entity.attributes]
        )
        self.links = {
            name: [] if relation.is_many else None for name, relation in entity.relations.items()
        }
        self.held, self.is_removed, self.lock, self.base, self.known = "new", False, None, None, {}

    def key(self) -> Key:
        return tuple([self.values[name] for name in self.entity.key])

    def identity(self) -> Identity:
        return self.entity.root.name, self.key()

    def attributes(self) -> Values:
        return {name: self.values[name] for name in self.entity.attributes}

    def is_managed(self, manager: Manager) -> bool:
        return self.held is manager and not self.is_removed

    def is_unread(self, relation: Relation) -> bool:
        held = self.links[relation.name]
        return isinstance(held, tuple) or held is Live.UNREAD

    def read_of(self, relation: Relation) -> list[Live]:
        """The objects in a relation, none where it is unread."""
        held = self.links[relation.name]
        return (
            [] if held is None or self.is_unread(relation) else held if relation.is_many else [held]
        )

    def identities_of(self, relation: Relation) -> frozenset[Identity] | None:
        """The identities in a relation, of those whose key is whole; None of a collection that is
        unread."""
        held = self.links[relation.name]
        if held is Live.UNREAD:
            return None
        found = (
            [held]
            if isinstance(held, tuple)
            else [other.identity() for other in self.read_of(relation)]
        )
        return frozenset(identity for identity in found if None not in identity[1])

    def load(self, key: Key, stored: Stored, objects: Objects) -> None:
        """Becomes the object that is stored among these ones."""
        self.values.update(zip(self.entity.key, key), **stored.values)
        for relation in self.entity.relations.values():
            found = None if relation.is_many else members(objects, self.identity(), relation)
            self.links[relation.name] = (
                Live.UNREAD if relation.is_many else found[0] if found else None
            )
        self.written(stored)
        self.remember()

    def written(self, stored: Stored) -> None:
        if self.entity.version:
            self.values[self.entity.version["name"]] = stored.version
        self.base = stored

    def remember(self) -> None:
        self.known = {
            relation.name: self.identities_of(relation)
            for relation in self.entity.relations.values()
        }

    def differs(self) -> bool:
        return self.attributes() != self.base.values or any(
            map(self.differs_along, self.entity.owned)
        )

    def differs_along(self, relation: Relation) -> bool:
        before, now = self.known[relation.name], self.identities_of(relation)
        return before is not None and now is not None and before != now

    def orphans(self) -> Iterator[Identity | None]:
        """The identities that left relations with orphan removal since these were read or written
        last."""
        for relation in self.entity.relations.values():
            if self.base and relation.removes_orphans:
                yield from sorted(
                    (self.known[relation.name] or frozenset())
                    - (self.identities_of(relation) or frozenset())
                )

    def is_due(self) -> bool:
        """Whether a flush replaces it: it has a base and differs from that, or its version is to
        rise."""
        return self.base is not None and (self.lock == "WRITE" or self.differs())

    def detach(self) -> None:
        self.held, self.is_removed, self.lock = "detached", False, None


class Manager:
    """A manager: what it manages or has removed, in order of entry, whether its transaction is open
    and can only roll back, the objects that were committed at the begin of this one and those
    that it sees, and when a query flushes."""

    def __init__(self) -> None:
        self.context, self.is_open, self.is_begun, self.is_marked, self.flush_mode = (
            [], True, False, False, "AUTO",
        )
        self.first, self.seen = None, None


class Before:
    """What a call that is undone may have changed, as it was: no detached object, since what
    changes one is not undone afterwards."""

    def __init__(self, machine: Machine) -> None:
        self.machine, self.numbers, self.objects = (
            machine, dict(machine.numbers), list(machine.objects),
        )
        self.lives = [
            (
                live, dict(live.values), dict(live.links), live.held, live.is_removed, live.lock,
                live.base, live.known,
            )
            for live in machine.objects
            if live.held != "detached"
        ]
        self.managers = [(list(manager.context), manager.seen) for manager in machine.managers]

    def restore(self) -> None:
        self.machine.numbers, self.machine.objects = self.numbers, self.objects
        for live, *before in self.lives:
            (
                live.values, live.links, live.held, live.is_removed, live.lock, live.base,
                live.known,
            ) = before
        for manager, (manager.context, manager.seen) in zip(self.machine.managers, self.managers):
            pass
