"""The rules on a mapping that has its shape, but for its functions."""

from __future__ import annotations

import re
from typing import Callable, Iterable, Iterator, Sequence, Set, Tuple

from ...wire.lines import LifecycleEvent
from ..converters import MOST_BYTES, length
from .findings import Fault, Teller
from .reading import Placed, Unit, flag, items, plain_of
from .shapes import SIDES

MOST_ENTITIES = 64
MOST_MEMBERS = 64
MOST_KEY_PARTS = 4
MOST_NUMBER = 1_000_000
REVISIONS = (1, 2)
_NAME = re.compile(r"[A-Za-z_][A-Za-z0-9_]{0,63}", re.ASCII)
_OPPOSITE = {"oneToMany": "manyToOne", "oneToOne": "oneToOne", "manyToMany": "manyToMany"}
SIDES_OF = {
    "manyToOne": ("column",),
    "oneToMany": ("mappedBy",),
    "oneToOne": ("column", "mappedBy"),
    "manyToMany": ("joinTable", "mappedBy"),
}
_EVENTS = {event.value for event in LifecycleEvent}
_OF_REVISION_2 = ("since", "default", "was")
_TYPES = {"int": int, "text": str, "bytes": bytes}


class Model:
    """The rules on a mapping that has its shape."""

    def __init__(self, teller: Teller, unit: Unit) -> None:
        self._teller, self._unit = teller, unit

    def check(self) -> None:
        root = self._unit.root
        if root.at("revision").value.data not in REVISIONS:
            self._tell(root.at("revision"), f"the revision is {' or '.join(map(str, REVISIONS))}")
        self._entities()
        self._names()
        for place, entity in enumerate(self._unit.entities):
            self._origin(place, entity)
        self._numbers()
        for place in range(len(self._unit.entities)):
            self._chain(place)
            for relation in self._unit.entities[place].items("relations"):
                self._relation(place, relation)
        self._inverses()
        self._events()
        self._revised()

    def _tell(self, where: Placed, message: str) -> None:
        self._teller.tell(Fault.MODEL, where.path, where.value, message)

    def _repeated(
        self, named: Iterable[Tuple[object, Placed]], message: Callable[[object], str]
    ) -> None:
        seen: Set[object] = set()
        for name, where in named:
            if name in seen:
                self._tell(where, message(name))
            seen.add(name)

    # 1. entities and names

    def _entities(self) -> None:
        count = len(self._unit.entities)
        if not 1 <= count <= MOST_ENTITIES:
            self._tell(
                self._unit.root.at("entities"),
                f"there are 1 to {MOST_ENTITIES} entities, and not {count}",
            )
        names = ((entity.text("name"), entity.at("name")) for entity in self._unit.entities)
        self._repeated(names, lambda name: f"a second entity has the name {name!r}")

    def _names(self) -> None:
        for where in self._named():
            if not _NAME.fullmatch(str(where.value.data)):
                self._tell(
                    where,
                    "a name is at most 64 letters of ASCII, digits and '_', and no digit first",
                )

    def _named(self) -> Iterator[Placed]:
        yield from (listener.at("name") for listener in self._unit.root.items("listeners"))
        for entity in self._unit.entities:
            yield entity.at("name")
            if not entity.has("extends"):
                yield from (part.at("name") for part in entity.items("key"))
                if entity.has("embedded"):
                    yield entity.at("embedded")
                if entity.has("version"):
                    yield entity.at("version").at("name")
            for attribute in entity.items("attributes"):
                yield attribute.at("name")
                if attribute.has("converter"):
                    yield attribute.at("converter")
            for sort in ("relations", "listeners", "callbacks"):
                yield from (item.at("name") for item in entity.items(sort))

    # 2. superclasses and keys

    def _origin(self, place: int, entity: Placed) -> None:
        if entity.has("extends"):
            if entity.text("extends") not in self._unit.by_name:
                self._tell(entity.at("extends"), "there is no entity of this name")
            elif not self._unit.is_whole(place):
                self._tell(
                    entity.at("extends"),
                    "the chain of superclasses doesn't end at an entity with a key",
                )
            return
        parts = list(entity.items("key"))
        if not 1 <= len(parts) <= MOST_KEY_PARTS:
            self._tell(
                entity.at("key"), f"a key has 1 to {MOST_KEY_PARTS} parts, and not {len(parts)}"
            )
        self._repeated(
            ((part.text("name"), part.at("name")) for part in parts),
            lambda name: f"a second key part has the name {name!r}",
        )
        if len(parts) > 1 and not entity.has("embedded"):
            self._tell(
                entity.at("key"), "a key of several parts needs 'embedded', the embedded id's name"
            )
        if flag(entity.value, "generated") and [part.text("type") for part in parts] != ["int"]:
            self._tell(entity.at("generated"), "a generated key is one part of type int")

    # 3. tables, columns and discriminators

    def _numbers(self) -> None:
        tables = [table for entity in self._unit.entities for table in self._tables(entity)]
        self._apart(tables, "table")
        for root, entity in enumerate(self._unit.entities):
            hierarchy = [self._unit.entities[place] for place in self._unit.hierarchy(root)]
            columns = [column for member in hierarchy for column in self._columns(member)]
            self._apart(
                [
                    *columns,
                    *(column for member in hierarchy for column in self._old_columns(member)),
                ],
                "column",
            )
            marks = (
                (self._discriminator(member)[0], self._discriminator(member)[1])
                for member in hierarchy
            )
            self._repeated(
                marks,
                lambda mark: f"a second class of the hierarchy has the discriminator {mark!r}",
            )
        for entity in self._unit.entities:
            mark, where = self._discriminator(entity)
            if len(mark.encode()) > MOST_BYTES:
                self._tell(where, f"a discriminator has at most {MOST_BYTES:,} bytes")

    def _apart(self, numbers: Sequence[Placed], what: str) -> None:
        for where in numbers:
            number = where.value.data
            if not isinstance(number, int) or not 1 <= number <= MOST_NUMBER:
                self._tell(where, f"a {what} is a number from 1 to {MOST_NUMBER:,}")
        self._repeated(
            ((where.value.data, where) for where in numbers),
            lambda number: f"{what} {number} is taken already",
        )

    @staticmethod
    def _tables(entity: Placed) -> Iterator[Placed]:
        if not entity.has("extends"):
            yield entity.at("table")
        yield from (
            relation.at("joinTable")
            for relation in entity.items("relations")
            if relation.has("joinTable")
        )

    @staticmethod
    def _columns(entity: Placed) -> Iterator[Placed]:
        if not entity.has("extends") and entity.has("version"):
            yield entity.at("version").at("column")
        yield from (attribute.at("column") for attribute in entity.items("attributes"))
        yield from (
            relation.at("column")
            for relation in entity.items("relations")
            if relation.has("column")
        )

    def _old_columns(self, entity: Placed) -> Iterator[Placed]:
        """The columns that revision 1 had and revision 2 has no more."""
        if self._unit.root.at("revision").value.data == REVISIONS[-1]:
            yield from (
                attribute.at("was")
                for attribute in entity.items("attributes")
                if attribute.has("was")
            )
            yield from entity.items("dropped")

    @staticmethod
    def _discriminator(entity: Placed) -> Tuple[str, Placed]:
        where = entity.at("discriminator" if entity.has("discriminator") else "name")
        return str(where.value.data), where

    # 4. members along a chain

    def _chain(self, place: int) -> None:
        chain = [self._unit.entities[step] for step in self._unit.chains[place]]
        own = self._unit.entities[place]
        count = sum(
            len(items(entity.value, "attributes")) + len(items(entity.value, "relations"))
            for entity in chain
        )
        if count > MOST_MEMBERS:
            self._tell(
                own,
                f"an entity has at most {MOST_MEMBERS} attributes and relations with those of its "
                f"superclasses, and not {count}",
            )
        members = [
            (where.value.data, where)
            for entity in chain
            for where in self._unit.member_names(entity)
        ]
        self._repeated(
            members,
            lambda name: f"the entity {own.text('name')} has two members of the name {name!r}",
        )

    # 5. and 6. relations

    def _relation(self, place: int, relation: Placed) -> None:
        kind = relation.text("kind")
        side = next(side for side in SIDES if relation.has(side))
        if side not in SIDES_OF[kind]:
            self._tell(
                relation.at(side), f"a {kind} has {' or '.join(SIDES_OF[kind])}, and no {side}"
            )
        if flag(relation.value, "orphanRemoval") and kind not in ("oneToOne", "oneToMany"):
            self._tell(
                relation.at("orphanRemoval"),
                "'orphanRemoval' stands on oneToOne and oneToMany alone",
            )
        target = self._unit.by_name.get(relation.text("target"))
        if target is None:
            self._tell(relation.at("target"), "there is no entity of this name")
        elif side == "mappedBy" and not self._is_kept(place, relation, target):
            declaring = self._unit.entities[place].text("name")
            opposite = _OPPOSITE.get(kind, "owning relation")
            self._tell(
                relation.at("mappedBy"),
                f"{relation.text('target')} has no owning {opposite} of this name whose target is "
                f"{declaring}",
            )

    def _is_kept(self, place: int, relation: Placed, target: int) -> bool:
        owners = (
            owner
            for _, owner in self._unit.relations_along(target)
            if owner.text("name") == relation.text("mappedBy")
        )
        owner = next(owners, None)
        return (
            owner is not None
            and not owner.has("mappedBy")
            and owner.text("kind") == _OPPOSITE.get(relation.text("kind"))
            and owner.text("target") == self._unit.entities[place].text("name")
        )

    def _inverses(self) -> None:
        for place, entity in enumerate(self._unit.entities):
            for owner in entity.items("relations"):
                target = self._unit.by_name.get(owner.text("target"))
                if target is not None:
                    self._one_inverse(place, owner, self._unit.entities[target])

    def _one_inverse(self, place: int, owner: Placed, target: Placed) -> None:
        inverses = [
            relation
            for relation in target.items("relations")
            if relation.has("mappedBy")
            and relation.text("mappedBy") == owner.text("name")
            and relation.text("target") in self._unit.by_name
            and place in self._unit.chains[self._unit.by_name[relation.text("target")]]
        ]
        for second in inverses[1:]:
            self._tell(
                second.at("mappedBy"),
                f"the relation {owner.text('name')} has an inverse side already",
            )

    # 7. events

    def _events(self) -> None:
        for listener in self._unit.root.items("listeners"):
            self._hears(listener)
        for entity in self._unit.entities:
            for sort in ("listeners", "callbacks"):
                for listener in entity.items(sort):
                    self._hears(listener)
            heard = (
                (where.value.data, where)
                for callback in entity.items("callbacks")
                for where in callback.items("events")
            )
            self._repeated(heard, lambda event: f"a second callback of the class hears {event}")

    def _hears(self, listener: Placed) -> None:
        for event in listener.items("events"):
            if event.value.data not in _EVENTS:
                self._tell(event, f"the events are {', '.join(sorted(_EVENTS))}")
        self._repeated(
            ((event.value.data, event) for event in listener.items("events")),
            lambda event: f"{event} stands here twice",
        )

    # 8. what a second revision says of the first

    def _revised(self) -> None:
        revision = self._unit.root.at("revision").value.data
        for entity in self._unit.entities:
            attributes = list(entity.items("attributes"))
            if revision == 1:
                own = [
                    attribute.at(name)
                    for attribute in attributes
                    for name in _OF_REVISION_2
                    if attribute.has(name)
                ]
                for where in [*own, *([entity.at("dropped")] if entity.has("dropped") else [])]:
                    self._tell(
                        where,
                        f"{str(where.path[-1])!r} goes with revision 2, and this mapping is of "
                        f"revision 1",
                    )
            elif revision == 2:
                for attribute in attributes:
                    self._change(attribute)

    def _change(self, attribute: Placed) -> None:
        is_new = attribute.has("since")
        if is_new and attribute.at("since").value.data != 2:
            self._tell(
                attribute.at("since"),
                "an attribute that is new is so since 2, the revision of its mapping",
            )
        if is_new and attribute.has("was"):
            self._tell(
                attribute.at("was"), "an attribute that is new ('since') had no column before"
            )
        if attribute.has("default"):
            if not is_new:
                self._tell(
                    attribute.at("default"),
                    "'default' goes with 'since', for an attribute that is new",
                )
            self._default(attribute)
        elif is_new and flag(attribute.value, "required"):
            self._tell(
                attribute.at("since"),
                "an attribute that is new and required needs a 'default', which the rows of "
                "before get",
            )

    def _default(self, attribute: Placed) -> None:
        where, kind = attribute.at("default"), attribute.text("type")
        found = plain_of(where.value)
        if found is None:
            self._tell(
                where,
                "a default is not null: without one, the attribute is null in the rows of before",
            )
        elif found[0] is not _TYPES[kind]:
            self._tell(where, f"a default is of its attribute's type, which is {kind}")
        elif length(found[1]) > MOST_BYTES:
            self._tell(where, f"a default has at most {MOST_BYTES:,} bytes")
