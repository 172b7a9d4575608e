"""The objects that a refused flush or commit was about, with the members that were in its way.

The program tells the refusal and no object. But the client knows what the manager was told to
persist, to remove and to lock, and what the refused call told of others (PreUpdate). It looks at
these as they are now, along their cascades, and asks a manager of its own what is stored.
"""

from __future__ import annotations

from contextlib import suppress
from functools import cached_property
from typing import (
    TYPE_CHECKING, Any, Dict, Iterable, Iterator, List, Mapping, Optional, Sequence, Set, Tuple,
)

from ..mapping.converters import column_value, value_of
from ..mapping.unit import EntityDescription, Member, MemberKind, entities_of
from ..objects.concern import Concern
from ..objects.entities import Entity
from ..refusals import EntityNotFound, KarzhoulError, Refused
from ..told import with_article
from ..wire.lines import LifecycleEvent
from .texts import value_text

if TYPE_CHECKING:
    from ..session.factory import EntityManagerFactory

Key = Tuple[Any, ...]
# What a member that can't be read is, and what a link to an object that is gone is.
UNREAD, GONE = object(), object()
_WRITTEN = {
    LifecycleEvent.PRE_PERSIST, LifecycleEvent.POST_PERSIST, LifecycleEvent.PRE_UPDATE,
    LifecycleEvent.POST_UPDATE,
}
_PERSISTED = {LifecycleEvent.PRE_PERSIST, LifecycleEvent.POST_PERSIST}
_DROPPED = {LifecycleEvent.PRE_REMOVE, LifecycleEvent.POST_REMOVE}
_RELATIONS = (MemberKind.TO_ONE, MemberKind.COLLECTION)
# So many objects are looked at, and so many rows are told of each.
_MOST, _MOST_ROWS = 10_000, 3
# So many values of a converter are told.
_MOST_VALUES = 10


class Culprits:
    """The objects that a refused flush, commit or call was about."""

    def __init__(self, factory: EntityManagerFactory, refused: Refused) -> None:
        self._factory, self._refused, self._run = factory, refused, refused._run or factory._run
        self._concern = refused._concern or Concern(self._run.made)
        self._described = entities_of(factory.mapping)
        self._keys: Dict[Entity, Optional[Key]] = {}

    # ---- which objects

    @cached_property
    def _new(self) -> List[Entity]:
        """What was to be inserted: what was persisted and what that leads to along cascades, but
        for what was loaded."""
        told = [it.of for it in self._refused.events if it.kind in _WRITTEN]
        found = self.of([*self._concern.persisted, *told])
        found += self._beyond(found, "PERSIST")
        return [it for it in dict.fromkeys(found) if not self._was_stored(it)][:_MOST]

    @cached_property
    def _perhaps(self) -> List[Entity]:
        """New objects that were made since the last transaction, and that a cascade may have
        reached."""
        known = set(self._new)
        return [it for it in self._since if it not in known and not self._was_stored(it)]

    @cached_property
    def _since(self) -> List[Entity]:
        """The last objects that were made or loaded since the last transaction."""
        made = self._run.made
        return self.of(range(max(self._concern.since, made - _MOST) + 1, made + 1))

    @cached_property
    def _changed(self) -> List[Entity]:
        """What was to be replaced, in the order in which that was told."""
        told = [it.of for it in self._refused.events if it.kind in _WRITTEN]
        found = self.of([*told, *self._refused._written])
        return [it for it in found if self._was_stored(it)][:_MOST]

    @cached_property
    def _removed(self) -> List[Entity]:
        told = [it.of for it in self._refused.events if it.kind in _DROPPED]
        found = self.of([*self._concern.removed, *told, *self._refused._removed])
        return list(dict.fromkeys([*found, *self._beyond(found, "REMOVE")]))[:_MOST]

    def of(self, told: Iterable[Any]) -> List[Entity]:
        """The objects of numbers, each once; those that a refused call gave up are left out."""
        found: Dict[Entity, None] = {}
        told = list(told)
        numbers = [it for it in told if not isinstance(it, Entity) and 0 < it <= self._run.made]
        with suppress(KarzhoulError):  # So that their classes are known.
            self._factory.objects(self._run, numbers)
        for each in told:
            if isinstance(each, Entity):
                found[each] = None
            elif self._run.kinds[each] is not None:
                with self._factory._lock:  # So that no number becomes two objects.
                    found[self._run.map.object(each)] = None
        return list(found)

    def _was_stored(self, each: Entity) -> bool:
        """Whether an object was stored before the transaction, as far as that can be told: it was
        loaded, or it was made before and wasn't persisted since."""
        number = each._karzhoul_number
        if self._run.kinds.was_loaded(number) or self._refused._concern is None:
            return self._run.kinds.was_loaded(number)
        return number <= self._concern.since and number not in self._persisted

    @cached_property
    def _persisted(self) -> Set[int]:
        """The numbers of what was persisted in the transaction."""
        told = [it.of for it in self._refused.events if it.kind in _PERSISTED]
        numbers = [it if isinstance(it, int) else it._karzhoul_number for it in told]
        return {*self._concern.persisted, *numbers}

    def _beyond(self, objects: Sequence[Entity], operation: str) -> List[Entity]:
        """What these lead to along relations that cascade an operation."""
        known = dict.fromkeys(objects)
        ahead = list(objects)
        while ahead and len(known) < _MOST:
            reached: Dict[Entity, None] = {}
            for _, member, value in self._members(ahead, *_RELATIONS):
                if {"ALL", operation} & self._cascades[member.declarer, member.name]:
                    reached.update(dict.fromkeys(_objects(value)))
            ahead = [each for each in reached if each not in known]
            known.update(dict.fromkeys(ahead))
        return list(known)[len(objects) :]

    @cached_property
    def _cascades(self) -> Dict[Tuple[str, str], Set[str]]:
        return {
            (entity["name"], relation["name"]): set(relation.get("cascade", ()))
            for entity in self._factory.mapping["entities"]
            for relation in entity.get("relations", ())
        }

    # ---- what they hold

    def _members(
        self, objects: Iterable[Entity], *kinds: MemberKind
    ) -> Iterator[Tuple[Entity, Member, Any]]:
        """What objects have in their members of some kinds: `UNREAD` where that can't be read."""
        for name, some in _by_class(objects).items():
            for member in self._described[name].members:
                if member.kind in kinds:
                    for each, value in zip(some, self._values(some, member.name)):
                        yield each, member, value

    def _values(self, objects: Sequence[Entity], name: str) -> List[Any]:
        """The values of a member of objects of one class."""
        with suppress(KarzhoulError, LookupError):
            return self._factory.get_many(objects, name)
        return [self._value(each, name) for each in objects]

    def _value(self, each: Entity, name: str) -> Any:
        try:
            return self._factory.get(each, name)
        except EntityNotFound:
            return GONE
        except (KarzhoulError, LookupError):
            return UNREAD

    def _key(self, each: Entity) -> Optional[Key]:
        """The key of an object; None where a part of it isn't set."""
        if each not in self._keys:
            parts = [self._value(each, part.name) for part in self._entity(each).key]
            is_whole = not any(part is None or part is UNREAD for part in parts)
            self._keys[each] = tuple(parts) if is_whole else None
        return self._keys[each]

    def _entity(self, each: Entity) -> EntityDescription:
        return self._described[type(each).__name__]

    def _name(self, each: Entity) -> str:
        key, kind = self._key(each), type(each).__name__
        word = f"{kind} #{each._karzhoul_number}" if key is None else _named(kind, key)
        return word if self._was_stored(each) else f"the new {word}"

    # ---- what is stored

    def _stored(self, each: Entity, *names: str) -> Optional[List[Any]]:
        """What is stored in members of an object's identity; None where nothing is."""
        key, entity = self._key(each), self._entity(each)
        if key is None:
            return None
        top = self._top(entity)
        wanted = names or [part.name for part in top.key]
        asked = f"SELECT {_items('e', wanted)} FROM {top.name} e WHERE {_is('e', top)}"
        rows = self._asked(asked, key)
        return rows[0] if rows else None

    def _asked(self, text: str, key: Key) -> List[List[Any]]:
        """The first rows of a query for a key, as lists."""
        params = {f"k{place}": part for place, part in enumerate(key)}
        with self._factory._managers.at_once() as manager:
            rows = manager.query(text, params=params, max=_MOST_ROWS)
        return [row if isinstance(row, list) else [row] for row in rows]

    def _top(self, entity: EntityDescription) -> EntityDescription:
        while entity.superclass is not None:
            entity = self._described[entity.superclass]
        return entity

    def _owners(self, target: Entity, member: Member, owner: EntityDescription) -> List[str]:
        """The stored objects that lead to one by a relation."""
        key, top = self._key(target), self._top(self._entity(target))
        if key is None:
            return []
        items = _items("o", [part.name for part in owner.key])
        path, joined = f"o.{member.name}", ""
        if member.kind is MemberKind.COLLECTION:
            path, joined = "m", f" JOIN {path} m"
        text = f"SELECT {items} FROM {owner.name} o{joined} WHERE {_is(path, top)}"
        return [_named(owner.name, row) for row in self._asked(text, key)]

    # ---- what is told

    def null(self) -> Iterator[str]:
        """Of each object the required members that are null."""
        return _first(self._null([*self._new, *self._changed]), self._null(self._perhaps))

    def _null(self, objects: Sequence[Entity]) -> Iterator[str]:
        kinds = (MemberKind.ATTRIBUTE, MemberKind.TO_ONE)
        missing: Dict[Entity, List[str]] = {}
        for each, member, value in self._members(objects, *kinds):
            if member.is_required and value is None:
                missing.setdefault(each, []).append(member.name)
        for each, names in missing.items():
            word = "is null, and is required" if len(names) == 1 else "are null, and are required"
            yield f"{self._name(each)}: {' and '.join(names)} {word}"

    def converter(self) -> Iterator[str]:
        """Of each object the values that a converter doesn't take."""
        return _first(
            self._unconverted([*self._new, *self._changed]), self._unconverted(self._perhaps)
        )

    def _unconverted(self, objects: Sequence[Entity]) -> Iterator[str]:
        for each, member, value in self._members(objects, MemberKind.ATTRIBUTE):
            function = self._converters.get((member.declarer, member.name))
            if function is not None and isinstance(value, (int, str, bytes)):
                if column_value(function, value) is None:
                    way = f"which its converter {function['name']} doesn't take{_taken(function)}"
                    yield f"{self._name(each)}: {member.name} is {_quoted(value)}, {way}"

    @cached_property
    def _converters(self) -> Dict[Tuple[str, str], Any]:
        """The converters of attributes."""
        mapping = self._factory.mapping
        functions = {each["name"]: each for each in mapping.get("functions", ())}
        return {
            (entity["name"], attribute["name"]): functions[attribute["converter"]]
            for entity in mapping["entities"]
            for attribute in entity.get("attributes", ())
            if "converter" in attribute
        }

    def reference(self) -> Iterator[str]:
        """What leads to an object that was removed, and what leads to one that isn't stored."""
        removed = dict.fromkeys(self._removed)
        gone = {self._name(each) for each in removed}
        for each in removed:
            for owner, member in self._leading(each):
                way = f"leads to {self._name(each)} by {member.name}, which is removed"
                names = self._owners(each, member, owner)
                yield from (f"{name} {way}" for name in names if name not in gone)
        yield from self._dangling([*self._new, *self._changed], "isn't stored")

    def _leading(self, target: Entity) -> Iterator[Tuple[EntityDescription, Member]]:
        """The relations that own a way to an object's class, by the classes that declare them."""
        chain = {kind.__name__ for kind in type(target).__mro__}
        for entity in self._described.values():
            for member in entity.relations:
                if member.is_owner and member.declarer == entity.name and member.type in chain:
                    yield entity, member

    def _dangling(self, objects: Sequence[Entity], what: str) -> Iterator[str]:
        inserted = set(self._new)
        for each, member, value in self._members(objects, *_RELATIONS):
            way = f"{self._name(each)} leads by {member.name} to"
            if member.is_owner and value is GONE:
                yield f"{way} {with_article(member.type)} that {what}"
            for target in _objects(value) if member.is_owner else []:
                if target not in inserted and self._stored(target) is None:
                    yield f"{way} {self._name(target)}, which {what}"

    def unpersisted(self) -> Iterator[str]:
        """What leads to a new object that isn't persisted, or to one that is removed."""
        loaded = [it for it in self._since if self._was_stored(it)]
        held = self._run.map.held()
        return _first(
            self._unpersisted(dict.fromkeys([*self._new, *self._changed, *loaded])),
            self._unpersisted([it for it in held if self._was_stored(it)][:_MOST]),
        )

    def _unpersisted(self, objects: Iterable[Entity]) -> Iterator[str]:
        removed, inserted = set(self._removed), set(self._new)
        for each, member, value in self._members(objects, *_RELATIONS):
            for target in _objects(value) if member.is_owner else []:
                way = f"{self._name(each)} leads by {member.name} to"
                if target in removed:
                    yield f"{way} {self._name(target)}, which is removed"
                elif target not in inserted and not self._was_stored(target):
                    hint = f"persist it too, or have {member.name} cascade PERSIST"
                    yield f"{way} {self._name(target)}, which isn't persisted: {hint}"

    def unique(self) -> Iterator[str]:
        """Objects that lead to one target of a `oneToOne`."""
        led: Dict[Tuple[str, Entity], Dict[str, None]] = {}
        for each, member, value in self._members([*self._new, *self._changed], MemberKind.TO_ONE):
            if (member.declarer, member.name) in self._one_to_ones and isinstance(value, Entity):
                names = led.setdefault((member.name, value), {})
                names[_bare(self._name(each))] = None
                owner = self._described[member.declarer]
                names.update(dict.fromkeys(self._owners(value, member, owner)))
        for (member_name, target), names in led.items():
            if len(names) > 1:
                whole = f"{', '.join(list(names)[:-1])} and {list(names)[-1]}"
                yield f"{whole} lead to {self._name(target)} by {member_name}, and only one may"

    @cached_property
    def _one_to_ones(self) -> Set[Tuple[str, str]]:
        return {
            (entity["name"], relation["name"])
            for entity in self._factory.mapping["entities"]
            for relation in entity.get("relations", ())
            if relation["kind"] == "oneToOne" and "mappedBy" not in relation
        }

    def exists(self) -> Iterator[str]:
        """New objects whose key is stored already."""
        return _first(self._exists(self._new), self._exists(self._perhaps))

    def _exists(self, objects: Sequence[Entity]) -> Iterator[str]:
        for each in objects:
            key = self._key(each)
            if key is not None and self._stored(each) is not None:
                hint = "find and change it, or give the new one another key"
                yield f"{_named(type(each).__name__, key)} is stored already: {hint}"

    def persisted(self, each: Entity) -> Iterator[str]:
        """Why an object can't be persisted."""
        key, kind = self._key(each), type(each).__name__
        if self._was_stored(each):
            yield f"{self._name(each)} is no new object, and this manager doesn't have it: merge it"
        elif key is not None and not self._is_new(each, key):
            way = "merge takes it"
            if self._held_version(each) is not None and self._stored(each) is None:
                # A flush wrote it before, and so a merge takes it for one that was removed.
                way = "since it isn't stored, make a new one with its values"
            yield (
                f"{_named(kind, key)} was persisted before, and this manager doesn't have it: it is "
                f"detached, as by a rollback, a refused commit or a clear; {way}"
            )
        elif key is not None:
            hint = "change that one, or give the new one another key"
            yield f"the manager has {_named(kind, key)} already: {hint}"

    def _is_new(self, each: Entity, key: Key) -> bool:
        """Whether an object was never managed: its key can be set, here to what it is."""
        line = self._run.set_line(each, self._entity(each).key[0].name, key[0])
        told = self._factory.ask_lines(self._run, [line], is_quiet=True)
        return not isinstance(told[0], Refused)

    def merged(self, given: Entity) -> Iterator[str]:
        """Of an object that was merged, and what goes along, those whose version isn't the one that
        stands."""
        is_told = False
        for each in [given, *self._beyond([given], "MERGE")][:_MOST]:
            version, key, held = self._version(each), self._key(each), self._held_version(each)
            if version is None or key is None or held is None:
                continue
            name, stored = _named(type(each).__name__, key), self._stored(each, version)
            if stored is None:
                is_told = True
                yield f"{name} isn't stored: another commit removed it, or its own was rolled back"
            elif stored[0] != held:
                is_told = True
                versions = f"version {stored[0]} is stored, and the merged one has {held}"
                yield f"{name} was changed by another commit: {versions}"
        if not is_told and (key := self._key(given)) is not None:
            name = _named(type(given).__name__, key)
            yield f"{name}, or what goes along, has another version than this manager's own"

    def _version(self, each: Entity) -> Optional[str]:
        """The name of an object's version, where it has one."""
        members = self._entity(each).members
        return next((it.name for it in members if it.kind is MemberKind.VERSION), None)

    def _held_version(self, each: Entity) -> Optional[int]:
        """The version that an object has; None where it has none."""
        version = self._version(each)
        held = None if version is None else self._value(each, version)
        return held if isinstance(held, int) else None

    def stale(self) -> Iterator[str]:
        """What another commit changed or removed since it was read."""
        told = [it.of for it in self._refused.events if it.kind in _WRITTEN | _DROPPED]
        told += self._refused._written
        found = self.of([*told, *self._concern.locked, *self._concern.removed])
        perhaps: List[str] = []
        is_told = False
        for each in found[:_MOST]:
            word, is_sure = self._staleness(each)
            if is_sure:
                is_told = True
                yield word
            elif word:
                perhaps.append(word)
        if not is_told and len(perhaps) == 1:
            yield f"{perhaps[0]} was changed by another commit"
        elif not is_told and perhaps:
            yield f"one of these was changed by another commit: {', '.join(perhaps[:10])}"

    def _staleness(self, each: Entity) -> Tuple[str, bool]:
        """What is told of an object whose state another commit may have changed, and whether it
        did; nothing where it didn't."""
        version = self._version(each)
        stored = self._stored(each, *([version] if version else []))
        if not self._was_stored(each):
            is_there = stored is not None
            word = f"{self._name(each)} was stored by another commit too"
            return (word if is_there else ""), is_there
        if stored is None:
            return f"{self._name(each)} was removed by another commit", True
        held = None if version is None else self._value(each, version)
        if not isinstance(held, int):
            return self._name(each), False
        # An earlier flush of the transaction may have raised it.
        was_raised = each._karzhoul_number in self._refused._written
        if stored[0] > held or (stored[0] == held and was_raised):
            read = "an older one" if was_raised else str(held)
            versions = f"version {stored[0]} is stored, and {read} was read"
            return f"{self._name(each)} was changed by another commit: {versions}", True
        return ("" if stored[0] < held else self._name(each)), False


def _first(*ways: Iterator[str]) -> Iterator[str]:
    """What the first of these tells that tells something."""
    for way in ways:
        for word in way:
            yield word
            yield from way
            return


def _quoted(value: Any) -> str:
    return repr(value) if isinstance(value, str) else value_text(value)


def _taken(function: Mapping[str, Any]) -> str:
    """What a converter takes, where that is a table of values."""
    if function["make"] != "table":
        return ""
    values = [_quoted(value_of(here)) for here, _ in function["pairs"]]
    more = f" and {len(values) - _MOST_VALUES} more" if len(values) > _MOST_VALUES else ""
    return f": it takes {', '.join(values[:_MOST_VALUES])}{more}"


def _by_class(objects: Iterable[Entity]) -> Dict[str, List[Entity]]:
    found: Dict[str, List[Entity]] = {}
    for each in dict.fromkeys(objects):
        found.setdefault(type(each).__name__, []).append(each)
    return found


def _objects(value: Any) -> List[Entity]:
    """The objects in the value of a relation."""
    listed = value if isinstance(value, list) else [value]
    return [each for each in listed if isinstance(each, Entity)]


def _named(kind: str, key: Sequence[Any]) -> str:
    return f"{kind} {', '.join(map(value_text, key))}"


def _bare(name: str) -> str:
    return name[len("the new ") :] if name.startswith("the new ") else name


def _items(variable: str, names: Sequence[str]) -> str:
    return ", ".join(f"{variable}.{name}" for name in names)


def _is(path: str, entity: EntityDescription) -> str:
    """The condition that a path leads to the object of the key in the parameters."""
    return " AND ".join(f"{path}.{part.name} = :k{at}" for at, part in enumerate(entity.key))
