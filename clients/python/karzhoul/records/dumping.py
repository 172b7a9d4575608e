"""What a store holds, read as records: by queries of values, so that no object is made for it, no
listener hears of it, and a store of any size is read."""

from __future__ import annotations

import heapq
from typing import Any, Dict, Iterable, Iterator, List, Mapping, Optional, Sequence, Set, Tuple

from ..mapping.unit import Member, entities_of
from ..objects.entities import Entity
from ..refusals import Persistence
from ..session.factory import EntityManagerFactory
from .records import GREATEST, Key, Next, Record, Shape, Unfit, Value, shapes_of

# A query has at most eight variables.
_LINKS_AT_A_TIME = 7
_LEAST_PAGE, _MOST_PAGE = 1_000, 50_000
# How many values a page aims at, and how many of its records tell what the next one may hold.
_VALUES, _WEIGHED = 200_000, 1_000
# The keys that are wanted, by class.
Wanted = Mapping[str, Iterable[Key]]


class Stored:
    """The objects that a store holds. The mapping of the unit hears nothing of theirs, as `bare`
    gives one."""

    def __init__(self, app: EntityManagerFactory) -> None:
        self._app, self._em = app, app.create_entity_manager()
        self.shapes, self.described = shapes_of(app.mapping), entities_of(app.mapping)
        # How many records the next page of a class has.
        self._sizes: Dict[str, int] = {}

    # ---- keys

    def keys(self, entity: str) -> List[Key]:
        """The keys of the objects of this very class, rising."""
        parts = ", ".join(f"e.{part.name}" for part in self.shapes[entity].key)
        rows = self._em.query(f"SELECT {parts} FROM {entity} e WHERE TYPE(e) = {entity}")
        return [tuple(row) if isinstance(row, list) else (row,) for row in rows]

    def classes(self, top: str) -> Dict[Key, str]:
        """The class of each object of a hierarchy, by its key."""
        return {key: name for name in self._within(top) for key in self.keys(name)}

    def _within(self, top: str) -> List[str]:
        return [shape.name for shape in self.shapes.values() if shape.top == top]

    def everything(self) -> Dict[str, List[Key]]:
        """The keys of all objects, by their class."""
        return {name: self.keys(name) for name in self.shapes}

    def next_number(self, top: str) -> int:
        """The number that the next object of a hierarchy gets as its key. It is given out by that,
        in this run of the program alone."""
        transaction = self._em.transaction().begin()
        try:
            probe = self._app.new(top)
            self._em.persist(probe)
            return int(self._app.get(probe, self.shapes[top].key[0].name))
        except Persistence:
            return GREATEST  # It is never given.
        finally:
            transaction.rollback()

    def nexts(self) -> Iterator[Next]:
        """The next number of each hierarchy whose keys are generated, where it isn't the first."""
        for shape in self.shapes.values():
            if shape.is_generated and shape.top == shape.name:
                number = self.next_number(shape.name)
                if number > 1:
                    yield Next(shape.name, number)

    # ---- records

    def in_order(self, wanted: Wanted) -> Iterator[Record]:
        """The records of what is wanted, in an order in which they can be stored: what others lead
        to comes before them as far as that can be, and the keys of a hierarchy rise."""
        for top in tops_in_order(self.shapes):
            each = [self.records(name, list(wanted.get(name, ()))) for name in self._within(top)]
            if len(each) == 1:
                yield from each[0]
            else:
                yield from heapq.merge(*each, key=lambda record: order_of(record.key or ()))

    def records(self, entity: str, keys: Sequence[Key]) -> Iterator[Record]:
        """The records of objects of this very class, whose keys rise."""
        shape, at = self.shapes[entity], 0
        while at < len(keys):
            page = keys[at : at + self._sizes.get(entity, _LEAST_PAGE)]
            records = list(_Page(shape, self.shapes, self._em.query, page).records.values())
            yield from records
            at += len(page)
            # Each query walks all objects of the class, and each page takes room.
            some = records[:: max(1, len(records) // _WEIGHED)]
            weight = sum(map(_weight, some)) // max(1, len(some))
            size = max(_LEAST_PAGE, min(_MOST_PAGE, _VALUES // max(1, weight)))
            self._sizes[entity] = size

    def walked(self, entity: str) -> Iterator[Record]:
        """The records of all objects of this very class, whose keys rise. A page of them is held at
        a time, and of the keys too."""
        last: Optional[Key] = None
        while keys := self._keys_behind(self.shapes[entity], last):
            yield from self.records(entity, keys)
            last = keys[-1]

    def _keys_behind(self, shape: Shape, last: Optional[Key]) -> List[Key]:
        parts = ", ".join(f"e.{part.name}" for part in shape.key)
        text = f"SELECT {parts} FROM {shape.name} e WHERE TYPE(e) = {shape.name}"
        params: Dict[str, Value] = {}
        if last is not None:
            text += f" AND ({_beyond(shape.key, '>', 'a', 0, is_own=False)})"
            params = {f"a{place}": part for place, part in enumerate(last)}
        rows = self._em.query(text, params=params, max=_MOST_PAGE)
        return [tuple(row) if isinstance(row, list) else (row,) for row in rows]

    # ---- what is wanted

    def found(self, text: str) -> Dict[str, List[Key]]:
        """The keys of the objects that a query finds, by their class."""
        rows = self._em.query(text)
        items = [item for row in rows for item in (row if isinstance(row, list) else [row])]
        objects = list(dict.fromkeys(item for item in items if isinstance(item, Entity)))
        if items and not objects:
            raise Unfit("the query finds no objects: select a variable, as SELECT e FROM ..")
        keys: Dict[str, Set[Key]] = {}
        for each in {type(found).__name__ for found in objects}:
            mine = [found for found in objects if type(found).__name__ == each]
            columns = [self._app.get_many(mine, part.name) for part in self.shapes[each].key]
            keys[each] = set(zip(*columns))
        return _rising(keys)

    def with_targets(self, wanted: Wanted) -> Dict[str, List[Key]]:
        """What is wanted, with all that it leads to by relations that are stored."""
        held: Dict[str, Set[Key]] = {name: set(keys) for name, keys in wanted.items()}
        classes: Dict[str, Dict[Key, str]] = {}
        added = held
        while any(added.values()):
            reached: Dict[str, Set[Key]] = {}
            for name, keys in _rising(added).items():
                for record in self.records(name, keys):
                    for member, key in record.targets(self.shapes[name]):
                        top = self.shapes[member.type].top
                        if top not in classes:
                            classes[top] = self.classes(top)
                        reached.setdefault(classes[top][key], set()).add(key)
            added = {name: keys - held.get(name, set()) for name, keys in reached.items()}
            held = {name: held.get(name, set()) | added.get(name, set()) for name in self.shapes}
        return _rising(held)


class _Page:
    """The records of some objects of one class: those whose keys lie from the first to the last of
    these, and are among them."""

    def __init__(
        self, shape: Shape, shapes: Mapping[str, Shape], query: Any, keys: Sequence[Key]
    ) -> None:
        self._shape, self._shapes, self._query = shape, shapes, query
        self._within, self._params = _between(shape.key, keys[0], keys[-1])
        self.records: Dict[Key, Record] = {}
        self._read(set(keys))

    def _read(self, wanted: Set[Key]) -> None:
        shape = self._shape
        links = list(shape.links.values())
        own = [*shape.values, *([shape.version] if shape.version else [])]
        for key, values in self._rows(own, links[:_LINKS_AT_A_TIME], "LEFT JOIN"):
            if key in wanted:
                record = self.records[key] = Record(shape.name, key)
                record.values = dict(zip(shape.values, values))
                version = values[len(shape.values)] if shape.version else None
                record.version = version if isinstance(version, int) else None
                record.pairs = {name: [] for name in shape.pairs}
                self._link(record, links[:_LINKS_AT_A_TIME], values[len(own) :])
        for start in range(_LINKS_AT_A_TIME, len(links), _LINKS_AT_A_TIME):
            some = links[start : start + _LINKS_AT_A_TIME]
            for key, values in self._rows([], some, "LEFT JOIN"):
                if key in wanted:
                    self._link(self.records[key], some, values)
        for pair in shape.pairs.values():
            for key, values in self._rows([], [pair], "JOIN"):
                if key in wanted:
                    self.records[key].pairs[pair.name].append(tuple(values))

    def _link(self, record: Record, links: Sequence[Member], values: Sequence[Value]) -> None:
        at = 0
        for link in links:
            key = tuple(values[at : at + len(self._shapes[link.type].key)])
            record.links[link.name] = None if None in key else key
            at += len(key)

    def _rows(
        self, names: Sequence[str], joined: Sequence[Member], join: str
    ) -> Iterator[Tuple[Key, List[Value]]]:
        """The key of each object with its members of these names, and the keys of what it leads to
        along these relations."""
        shape = self._shape
        items = [f"e.{name}" for name in (*(part.name for part in shape.key), *names)]
        joins = ""
        for place, member in enumerate(joined):
            joins += f" {join} e.{member.name} t{place}"
            items += [f"t{place}.{part.name}" for part in self._shapes[member.type].key]
        text = f"SELECT {', '.join(items)} FROM {shape.name} e{joins}"
        text += f" WHERE TYPE(e) = {shape.name} AND {self._within}"
        for row in self._query(text, params=self._params):
            values = list(row) if isinstance(row, list) else [row]
            yield tuple(values[: len(shape.key)]), values[len(shape.key) :]


def tops_in_order(shapes: Mapping[str, Shape]) -> List[str]:
    """The hierarchies, each behind those that it leads to. Where they lead round, it is behind
    those that it must lead to, if that can be."""
    leads: Dict[str, Set[str]] = {shape.top: set() for shape in shapes.values()}
    must: Dict[str, Set[str]] = {top: set() for top in leads}
    for shape in shapes.values():
        for member in shape.relations():
            target = shapes[member.type].top
            if target != shape.top:
                leads[shape.top].add(target)
                must[shape.top].update({target} if member.is_required else ())
    ordered: List[str] = []
    while len(ordered) < len(leads):
        left = [top for top in leads if top not in ordered]
        free = [top for top in left if leads[top] <= set(ordered)]
        free = free or [top for top in left if must[top] <= set(ordered)] or left
        ordered.append(free[0])
    return ordered


def order_of(key: Key) -> Tuple[Any, ...]:
    """What keys of one hierarchy are ordered by, as the rows of a store are."""
    return tuple(part.encode() if isinstance(part, str) else part for part in key)


def _rising(wanted: Mapping[str, Set[Key]]) -> Dict[str, List[Key]]:
    return {name: sorted(keys, key=order_of) for name, keys in wanted.items() if keys}


def _weight(record: Record) -> int:
    """How much room a record takes, in values of a hundred bytes."""
    long = [each for each in record.values.values() if isinstance(each, (str, bytes))]
    pairs = sum(map(len, record.pairs.values()))
    return 1 + len(record.values) + len(record.links) + pairs + sum(map(len, long)) // 100


def _between(parts: Sequence[Member], first: Key, last: Key) -> Tuple[str, Dict[str, Value]]:
    """The condition that a key lies between two, and its parameters."""
    params: Dict[str, Value] = {f"a{place}": part for place, part in enumerate(first)}
    params.update({f"b{place}": part for place, part in enumerate(last)})
    if len(parts) == 1:
        return f"e.{parts[0].name} BETWEEN :a0 AND :b0", params
    return f"({_beyond(parts, '>', 'a', 0)}) AND ({_beyond(parts, '<', 'b', 0)})", params


def _beyond(
    parts: Sequence[Member], sign: str, bound: str, place: int, is_own: bool = True
) -> str:
    """The condition that a key lies on one side of another, or is it where that is its own."""
    name = f"e.{parts[place].name}"
    if place == len(parts) - 1:
        return f"{name} {sign}{'=' if is_own else ''} :{bound}{place}"
    rest = _beyond(parts, sign, bound, place + 1, is_own)
    return f"{name} {sign} :{bound}{place} OR ({name} = :{bound}{place} AND ({rest}))"
