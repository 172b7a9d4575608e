"""How records become objects of a store, in a transaction that is open."""

from __future__ import annotations

import re
from dataclasses import dataclass
from typing import Any, Dict, Iterator, List, Optional, Sequence, Tuple

from ..objects.entities import Entity
from ..refusals import KarzhoulError, Refused
from ..session.factory import EntityManagerFactory
from ..wire.lines import FlushModeType, LockModeType, line_of, spelled, text_spelled
from .records import Key, Record, Shape, Value, shapes_of

# The version of an object whose key has several parts is raised by locks, up to so many.
_MOST_LOCKS = 50


@dataclass
class Row:
    """A row on its way into the store, with its object once it is there."""

    line: int
    record: Record
    shape: Shape
    is_new: bool
    object: Any = None

    def number(self) -> int:
        """Its key, where that is a number."""
        part = self.record.key[0] if self.record.key else None
        return part if isinstance(part, int) else 0


class Writer:
    """Writes rows by a manager of its own, and gives out the numbers of generated keys between them
    by another one."""

    def __init__(self, app: EntityManagerFactory, nexts: Dict[str, int], hears: bool) -> None:
        """With the next number of each hierarchy whose rows keep their generated keys."""
        self.app, self.nexts, self._hears = app, nexts, hears
        self._shapes = shapes_of(app.mapping)
        relations = (it for shape in self._shapes.values() for it in shape.relations())
        self._targeted = {self._shapes[relation.type].top for relation in relations}
        # The objects that others may lead to, by the keys of the file, and the keys that they got.
        self._objects: Dict[str, Dict[Key, Entity]] = {}
        self._renamed: Dict[str, Dict[Key, Key]] = {}
        # The line of each object of the rows that were written last.
        self._lines: Dict[int, int] = {}
        self.open()

    def open(self) -> None:
        """Makes its managers, at first and after a restart."""
        self._objects, self._lines = {}, {}
        self.em, self._spare = (self.app.create_entity_manager() for _ in range(2))
        # It flushes itself.
        self.em.set_flush_mode(FlushModeType.COMMIT)

    def line_of(self, refused: Refused) -> Optional[int]:
        """The line of the row whose object a refused call was about."""
        found = re.search('"object":([0-9]+)', refused.line)
        return self._lines.get(int(found[1])) if found else None

    # ---- writing

    def write(self, rows: Sequence[Row], is_trial: bool = False) -> None:
        """Writes rows into the open transaction. Of a trial, which is given up, the keys that are
        generated don't count."""
        self._lines = {}
        self._find_objects(rows)
        self._find_targets(rows)
        with self.app.pipeline():
            for row in rows:
                self._fill(row)
        if is_trial:
            with self.app.pipeline():
                for row in rows:
                    self._persist(row)
        else:
            self._persist_in_turn(rows)
        self.em.flush()
        if not is_trial:
            self._look_at_keys(rows)
        self._set_versions([row for row in rows if row.record.version is not None])

    def _find_objects(self, rows: Sequence[Row]) -> None:
        for is_new, entity, some in _sorted_out(rows):
            if is_new:
                objects: Sequence[Any] = self.app.new_many(entity, [{}] * len(some))
            else:
                objects = self.em.find_many(entity, [row.record.key for row in some])
            for row, each in zip(some, objects):
                row.object = each
                self._lines[each._karzhoul_number] = row.line
                if row.shape.top in self._targeted and row.record.key is not None:
                    self._objects.setdefault(row.shape.top, {})[row.record.key] = each

    def _find_targets(self, rows: Sequence[Row]) -> None:
        """Finds what rows lead to, where it was stored before."""
        wanted: Dict[str, Dict[Key, None]] = {}
        for row in rows:
            for member, key in row.record.targets(row.shape):
                top = self._shapes[member.type].top
                if key not in self._objects.setdefault(top, {}):
                    wanted.setdefault(top, {})[key] = None
        for top, keys in wanted.items():
            renamed = self._renamed.get(top, {})
            found = self.em.find_many(top, [renamed.get(key, key) for key in keys])
            for key, each in zip(keys, found):
                if each is not None:
                    self._objects[top][key] = each

    def _fill(self, row: Row) -> None:
        """Tells an object what its record tells."""
        app, each, record, shape = self.app, row.object, row.record, row.shape
        if row.is_new and not shape.is_generated:
            for part, value in zip(shape.key, record.key or ()):
                app.set(each, part.name, value)
        self._fill_values(each, record, row.is_new)
        for name, key in record.links.items():
            if key is not None or not row.is_new:
                target = None if key is None else self._target(shape.links[name].type, key)
                app.set(each, name, target)
        for name, keys in record.pairs.items():
            targets = [self._target(shape.pairs[name].type, key) for key in dict.fromkeys(keys)]
            if row.is_new:
                for target in targets:
                    app.add(each, name, target)
            elif set(app.get(each, name)) != set(targets):
                setattr(each, name, targets)

    def _fill_values(self, each: Entity, record: Record, is_new: bool) -> None:
        for name, value in record.values.items():
            if value is not None or not is_new:
                self.app.set(each, name, value)

    def _target(self, entity: str, key: Key) -> Entity:
        return self._objects[self._shapes[entity].top][key]

    def _persist(self, row: Row) -> None:
        if row.is_new:
            self.em.persist(row.object)

    # ---- generated keys

    def _persist_in_turn(self, rows: Sequence[Row]) -> None:
        """Persists new objects in their order, and before each those that take the numbers between
        the last one's and its own."""
        unused = self._unused(rows)
        with self.app.pipeline():
            for row in rows:
                for each in unused.get(row.line, ()):
                    self._spare.persist(each)
                self._persist(row)
        if unused:
            self._spare.clear()

    def _unused(self, rows: Sequence[Row]) -> Dict[int, List[Any]]:
        """The objects that take numbers before a row's, by its line."""
        unused: Dict[int, List[Any]] = {}
        for row in rows:
            following = self.nexts.get(row.shape.top)
            if row.is_new and following is not None and row.record.key is not None:
                self.nexts[row.shape.top] = row.number() + 1
                if row.number() > following:
                    unused[row.line] = self._taking(row.record, row.number() - following)
                    self._lines.update({it._karzhoul_number: row.line for it in unused[row.line]})
        return unused

    def _taking(self, record: Record, count: int) -> List[Any]:
        """New objects that take so many numbers. Where listeners hear of them, they hear what they
        will hear of the record, which is next."""
        objects = self.app.new_many(record.entity, [{}] * count)
        if self._hears:
            with self.app.pipeline():
                for each in objects:
                    self._fill_values(each, record, True)
        return objects

    def give_out(self, top: str, number: int, most: int, like: Optional[Record]) -> bool:
        """Gives out the numbers of a hierarchy below this one, at most so many; whether any is
        left."""
        count = min(number - self.nexts[top], most)
        if count > 0:
            taking = self._taking(like or Record(top, None), count)
            with self.app.pipeline():
                for each in taking:
                    self._spare.persist(each)
            self._spare.clear()
            self.nexts[top] += count
        return number > self.nexts[top]

    def _look_at_keys(self, rows: Sequence[Row]) -> None:
        """Holds the keys that were generated against those of the file."""
        for is_new, entity, some in _sorted_out(rows):
            shape = self._shapes[entity]
            if not is_new or not shape.is_generated:
                continue
            given = self.app.get_many([row.object for row in some], shape.key[0].name)
            for row, number in zip(some, given):
                if shape.top not in self.nexts:
                    self._rename(row, (number,))
                elif row.record.key is not None and number != row.number():
                    raise KarzhoulError(f"line {row.line}: {row.record} was given {number}")

    def _rename(self, row: Row, key: Key) -> None:
        if row.shape.top in self._targeted and row.record.key is not None:
            self._renamed.setdefault(row.shape.top, {})[row.record.key] = key

    # ---- versions

    def _set_versions(self, rows: Sequence[Row]) -> None:
        """Gives the rows that were written the versions that they are to have."""
        for _, entity, some in _sorted_out(rows):
            shape = self._shapes[entity]
            names = [part.name for part in shape.key]
            columns = [self.app.get_many([it.object for it in some], name) for name in names]
            stand = self._versions(some)
            if len(names) > 1 and not self._hears:
                self._raise(some, stand)
                stand = self._versions(some)
            lines = [
                self._version_line(shape, key, row.record.version)
                for row, key, version in zip(some, zip(*columns), stand)
                if version != row.record.version
            ]
            self.app.ask_lines(self.em._run, lines)

    def _versions(self, rows: Sequence[Row]) -> List[int]:
        name = str(rows[0].shape.version)
        return self.app.get_many([row.object for row in rows], name)

    def _raise(self, rows: Sequence[Row], stand: Sequence[int]) -> None:
        """Raises the versions of objects by locks, as far as that takes fewer than an UPDATE does,
        which looks for an object whose key has several parts among all."""
        left = {row.line: (row.record.version or 0) - at for row, at in zip(rows, stand)}
        while some := [row for row in rows if 0 < left[row.line] <= _MOST_LOCKS]:
            with self.app.pipeline():
                for row in some:
                    self.em.lock(row.object, LockModeType.OPTIMISTIC_FORCE_INCREMENT)
                    left[row.line] -= 1
            self.em.flush()

    def _version_line(self, shape: Shape, key: Key, version: Optional[int]) -> bytes:
        where = " AND ".join(f"e.{part.name} = :k{at}" for at, part in enumerate(shape.key))
        text = f"UPDATE {shape.name} e SET e.{shape.version} = :v WHERE {where}"
        params: Dict[str, Value] = {f"k{at}": part for at, part in enumerate(key)}
        params["v"] = version
        given = ",".join(f"{text_spelled(name)}:{spelled(value)}" for name, value in params.items())
        members = {"em": str(self.em.number), "text": text_spelled(text), "params": f"{{{given}}}"}
        return line_of("executeUpdate", members)


def _sorted_out(rows: Sequence[Row]) -> Iterator[Tuple[bool, str, List[Row]]]:
    """Rows by whether they are new and by their entities."""
    parts: Dict[Tuple[bool, str], List[Row]] = {}
    for row in rows:
        parts.setdefault((row.is_new, row.record.entity), []).append(row)
    for (is_new, entity), some in parts.items():
        yield is_new, entity, some
