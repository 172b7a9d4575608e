"""The objects that the rows of tables are: the way back from what `export` wrote."""

from __future__ import annotations

import sqlite3
from typing import Callable, Dict, Iterator, List, Optional, Sequence, Tuple, Union

from ..classes.types import Unfit as UnfitValue
from ..records.dumping import tops_in_order
from ..migrating.bringing import Brought
from ..migrating.plans import Led
from ..records.records import Key, Shape, Unfit, Value, fitting, named
from ..mapping.unit import Member
from .dialects import quoted
from .sqlite import columns_of
from .tables import KEY, LINK, OWNER, TARGET, VALUE, VERSION, Column, Table, Tables

Cells = Sequence[Value]


class _Wrong(Exception):
    """What is wrong with a row."""


def misfits_of(tables: Sequence[Table], columns: Callable[[Table], Sequence[str]]) -> List[str]:
    """What is lacking of tables, or is none of the mapping's, where these are the columns that
    there are of each."""
    found: List[str] = []
    for table in tables:
        there = {name.lower(): name for name in columns(table)}
        wanted = {it.name.lower(): it.name for it in table.columns}
        if not there:
            found.append(f"there is no table {table.name}")
            continue
        found += [f"{table.name} has no column {name}" for each, name in wanted.items()
                  if each not in there]
        found += [f"{table.name} has a column {name}, of which the mapping knows nothing"
                  for each, name in there.items() if each not in wanted]
    return found


class Straight:
    """What relations of rows lead to: objects of the hierarchies that they name."""

    def __init__(self, tops: Dict[str, str]) -> None:
        self._tops = tops

    def now(self, led: Led) -> Union[None, bool, Tuple[str, Key]]:
        """The hierarchy and the key."""
        return self._tops[led.entity], led.key


class Reading:
    """The rows of a file of SQLite. `faults` are those that are no objects."""

    def __init__(self, store: sqlite3.Connection, tables: Tables) -> None:
        self._store, self._tables = store, tables
        self.faults: List[str] = []

    # ---- tables

    def misfits(self) -> List[str]:
        """What of the tables is lacking, or is none of the mapping's."""
        return misfits_of(self._tables.all, lambda table: [
            row[1] for row in self._store.execute(f"PRAGMA table_info({quoted(table.name)})")
        ])

    def count(self) -> int:
        """How many objects there are."""
        tables = [it for it in self._tables.all if it.pair is None]
        return sum(
            int(self._store.execute(f"SELECT count(*) FROM {quoted(it.name)}").fetchone()[0])
            for it in tables
        )

    def nexts(self) -> Dict[str, int]:
        """The number that the next object of each hierarchy gets whose keys are generated."""
        found: Dict[str, int] = {}
        for table in self._tables.all:
            if any(it.is_generated for it in table.columns):
                text = "SELECT seq FROM sqlite_sequence WHERE name = ?"
                row = self._store.execute(text, (table.name,)).fetchone()
                found[table.entity] = int(row[0]) + 1 if row else 1
        return found

    def _rows(self, table: Table, order: Sequence[str]) -> Iterator[Cells]:
        names = columns_of([it.name for it in table.columns])
        text = f"SELECT {names} FROM {quoted(table.name)} ORDER BY {columns_of(order)}"
        yield from self._store.execute(text)

    # ---- objects

    def objects(self) -> Iterator[Brought]:
        """The objects, in an order in which they can be stored; what is wrong with a row is among
        the faults."""
        for top in tops_in_order(self._tables.side.shapes):
            table = self._tables.of_entity(top)
            lists = [_List(it, self._rows(it, it.key)) for it in self._tables.all
                     if it.pair is not None and self._tables.of_entity(it.entity) is table]
            for cells in self._rows(table, table.key):
                try:
                    yield self._object(table, cells, lists)
                except _Wrong as why:
                    self.faults.append(str(why))
            self.faults += [it.left() for it in lists if it.row is not None]

    def _object(self, table: Table, cells: Cells, lists: List[_List]) -> Brought:
        shape = self._shape(table, cells)
        values = dict(zip((it.name for it in table.columns), cells))
        key = tuple(_checked(it, values[it.name], table.name)
                    for it in table.columns if it.sort == KEY)
        found = Brought(shape, key)
        for column in table.columns:
            value = values[column.name]
            if column.sort == VERSION:
                version = _checked(column, value, str(found))
                found.version = version if isinstance(version, int) else 0
            elif column.sort in (VALUE, LINK) and column.declarer not in shape.chain:
                if value is not None:
                    raise _Wrong(f"{found}: {column.name} has a value, and {shape.name} hasn't it")
            elif column.sort == VALUE:
                found.values[column.member] = _checked(column, value, str(found))
        self._lead(table, shape, found, values)
        for each in lists:
            if each.table.entity in shape.chain:
                member = shape.pairs[str(each.table.pair)]
                found.pairs[member.name] = [Led(False, member.type, it) for it in each.of(key)]
        return found

    def _shape(self, table: Table, cells: Cells) -> Shape:
        mark = table.mark
        if mark is None:
            return self._tables.side.shapes[table.entity]
        value = cells[table.columns.index(mark)]
        for shape in self._tables.classes(table.entity):
            if self._tables.marks[shape.name] == value:
                return shape
        key = tuple(cell for it, cell in zip(table.columns, cells) if it.sort == KEY)
        raise _Wrong(f"{named(table.name, key)}: {mark.name} is {value!r}, which is no class")

    def _lead(
        self, table: Table, shape: Shape, found: Brought, values: Dict[str, Value]
    ) -> None:
        for name, member in shape.links.items():
            columns = table.of(LINK, member)
            key = tuple(_checked(it, values[it.name], str(found)) for it in columns)
            is_null = [part is None for part in key]
            if any(is_null) and not all(is_null):
                raise _Wrong(f"{found}: a part of {name} is null, and another isn't")
            found.links[name] = None if any(is_null) else Led(False, member.type, key)
        _look_at_required(shape, found)


def _look_at_required(shape: Shape, found: Brought) -> None:
    members: List[Member] = [*shape.values.values(), *shape.links.values()]
    for member in members:
        held = found.values.get(member.name), found.links.get(member.name)
        if member.is_required and held == (None, None):
            raise _Wrong(f"{found}: {member.name} is required, and null")


def _checked(column: Column, value: Value, what: str) -> Value:
    """A value of a column, which is one of its type."""
    if value is None:
        if column.sort in (KEY, VERSION):
            raise _Wrong(f"{what}: {column.name} is null")
        return None
    try:
        fitting(value, column.check.stored, column.name)
        column.check.from_stored(value)
    except Unfit as why:
        raise _Wrong(f"{what}: {why}") from why
    except UnfitValue as why:
        raise _Wrong(f"{what}: {column.name} is {value!r}, which {why}") from why
    return value


class _List:
    """The rows of a list's table, whose owners rise."""

    def __init__(self, table: Table, rows: Iterator[Cells]) -> None:
        self.table, self._rows = table, rows
        self._owner = [at for at, it in enumerate(table.columns) if it.sort == OWNER]
        self._target = [at for at, it in enumerate(table.columns) if it.sort == TARGET]
        self.row: Optional[Cells] = next(rows, None)

    def of(self, key: Key) -> Iterator[Key]:
        """The keys that this owner's list leads to."""
        while self.row is not None and tuple(self.row[at] for at in self._owner) == key:
            yield tuple(
                _checked(self.table.columns[at], self.row[at], self.table.name)
                for at in self._target
            )
            self.row = next(self._rows, None)

    def left(self) -> str:
        """What is said of a row whose owner isn't there."""
        assert self.row is not None
        key = tuple(self.row[at] for at in self._owner)
        return f"{self.table.name}: {named(self.table.entity, key)} isn't there"
