"""The rows of tables that the objects of a store are."""

from __future__ import annotations

from typing import Any, Callable, Dict, Iterator, List, NoReturn, Optional, Tuple

from ..classes.types import Unfit
from ..records.records import Record, Shape
from ..refusals import KarzhoulError
from .dialects import Dialect, Make
from .tables import CLASS, KEY, LINK, OWNER, VALUE, VERSION, Column, Table, Tables

Row = List[Any]
_Cell = Tuple[Column, Callable[[Record], Any], Optional[Make]]


class NoRow(KarzhoulError):
    """An object that can't be a row; nothing was written."""

    @property
    def faults(self) -> List[str]:
        """What is said of it."""
        return [str(self)]


class Rows:
    """Makes rows of the records of a store, for a database. A `NoRow` says which object has a value
    that the database, or the type of its class, doesn't take."""

    def __init__(self, tables: Tables, dialect: Dialect) -> None:
        self._tables, self._dialect = tables, dialect
        self._cells: Dict[str, List[_Cell]] = {}
        self._lists: Dict[str, List[Tuple[Table, List[_Cell], List[Optional[Make]]]]] = {}
        for name, shape in tables.side.shapes.items():
            self._cells[name] = [self._cell(it, shape) for it in tables.of_entity(name).columns]
            self._lists[name] = [
                (table,
                 [self._cell(it, shape) for it in table.columns if it.sort == OWNER],
                 [dialect.maker(it.type) for it in table.columns if it.sort != OWNER])
                for table in tables.lists_of(shape).values()
            ]

    def _cell(self, column: Column, shape: Shape) -> _Cell:
        return column, _got(column, shape, self._tables), self._dialect.maker(column.type)

    def row(self, record: Record) -> Row:
        """The row of an object, in the table of its hierarchy."""
        found: Row = []
        for column, got, make in self._cells[record.entity]:
            value = got(record)
            if value is not None and make is not None:
                try:
                    value = make(value)
                except Unfit as why:
                    _refuse(record, column, why)
            found.append(value)
        return found

    def lists(self, record: Record) -> Iterator[Tuple[Table, Row]]:
        """The rows of the lists that an object has."""
        for table, owner, makers in self._lists[record.entity]:
            keys = record.pairs[str(table.pair)]
            if not keys:
                continue
            front = [_made(got(record), make) for _, got, make in owner]
            for key in keys:
                yield table, front + [_made(part, make) for part, make in zip(key, makers)]


def _made(value: Any, make: Optional[Make]) -> Any:
    return value if make is None else make(value)


def _refuse(record: Record, column: Column, why: Unfit) -> NoReturn:
    name = column.place.partition(".")[2]
    raise NoRow(f"{record}: {name} {why}") from why


def _got(column: Column, shape: Shape, tables: Tables) -> Callable[[Record], Any]:
    """What reads the value of a column of a record of this class, as it is stored."""
    name, at = column.member, column.at
    if column.sort == CLASS:
        mark = tables.marks[shape.name]
        return lambda record: mark
    if column.sort in (KEY, OWNER):
        return lambda record: record.key[at] if record.key else None
    if column.sort == VERSION:
        return lambda record: record.version
    if column.declarer not in shape.chain:
        return lambda record: None
    if column.sort == VALUE:
        return lambda record: record.values[name]
    assert column.sort == LINK

    def led(record: Record) -> Any:
        key = record.links[name]
        return None if key is None else key[at]

    return led
