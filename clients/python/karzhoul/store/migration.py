"""What an opening with a mapping would change in a store of another revision, told from the store's
cells before anything is written.

It knows the cells that such a mapping drops, moves and fills, and which cells its rows have then.
Whether the rows are otherwise those that the mapping writes, only the program knows:
`cli.command.run_migrate` asks it over a copy.
"""

from __future__ import annotations

import json
import sqlite3
from contextlib import closing, contextmanager
from dataclasses import dataclass, field
from itertools import groupby
from pathlib import Path
from typing import Any, Dict, Iterator, List, Mapping, Optional, Tuple
from urllib.parse import quote

from ..mapping.converters import Plain, column_value, is_converter, value_of
from .damage import Column, damage, row_columns

Cells = Dict[int, bytes]

_REVISION = (0, b"\x01\x80" + bytes(7))
"""The table and the row that say a store's revision, if it isn't 1."""
_WALK = "SELECT r, c, v FROM cell WHERE t = ? ORDER BY r, c"


def cell_of(value: Plain) -> bytes:
    """The bytes of a value's cell."""
    if isinstance(value, int):
        return b"\x01" + (value + 2**63).to_bytes(8, "big")
    return b"\x02" + value.encode() if isinstance(value, str) else b"\x03" + value


# ---- what a mapping says


@dataclass(frozen=True)
class Filled:
    """An attribute that is new: its default, if it has one, and what its column then holds."""

    name: str
    column: int
    default: Optional[Plain] = None
    stored: Optional[Plain] = None

    def __str__(self) -> str:
        if self.default is None or self.stored is None:
            return f"{self.name} is new in column {self.column}, and null"
        as_stored = "" if self.stored == self.default else f" (stored as {_shown(self.stored)})"
        return f"{self.name} is new, with {_shown(self.default)} in column {self.column}{as_stored}"


@dataclass(frozen=True)
class Moved:
    """An attribute with another column than before."""

    name: str
    column: int
    was: int

    def __str__(self) -> str:
        return f"{self.name} moves from column {self.was} to column {self.column}"


@dataclass(frozen=True)
class Dropped:
    """A column that goes."""

    column: int

    def __str__(self) -> str:
        return f"column {self.column} goes"


@dataclass
class EntityChanges:
    """What becomes of the rows of one entity, those of its subclasses apart: how many rows there
    are, how many are written again, and for each change how many of them it concerns."""

    name: str
    columns: Mapping[int, Column]
    filled: List[Filled]
    moved: List[Moved]
    dropped: List[Dropped]
    rows: int = 0
    written: int = 0
    counts: Dict[object, int] = field(default_factory=dict)

    def after(self, cells: Cells) -> Cells:
        """The cells of a row of this entity as they are then, rising."""
        gone = {each.column for each in self.dropped}
        places = {each.was: each.column for each in self.moved}
        kept = {column: value for column, value in cells.items() if column not in gone}
        found = {places.get(column, column): value for column, value in kept.items()}
        for each in self.filled:
            if each.stored is not None:
                found[each.column] = cell_of(each.stored)
        return dict(sorted(found.items()))

    def count(self, cells: Cells) -> int:
        """Counts a row, and gives the statements that write it again, none where it stays."""
        concerned: List[object] = [each for each in self.filled if each.stored is not None]
        concerned += [each for each in self.moved if each.was in cells]
        concerned += [each for each in self.dropped if each.column in cells]
        for each in concerned:
            self.counts[each] = self.counts.get(each, 0) + 1
        self.rows += 1
        self.written += bool(concerned)
        return 1 + len(self.after(cells)) if concerned else 0

    def told(self) -> Iterator[str]:
        """Lines for a reader."""
        again = f", {self.written:,} written again" if self.written else ""
        yield f"{self.name}: {_count(self.rows, 'row')}{again}"
        for each in [*self.moved, *self.filled, *self.dropped]:
            is_null = isinstance(each, Filled) and each.stored is None
            where = "from" if isinstance(each, Dropped) else "in"
            rows = _count(self.counts.get(each, 0), "row")
            yield f"  {each}" if is_null else f"  {each}, {where} {rows}"


@dataclass
class _Hierarchy:
    """The entities of one table by their discriminators, and who has columns that were empty."""

    table: int
    entities: Dict[bytes, EntityChanges]
    taken: Dict[int, str]


def _shown(value: Plain) -> str:
    if isinstance(value, bytes):
        return f"x'{value.hex()}'"
    return json.dumps(value, ensure_ascii=False)


def _count(number: int, what: str) -> str:
    return f"{number:,} {what}" + ("" if number == 1 else "s")


def _hierarchies(mapping: Mapping[str, Any]) -> List[_Hierarchy]:
    """The hierarchies of a well-formed mapping."""
    declared = {entity["name"]: entity for entity in mapping["entities"]}
    functions = {each["name"]: each for each in mapping.get("functions", ()) if is_converter(each)}
    found: Dict[int, _Hierarchy] = {}
    for name, entity in declared.items():
        chain = [entity]
        while "extends" in chain[0]:
            chain.insert(0, declared[chain[0]["extends"]])
        attributes = [attribute for each in chain for attribute in each.get("attributes", ())]
        filled = [_filled(attribute, functions) for attribute in attributes if "since" in attribute]
        moved = [_moved(attribute) for attribute in attributes if "was" in attribute]
        dropped = list(map(Dropped, chain[0].get("dropped", ())))
        hierarchy = found.setdefault(chain[0]["table"], _Hierarchy(chain[0]["table"], {}, {}))
        changes = EntityChanges(name, row_columns(chain), filled, moved, dropped)
        hierarchy.entities[cell_of(entity.get("discriminator", name))] = changes
        hierarchy.taken.update({each.column: each.name for each in filled})
        hierarchy.taken.update({each.column: each.name for each in moved})
    return list(found.values())


def _filled(attribute: Mapping[str, Any], functions: Mapping[str, Any]) -> Filled:
    name, column = attribute["name"], attribute["column"]
    if "default" not in attribute:
        return Filled(name, column)
    default = value_of(attribute["default"])
    if "converter" not in attribute:
        return Filled(name, column, default, default)
    return Filled(name, column, default, column_value(functions[attribute["converter"]], default))


def _moved(attribute: Mapping[str, Any]) -> Moved:
    return Moved(attribute["name"], attribute["column"], attribute["was"])


# ---- what a store says


@dataclass
class Outlook:
    """What an opening would do: the revisions of the store and of the mapping, what becomes of each
    entity's rows where the store is migrated, by how many statements, and why the opening is
    refused, as far as the changes tell."""

    store: int
    mapping: int
    entities: List[EntityChanges] = field(default_factory=list)
    statements: int = 0
    refused: List[str] = field(default_factory=list)

    @property
    def is_due(self) -> bool:
        """Whether the opening migrates the store, if it isn't refused."""
        return self.store == 1 and self.mapping == 2

    def told(self) -> Iterator[str]:
        """Lines for a reader."""
        yield f"the store is of revision {self.store}, and the mapping of revision {self.mapping}"
        for entity in self.entities:
            yield from entity.told()
        for why in self.refused:
            yield f"an opening would be refused: {why}"
        if not self.refused and self.is_due:
            commit = f"in one commit, of {_count(self.statements, 'statement')}"
            yield f"an opening would write this {commit}, which can't be undone"
        elif not self.refused:
            yield "an opening would write nothing"


def outlook(mapping: Mapping[str, Any], store: Path) -> Outlook:
    """What an opening of a store with a well-formed mapping would do. The store is read, and
    nothing is written."""
    with opened_to_read(store) as connection:
        cells = _Cells(connection)
        found = _revisions(mapping, cells)
        if not found.refused:
            _judged(found, mapping, cells)
    return found


@contextmanager
def opened_to_read(store: Path) -> Iterator[sqlite3.Connection]:
    """A connection that reads the store as it stands, with its log, and writes nothing to it."""
    path = f"file:{quote(str(store.resolve()))}?mode=ro"
    with closing(sqlite3.connect(path, uri=True, timeout=1)) as connection:
        yield connection


class _Cells:
    """The cells of a store, table by table; none where there is no table of cells yet."""

    def __init__(self, connection: sqlite3.Connection) -> None:
        self._connection = connection
        found = connection.execute("SELECT 1 FROM sqlite_schema WHERE name = 'cell'").fetchone()
        self._is_there = found is not None

    def rows(self, table: int) -> Iterator[Tuple[bytes, Cells]]:
        """The rows of a table, rising."""
        found = self._connection.execute(_WALK, (table,)) if self._is_there else ()
        for row, cells in groupby(found, key=_row):
            yield row, {column: bytes(value) for _, column, value in cells}


def _row(cell: Tuple[bytes, int, bytes]) -> bytes:
    return cell[0]


def _revisions(mapping: Mapping[str, Any], store: _Cells) -> Outlook:
    table, row = _REVISION
    cells = next((cells for each, cells in store.rows(table) if each == row), None)
    found = Outlook(1 if cells is None else 2, mapping["revision"])
    if cells is not None and cells != {0: cell_of(2)}:
        found.refused.append(f"row {row.hex()} of table {table} says no revision that there is")
    elif found.store > found.mapping:
        says = f"says that the store is of revision {found.store}"
        found.refused.append(f"row {row.hex()} of table {table} {says}")
    return found


def _judged(found: Outlook, mapping: Mapping[str, Any], store: _Cells) -> None:
    """Adds what is seen of the rows: those that keep it from opening and, of a migration, what
    becomes of the others, with the two statements that write the revision's row."""
    hierarchies = _hierarchies(mapping)
    if found.is_due:
        found.statements = 2
        by_name = {each.name: each for some in hierarchies for each in some.entities.values()}
        found.entities = [by_name[entity["name"]] for entity in mapping["entities"]]
    for hierarchy in sorted(hierarchies, key=lambda each: each.table):
        for row, cells in store.rows(hierarchy.table):
            entity = hierarchy.entities.get(cells.get(0, b""))
            why = _damage(hierarchy, cells, entity, found.is_due)
            if why is not None and not found.refused:
                found.refused.append(f"row {row.hex()} of table {hierarchy.table} {why}")
            elif why is None and entity is not None and found.is_due:
                found.statements += entity.count(cells)


def _damage(
    hierarchy: _Hierarchy, cells: Cells, entity: Optional[EntityChanges], is_due: bool
) -> Optional[str]:
    taken = next((column for column in sorted(cells) if column in hierarchy.taken), None)
    if is_due and taken is not None:
        return f"has a cell in column {taken} already, which {hierarchy.taken[taken]!r} is to have"
    if entity is None:
        return "is a row of no entity of the mapping"
    return damage(entity.name, entity.columns, entity.after(cells) if is_due else cells)
