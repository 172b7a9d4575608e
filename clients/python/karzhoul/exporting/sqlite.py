"""Tables in a file of SQLite: how they are said, and how they are written."""

from __future__ import annotations

import os
import sqlite3
from contextlib import closing
from pathlib import Path
from typing import Dict, Iterator, List, Sequence, Tuple
from urllib.parse import quote

from ..refusals import KarzhoulError
from .dialects import SQLite, quoted
from .rows import Row
from .tables import Column, Foreign, Table, Unique

_AT_ONCE = 5_000
_DIALECT = SQLite()


def columns_of(names: Sequence[str]) -> str:
    """Names beside each other."""
    return ", ".join(map(quoted, names))


def text_literal(value: str) -> str:
    """A text as a literal."""
    escaped = value.replace("'", "''")
    return f"'{escaped}'"


def table_made(table: Table) -> str:
    """The statement that makes a table, with all that it is held to."""
    is_generated = any(it.is_generated for it in table.columns)
    lines = [_column(it) for it in table.columns]
    if table.key and not is_generated:
        lines.append((f"PRIMARY KEY ({columns_of(table.key)})", ""))
    lines += [(f"CONSTRAINT {quoted(it.name)} UNIQUE ({columns_of(it.columns)})", "")
              for it in table.uniques if not it.marks]
    lines += [(_foreign(it), "") for it in table.foreign]
    said = [f"  {line}{',' if at < len(lines) else ''}{note}"
            for at, (line, note) in enumerate(lines, 1)]
    return "\n".join([f"CREATE TABLE {quoted(table.name)} (", *said, ")"])


def _column(column: Column) -> Tuple[str, str]:
    note = _DIALECT.note_of(column.type)
    end = f" -- {note}" if note else ""
    if column.is_generated:
        return f"{quoted(column.name)} INTEGER PRIMARY KEY AUTOINCREMENT", end
    null = " NOT NULL" if column.is_required else ""
    return f"{quoted(column.name)} {_DIALECT.type_of(column.type)}{null}", end


def _foreign(foreign: Foreign) -> str:
    return (f"CONSTRAINT {quoted(foreign.name)} FOREIGN KEY ({columns_of(foreign.columns)}) "
            f"REFERENCES {quoted(foreign.table)} ({columns_of(foreign.targets)}) "
            "DEFERRABLE INITIALLY DEFERRED")


def indexes_of(table: Table) -> Iterator[str]:
    """The statements that make its indexes."""
    for foreign in table.foreign:
        if foreign.index is not None:
            yield (f"CREATE INDEX {quoted(foreign.index)} ON {quoted(table.name)} "
                   f"({columns_of(foreign.columns)})")
    for unique in table.uniques:
        if unique.marks:
            yield partly_unique(table, unique)


def partly_unique(table: Table, unique: Unique) -> str:
    """The statement that has columns be unique among the rows of some classes."""
    assert table.mark is not None
    marks = ", ".join(map(text_literal, unique.marks))
    return (f"CREATE UNIQUE INDEX {quoted(unique.name)} ON {quoted(table.name)} "
            f"({columns_of(unique.columns)}) WHERE {quoted(table.mark.name)} IN ({marks})")


def next_said(table: Table, number: int) -> List[str]:
    """The statements that have keys go on with a number."""
    name = text_literal(table.name)
    return [f"DELETE FROM sqlite_sequence WHERE name = {name}",
            f"INSERT INTO sqlite_sequence (name, seq) VALUES ({name}, {number - 1})"]


class File:
    """A new file of SQLite, written beside its place until it is whole. The end of the block that
    raises leaves nothing of it."""

    def __init__(self, path: Path, tables: Sequence[Table]) -> None:
        self._path, self._tables = path, tables
        self._part = path.with_name(f"{path.name}.part")
        self._rows: Dict[str, List[Row]] = {table.name: [] for table in tables}
        self._inserts = {
            table.name: f"INSERT INTO {quoted(table.name)} VALUES "
                        f"({', '.join('?' * len(table.columns))})"
            for table in tables
        }

    def __enter__(self) -> File:
        self._part.unlink(missing_ok=True)
        self._store = sqlite3.connect(self._part, isolation_level=None)
        try:
            # Nobody sees the file before it is whole, and so it needs no journal.
            self._store.execute("PRAGMA journal_mode = OFF")
            self._store.execute("PRAGMA synchronous = OFF")
            self._store.execute("BEGIN")
            for table in self._tables:
                self._store.execute(table_made(table))
        except BaseException:
            self._give_up()
            raise
        return self

    def __exit__(self, kind: object, *_: object) -> None:
        if kind is not None:
            self._give_up()

    def _give_up(self) -> None:
        self._store.close()
        self._part.unlink(missing_ok=True)

    def begin(self, table: Table) -> None:
        """Says that the rows of a table follow."""

    def add(self, table: Table, row: Row) -> None:
        """Takes a row."""
        rows = self._rows[table.name]
        rows.append(row)
        if len(rows) >= _AT_ONCE:
            self._write(table)

    def _write(self, table: Table) -> None:
        self._store.executemany(self._inserts[table.name], self._rows[table.name])
        self._rows[table.name] = []

    def finish(self, nexts: Dict[str, int]) -> None:
        """Writes what is left, makes the indexes, looks at all constraints, and puts the file in
        its place."""
        for table in self._tables:
            self._write(table)
        for table in self._tables:
            for statement in indexes_of(table):
                self._store.execute(statement)
            if table.name in nexts:
                for statement in next_said(table, nexts[table.name]):
                    self._store.execute(statement)
        for name, row, target, _ in self._store.execute("PRAGMA foreign_key_check"):
            raise KarzhoulError(f"row {row} of {name} leads to no row of {target}")
        self._store.execute("COMMIT")
        self._store.close()
        put_new(self._part, self._path)


def refuse_logs(path: Path) -> None:
    """Refuses a log without its file, which SQLite would take for that of a new one."""
    for log in (path.with_name(f"{path.name}-wal"), path.with_name(f"{path.name}-journal")):
        if os.path.lexists(log):
            raise FileExistsError(f"there is a file {log} without its {path.name}, and SQLite would "
                                  "take it for the new one's: remove it")


def put_new(part: Path, path: Path) -> None:
    """Gives a file its name, which no other file has; else a `FileExistsError`."""
    descriptor = os.open(part, os.O_RDONLY)
    try:
        os.fsync(descriptor)
    finally:
        os.close(descriptor)
    try:
        os.link(part, path)
    except FileExistsError:
        part.unlink()
        raise FileExistsError(f"there is a file {path} already, made since this began") from None
    except OSError:  # Of a file system without a second name.
        os.rename(part, path)
    else:
        part.unlink()


def opened_to_read(path: Path) -> "closing[sqlite3.Connection]":
    """A file that is there, opened to be read alone."""
    return closing(sqlite3.connect(f"file:{_quoted_path(path)}?mode=ro", uri=True))


def opened_to_write(path: Path, wait: float) -> sqlite3.Connection:
    """A file that is there, opened to be changed; another one's write is waited for so long."""
    way = f"file:{_quoted_path(path)}?mode=rw"
    return sqlite3.connect(way, wait, isolation_level=None, uri=True)


def _quoted_path(path: Path) -> str:
    return quote(str(path.resolve()))
