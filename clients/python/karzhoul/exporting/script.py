"""Tables as a text of SQL, for `psql` or the shell `sqlite3`."""

from __future__ import annotations

import sys
import tempfile
from contextlib import suppress
from pathlib import Path
from typing import IO, Any, Callable, Dict, Iterator, List, Optional, Sequence

from .dialects import Dialect, PostgreSQL, SQLite, quoted
from .rows import Row
from .sqlite import (
    columns_of, indexes_of, next_said, partly_unique, put_new, table_made, text_literal,
)
from .tables import Column, Table

# A list's rows are found with those of their owners, and stand behind them.
_IN_MEMORY = 1 << 20
Line = Callable[[Table, Row], str]


class Script:
    """A new file of SQL, written beside its place until it is whole; `-` is standard output. The
    end of the block that raises leaves nothing of it."""

    def __init__(self, name: str, tables: Sequence[Table], dialect: Dialect) -> None:
        self._path = None if name == "-" else Path(name)
        self._tables, self._words = tables, _words_of(dialect)
        self._later: Dict[str, IO[str]] = {}
        self._sequences: List[str] = []
        self._begun: Optional[Table] = None

    def __enter__(self) -> Script:
        self._out: IO[str] = sys.stdout
        if self._path is not None:
            self._part = self._path.with_name(f"{self._path.name}.part")
            self._out = self._part.open("w", encoding="utf-8", newline="\n")
        elif hasattr(sys.stdout, "reconfigure"):
            sys.stdout.reconfigure(encoding="utf-8", newline="\n")
        self._say(self._words.front())
        for table in self._tables:
            self._say(self._words.made(table))
        return self

    def __exit__(self, kind: object, *_: object) -> None:
        for each in self._later.values():
            each.close()
        if self._path is None or kind is None:
            return
        with suppress(OSError):  # A full disk refuses what is left in the buffer, too.
            self._out.close()
        self._part.unlink(missing_ok=True)

    def _say(self, statements: Iterator[str]) -> None:
        for each in statements:
            self._out.write(each + "\n")

    def begin(self, table: Table) -> None:
        """Says that the rows of a table follow."""
        self._end()
        self._begun = table
        self._say(self._words.begin(table))

    def _end(self) -> None:
        if self._begun is not None:
            self._say(self._words.end())
        self._begun = None

    def add(self, table: Table, row: Row) -> None:
        """Takes a row."""
        line = self._words.line(table, row)
        if table is self._begun:
            self._out.write(line)
            return
        if table.name not in self._later:
            self._later[table.name] = tempfile.SpooledTemporaryFile(
                _IN_MEMORY, "w+", encoding="utf-8", newline="\n"
            )
        self._later[table.name].write(line)

    def count(self, name: str, first: int, step: int) -> None:
        """Takes a sequence, and the number that it gives first."""
        self._sequences += self._words.counted(name, first, step)

    def finish(self, nexts: Dict[str, int]) -> None:
        """Writes what is left, and puts the file in its place."""
        self._end()
        for table in self._tables:
            if table.name in self._later:
                self.begin(table)
                self._later[table.name].seek(0)
                for text in iter(lambda: self._later[table.name].read(_IN_MEMORY), ""):
                    self._out.write(text)
        self._end()
        for table in self._tables:
            self._say(self._words.held(table))
        for table in self._tables:
            self._say(self._words.led(table))
            if table.name in nexts:
                self._say(self._words.following(table, nexts[table.name]))
        self._say(iter(self._sequences))
        self._out.write("COMMIT;\n")
        if self._path is not None:
            self._out.close()
            put_new(self._part, self._path)


class _Words:
    """The statements of a database."""

    def front(self) -> Iterator[str]:
        """What stands in front."""
        raise NotImplementedError

    def made(self, table: Table) -> Iterator[str]:
        """What makes a table."""
        raise NotImplementedError

    def begin(self, table: Table) -> Iterator[str]:
        """What stands in front of the rows of a table."""
        return iter(())

    def line(self, table: Table, row: Row) -> str:
        """A row."""
        raise NotImplementedError

    def end(self) -> Iterator[str]:
        """What stands behind the rows of a table."""
        return iter(())

    def held(self, table: Table) -> Iterator[str]:
        """What holds the rows of a table by themselves."""
        raise NotImplementedError

    def led(self, table: Table) -> Iterator[str]:
        """What holds a table to the others."""
        return iter(())

    def following(self, table: Table, number: int) -> Iterator[str]:
        """What has its keys go on with a number."""
        raise NotImplementedError

    def counted(self, name: str, first: int, step: int) -> Iterator[str]:
        """What makes a sequence."""
        return iter(())


class _ForSQLite(_Words):
    def front(self) -> Iterator[str]:
        yield "-- For the shell of SQLite: sqlite3 FILE <THIS. It stops at the first fault."
        yield ".bail on"
        yield "PRAGMA foreign_keys = ON;"
        yield "BEGIN;"

    def made(self, table: Table) -> Iterator[str]:
        yield f"{table_made(table)};"

    def line(self, table: Table, row: Row) -> str:
        values = ", ".join(map(_literal, row))
        return f"INSERT INTO {quoted(table.name)} VALUES ({values});\n"

    def held(self, table: Table) -> Iterator[str]:
        for statement in indexes_of(table):
            yield f"{statement};"

    def following(self, table: Table, number: int) -> Iterator[str]:
        for statement in next_said(table, number):
            yield f"{statement};"


def _literal(value: Any) -> str:
    if value is None:
        return "NULL"
    if isinstance(value, bytes):
        return f"x'{value.hex()}'"
    if isinstance(value, int):
        # The least whole number is no literal of its own.
        return str(value) if value != -(2**63) else "(-9223372036854775807 - 1)"
    if "\0" in value:
        return f"CAST(x'{value.encode().hex()}' AS TEXT)"
    return text_literal(value)


class _ForPostgreSQL(_Words):
    _dialect = PostgreSQL()

    def front(self) -> Iterator[str]:
        yield "-- For psql: psql -f THIS DATABASE. It stops at the first fault, and changes nothing."
        yield "\\set ON_ERROR_STOP on"
        yield "BEGIN;"
        yield "SET LOCAL client_encoding = 'UTF8';"
        yield "SET LOCAL standard_conforming_strings = on;"

    def made(self, table: Table) -> Iterator[str]:
        lines = [self._column(it) for it in table.columns]
        if table.key:
            lines.append(f"PRIMARY KEY ({columns_of(table.key)})")
        said = ",\n  ".join(lines)
        yield f"CREATE TABLE {quoted(table.name)} (\n  {said}\n);"
        for column in table.columns:
            note = self._dialect.note_of(column.type)
            if note:
                place = f"{quoted(table.name)}.{quoted(column.name)}"
                yield f"COMMENT ON COLUMN {place} IS {text_literal(note)};"

    def _column(self, column: Column) -> str:
        kind = self._dialect.type_of(column.type)
        null = " NOT NULL" if column.is_required else ""
        own = " GENERATED BY DEFAULT AS IDENTITY" if column.is_generated else ""
        return f"{quoted(column.name)} {kind}{null}{own}"

    def begin(self, table: Table) -> Iterator[str]:
        names = columns_of([it.name for it in table.columns])
        yield f"COPY {quoted(table.name)} ({names}) FROM stdin;"

    def line(self, table: Table, row: Row) -> str:
        return "\t".join(["\\N" if it is None else str(it) for it in row]) + "\n"

    def end(self) -> Iterator[str]:
        yield "\\."

    def held(self, table: Table) -> Iterator[str]:
        for unique in table.uniques:
            if unique.marks:
                yield f"{partly_unique(table, unique)};"
            else:
                yield (f"ALTER TABLE {quoted(table.name)} ADD CONSTRAINT {quoted(unique.name)} "
                       f"UNIQUE ({columns_of(unique.columns)});")
        for foreign in table.foreign:
            if foreign.index is not None:
                yield (f"CREATE INDEX {quoted(foreign.index)} ON {quoted(table.name)} "
                       f"({columns_of(foreign.columns)});")

    def led(self, table: Table) -> Iterator[str]:
        for it in table.foreign:
            yield (f"ALTER TABLE {quoted(table.name)} ADD CONSTRAINT {quoted(it.name)} "
                   f"FOREIGN KEY ({columns_of(it.columns)}) REFERENCES {quoted(it.table)} "
                   f"({columns_of(it.targets)}) DEFERRABLE;")

    def following(self, table: Table, number: int) -> Iterator[str]:
        key = next(it for it in table.columns if it.is_generated)
        yield (f"ALTER TABLE {quoted(table.name)} ALTER COLUMN {quoted(key.name)} "
               f"RESTART WITH {number};")

    def counted(self, name: str, first: int, step: int) -> Iterator[str]:
        yield f"CREATE SEQUENCE {quoted(name)} START WITH {first} INCREMENT BY {step};"


def _words_of(dialect: Dialect) -> _Words:
    return _ForSQLite() if isinstance(dialect, SQLite) else _ForPostgreSQL()
