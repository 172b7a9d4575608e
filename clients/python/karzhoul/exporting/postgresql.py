"""Tables of PostgreSQL, fetched by `psql` as one moment has them, to a file of SQLite from which they
are read."""

from __future__ import annotations

import os
import re
import shutil
import sqlite3
import subprocess
from contextlib import closing
from decimal import Context, Decimal
from functools import partial
from glob import glob
from pathlib import Path
from typing import IO, Callable, Dict, Iterator, List, Optional, Sequence, Union

from ..classes.types import Money
from ..refusals import KarzhoulError
from .dialects import quoted
from .reading import misfits_of
from .sqlite import columns_of, text_literal
from .tables import Column, Table

Cell = Union[None, int, str, bytes]
Take = Callable[[str], Cell]
_AT_ONCE = 5_000
# No row of COPY begins so, which writes \\ for a backslash.
_END = "\\="
_ESCAPED = re.compile(r"\\(.)")
_ESCAPES = {"b": "\b", "f": "\f", "n": "\n", "r": "\r", "t": "\t", "v": "\v"}
_MOMENT = re.compile(r"(\d{4}-\d\d-\d\d )?(\d\d:\d\d:\d\d)(?:\.(\d{1,6}))?(\+00)?")
_NUMBER = re.compile(r"-?[0-9]+(\.[0-9]+)?")
_TRUTHS: Dict[str, Cell] = {"t": 1, "f": 0}


def fetched(database: str, tables: Sequence[Table], folder: Path) -> Path:
    """A file in this folder with the rows of a database, as `psql -d` names it. A `WrongTables`
    tells what of the tables is lacking or unknown; what else fails is a `KarzhoulError`."""
    script, out = folder / "script.sql", folder / "rows.db"
    script.write_text("\n".join(_script(tables)) + "\n", encoding="utf-8")
    words = [_psql(), "-X", "-q", "-A", "-t", "-w", "-f", str(script), "-d", database]
    env = {**os.environ, "PGCLIENTENCODING": "UTF8"}
    with closing(sqlite3.connect(out, isolation_level=None)) as store, \
            (folder / "errors").open("w+b") as errors:
        with subprocess.Popen(words, stdin=subprocess.DEVNULL, stdout=subprocess.PIPE,
                              stderr=errors, env=env) as psql:
            try:
                assert psql.stdout is not None
                is_whole = _take(psql.stdout, tables, store)
            except BaseException:
                psql.kill()
                raise
        if psql.returncode or not is_whole:
            errors.seek(0)
            raise KarzhoulError(f"PostgreSQL: {_first_words(errors.read().decode(errors='replace'))}")
    return out


class WrongTables(KarzhoulError):
    """Tables that aren't those of the mapping."""

    def __init__(self, faults: Sequence[str]) -> None:
        super().__init__("\n".join(faults))
        self.faults = list(faults)


def _psql() -> str:
    there = sorted(glob("/usr/lib/postgresql/*/bin/psql"))
    found = shutil.which("psql") or (there[-1] if there else None)
    if found is None:
        raise KarzhoulError("there is no psql on the PATH: apt-get install postgresql-client")
    return found


def _first_words(said: str) -> str:
    """The first line of what psql says, without the place in the script."""
    lines = [re.sub(r"^psql:[^ ]*: ", "", line).strip() for line in said.splitlines()]
    return next((line for line in lines if line), "psql ended without a word")


# ---- what psql is told


def _script(tables: Sequence[Table]) -> Iterator[str]:
    yield "\\set ON_ERROR_STOP on"
    yield "BEGIN ISOLATION LEVEL REPEATABLE READ READ ONLY;"
    yield "SET LOCAL timezone = 'UTC'; SET LOCAL datestyle = 'ISO, YMD';"
    yield "SET LOCAL bytea_output = 'hex'; SET LOCAL standard_conforming_strings = on;"
    places = ", ".join(f"({at}, to_regclass({text_literal(quoted(it.name))}))"
                       for at, it in enumerate(tables))
    yield ("COPY (SELECT t.at, a.attname, format_type(a.atttypid, a.atttypmod) "
           f"FROM (VALUES {places}) AS t (at, rel) JOIN pg_attribute a ON a.attrelid = t.rel "
           "WHERE a.attnum > 0 AND NOT a.attisdropped ORDER BY 1, a.attnum) TO STDOUT;")
    yield _ended()
    for table in tables:
        names = columns_of([it.name for it in table.columns])
        yield f"COPY (SELECT {names} FROM {quoted(table.name)}) TO STDOUT;"
        yield _ended()
    for table in tables:
        yield from _next_asked(table)
        yield _ended()


def _next_asked(table: Table) -> Iterator[str]:
    """What tells the number that comes next, where the database has one."""
    key = next((it for it in table.columns if it.is_generated), None)
    if key is None:
        return
    of = f"pg_get_serial_sequence({text_literal(quoted(table.name))}, {text_literal(key.name)})"
    yield f"SELECT {of} IS NOT NULL AS there, {of} AS sequence \\gset"
    yield "\\if :there"
    yield "COPY (SELECT last_value + is_called::int FROM :sequence) TO STDOUT;"
    yield "\\endif"


def _ended() -> str:
    return "\\echo '\\\\='"


# ---- what it tells


def _take(told: IO[bytes], tables: Sequence[Table], store: sqlite3.Connection) -> bool:
    """Takes all that psql tells; whether it is whole."""
    parts = _Parts(told)
    # The types of the columns that there are, by table.
    types: Dict[str, Dict[str, str]] = {}
    for at, name, kind in parts.rows():
        types.setdefault(tables[int(at or 0)].name, {})[name or ""] = kind or ""
    if not parts.is_ended:
        return False
    misfits = misfits_of(tables, lambda table: list(types.get(table.name, ())))
    if misfits:
        raise WrongTables(misfits)
    store.execute("PRAGMA journal_mode = OFF")
    store.execute("PRAGMA synchronous = OFF")
    store.execute("BEGIN")
    # What SQLite makes for such a table has the numbers that come next.
    store.execute('CREATE TABLE " " (a INTEGER PRIMARY KEY AUTOINCREMENT)')
    for table in tables:
        takers = [_taker(it, types[table.name].get(it.name, "")) for it in table.columns]
        _take_rows(parts.rows(), table, takers, store)
    for table in tables:
        for row in parts.rows():
            _take_next(int(row[0] or 1), table, store)
    store.execute("COMMIT")
    return parts.is_ended


class _Parts:
    """What COPY tells, a part after the other."""

    def __init__(self, told: IO[bytes]) -> None:
        self._told = told
        self.is_ended = True
        """Whether the last part was told to its end."""

    def rows(self) -> Iterator[List[Optional[str]]]:
        """The rows of the next part."""
        if not self.is_ended:
            return
        self.is_ended = False
        for said in self._told:
            line = said.decode().rstrip("\n")
            if line == _END:
                self.is_ended = True
                return
            yield [None if it == "\\N" else _read(it) for it in line.split("\t")]


def _read(said: str) -> str:
    if "\\" not in said:
        return said
    return _ESCAPED.sub(lambda found: _ESCAPES.get(found[1], found[1]), said)


def _take_rows(
    rows: Iterator[List[Optional[str]]], table: Table, takers: Sequence[Take],
    store: sqlite3.Connection,
) -> None:
    # Without types, so that each value stays as it is read.
    names = columns_of([it.name for it in table.columns])
    store.execute(f"CREATE TABLE {quoted(table.name)} ({names})")
    into = f"INSERT INTO {quoted(table.name)} VALUES ({', '.join('?' * len(table.columns))})"
    some: List[List[Cell]] = []
    for row in rows:
        some.append([None if it is None else take(it) for it, take in zip(row, takers)])
        if len(some) == _AT_ONCE:
            store.executemany(into, some)
            some = []
    store.executemany(into, some)


def _take_next(number: int, table: Table, store: sqlite3.Connection) -> None:
    key = quoted(next(it.name for it in table.columns if it.is_generated))
    store.execute(f"INSERT INTO sqlite_sequence (name, seq) SELECT ?, max(?, coalesce(max({key}), 0)) "
                  f"FROM {quoted(table.name)}", (table.name, number - 1))


# ---- values


def _taker(column: Column, kind: str) -> Take:
    """What makes the stored form of a value of a column, which has this type in PostgreSQL. What it
    can't read stays as it is said, and doesn't fit then."""
    if column.type.stored == "bytes":
        return _bytes
    if column.type.stored == "int" and kind == "boolean":
        return _truth
    if column.type.stored == "int":
        return partial(_whole, scale=_scale(column, kind))
    moment = re.fullmatch(r"time(stamp)?(?:\(\d\))? with(out)? time zone", kind)
    if moment is None or not (moment[1] or moment[2]):
        return _as_said
    return partial(_moment, has_day=bool(moment[1]), zone="" if moment[2] else "Z")


def _scale(column: Column, kind: str) -> int:
    """How many places whole numbers stand for; a mapping may not say it."""
    said = re.fullmatch(r"numeric\(\d+,(\d+)\)", kind)
    if isinstance(column.type, Money):
        return column.type.scale
    return int(said[1]) if said is not None else 0


def _as_said(said: str) -> Cell:
    return said


def _truth(said: str) -> Cell:
    return _TRUTHS[said]


def _whole(said: str, scale: int) -> Cell:
    """A number as a whole one of so many places."""
    if not _NUMBER.fullmatch(said):
        return said
    # No digit may be lost.
    number = Decimal(said).scaleb(scale, Context(prec=len(said) + scale))
    return int(number) if number == number.to_integral_value() else said


def _moment(said: str, has_day: bool, zone: str) -> Cell:
    """A time, or a day with one, as it is stored."""
    found = _MOMENT.fullmatch(said)
    if found is None or (found[1] is not None) != has_day:
        return said
    day = f"{found[1].strip()}T" if has_day else ""
    return f"{day}{found[2]}.{(found[3] or '').ljust(6, '0')}{zone}"


def _bytes(said: str) -> Cell:
    try:
        return bytes.fromhex(said[2:]) if said.startswith("\\x") else said
    except ValueError:
        return said
