"""Tables of a file of SQLite that are made what they are in another one, while others read them."""

from __future__ import annotations

import sqlite3
from contextlib import closing, suppress
from pathlib import Path
from typing import Iterator, Sequence

from ..refusals import KarzhoulError
from .dialects import quoted
from .sqlite import columns_of, opened_to_write, put_new, text_literal
from .tables import Table

# How many seconds another one's write is waited for.
_WAIT = 30.0
_MADE = ("SELECT type, name, sql FROM {}.sqlite_master WHERE sql IS NOT NULL "
         "AND substr(name, 1, 7) <> 'sqlite_'")


def follow(fresh: Path, out: Path, tables: Sequence[Table]) -> int:
    """Makes the tables of a file what they are in a fresh one, in one transaction; how many rows
    were written or removed. Where there is no such file, it becomes the fresh one."""
    if not out.exists():
        with closing(sqlite3.connect(fresh)) as store:
            rows = sum(int(store.execute(f"SELECT count(*) FROM {quoted(it.name)}").fetchone()[0])
                       for it in tables)
        put_new(fresh, out)
        return rows
    with closing(opened_to_write(out, _WAIT)) as store:
        store.execute("PRAGMA foreign_keys = OFF")  # The fresh file's were looked at.
        store.execute("ATTACH ? AS fresh", (str(fresh),))
        _refuse_others(store, out)
        # So a reader sees what was there as it began, and holds up nobody.
        with suppress(sqlite3.OperationalError):
            store.execute("PRAGMA main.journal_mode = WAL")
        before = store.total_changes
        store.execute("BEGIN IMMEDIATE")
        rows = sum(_changed(store, table) for table in tables)
        for statement in _numbers_changed(tables):
            store.execute(statement)
        store.execute("COMMIT" if store.total_changes > before else "ROLLBACK")
        return rows


def settle(out: Path) -> None:
    """Has a file that is followed no more be one file again, unless others read it."""
    with suppress(sqlite3.Error), closing(opened_to_write(out, 0)) as store:
        store.execute("PRAGMA journal_mode = DELETE")


def _refuse_others(store: sqlite3.Connection, out: Path) -> None:
    """Refuses a file whose tables are others."""
    there = {(kind, name): text for kind, name, text in store.execute(_MADE.format("main"))}
    for kind, name, text in store.execute(_MADE.format("fresh")):
        if there.get((kind, name)) != text:
            what = "another" if (kind, name) in there else "no"
            raise KarzhoulError(f"{out} has {what} {kind} {name}: it was written by another mapping, "
                                "or by other --names, --name and --as. Name another file")


def _changed(store: sqlite3.Connection, table: Table) -> int:
    """Changes the rows of a table; how many were written or removed, each told once."""
    gone, removal, writing = _rows_changed(table)
    [[count]] = store.execute(gone).fetchall()
    store.execute(removal)
    return int(count) + store.execute(writing).rowcount


def _rows_changed(table: Table) -> Iterator[str]:
    """How many rows of a table are gone, and what changes its rows. Of what is unique a row may
    have what another one had: so those that changed are removed first."""
    name, key = quoted(table.name), _alike("=", table.key)
    yield (f"SELECT count(*) FROM main.{name} AS mine WHERE NOT EXISTS "
           f"(SELECT 1 FROM fresh.{name} AS its WHERE {key})")
    rest = [it.name for it in table.columns if it.name not in table.key]
    same = " AND ".join([key, *([_alike("IS", rest)] if rest else [])])
    yield (f"DELETE FROM main.{name} AS mine WHERE NOT EXISTS "
           f"(SELECT 1 FROM fresh.{name} AS its WHERE {same})")
    columns = columns_of([it.name for it in table.columns])
    yield (f"INSERT INTO main.{name} ({columns}) SELECT {columns} FROM fresh.{name} AS its "
           f"WHERE NOT EXISTS (SELECT 1 FROM main.{name} AS mine WHERE {key})")


def _numbers_changed(tables: Sequence[Table]) -> Iterator[str]:
    """What changes the numbers that come next."""
    names = ", ".join(text_literal(it.name) for it in tables
                      if any(each.is_generated for each in it.columns))
    if names:
        same = "WHERE mine.name = its.name AND mine.seq = its.seq"
        yield (f"DELETE FROM main.sqlite_sequence AS mine WHERE name IN ({names}) AND NOT EXISTS "
               f"(SELECT 1 FROM fresh.sqlite_sequence AS its {same})")
        yield (f"INSERT INTO main.sqlite_sequence (name, seq) SELECT name, seq "
               f"FROM fresh.sqlite_sequence AS its WHERE name IN ({names}) AND NOT EXISTS "
               f"(SELECT 1 FROM main.sqlite_sequence AS mine {same})")


def _alike(sign: str, names: Sequence[str]) -> str:
    return " AND ".join(f"mine.{quoted(it)} {sign} its.{quoted(it)}" for it in names)
