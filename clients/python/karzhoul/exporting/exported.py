"""The command `export`: a store as tables of another database."""

from __future__ import annotations

import argparse
import os
import sqlite3
import sys
from contextlib import contextmanager
from dataclasses import replace
from pathlib import Path
from typing import Any, Dict, Iterator, List, Mapping, Optional, Sequence, Tuple

from ..session import opening
from ..session.factory import EntityManagerFactory
from ..classes.mapping import FORMS
from ..mapping.converters import value_of
from ..records.dumping import Stored
from ..migrating.sides import Side, mapped
from ..store.migration import outlook
from ..records.progress import Progress
from ..records.records import bare
from ..refusals import KarzhoulError, Misused
from . import annotated_rows
from .annotated import Annotated, annotated
from .annotated_rows import refuse_others
from .dialects import DIALECTS, Dialect
from .naming import AS_MAPPED, Names, given_names
from .rows import NoRow, Rows
from .script import Script
from .sqlite import File, refuse_logs
from .tables import Table, Tables
from .targets import Target, counts_of

WRONG = 1
_FORMS_OF = f"SELECT f.at, f.form FROM {FORMS} f"
_KINDS = {int: "int", str: "text", bytes: "bytes"}


class NoTables(KarzhoulError):
    """Names that a database doesn't take; nothing was written."""

    def __init__(self, faults: Sequence[str]) -> None:
        super().__init__("\n".join(faults))
        self.faults = list(faults)


def run(said: argparse.Namespace) -> int:
    """Writes the tables of a store; 1 where the mapping, a name or an object stands in the way."""
    dialect, name = _wanted(said)
    if not Path(said.db).is_file():
        raise FileNotFoundError(f"there is no file {said.db}")
    if name != "-":
        check_new(Path(name))
    if said.sqlite is not None:
        refuse_logs(Path(name))
    given = _given(said, dialect)
    side = given.side if given is not None else side_of(mapped(said.mapping), said.what)
    _refuse_older(side, Path(said.db))
    with opened(side, Path(said.db), said.program) as app:
        try:
            if given is not None:
                refuse_others(app, given, said.tables)
                tables = given.all
                count = annotated_rows.write(app, given, dialect, _target(said, name, tables, dialect))
            else:
                made = tables_of(side, app, said, dialect)
                tables = made.all
                count = write(app, made, dialect, _target(said, name, tables, dialect))
        except (NoTables, NoRow) as why:
            return stopped(why.faults, f"{name} was not written")
        except (sqlite3.Error, OSError) as fault:
            raise KarzhoulError(f"{name} can't be written, and was not: {fault}") from fault
    if name != "-":
        print(f"{name}: {count:,} objects in {len(tables)} tables")
    return 0


def _given(said: argparse.Namespace, dialect: Dialect) -> Optional[Annotated]:
    """The tables that a file names, where it is one of these that are wanted."""
    if said.tables is None:
        if said.round or said.zone is not None:
            raise Misused("--round and --zone go with --tables alone")
        return None
    if said.name or said.names != AS_MAPPED or said.what != "attribute":
        raise Misused("--names, --name and --as don't go with --tables, which says all of it")
    given = annotated(said, dialect)
    if given.faults:
        raise KarzhoulError("\n".join(given.faults))
    return given


def _target(
    said: argparse.Namespace, name: str, tables: Sequence[Table], dialect: Dialect
) -> Target:
    return File(Path(name), tables) if said.sql is None else Script(name, tables, dialect)


def _wanted(said: argparse.Namespace) -> Tuple[Dialect, str]:
    if said.sqlite is not None:
        if said.dialect is not None:
            raise Misused("--dialect goes with --sql alone")
        return DIALECTS["sqlite"], said.sqlite
    if said.dialect is None:
        raise Misused(f"--sql goes with --dialect, one of {', '.join(DIALECTS)}")
    return DIALECTS[said.dialect], said.sql


def check_new(path: Path) -> None:
    """Refuses a file that is there, or can't be made where it is to be."""
    if os.path.lexists(path):
        raise FileExistsError(f"there is a file {path} already")
    if not path.absolute().parent.is_dir():
        raise FileNotFoundError(f"there is no folder {path.absolute().parent}")


def stopped(faults: List[str], end: str) -> int:
    """Tells what is wrong, and what became of it."""
    for fault in faults:
        print(f"karzhoul: {fault}", file=sys.stderr)
    print(f"karzhoul: {end}", file=sys.stderr)
    return WRONG


# ---- what is read


def side_of(side: Side, what: str) -> Side:
    """A side whose attributes are read and written as an application has them, or as their columns
    are stored."""
    return side if what == "attribute" else replace(side, mapping=_unconverted(side.mapping))


def _unconverted(mapping: Mapping[str, Any]) -> Dict[str, Any]:
    """A mapping of the same rows, whose attributes are what is stored of them."""
    functions = {it["name"]: it for it in mapping.get("functions", ())}

    def plain(attribute: Mapping[str, Any]) -> Dict[str, Any]:
        if "converter" not in attribute:
            return dict(attribute)
        if "default" in attribute:
            raise KarzhoulError(
                f"--as column can't be had of {attribute['name']}, which has a default and a "
                "converter: take a mapping without the default"
            )
        kept = {name: it for name, it in attribute.items() if name != "converter"}
        return {**kept, "type": _stored_type(functions[attribute["converter"]], attribute["type"])}

    entities = [
        {**it, "attributes": [plain(each) for each in it["attributes"]]}
        if "attributes" in it else it for it in mapping["entities"]
    ]
    return {**mapping, "entities": entities}


def _stored_type(function: Mapping[str, Any], kind: str) -> str:
    if function["make"] == "hextext":
        return "text"
    if function["make"] == "table" and function["pairs"]:
        return _KINDS[type(value_of(function["pairs"][0][1]))]
    return kind


def _refuse_older(side: Side, db: Path) -> None:
    if side.mapping["revision"] == 2 and outlook(side.mapping, db).is_due:
        raise KarzhoulError(
            f"{db} is of revision 1, and an opening by {side.word} would bring it over for good: "
            "name the mapping that it was written with by --mapping"
        )


@contextmanager
def opened(
    side: Side, db: Path, program: Optional[str]
) -> Iterator[EntityManagerFactory]:
    """A store that is read, over a mapping by which nobody hears of it."""
    with opening.open(bare(side.mapping), str(db), program=program) as app:
        try:
            yield app
        except KeyboardInterrupt:
            app.program.kill()  # Else the end would wait for the call's answer.
            raise


def tables_of(
    side: Side, app: EntityManagerFactory, said: argparse.Namespace, dialect: Dialect
) -> Tables:
    """The tables that the words of a command make of a store; a `NoTables` says what a database
    doesn't take."""
    if side.made is None and any(it["name"] == FORMS for it in side.mapping["entities"]):
        rows = app.create_entity_manager().query(_FORMS_OF)
        side.take_forms({at: form for at, form in rows})
    tables = Tables(side, Names(said.names, given_names(said.name)), said.what == "column")
    tables.names.check()
    if tables.faults + dialect.faults(tables.all):
        raise NoTables(tables.faults + dialect.faults(tables.all))
    return tables


# ---- what is written


def write(
    app: EntityManagerFactory, tables: Tables, dialect: Dialect, target: Target
) -> int:
    """Writes a store as tables; how many objects it has."""
    stored, rows, counts = Stored(app), Rows(tables, dialect), counts_of(app, tables.side.shapes)
    with Progress(sum(counts.values())) as told, target:
        done = 0
        for table in (it for it in tables.all if it.pair is None):
            target.begin(table)
            for shape in tables.classes(table.entity):
                for record in stored.walked(shape.name) if counts[shape.name] else ():
                    target.add(table, rows.row(record))
                    for of, row in rows.lists(record):
                        target.add(of, row)
                    done += 1
                    if done % 1_000 == 0:
                        told(done)
        target.finish({
            tables.of_entity(it.entity).name: it.number for it in stored.nexts()
            if it.entity in tables.side.shapes
        })
    return sum(counts.values())
