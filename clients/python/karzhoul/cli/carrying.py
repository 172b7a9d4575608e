"""The commands `dump` and `load`: what a store holds as lines of JSON or as CSV, and back."""

from __future__ import annotations

import argparse
import io
import json
import os
import sys
from contextlib import contextmanager
from pathlib import Path
from typing import Any, Callable, Dict, Iterator, List, Mapping, Optional, TextIO

from ..mapping.given import mapping_data
from ..mapping.linter import lint
from ..mapping.meant import meant
from ..mapping.unit import OWN_ENTITIES
from ..records.dumping import Stored
from ..records.loading import HEARD, HEARD_OF_CHANGES, Loader
from ..records.plans import Plan, Terms, checked
from ..records.progress import Progress
from ..records.records import Key, Shape, bare, shapes_of
from ..records.sources import RowFault, Source
from ..records.spelling import (
    FORMAT, Begun, Ended, cells_of, columns_of, line_of_item, row_of_cells,
)
from ..refusals import KarzhoulError, Misused, ProgramEnded, Refused
from ..session.factory import EntityManagerFactory
from ..showing.asked import Statement, mistakes_in

WRONG, FAILED, INTERRUPTED = 1, 4, 130
# Opens the program for a command, over this mapping and this database.
Opener = Callable[[argparse.Namespace, Mapping[str, Any], Optional[str]], EntityManagerFactory]

_DUMP = """Writes what a store holds as lines of JSON: an object a line, with its key, its
version, the values of its attributes, its links by key, and the keys of its pairs. 'load' makes the
same cells of it. With --csv it is the CSV of one entity. Nothing is changed, but that the store is
opened: a mapping of revision 2 brings one of revision 1 over."""
_LOAD = """Stores the objects of a file of JSON lines, as 'dump' writes it, or with --csv of a CSV
whose first row names the columns. All rows are read and checked before the first is stored. It
stops at the first row that can't be stored, with its line and the reason; what was committed before
stays."""


def add_commands(
    commands: Any, over: List[argparse.ArgumentParser], stored: argparse.ArgumentParser,
    opened: Opener,
) -> None:
    """Adds the commands to those of `karzhoul`, over a mapping, and a store that is there."""
    word = "write what is stored as JSON lines or CSV"
    dump = commands.add_parser("dump", parents=[*over, stored], help=word, description=_DUMP)
    dump.add_argument("-o", "--output", metavar="FILE", help="the file (else standard output)")
    dump.add_argument("--csv", metavar="ENTITY", help="the objects of this entity, as CSV")
    dump.add_argument("--query", metavar="JPQL", help="the objects that a query finds alone")
    dump.add_argument("--linked", action="store_true", help="with --query: also what these lead to")
    dump.set_defaults(run=lambda said: run_dump(said, opened))

    word = "store what a file of JSON lines or CSV has"
    load = commands.add_parser("load", parents=over, help=word, description=_LOAD)
    load.add_argument("db", help="the database file, which is made where there is none")
    load.add_argument("file", help="the file; - is standard input")
    load.add_argument("--csv", metavar="ENTITY", help="the file is a CSV of this entity's objects")
    load.add_argument(
        "--size", type=_size, default=1_000, metavar="ROWS",
        help="rows to a transaction (%(default)s); 0: one for all, so that all are stored or none",
    )
    load.add_argument("--dry-run", action="store_true", help="do it all, and store nothing")
    load.add_argument(
        "--update", action="store_true",
        help="a row whose key is stored gives that object its values (else it is refused)",
    )
    load.add_argument(
        "--new-keys", action="store_true",
        help="give new keys where keys are generated, and have the file's links follow",
    )
    load.add_argument(
        "--listeners", choices=("run", "skip"),
        help="whether listeners and callbacks run (else: skip for JSON lines, run for CSV)",
    )
    load.set_defaults(run=lambda said: run_load(said, opened))


def _size(word: str) -> int:
    if not word.isdecimal():
        raise argparse.ArgumentTypeError(f"{word} is no number of rows")
    return int(word)


def _mapping_of(said: argparse.Namespace) -> Optional[Dict[str, Any]]:
    """The mapping that a command names; None where it is wrong, which is told."""
    data = mapping_data(said.mapping)
    findings = lint(data).findings
    for finding in findings:
        print(f"{said.mapping}:{finding}", file=sys.stderr)
    return None if findings else json.loads(data)


def _known(name: Optional[str], shapes: Mapping[str, Shape]) -> None:
    if name is not None and name not in shapes:
        near = meant(name, shapes) or f"; there are {', '.join(shapes)}"
        raise Misused(f"there is no entity {name!r}{near}")


# ---- dump


def run_dump(said: argparse.Namespace, opened: Opener) -> int:
    """Writes what a store holds."""
    if not Path(said.db).is_file():
        raise FileNotFoundError(f"there is no file {said.db}")
    if said.linked and said.query is None:
        raise Misused("--linked goes with --query")
    mapping = _mapping_of(said)
    if mapping is None:
        return WRONG
    _known(said.csv, shapes_of(mapping))
    with opened(said, bare(mapping), said.db) as app, _killed_by_interrupts(app):
        stored = Stored(app)
        wanted = _wanted(stored, said)
        with _output(said.output) as out, _told(said, wanted) as told:
            if said.csv is None:
                _write_lines(stored, wanted, said.query is None, out, told)
            else:
                _write_csv(stored, said.csv, wanted, out, told)
    count = sum(map(len, wanted.values()))
    if said.output:
        entities = sum(1 for keys in wanted.values() if keys)
        print(f"{said.output}: {count} objects of {entities} entities")
    return 0


def _wanted(stored: Stored, said: argparse.Namespace) -> Dict[str, List[Key]]:
    """The keys of what is to be written, by class."""
    if said.query is None and said.csv is None:
        return stored.everything()
    wanted = {said.csv: stored.keys(said.csv)} if said.query is None else _found(stored, said.query)
    if said.linked:
        wanted = stored.with_targets(wanted)
    if said.csv is None:
        return wanted
    for shape in stored.shapes.values():
        others = len(stored.keys(shape.name)) if said.csv in shape.chain[1:] else 0
        if others:
            way = f"--csv {shape.name} writes them"
            print(f"karzhoul: {others} objects are of {shape.name}: {way}", file=sys.stderr)
    return {said.csv: wanted.get(said.csv, [])}


def _found(stored: Stored, query: str) -> Dict[str, List[Key]]:
    """The keys of the objects that a query finds; what refuses it says where it is wrong."""
    try:
        return stored.found(query)
    except Refused as refused:
        found = mistakes_in(Statement(query, []), stored.described)
        told = [f"the query is refused: {refused.word}", *found]
        raise KarzhoulError("\n  ".join(told)) from refused


def _write_lines(
    stored: Stored, wanted: Mapping[str, List[Key]], is_whole: bool, out: TextIO, told: Progress
) -> None:
    def write(item: Any) -> None:
        out.write(line_of_item(item, stored.shapes) + "\n")

    rows = 0
    write(Begun(FORMAT))
    for rows, record in enumerate(stored.in_order(wanted), 1):
        write(record)
        told(rows)
    for following in stored.nexts() if is_whole else ():
        write(following)
    write(Ended(rows))


def _write_csv(
    stored: Stored, entity: str, wanted: Mapping[str, List[Key]], out: TextIO, told: Progress
) -> None:
    shape = stored.shapes[entity]
    # The keys of what is unique are made anew, by the next opening with the classes.
    columns = [
        it for it in columns_of(shape, stored.shapes)
        if it.sort != "link" or shape.links[it.member].type not in OWN_ENTITIES
    ]
    out.write(row_of_cells(column.name for column in columns) + "\n")
    for rows, record in enumerate(stored.records(entity, wanted[entity]), 1):
        out.write(row_of_cells(cells_of(record, columns)) + "\n")
        told(rows)


def _told(said: argparse.Namespace, wanted: Mapping[str, List[Key]]) -> Progress:
    """The progress of a dump, which stands on no terminal beside the dump itself."""
    is_alone = said.output or not sys.stdout.isatty()
    return Progress(sum(map(len, wanted.values())), sys.stderr if is_alone else io.StringIO())


@contextmanager
def _output(name: Optional[str]) -> Iterator[TextIO]:
    """Where a dump goes. A file is there once it is whole."""
    if name is None:
        if hasattr(sys.stdout, "reconfigure"):
            sys.stdout.reconfigure(encoding="utf-8", newline="\n")
        yield sys.stdout
        return
    path = Path(name)
    if not path.parent.is_dir():
        raise FileNotFoundError(f"there is no folder {path.parent}")
    part = path if path.exists() and not path.is_file() else path.with_name(f"{path.name}.part")
    try:
        with part.open("w", encoding="utf-8", newline="\n") as out:
            yield out
        if part is not path:
            os.replace(part, path)
    except BaseException:
        if part is not path:
            part.unlink()
        raise


@contextmanager
def _killed_by_interrupts(app: EntityManagerFactory) -> Iterator[None]:
    try:
        yield
    except KeyboardInterrupt:
        app.program.kill()  # Else the end would wait for the call's answer.
        raise


# ---- load


def run_load(said: argparse.Namespace, opened: Opener) -> int:
    """Stores what a file has."""
    mapping = _mapping_of(said)
    if mapping is None:
        return WRONG
    shapes = shapes_of(mapping)
    _known(said.csv, shapes)
    heard = [event.value for event in (HEARD_OF_CHANGES if said.update else HEARD)]
    is_wanted = said.listeners == "run" or (said.listeners is None and said.csv is not None)
    has_any = bare(mapping, heard) != bare(mapping)
    terms = Terms(said.size, said.dry_run, said.update, said.new_keys, is_wanted and has_any)
    alone = bare(mapping, heard if terms.hears else ())
    with Source(said.file, shapes, said.csv, said.new_keys) as source:
        try:
            plan = checked(source, shapes, terms)
            status = _load(said, opened, alone, source, plan, terms)
        except RowFault as fault:
            return _stopped(fault, "nothing was stored")
    if status == 0 and terms.is_dry:
        print(f"{plan.rows:,} rows can be stored, and none was")
    elif status == 0:
        is_silent = has_any and not terms.hears and plan.rows
        print(f"{plan.rows:,} rows are stored{_SILENT if is_silent else ''}")
    return status


def _load(
    said: argparse.Namespace,
    opened: Opener,
    mapping: Mapping[str, Any],
    source: Source,
    plan: Plan,
    terms: Terms,
) -> int:
    """Stores what a source has. A `RowFault` where a store that has nothing can't take it."""
    loader = Loader(mapping, source, plan, terms)
    is_fresh = _is_fresh(said.db)
    if is_fresh:
        loader.look(None)
    db = None if terms.is_dry and is_fresh else said.db
    with opened(said, mapping, db) as app, _killed_by_interrupts(app):
        try:
            if not is_fresh:
                loader.look(app)
            with Progress(plan.rows) as told:
                loader.run(app, told)
        except KarzhoulError as fault:
            return _stopped(fault, _left(loader, terms, isinstance(fault, ProgramEnded)))
        except KeyboardInterrupt:
            _stopped(None, _left(loader, terms, True))
            raise
    return 0


_SILENT = "; listeners and callbacks didn't hear of them (--listeners run has them hear)"


def _stopped(fault: Optional[KarzhoulError], left: str) -> int:
    """Tells why a load stopped, and what is stored."""
    for words in ([str(fault)] if fault else []) + [left]:
        print(f"karzhoul: {words}", file=sys.stderr)
    return WRONG if isinstance(fault, RowFault) else FAILED


def _left(loader: Loader, terms: Terms, is_unsure: bool) -> str:
    """What a load that stopped has stored."""
    most = "" if not is_unsure else "at least "
    if terms.is_dry:
        done = f", and the {loader.done:,} rows up to line {loader.line} can be"
        return f"nothing was stored{done if loader.done else ''}"
    if not (loader.done or is_unsure):
        return "nothing was stored"
    rows = f"{most}the {loader.done:,} rows up to line {loader.line} are stored"
    return f"{rows}: load the file again with --update, once that is mended"


def _is_fresh(db: str) -> bool:
    """Whether a store has nothing in it, not even in its log."""
    files = [Path(db), Path(f"{db}-wal")]
    return not any(file.exists() and file.stat().st_size for file in files)
