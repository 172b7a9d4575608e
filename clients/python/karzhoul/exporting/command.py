"""The words of the commands `export`, `import` and `mirror`."""

from __future__ import annotations

import argparse
from typing import Any, List

from ..server.command import of_a_server, seconds
from .naming import AS_MAPPED, SNAKE

_EXPORT = """Writes what a store holds as tables with names and types of their own: one for each
hierarchy of entities and one for each list that is stored, with keys, constraints and indexes.
Everything is written, or nothing: to a new file of SQLite, or a text of SQL that is one transaction.
It is whole each time: there is no --since. docs/OPERATING.md tells the rest."""
_IMPORT = """Makes a new store of tables as 'export' writes them, by the same mapping and the same
--names, --name and --as: the same objects, versions and next keys. Everything is stored, or
nothing."""

_MIRROR = """Keeps tables as 'export' writes them up to date with the store of a server, in a file
of SQLite that others read meanwhile: a new one, or one that 'export' or a run before has written.
The store is read in a copy of it, as 'karzhoul backup' makes one, and what has changed is written in
one transaction. It runs until it gets SIGTERM or Ctrl-C; a killed one is started again."""


def add_commands(
    commands: Any, over: List[argparse.ArgumentParser], stored: argparse.ArgumentParser
) -> None:
    """Adds the commands to those of `karzhoul`, over a mapping, and a store that is there."""
    word = "write what is stored as tables of SQLite or PostgreSQL"
    out = commands.add_parser("export", parents=[*over, stored], help=word, description=_EXPORT)
    way = out.add_mutually_exclusive_group(required=True)
    way.add_argument("--sqlite", metavar="FILE", help="the new file of SQLite")
    way.add_argument("--sql", metavar="FILE", help="the new text of SQL; - is standard output")
    out.add_argument("--dialect", choices=("sqlite", "postgresql"), help="what --sql is for")
    out.add_argument("--tables", metavar="FILE", help="the tables of annotated classes of Java, in the "
                     "place of --mapping, as 'karzhoul.jpa.tool.Main mapping --tables' writes them")
    out.add_argument("--round", action="store_true", help="leave out what of times is finer than the "
                     "database has it, with --tables")
    out.add_argument("--zone", help="the time zone of the application, with --tables (else the one that "
                     "stands there)")
    _add_names(out)
    out.set_defaults(run=run_export)

    word = "make a store of the tables that export wrote"
    back = commands.add_parser("import", parents=over, help=word, description=_IMPORT)
    source = back.add_mutually_exclusive_group(required=True)
    source.add_argument("--sqlite", metavar="FILE", help="the file of SQLite")
    source.add_argument("--postgresql", metavar="DATABASE",
                        help="the database of PostgreSQL, as psql -d names it")
    back.add_argument("db", help="the new database file")
    _add_names(back)
    back.set_defaults(run=run_import)
    _add_mirror(commands, over[0])


def _add_mirror(commands: Any, common: argparse.ArgumentParser) -> None:
    made = commands.add_parser(
        "mirror", parents=[of_a_server(), common], description=_MIRROR,
        help="keep tables of SQLite up to date with the store of a server",
    )
    add = made.add_argument
    add("--sqlite", metavar="FILE", required=True, help="the file of SQLite")
    add("--mapping", help="the module of the server's classes, which say what is unique (else the "
        "mapping is the server's)")
    add("--every", type=seconds, default=1.0, metavar="SECONDS",
        help="how often it is looked whether something was committed (%(default)g)")
    add("--once", action="store_true", help="bring the file up to date, and end")
    _add_names(made)
    made.set_defaults(run=run_mirror)


def _add_names(parser: argparse.ArgumentParser) -> None:
    parser.add_argument(
        "--names", choices=(AS_MAPPED, SNAKE), default=AS_MAPPED,
        help="names as the mapping has them, or in small letters: order_line (%(default)s)",
    )
    parser.add_argument(
        "--name", action="append", default=[], metavar="WHAT=NAME",
        help="the name of a table, Entity=NAME, or of a column, Entity.member=NAME",
    )
    parser.add_argument(
        "--as", dest="what", choices=("attribute", "column"), default="attribute",
        help="values as an application has them, or as their columns are stored (%(default)s)",
    )


def run_export(said: argparse.Namespace) -> int:
    """Writes the tables of a store."""
    from . import exported

    return exported.run(said)


def run_import(said: argparse.Namespace) -> int:
    """Makes a store of tables."""
    from . import imported

    return imported.run(said)


def run_mirror(said: argparse.Namespace) -> int:
    """Has tables follow the store of a server."""
    from . import mirrored

    return mirrored.run(said)
