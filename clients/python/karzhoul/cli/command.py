"""The command `karzhoul`: its parts and their words."""

from __future__ import annotations

import argparse
import json
import os
import sqlite3
import subprocess
import sys
import tempfile
from contextlib import closing
from pathlib import Path
from typing import Any, List, Mapping, Optional, Sequence, Union

from ..classes import printing
from ..classes.mapping import FORMS
from ..console import command as browsing
from ..exporting import command as going
from ..jpql.statements import LanguageName
from ..mapping import typed
from ..mapping.given import WrongMapping, given_of, mapping_data
from ..mapping.linter import lint
from ..mapping.schema import mapping_schema
from ..migrating import command as bringing_over
from ..refusals import Damaged, KarzhoulError, Misused
from ..refusals import Mapping as MappingRefused
from ..server import command as serving
from ..session import opening
from ..session.factory import EntityManagerFactory
from ..showing import tables as show
from ..store import migration
from ..store.finding import find_program
from ..store.opening import why_unopened
from . import beginnings, carrying, selecting
from .telling import telling

_MIGRATE = """With --from it brings a database over from the mapping or the classes that it was
written with to those of --mapping: each object is read, stored in a new file beside the old one,
and that takes the old one's place by one rename. Stopped at any moment, the old one stands.
docs/OPERATING.md tells the rest. Without --from it is for mappings by hand, and tells what an
opening with one of revision 2 changes (docs/OPERATING.md)."""
WRONG, MISSAID, REFUSED, FAILED, INTERRUPTED = 1, 2, 3, 4, 130
Parsers = Sequence[argparse.ArgumentParser]


def main(words: Optional[List[str]] = None) -> int:
    """Runs the command; its status is 0, or 1 for a mapping that is wrong, 2 for a wrong command
    line, 3 for a well-formed mapping that the program refuses, or refuses over a store, 4 for
    what else failed, and 130 after Ctrl-C."""
    parser = _parser()
    if not (sys.argv[1:] if words is None else words):
        parser.print_help(sys.stderr)
        return MISSAID
    said, left = parser.parse_known_args(words)
    # Words of a query that stand behind an option.
    if left and (not hasattr(said, "words") or any(word.startswith("-") for word in left)):
        parser.error(f"unrecognized arguments: {' '.join(left)}")
    if left:
        said.words += left
    try:
        with telling():
            status = int(said.run(said))
        sys.stdout.flush()
        return status
    except KeyboardInterrupt:
        print("karzhoul: interrupted", file=sys.stderr)
        return INTERRUPTED
    except BrokenPipeError:
        # Whoever read has enough; what is still to be written goes nowhere.
        os.dup2(os.open(os.devnull, os.O_WRONLY), sys.stdout.fileno())
        return FAILED
    except WrongMapping as fault:
        print(fault, file=sys.stderr)
        return WRONG
    except (KarzhoulError, OSError, ValueError) as fault:
        more = f"\n  {fault.explain()}" if isinstance(fault, Damaged) else ""
        print(f"karzhoul: {fault}{more}", file=sys.stderr)
        return MISSAID if isinstance(fault, Misused) else FAILED


def _parser() -> argparse.ArgumentParser:
    parser = argparse.ArgumentParser(
        prog="karzhoul",
        description="Objects of a mapping's entities in a database file, by Karzhoul. 'karzhoul "
        "new FOLDER' is a beginning, and 'karzhoul COMMAND --help' tells what a command takes.",
    )
    parser.add_argument(
        "--version", action=_Version, nargs=0,
        help="tell the versions of the client and of the program, and end",
    )
    commands = parser.add_subparsers(required=True, metavar="COMMAND")
    began = commands.add_parser(
        "new", help="write a first mapping, with comments, and a first program"
    )
    began.add_argument("folder", help="the folder to write them to, which is made")
    began.set_defaults(run=run_new)
    # What several take.
    common, named, over, stored = (argparse.ArgumentParser(add_help=False) for _ in range(4))
    common.add_argument(
        "--program", help="the program to start (else the one of the client, else KARZHOUL_PROGRAM)"
    )
    named.add_argument("mapping", help="the mapping file, or a pipe")
    over.add_argument(
        "--mapping", default="mapping.json",
        help="the mapping file, or a module of classes, by its name or its file (%(default)s)",
    )
    stored.add_argument("db", help="the database file")
    _add_check(commands, [common, named])
    _add_stubs(commands, [named])
    printing.add_command(commands)
    _add_show(commands, [common, over, stored])
    selecting.add_command(commands, [common])
    _add_migrate(commands, [common, over, stored])
    _add_shell(commands, [common, over])
    carrying.add_commands(commands, [common, over], stored, _opened_over)
    going.add_commands(commands, [common, over], stored)
    serving.add_commands(commands, common, over, stored)
    browsing.add_command(commands, common)
    told = commands.add_parser(
        "schema", help="print the JSON Schema of mappings, by which editors complete and check them"
    )
    told.set_defaults(run=run_schema)
    return parser


def _add_check(commands: Any, takes: Parsers) -> None:
    check = commands.add_parser(
        "check", parents=takes, help="tell what is wrong with a mapping, and where"
    )
    check.add_argument(
        "--with-program", action="store_true",
        help="ask the program too, which --program says as well",
    )
    check.set_defaults(run=run_check)


def _add_stubs(commands: Any, takes: Parsers) -> None:
    typed = commands.add_parser(
        "stubs", parents=takes,
        help="write a module of typed classes of the entities, for type checkers and editors",
    )
    typed.add_argument(
        "-o", "--output", metavar="FILE", help="write to this file, and not to standard output"
    )
    typed.set_defaults(run=run_stubs)


def _add_show(commands: Any, takes: Parsers) -> None:
    shown = commands.add_parser("show", parents=takes, help="show what is stored, as tables")
    shown.add_argument("--html", metavar="FILE", help="write one page to this file")
    shown.set_defaults(run=run_show)


def _add_migrate(commands: Any, takes: Parsers) -> None:
    migrated = commands.add_parser(
        "migrate", parents=takes, description=_MIGRATE,
        help="bring a database file over to another mapping or other classes",
    )
    way = migrated.add_mutually_exclusive_group()
    way.add_argument(
        "--dry-run", action="store_true",
        help="without --from: only tell what an opening by a mapping by hand would write",
    )
    way.add_argument(
        "--plan", action="store_true",
        help="with --from: tell what will be done, try it on all objects, and write nothing",
    )
    way.add_argument(
        "--copy", metavar="FILE",
        help="keep the database as it was in this new file: without --from before it is opened by "
        "the mapping, which changes it, and with --from in place of DB.before",
    )
    migrated.add_argument(
        "--from", dest="before", metavar="MAPPING",
        help="the mapping file, or the module of classes, that the database was written with",
    )
    migrated.add_argument(
        "--with", dest="functions", metavar="MODULE",
        help="the module of functions bring_over_CLASS(old), or its file",
    )
    migrated.add_argument(
        "--drop", action="append", default=[], metavar="CLASS[.MEMBER]",
        help="what of before may be lost",
    )
    migrated.add_argument(
        "--lock", metavar="FILE",
        help="the file of the numbers of classes (karzhoul.lock.json beside their module)",
    )
    asked = "in a dry run, ask the program too, over a copy, which --program says as well"
    migrated.add_argument("--with-program", action="store_true", help=asked)
    migrated.set_defaults(run=run_migrate)


def _add_shell(commands: Any, takes: Parsers) -> None:
    shell = commands.add_parser("shell", parents=takes, help="a prompt for queries and calls")
    shell.add_argument(
        "db", nargs="?", help="the database file; without one the store is in memory"
    )
    shell.add_argument(
        "--stop", action="store_true",
        help="end at the first line that is refused or not understood",
    )
    shell.add_argument(
        "--language", choices=("profile", "wide"),
        help="the language of statements: the profile's, as of a mapping, or the wide one, as of "
        "classes",
    )
    shell.add_argument(
        "--echo", action="store_true",
        help="tell each line that goes to the program, its reply and its time",
    )
    shell.set_defaults(run=run_shell)


class _Version(argparse.Action):
    """Tells the versions, and ends the command."""

    def __call__(self, parser: argparse.ArgumentParser, *_: object) -> None:
        from .. import __version__

        try:
            program = find_program()
            told = subprocess.run(
                [program, "--version"], stdin=subprocess.DEVNULL, capture_output=True, text=True,
                timeout=60,
            )
            words = f"{told.stdout.strip() or told.stderr.strip()}, which is {program}"
        except (KarzhoulError, OSError, subprocess.TimeoutExpired) as fault:
            words = f"no program: {fault}"
        print(f"karzhoul {__version__}\n{words}")
        parser.exit()


def run_new(said: argparse.Namespace) -> int:
    """Writes a first mapping and program."""
    folder = Path(said.folder)
    beginnings.write(folder)
    print(
        f"{folder} has a first mapping and program; README.md there tells of them. Try: cd "
        f"{folder} && python3 first.py"
    )
    return 0


def run_schema(said: argparse.Namespace) -> int:
    """Prints the schema of mappings."""
    print(json.dumps(mapping_schema(), indent=1))
    return 0


def run_check(said: argparse.Namespace) -> int:
    """Tells the rules that a mapping breaks, and warns; where it breaks none, the program is asked
    if that is wanted."""
    data = Path(said.mapping).read_bytes()
    report = lint(data)
    for finding in [*report.findings, *report.warnings]:
        print(f"{said.mapping}:{finding}")
    if report.findings:
        return WRONG
    refused = (
        _refusal(json.loads(data), None, said.program)
        if said.with_program or said.program
        else None
    )
    if refused is None:
        print(f"{said.mapping}: good")
        return 0
    print(f"{said.mapping}: well formed, and refused by the program: {refused}")
    return REFUSED


def _refusal(mapping: Any, db: Optional[Path], program: Optional[str]) -> Optional[str]:
    """What the program says of a well-formed mapping, over a database if one is named, where it
    refuses it."""
    try:
        opening.open(mapping, db, program=program).close()
    except (MappingRefused, Damaged) as refused:
        return str(refused)
    return None


def run_stubs(said: argparse.Namespace) -> int:
    """Writes the module of typed classes of a mapping; a mapping that is wrong is told as `check`
    does, and nothing is written."""
    data = Path(said.mapping).read_bytes()
    report = lint(data)
    for finding in report.findings:
        print(f"{said.mapping}:{finding}", file=sys.stderr)
    if report.findings:
        return WRONG
    module = typed.module_of(
        json.loads(data), Path(said.mapping).name if Path(said.mapping).is_file() else "a mapping"
    )
    if said.output:
        Path(said.output).write_text(module, encoding="utf-8")
    else:
        print(module, end="")
    return 0


def run_migrate(said: argparse.Namespace) -> int:
    """Brings a database over from another mapping. Where that isn't named, tells what an opening
    would change; then opens the database, once it is copied, or in a dry run a copy of it, if that
    is wanted."""
    if said.before is not None:
        _refuse_words(said, "--from", dry_run=said.dry_run, with_program=said.with_program)
        return bringing_over.run(said)
    _refuse_words(said, "", plan=said.plan, drop=said.drop, lock=said.lock,
                  **{"with": said.functions})
    if not said.dry_run and said.copy is None:
        raise Misused("--from names the mapping that the database was written with; without it one "
                      "of --dry-run and --copy FILE is needed")
    given = given_of(said.mapping)
    if not isinstance(given, str):
        raise Misused("without --from it is for mappings by hand, and not for classes: karzhoul.open "
                      "brings a database over to these, or refuses it with what to do")
    data, db = Path(given).read_bytes(), _there(said.db)
    if said.copy is not None and os.path.lexists(said.copy):
        raise FileExistsError(f"there is a file {said.copy} already")
    report = lint(data)
    for finding in report.findings:
        print(f"{said.mapping}:{finding}")
    if report.findings:
        return WRONG
    mapping = json.loads(data)
    try:
        found = migration.outlook(mapping, db)
        print("\n".join(found.told()))
        if found.refused:
            return REFUSED
        if said.copy is not None and found.is_due:
            return _migrated(mapping, db, said)
        if said.copy is not None:
            print(f"{said.copy} was not made, since nothing is to be brought over")
        return (
            _tried(mapping, db, said) if said.dry_run and (said.with_program or said.program) else 0
        )
    except sqlite3.Error as fault:
        raise KarzhoulError(f"{said.db} can't be read ({fault}): {why_unopened(db)}") from fault


def _refuse_words(said: argparse.Namespace, there: str, **given: object) -> None:
    """Refuses what doesn't go with `--from`, or without it."""
    for name, value in given.items():
        if value:
            way = f"doesn't go with {there}" if there else "goes with --from alone"
            raise Misused(f"--{name.replace('_', '-')} {way}")


def _migrated(mapping: Any, db: Path, said: argparse.Namespace) -> int:
    _copy(db, Path(said.copy))
    print(f"{said.copy} is a copy of it as it is")
    refused = _refusal(mapping, db, said.program)
    print(
        "it is written"
        if refused is None
        else f"the program refused that, and left it as it was: {refused}"
    )
    return 0 if refused is None else REFUSED


def _tried(mapping: Any, db: Path, said: argparse.Namespace) -> int:
    with tempfile.TemporaryDirectory(prefix="karzhoul-") as place:
        copy = Path(place, "copy.db")
        _copy(db, copy)
        refused = _refusal(mapping, copy, said.program)
    print(
        "the program opens a copy of it so"
        if refused is None
        else f"the program refuses that, tried on a copy: {refused}"
    )
    return 0 if refused is None else REFUSED


def _copy(db: Path, copy: Path) -> None:
    """Copies a database with its log."""
    with migration.opened_to_read(db) as source, closing(sqlite3.connect(copy)) as target:
        source.backup(target)


def _opened(said: argparse.Namespace) -> EntityManagerFactory:
    """The unit over the mapping and the database that a command names."""
    given = given_of(said.mapping)
    if isinstance(given, str):
        return _opened_over(said, given, said.db)
    return _opened_over(said, json.loads(mapping_data(said.mapping)), said.db, is_wide=True)


def _opened_over(
    said: argparse.Namespace, mapping: Union[str, Mapping[str, Any]], db: Optional[str],
    is_wide: bool = False,
) -> EntityManagerFactory:
    """The unit over a mapping and a database, whose queries are in the language that is said, else
    in that of a mapping, or the wide one."""
    language: Optional[LanguageName] = getattr(said, "language", None)
    if language is None and is_wide:
        language = "wide"
    return opening.open(mapping, db, program=said.program, language=language)


def _there(db: str) -> Path:
    """The path of a database file that must be there."""
    if not Path(db).is_file():
        raise FileNotFoundError(f"there is no file {db}")
    return Path(db)


def run_show(said: argparse.Namespace) -> int:
    """Prints the stored objects as tables, or writes a page."""
    _there(said.db)
    with _opened(said) as app:
        try:
            shown = [it for it in show.tables(app) if it.entity.name != FORMS]
        except KeyboardInterrupt:
            app.program.kill()  # Else the end would wait for the call's answer.
            raise
    if said.html:
        Path(said.html).write_text(show.html_page(shown, Path(said.db).name), encoding="utf-8")
        print(
            f"{said.html}: {sum(len(table.rows) for table in shown)} objects of {len(shown)} "
            f"entities"
        )
    else:
        print(show.text_page(shown), end="")
    return 0


def run_shell(said: argparse.Namespace) -> int:
    """Runs the prompt until its end. Of a session that is no terminal's, the status tells whether a
    line was refused or not understood."""
    from .shell import Shell

    with _opened(said) as app:
        app.echo = said.echo
        shell = Shell(app)
        shell.run(said.stop)
    if shell.ended is not None:
        return FAILED
    return REFUSED if shell.refused and (said.stop or not sys.stdin.isatty()) else 0
