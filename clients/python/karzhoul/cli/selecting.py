"""The command `query`: the rows that one SELECT finds in a store, as a table, as lines of JSON or
as CSV. The program is asked by its own words, and tells each row in a line."""

from __future__ import annotations

import argparse
import json
import os
import subprocess
import sys
import tempfile
from contextlib import contextmanager
from functools import cached_property
from pathlib import Path
from typing import Any, Dict, Iterator, List, Mapping, Optional, Sequence, Tuple

from ..classes.binding import Binding
from ..classes.declared import declared_by
from ..classes.naming import Named, Naming, NoName, naming_of
from ..objects.entities import Entity
from ..session.opening import open as opened
from ..store.finding import find_program
from ..mapping.given import Given, given_of, mapping_data
from ..mapping.indexes import index_lines, named_in_words
from ..jpql.statements import LanguageName
from ..jpql.check import BYTES, INT, TEXT, Kind
from ..mapping.linter import lint
from ..store.opening import why_unopened
from ..store.printed import printed
from ..records.records import bare
from ..refusals import KarzhoulError, Misused, Refused, StoreFault
from ..refusals import Mapping as MappingRefused
from ..queries.rows import Names
from ..showing.tables import grid
from ..explain.texts import value_text
from ..records.spelling import row_of_cells, said_value, value_cell
from ..mapping.unit import entities_of

WRONG, REFUSED = 1, 3
_QUERY = """Prints the rows that a SELECT finds in a store, as a table. docs/QUERIES.md has the
language. Nothing is changed: a store of revision 1 is opened before it is asked by a mapping of
revision 2. A program without --query opens it itself, and brings it over."""
_PARAM = """the value of a parameter, :NAME or ?NAME in the text: n=7, name=Ada, n=null,
code="7" for a text of digits, scan={"hex":"0aff"} for bytes"""
_LANGUAGE = """the language of the SELECT: the profile's, as of a mapping, or wide, as of classes,
which has UPPER, LOWER and TRIM besides; older programs have the profile's alone"""


def add_command(commands: Any, takes: List[argparse.ArgumentParser]) -> None:
    """Adds the command to those of `karzhoul`."""
    asked = commands.add_parser(
        "query", parents=takes, help="print what a SELECT finds", description=_QUERY,
        usage="karzhoul query [options] [MAPPING] DB SELECT",
    )
    asked.add_argument(
        "words", nargs="+", metavar="MAPPING DB SELECT", type=str,
        help="the mapping file, or a module of classes (else that of --mapping), the database file, "
        "and the SELECT, in quotes: by the names of the classes, and with values as they are stored",
    )
    asked.add_argument("--mapping", help="the mapping file (else mapping.json)")
    asked.add_argument("--param", action="append", default=[], metavar="NAME=VALUE", help=_PARAM)
    asked.add_argument("--language", choices=("profile", "wide"), help=_LANGUAGE)
    form = asked.add_mutually_exclusive_group()
    form.add_argument("--json", action="store_true", help="each row as a line of JSON")
    form.add_argument("--csv", action="store_true", help="CSV, with a row of names")
    form.add_argument(
        "--explain", action="store_true",
        help="tell how it is found, and no row; older programs don't",
    )
    asked.add_argument(
        "--manager", action="store_true",
        help="with --explain: how an entity manager finds it, and not a question of the file",
    )
    asked.add_argument(
        "--index", action="append", default=[], metavar="ENTITY.NAME",
        help="with --manager: it was told this index, beside those of classes with index=True and "
        "unique=True; may stand several times",
    )
    asked.set_defaults(run=run_query)


def run_query(said: argparse.Namespace) -> int:
    """Prints the rows that a SELECT finds; a query that is refused is told with its mistakes."""
    _take_words(said)
    if said.manager and not said.explain or said.index and not said.manager:
        raise Misused("--manager stands beside --explain, and --index beside --manager")
    given = given_of(said.mapping)
    said.language = said.language or ("profile" if isinstance(given, str) else "wide")
    data = mapping_data(said.mapping)
    findings = lint(data).findings
    for finding in findings:
        print(f"{said.mapping}:{finding}", file=sys.stderr)
    if findings:
        return WRONG
    if not Path(said.db).is_file():
        raise FileNotFoundError(f"there is no file {said.db}")
    query = _Query(said, data, naming_of(given))
    try:
        _write(said, query, given)
    except _NoIndex as fault:
        return _refused("IllegalArgument(name)", [str(fault)])
    except NoName:
        return _refused("IllegalArgument(typing)", query.mistakes())
    except StoreFault as fault:
        why = fault.why or f"{said.db} can't be opened: {why_unopened(Path(said.db).absolute())}"
        raise KarzhoulError(f"StoreFault: {why}") from fault
    except MappingRefused:
        raise
    except Refused as refused:
        return _refused(refused.word, query.mistakes() or refused.explain().splitlines())
    return 0


def _refused(word: str, told: Sequence[str]) -> int:
    print("\n  ".join([f"karzhoul: {word}", *told]), file=sys.stderr)
    return REFUSED


def _take_words(said: argparse.Namespace) -> None:
    """Names what the words of the command are."""
    words = list(said.words)
    if len(words) == 3 and said.mapping is None:
        said.mapping = words.pop(0)
    if len(words) != 2 or Path(words[1]).is_file():
        raise Misused("a query takes a mapping file, a database file and a SELECT in quotes")
    said.mapping = said.mapping or "mapping.json"
    said.db, said.text = words


def _write(said: argparse.Namespace, query: _Query, given: Given) -> None:
    if said.explain:
        indexes = _indexes(given, query, said.index) if said.manager else ()
        for line in query.plan(said.manager, indexes):
            print(line)
    elif said.json:
        for row in query.rows():
            print(json.dumps(row, ensure_ascii=False, separators=(",", ":")))
    elif said.csv:
        _write_csv(query)
    else:
        rows = [_items(row) for row in query.rows()]
        cells = [[_shown(item) for item in row] for row in rows]
        table = grid(query.titles(len(rows[0])), cells) if rows else []
        count = f"{len(rows) or 'no'} row{'' if len(rows) == 1 else 's'}"
        print("\n".join([*table, count]))


def _write_csv(query: _Query) -> None:
    titles: Optional[Sequence[str]] = None
    for row in query.rows():
        items = _items(row)
        if titles is None:
            titles = query.titles(len(items))
            print(row_of_cells(titles))
        print(row_of_cells(_cell(item) for item in items))
    if titles is None:
        print(row_of_cells(query.titles()))


def _indexes(given: Given, query: _Query, words: Sequence[str]) -> List[str]:
    """The indexes that a manager is told: those of classes, and those that are named."""
    binding = None if isinstance(given, str) else Binding(declared_by(given))
    named = named_in_words(words)
    try:
        lines = index_lines(query.data, named, binding)
    except Misused as fault:  # The program would refuse it, in less words.
        raise _NoIndex(str(fault)) from None
    return [f"{it['entity']}.{it['name']}" for it in map(json.loads, lines)]


# ---- items as the program tells them


def _items(row: Any) -> List[Any]:
    """The items of a row: of one item the row is that item."""
    return row if isinstance(row, list) else [row]


class _NoIndex(ValueError):
    """What is named can have no index."""


class _Name(str):
    """What an object is called."""


def _shown(item: Any) -> Any:
    """An item as a value of Python: an object by its name, as Person 1."""
    if not isinstance(item, dict):
        return item
    if "hex" in item:
        return bytes.fromhex(item["hex"])
    return _Name(f"{item['entity']} {', '.join(value_text(_shown(part)) for part in item['key'])}")


def _cell(item: Any) -> Optional[str]:
    shown = _shown(item)
    return str(shown) if isinstance(shown, _Name) else value_cell(shown)


# ---- the program


class _Query:
    """A SELECT over a store, by the names of its mapping or its classes."""

    def __init__(self, said: argparse.Namespace, data: bytes, naming: Naming) -> None:
        self._mapping, self.data, self._db, self._said = said.mapping, data, said.db, said.text
        self._naming = naming
        self._program = find_program(said.program)
        self._params = dict(map(_param, said.param))
        self._language: LanguageName = said.language
        self._is_wide = self._language == "wide"

    @cached_property
    def _named(self) -> Named:
        return self._naming.named(self._said)

    def titles(self, count: Optional[int] = None) -> List[str]:
        """What the items of a row are called, of which there are so many."""
        fields = Names(self._named.text).fields
        return self._named.titles(len(fields) if count is None else count, self._naming)

    def rows(self) -> Iterator[Any]:
        """The rows as JSON says them; a `Refused` where it is refused."""
        if not self._takes("--query") and not self._is_wide:
            yield from self._rows_by_calls()
            return
        for line in self.lines():
            yield json.loads(line)

    def plan(self, by_manager: bool, indexes: Sequence[str]) -> Iterator[str]:
        """How it is found in the file, or by a manager that has these indexes."""
        if not by_manager:
            return self.lines("--explain")
        told = (word for index in indexes for word in ("--index", index))
        return self._printed(False, "--explain", *told)

    def lines(self, *more: str) -> Iterator[str]:
        """What the program prints of the file, line by line."""
        return self._printed(True, *more)

    def _printed(self, of_file: bool, *more: str) -> Iterator[str]:
        if self._is_wide and not self._takes("--language"):
            raise KarzhoulError(
                f"{self._program} is an older program, which has the language of the profile alone"
            )
        if not self._takes("--query"):
            raise KarzhoulError(f"{self._program} is an older program, which tells no plans")
        with _as_file(self._mapping, self.data) as mapping:
            words = [self._program, "--mapping", mapping]
            words += ["--db", os.path.abspath(self._db)] if of_file else []
            words += ["--query", self._named.text]
            for name, value in self._params.items():
                words += ["--param", f"{name}={_json(value)}"]
            words += ["--language", "wide"] if self._is_wide else []
            for line in printed([*words, *more]):
                yield self._naming.told(line) if "--explain" in more else line

    def _takes(self, option: str) -> bool:
        """Whether the program takes an option, as its help says."""
        return option in self._help

    @cached_property
    def _help(self) -> str:
        told = subprocess.run(
            [self._program, "--help"], stdin=subprocess.DEVNULL, capture_output=True, timeout=60
        )
        return told.stdout.decode(errors="replace")

    def _rows_by_calls(self) -> Iterator[Any]:
        """The rows by the calls of a manager, of a program that takes no query in its words."""
        params = {name: _shown(value) for name, value in self._params.items()}
        with opened(bare(json.loads(self.data)), self._db, program=self._program) as app:
            for row in app.create_entity_manager().query(self._named.text, params=params):
                yield [_said(item) for item in row] if isinstance(row, list) else _said(row)

    def mistakes(self) -> List[str]:
        """What the client's own check finds in it."""
        entities = entities_of(json.loads(self.data))
        kinds = {name: _kind(value) for name, value in self._params.items()}
        found = self._naming.mistakes(self._said, entities, kinds, self._language)
        return [str(finding) for finding in found]


def _said(item: Any) -> Any:
    """An item of a row as the program's own words would tell it."""
    if isinstance(item, Entity):
        key = item._karzhoul_factory.get_members(item, item._karzhoul_key[1])
        return {"entity": type(item).__name__, "key": [said_value(part) for part in key]}
    return said_value(item)


@contextmanager
def _as_file(mapping: str, data: bytes) -> Iterator[str]:
    """The file of a mapping, or one that says what was read of a pipe, or what classes make."""
    if Path(mapping).is_file() and Path(mapping).suffix != ".py":
        yield mapping
        return
    with tempfile.NamedTemporaryFile(prefix="karzhoul-", suffix=".json") as file:
        Path(file.name).write_bytes(data)
        yield file.name


# ---- parameters


def _param(word: str) -> Tuple[str, Any]:
    name, mark, text = word.partition("=")
    if not mark or not name:
        raise Misused(f"{word!r} is no parameter: write NAME=VALUE")
    return name.lstrip(":?"), _value(text)


def _value(text: str) -> Any:
    """A value as JSON says it; anything else is a text."""
    try:
        said = json.loads(text)
    except ValueError:
        return text
    is_whole = isinstance(said, int) and not isinstance(said, bool)
    is_bytes = isinstance(said, Mapping) and set(said) == {"hex"}
    return said if said is None or is_whole or isinstance(said, str) or is_bytes else text


def _kind(value: Any) -> Optional[Kind]:
    kinds: Dict[type, Kind] = {int: INT, str: TEXT, dict: BYTES}
    return kinds.get(type(value))


def _json(value: Any) -> str:
    return json.dumps(value, ensure_ascii=False, separators=(",", ":"))
