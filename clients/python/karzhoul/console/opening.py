"""The store that a console is for: a file, or what a server serves."""

from __future__ import annotations

import argparse
import json
from pathlib import Path
from types import ModuleType
from typing import Dict, List, Optional

from ..classes.binding import Binding
from ..classes.declared import declared_by
from ..classes.naming import Naming, naming_of
from ..server.connecting import connect
from ..session.factory import EntityManagerFactory
from ..session.opening import open as opened
from ..mapping.given import given_of, mapping_data
from ..mapping.indexes import index_lines, named_in_words
from ..jpql.statements import LanguageName
from ..store.migration import outlook
from ..refusals import Misused


def opened_for(said: argparse.Namespace) -> EntityManagerFactory:
    """A factory over what the command names. To change a store of classes it is over these, which
    look at what is written; to read it is over their mapping, and writes nothing beside it."""
    if said.connect is not None:
        return _connected(said)
    if said.db is None:
        raise Misused("a console takes a database file, or --connect ADDRESS")
    if not Path(said.db).is_file():
        raise FileNotFoundError(f"there is no file {said.db}")
    given, indexes = given_of(said.mapping or "mapping.json"), named_in_words(said.index)
    if not isinstance(given, str) and said.write:
        return opened(given, said.db, program=said.program, threads=True, indexes=indexes)
    is_wide = not isinstance(given, str)
    data = mapping_data(said.mapping or "mapping.json")
    if not isinstance(given, str):
        indexes = _stored(data, indexes, given)
    mapping = json.loads(data)
    if not said.write and outlook(mapping, Path(said.db)).is_due:
        raise Misused(
            f"{said.db} is of revision 1, and an opening by this mapping brings it over for good: "
            "'karzhoul migrate' tells what it changes, and --write does it"
        )
    language: Optional[LanguageName] = said.language
    if language is None and is_wide:
        language = "wide"
    return opened(
        mapping, said.db, program=said.program, threads=True, language=language, indexes=indexes
    )


def _stored(data: bytes, named: Dict[str, List[str]], given: ModuleType) -> Dict[str, List[str]]:
    """The indexes of classes, and those that are named, by the names of the mapping."""
    found: Dict[str, List[str]] = {}
    for line in index_lines(data, named, Binding(declared_by(given))):
        said = json.loads(line)
        found.setdefault(said["entity"], []).append(said["name"])
    return found


def naming_for(said: argparse.Namespace) -> Naming:
    """The names that queries may have: those of the classes that the command names, if it does."""
    if said.connect is not None and said.mapping is None:
        return naming_of(None)
    return naming_of(given_of(said.mapping or "mapping.json"))


def _connected(said: argparse.Namespace) -> EntityManagerFactory:
    if said.db is not None:
        raise Misused("the server has the file: --connect takes no database file beside it")
    if said.index:
        raise Misused("the server has the indexes: --index stands beside a database file")
    given = None if said.mapping is None else given_of(said.mapping)
    if isinstance(given, str):
        raise Misused("the server has the mapping: --connect takes a module of classes alone")
    token = Path(said.token_file).read_text().strip() if said.token_file else None
    return connect(said.connect, given, token=token, tls=said.tls_ca, threads=True)


def title_of(said: argparse.Namespace) -> str:
    """What the store is called."""
    return said.connect or Path(said.db).name


def lines_of(title: str, url: str, can_write: bool) -> List[str]:
    """What is told as the console begins."""
    how = "changes within transactions" if can_write else "reads alone; --write changes"
    return [f"{title}: {how}", url, "Ctrl-C ends it. Who has this address may do all that it does."]
