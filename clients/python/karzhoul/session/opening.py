"""The opening of a unit: over a mapping, or over classes."""

from __future__ import annotations

import json
import os
from pathlib import Path
from types import ModuleType
from typing import TYPE_CHECKING, Any, Iterable, Mapping, Optional, Tuple, Type, Union

from ..jpql.statements import LANGUAGES, LanguageName
from ..mapping.indexes import Indexes, index_lines
from ..objects.entities import Entity
from ..refusals import Mapping as MappingRefused
from ..store.finding import find_program
from ..store.program import Program, Words
from ..store.starting import started, store_in_memory
from .factory import EntityManagerFactory
from .places import Places, check_wait

if TYPE_CHECKING:
    from ..classes.binding import Binding


def open(
    mapping: Union[Words, Mapping[str, Any], ModuleType, Iterable[Type[Entity]]],
    db: Optional[Words] = None, *,
    program: Optional[Words] = None, echo: bool = False, threads: bool = False,
    wait: Optional[float] = 30.0, lock: Union[None, str, Path] = None,
    language: Optional[LanguageName] = None, indexes: Optional[Indexes] = None,
) -> EntityManagerFactory:
    """Starts the program over a mapping (a file, a pipe, or what such a file says), or over classes
    (a list of them or their module), and a database file; without one the store is in memory, and
    goes with the factory (`store.memory.MemoryStore`). `":memory:"` is a `ValueError`.

    Classes have their numbers in `karzhoul.lock.json` beside their module, or in the file `lock`.
    Where they are wrong it is a `DeclarationError`, with the lines, and where the store has what
    they don't take a `NotBroughtOver` (`classes.changes`).

    With `threads` it is for a service of many threads, which goes on for ever. Where 16 managers
    are open, `begin`, `retry` and `create_entity_manager` wait until one is closed, at most `wait`
    seconds (None: for ever); then they raise `NoFreeManager`. And between transactions a new run is
    begun before one has no objects left, as by `restart`: what is held of before is `Restarted`
    where it is used, and so objects are for the block of their transaction (`places`).

    Queries are read in a `language` of docs/QUERIES.md: the `"profile"`, or the `"wide"` one, which
    has UPPER, LOWER and TRIM besides (chapter 4.7.2). Without it classes have the wide one, and a
    mapping has the profile. A program that serves no wide one is a `ProgramNotFound`.

    `indexes={"Title": ["name"]}` names attributes, and parts of keys, of which the program keeps an
    index, as of those that are `index=True` or `unique=True` in classes: it is told so whenever it
    is started. What can have none is a `Misused`, a `ValueError` which says what there is, before
    anything is opened. No answer is another one for an index (`index` of docs/CALLS.md).

    A mapping that is refused is a `refusals.Mapping` that says where it is wrong, a store a
    `Damaged`, or a `StoreFault` that says what is in the way. `program` names the program to start
    (`store.finding.find_program` tells where it is looked for else). With `echo` each line, its
    reply and its time are told on standard error; the logger `karzhoul` hears them at DEBUG.
    """
    if db == ":memory:":
        raise ValueError("':memory:' would be a file of that name: leave db out for one in memory")
    if language is not None and language not in LANGUAGES:
        raise ValueError(f"language is \"profile\" or \"wide\", and not {language!r}")
    check_wait(wait)
    if are_classes(mapping):
        from ..classes.changes import open_classes

        def start(said: Mapping[str, Any], binding: Optional[Binding]) -> EntityManagerFactory:
            # Without a binding it is opened for what is done before, which looks nothing up.
            named = indexes if binding is not None else None
            return _opened(
                said, db, program, echo, threads, wait, language or "wide", named, binding
            )

        file = None if db is None else Path(os.fsdecode(db))
        return open_classes(mapping, lock, file, start)  # type: ignore[arg-type]
    check_no_lock(lock)
    said: Union[Words, Mapping[str, Any]] = mapping  # type: ignore[assignment]
    return _opened(said, db, program, echo, threads, wait, language or "profile", indexes)


def check_no_lock(lock: object) -> None:
    """Refuses the file of the numbers of classes where there are none."""
    if lock is not None:
        raise TypeError("lock= is the file of the numbers of classes, and a mapping has its own")


def are_classes(given: object) -> bool:
    """Whether these are classes, as their module or a list of them, and no mapping."""
    if isinstance(given, type):
        raise TypeError(f"classes are given in a list, as [{given.__name__}]")
    return isinstance(given, ModuleType) or (
        isinstance(given, Iterable) and not isinstance(given, (str, bytes, os.PathLike, Mapping))
    )


def _opened(
    mapping: Union[Words, Mapping[str, Any]], db: Optional[Words], program: Optional[Words],
    echo: bool, threads: bool, wait: Optional[float], language: LanguageName,
    indexes: Optional[Indexes], binding: Optional[Binding] = None,
) -> EntityManagerFactory:
    """A factory over a mapping, whose objects are of the classes of a binding; with these it is
    told what will be looked up as it is bound."""
    said, faults = _said(mapping)
    lines = index_lines(said, indexes, binding)
    word = find_program(program)
    store = store_in_memory() if db is None else None
    running: Optional[Program] = None
    try:
        # A restart finds the store again wherever the process has gone.
        place = os.path.abspath(db or "") if store is None else str(store.db)
        running = started(word, said, place, store, language)
        app = EntityManagerFactory(
            running, json.loads(said), language, echo, store, binding, index_lines=lines
        )
        if binding is None:
            app._ask_indexes()
        if threads:
            app._places = Places(app, wait)
        return app
    except BaseException as fault:
        if running is not None:
            running.kill()
        if store is not None:
            store.close()
        if isinstance(fault, MappingRefused):
            from ..mapping.linter import lint

            fault.faults = faults or tuple(map(str, lint(said).findings))
        raise


def _said(mapping: Union[Words, Mapping[str, Any]]) -> Tuple[bytes, Tuple[str, ...]]:
    """What a mapping says, and what is wrong where it can't be read: then it is as good as empty,
    which is refused."""
    if isinstance(mapping, Mapping):
        return json.dumps(mapping).encode(), ()
    try:
        return Path(mapping).read_bytes(), ()
    except OSError as unread:
        return b"", (f"{os.fspath(mapping)} can't be read: {unread.strerror}",)
