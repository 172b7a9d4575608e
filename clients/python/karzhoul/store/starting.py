"""The start of a program over its store, which may still be another one's for a moment."""

from __future__ import annotations

import os
import time
from pathlib import Path
from typing import TYPE_CHECKING, Optional

from ..refusals import ProgramEnded, ProgramNotFound, StoreFault
from .memory import MemoryStore, room_words
from .printed import mapping_file
from .program import Program, Words

if TYPE_CHECKING:
    from ..jpql.statements import LanguageName

PATIENCE = 10.0
"""For how many seconds an opening waits for a file that a program of another process has open."""
# How long between two looks at it.
_BETWEEN = 0.05


def started(
    program: Words, said: bytes, db: Words, store: Optional[MemoryStore], language: LanguageName
) -> Program:
    """A program that answers calls, over a store; a `StoreFault` says what is in the way.

    A file that a program of another process has open is waited for: behind a process that was
    killed its program still takes a moment to end."""
    if store is not None:
        return _started_at_once(program, said, db, store, language)
    from .opening import Held, held_by

    until, held = time.monotonic() + PATIENCE, Held.BY_OTHERS
    while True:
        try:
            return _started_at_once(program, said, db, store, language)
        except StoreFault:
            before, held = held, held_by(Path(db))
            # It may have become free since, and then is tried once more.
            if held is Held.BY_OWN or held is before is Held.BY_NOBODY or time.monotonic() > until:
                raise
        time.sleep(_BETWEEN)


def _started_at_once(
    program: Words, said: bytes, db: Words, store: Optional[MemoryStore], language: LanguageName
) -> Program:
    """A program that answers calls, or a `StoreFault`, without waiting for a file."""
    # The profile is that of a program that is told none, as older ones are.
    told = () if language == "profile" else ("--language", language)
    with mapping_file(said) as file:
        folder = "" if store is None else str(store.folder)
        running = Program([program, *told, "--mapping", file, "--db", db], folder)
        try:
            running.start()
            return running
        except BaseException as fault:
            running.kill()
            if isinstance(fault, StoreFault):
                fault.why = _why_unopened(db, store)
            if isinstance(fault, ProgramEnded) and told and "--language" in fault.told:
                raise ProgramNotFound(
                    f"{os.fspath(program)!r} is older than this client: it serves the profile's "
                    "language alone. Open with language=\"profile\", or take a later program"
                ) from fault
            raise


def store_in_memory() -> MemoryStore:
    try:
        return MemoryStore()
    except OSError as fault:
        refused = StoreFault()
        refused.why = f"no store in memory can be made: {fault}"
        raise refused from fault


def _why_unopened(db: Words, store: Optional[MemoryStore]) -> str:
    if store is not None:
        return room_words(store.folder)
    from .opening import why_unopened

    return f"{os.fspath(db)} can't be opened: {why_unopened(Path(db))}"
