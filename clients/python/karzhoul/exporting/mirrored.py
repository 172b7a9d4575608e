"""The command `mirror`: tables of SQLite that follow the store of a server."""

from __future__ import annotations

import argparse
import fcntl
import os
import signal
import sqlite3
import sys
import threading
import time
from contextlib import contextmanager, suppress
from pathlib import Path
from typing import Any, Dict, Iterator, Optional, Tuple

from ..server.connecting import check_alike
from ..migrating.sides import Side, mapped
from ..refusals import KarzhoulError
from ..server.asking import asked, copied
from ..server.command import way_of
from .dialects import DIALECTS
from .exported import NoTables, opened, side_of, stopped, tables_of, write
from .following import follow, settle
from .rows import NoRow
from .sqlite import File, opened_to_read, refuse_logs

Stamp = Tuple[Any, ...]
_COPY, _FRESH = "copy.db", "fresh.db"
_OURS = (_COPY, f"{_COPY}-wal", _FRESH, f"{_FRESH}.part")


def run(said: argparse.Namespace) -> int:
    """Has a file follow a store until it is told to end; 1 where the mapping, a name or an object
    stands in the way of the first writing."""
    out = Path(said.sqlite)
    if not out.absolute().parent.is_dir():
        raise FileNotFoundError(f"there is no folder {out.absolute().parent}")
    mirror = _Mirror(said, out)
    with _folder_of_its_own(out) as folder:
        mirror.look_at_target()
        try:
            mirror.bring(folder)
        except (NoTables, NoRow) as why:
            return stopped(why.faults, f"{out} is as it was")
        if not said.once:
            with _until_told():
                mirror.go_on(folder, said.every)
    settle(out)
    return 0


class _Mirror:
    """A file that follows a store."""

    def __init__(self, said: argparse.Namespace, out: Path) -> None:
        self._said, self._way, self._out = said, way_of(said), out
        # How the server was when the store was last read, and what was last told of a fault.
        self._seen: Optional[Stamp] = None
        self._told = ""

    def look_at_target(self) -> None:
        """Refuses a file that is no database."""
        if not os.path.lexists(self._out):
            refuse_logs(self._out)
            return
        if not self._out.is_file():
            raise KarzhoulError(f"{self._out} is no file")
        try:
            with opened_to_read(self._out) as store:
                store.execute("SELECT count(*) FROM sqlite_master").fetchone()
        except sqlite3.Error as fault:
            raise KarzhoulError(f"{self._out} can't be read ({fault}), and is as it was") from fault

    def go_on(self, folder: Path, every: float) -> None:
        """Looks each so many seconds whether something was committed. What fails is told once, and
        tried again."""
        while True:
            time.sleep(every)
            try:
                if self._stamp() != self._seen:
                    self.bring(folder)
                self._told = ""
            except (KarzhoulError, OSError) as fault:
                if str(fault) != self._told:
                    print(f"karzhoul: {fault}\nkarzhoul: {self._out} is as it was, and it is tried "
                          f"again each {every:g} s", file=sys.stderr, flush=True)
                self._told = str(fault)

    def _stamp(self) -> Stamp:
        """What is another one once something may have been committed."""
        told: Dict[str, Any] = asked(self._way, "status")
        return tuple(told[name] for name in ("started", "commits", "programs"))

    def bring(self, folder: Path) -> None:
        """Brings the file to what is stored, between two commits."""
        for name in _OURS:
            (folder / name).unlink(missing_ok=True)
        stamp, began = self._stamp(), time.monotonic()
        try:
            served = copied(self._way, folder / _COPY)
            objects, rows = self._write(served["mapping"], folder)
        except (sqlite3.Error, OSError) as fault:
            why = f"{self._out} can't be written, and is as it was: {fault}"
            raise KarzhoulError(why) from fault
        if rows or self._seen is None:
            took = time.monotonic() - began
            print(f"{self._out}: {objects:,} objects, {rows:,} rows written or removed, "
                  f"{took:.1f} s", flush=True)
        self._seen = stamp

    def _write(self, served: Dict[str, Any], folder: Path) -> Tuple[int, int]:
        """Writes what a copy of the store has; how many objects there are, and how many rows were
        written or removed."""
        said, dialect = self._said, DIALECTS["sqlite"]
        side = side_of(self._side(served), said.what)
        with opened(side, folder / _COPY, said.program) as app:
            tables = tables_of(side, app, said, dialect)
            objects = write(app, tables, dialect, File(folder / _FRESH, tables.all))
        return objects, follow(folder / _FRESH, self._out, tables.all)

    def _side(self, served: Dict[str, Any]) -> Side:
        if self._said.mapping is None:
            return Side(str(self._way), served, served)
        side = mapped(self._said.mapping)
        check_alike(side.mapping, served, self._way)
        return side


@contextmanager
def _folder_of_its_own(out: Path) -> Iterator[Path]:
    """A folder beside the file, which no other mirror has; what a run left that was killed is taken
    away."""
    folder = out.with_name(f"{out.name}.mirroring")
    try:
        folder.mkdir(exist_ok=True)
        held = os.open(folder, os.O_RDONLY)
    except OSError as fault:
        raise KarzhoulError(f"{out} can't be written: {fault}") from fault
    try:
        try:
            fcntl.flock(held, fcntl.LOCK_EX | fcntl.LOCK_NB)
        except BlockingIOError:
            raise KarzhoulError(f"another mirror writes {out} already") from None
        try:
            yield folder
        finally:
            for name in _OURS:
                (folder / name).unlink(missing_ok=True)
            with suppress(OSError):  # Something of others' may be there.
                folder.rmdir()
    finally:
        os.close(held)


class _Told(KeyboardInterrupt):
    """A signal has told the command to end."""


@contextmanager
def _until_told() -> Iterator[None]:
    """Has the block end by SIGTERM, and by Ctrl-C."""
    if threading.current_thread() is not threading.main_thread():
        yield
        return

    def tell(*_: object) -> None:
        raise _Told

    before = [(number, signal.signal(number, tell)) for number in (signal.SIGTERM, signal.SIGINT)]
    try:
        yield
    except _Told:
        pass
    finally:
        for number, handler in before:
            signal.signal(number, handler)
