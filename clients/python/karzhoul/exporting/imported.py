"""The command `import`: a new store of tables."""

from __future__ import annotations

import argparse
import shutil
import sqlite3
from contextlib import contextmanager
from pathlib import Path
from typing import Dict, Iterator, List, Optional

from ..classes import lock as locks
from ..store.finding import find_program
from ..migrating.bringing import MOST_FAULTS
from ..migrating.feeding import Feed
from ..migrating.judging import judge
from ..migrating.places import is_whole
from ..migrating.sides import mapped
from ..migrating.singles import Singles
from ..migrating.writing import NewStore, carrying
from ..records.progress import Progress
from ..refusals import Damaged, KarzhoulError, ProgramEnded
from .exported import WRONG, check_new, side_of, stopped
from .naming import Names, given_names
from .postgresql import WrongTables, fetched
from .reading import Reading, Straight
from .sqlite import opened_to_read, put_new
from .tables import Tables


def run(said: argparse.Namespace) -> int:
    """Makes a store of tables; 1 where the mapping, a table or a row stands in the way."""
    db = Path(said.db)
    if said.sqlite is not None and not Path(said.sqlite).is_file():
        raise FileNotFoundError(f"there is no file {said.sqlite}")
    for path in (db, _log(db)):
        check_new(path)
    tables = Tables(side_of(mapped(said.mapping), said.what),
                    Names(said.names, given_names(said.name)), said.what == "column")
    tables.names.check()
    if tables.faults:
        return stopped(tables.faults, f"{db} was not made")
    try:
        with _folder_beside(db) as folder:
            return _imported(said, tables, db, folder)
    except WrongTables as wrong:
        return stopped(wrong.faults, f"{db} was not made: name the mapping, --names, --name and --as "
                                     "of the export")
    except sqlite3.Error as fault:
        source = said.sqlite or said.postgresql
        raise KarzhoulError(f"{source} can't be read ({fault}), and {db} was not made") from fault
    except OSError as fault:
        raise KarzhoulError(f"{db} can't be written, and was not made: {fault}") from fault


@contextmanager
def _folder_beside(db: Path) -> Iterator[Path]:
    """A folder in which a store is made."""
    folder = db.with_name(f"{db.name}.importing")
    if folder.exists():
        shutil.rmtree(folder)  # What a run left that was killed.
    folder.mkdir()
    try:
        yield folder
    finally:
        shutil.rmtree(folder)


def _imported(said: argparse.Namespace, tables: Tables, db: Path, folder: Path) -> int:
    source = (Path(said.sqlite) if said.sqlite is not None
              else fetched(said.postgresql, tables.all, folder))
    with opened_to_read(source) as store:
        reading = Reading(store, tables)
        misfits = reading.misfits()
        if misfits:
            raise WrongTables(misfits)
        return _Import(said, tables, reading, db, folder).run()


def _log(db: Path) -> Path:
    return db.with_name(f"{db.name}-wal")


class _Import:
    """One run of the command."""

    def __init__(
        self, said: argparse.Namespace, tables: Tables, reading: Reading, db: Path, folder: Path
    ) -> None:
        self._side, self._reading, self._db = tables.side, reading, db
        self._program, self._said = find_program(said.program), said
        self._folder, self._new = folder, folder / "new.db"

    def run(self) -> int:
        """Makes the store in its folder, and puts it in its place."""
        try:
            counts = self._written()
            if counts is None:
                return WRONG
            lock = self._begun_lock()
            judge(self._side, self._new, lock, counts, self._said.program)
            if not is_whole(_log(self._new)):
                raise KarzhoulError(f"{self._db} was not made: the new store has a log")
            put_new(self._new, self._db)
            made = self._side.made
            if lock is not None and made is not None and made.file is not None:
                locks.write(made.file, locks.read(lock), made.before)
        except Damaged as damaged:
            return stopped([f"the tables are no store of the mapping: {damaged}"],
                           f"{self._db} was not made")
        except ProgramEnded as ended:
            raise KarzhoulError(f"{self._db} was not made: {ended}") from ended
        print(f"{self._db}: {sum(counts.values()):,} objects")
        return 0

    def _begun_lock(self) -> Optional[Path]:
        """The lock of the classes, beside the new store until that is in its place."""
        if self._side.made is None:
            return None
        lock = self._folder / locks.NAME
        locks.write_anew(lock, locks.finished(self._side.made.lock))
        return lock

    def _written(self) -> Optional[Dict[str, int]]:
        """How many objects of each class were written; None where a row stands in the way."""
        side, tops = self._side, {name: it.top for name, it in self._side.shapes.items()}
        feed, straight = Feed(self._program, carrying(side.mapping), self._new), Straight(tops)
        faults: List[str] = []
        with Progress(self._reading.count()) as told:
            try:
                made, singles = NewStore(feed, side, straight, told), Singles(side, straight)
                for each in self._reading.objects():
                    made.add(each)
                    singles.add(each)
                    if len(self._reading.faults) + len(made.faults) > MOST_FAULTS:
                        break
                made.finish(self._reading.nexts())
                singles.finish()
                faults = self._reading.faults + made.faults + singles.faults
                if not faults:
                    feed.close()
            except BaseException:
                feed.stop()
                raise
        if not faults:
            return made.counts
        feed.stop()
        more = ["and more"] if len(faults) > MOST_FAULTS else []
        stopped(faults[:MOST_FAULTS] + more, f"{self._db} was not made")
        return None
