"""The files of a migration: a folder beside the store until it is done, and what takes whose place.

The old store stands until one rename, and the program holds its lock from before it is read until
then. What is left of a run that was stopped goes with the next one.
"""

from __future__ import annotations

import os
import shutil
from pathlib import Path
from typing import Optional

from ..classes import lock as locks
from ..refusals import KarzhoulError

_LOCK, _BEGUN = "lock.json", "begun"
# A log that has nothing is shorter than its first page.
_LEAST_LOG = 512


class Places:
    """The files beside a store."""

    def __init__(self, db: Path, kept: Optional[str], lock: Optional[Path]) -> None:
        """With where the old store is kept, and the lock of classes."""
        self.db, self._lock = db, lock
        self.kept = Path(kept) if kept is not None else db.with_name(f"{db.name}.before")
        self.folder = db.with_name(f"{db.name}.migrating")
        # Of a name of this process, since a program of one that was killed may not have ended.
        self.new = self.folder / f"{os.getpid()}.db"
        self.new_lock, self._begun = self.folder / _LOCK, self.folder / _BEGUN
        # A copy, since the program opens no file that has two names.
        self._old = self.folder / "old"

    def log(self, db: Path) -> Path:
        """The log of a store."""
        return db.with_name(f"{db.name}-wal")

    def has_log(self) -> bool:
        """Whether the old store's log has something that its file lacks."""
        log = self.log(self.db)
        return log.exists() and log.stat().st_size >= _LEAST_LOG

    # ---- what was left

    def is_put(self) -> bool:
        """Whether a run before has put the new store in place, and was stopped then: a file of it
        is there before it is begun, and leaves the folder by that alone."""
        if self._begun.exists():
            return not any(self.folder.glob("*.db"))
        # No folder is made where the old store is kept already: this one was only to be taken away.
        return self.kept.exists() and self.folder.is_dir() and not any(self.folder.iterdir())

    def clean(self) -> None:
        """Takes away what a run before has left; the old store is held by now."""
        if os.path.lexists(self.kept):
            raise FileExistsError(
                f"there is a file {self.kept} already, and the old store is to be kept there: move "
                "it away, or name another one by --copy"
            )
        if not self.kept.parent.is_dir():
            raise FileNotFoundError(f"there is no folder {self.kept.parent}")
        self.give_up()

    def begin(self, lock: Optional[locks.Lock]) -> None:
        """Makes the folder, with the lock of the new classes."""
        self.folder.mkdir()
        self.new.touch()
        if lock is not None:
            locks.write_anew(self.new_lock, locks.finished(lock))
        self._begun.touch()

    # ---- the end

    def put(self) -> None:
        """Has the new store, whose program has ended, take the place of the old one, which is held
        and has nothing in its log."""
        if self.has_log() or not is_whole(self.log(self.new)):
            raise KarzhoulError(f"{self.db} or the new store has a log, and is left as it is")
        shutil.copymode(self.db, self.new)
        _sync(self.new)
        shutil.copyfile(self.db, self._old)
        shutil.copymode(self.db, self._old)
        _sync(self._old)
        index = self.db.with_name(f"{self.db.name}-shm")
        for log in (self.log(self.new), self.log(self.db), index):
            log.unlink(missing_ok=True)
        os.replace(self.new, self.db)
        _sync(self.db.parent)

    def finish(self) -> None:
        """Puts the old store and the lock of the classes in place, and takes the folder away."""
        if self._old.exists():
            self._keep()
        if self._lock is not None and self.new_lock.exists():
            locks.write_anew(self._lock, locks.read(self.new_lock))
        for each in self.folder.iterdir():
            if each != self._begun:
                each.unlink()
        self.give_up()  # What says that there is something left goes last.

    def _keep(self) -> None:
        """Gives the copy of the old store its name, also on another disk."""
        try:
            os.replace(self._old, self.kept)
        except OSError:
            part = self.kept.with_name(f"{self.kept.name}.part")
            shutil.copy(self._old, part)
            _sync(part)
            os.replace(part, self.kept)

    def give_up(self) -> None:
        """Takes the folder away, first what says that it is begun."""
        self._begun.unlink(missing_ok=True)
        if self.folder.exists():
            shutil.rmtree(self.folder)


def is_whole(log: Path) -> bool:
    """Whether a log has nothing that its store lacks."""
    return not log.exists() or log.stat().st_size < _LEAST_LOG


def _sync(path: Path) -> None:
    descriptor = os.open(path, os.O_RDONLY)
    try:
        os.fsync(descriptor)
    finally:
        os.close(descriptor)
