"""Stores in memory: each is a file in a folder of its own, which lies in the system's memory where
there is such a place, and goes with its factory.

The program's own store in memory takes time that grows with each commit, and is lost by a restart.

A folder is locked as long as its factory lives. The lock ends with the process, however that ends.
So a folder that isn't locked is nobody's, and the next store that is made here removes it, whatever
numbers processes have, which differ between containers that share a memory folder.
"""

from __future__ import annotations

import fcntl
import os
import re
import stat
import tempfile
import weakref
from contextlib import suppress
from pathlib import Path
from typing import List, Optional, Set, Tuple

# Where the system has its memory as a folder.
MEMORY = Path("/dev/shm")
_PREFIX = "karzhoul-store-"
_FOLDER = re.compile(rf"{_PREFIX}[0-9]+-[A-Za-z0-9_]+")
_STORE = "store.db"
# A store, and what the program writes beside it.
_FILES = (_STORE, f"{_STORE}-wal", f"{_STORE}-shm", f"{_STORE}-journal")
# The numbers of the files that are locked, which a forked process closes.
_locked: Set[int] = set()


class MemoryStore:
    """A store in memory. `close` removes it, and so does the end of the interpreter."""

    def __init__(self) -> None:
        """An `OSError` where none can be made."""
        self.folder, self._lock = _made()
        self.db = self.folder / _STORE
        self._end = weakref.finalize(self, _remove_own, self.folder, self._lock, os.getpid())

    def close(self) -> None:
        """Removes it. Its program has ended."""
        self._end()


def _made() -> Tuple[Path, Optional[int]]:
    """A new folder, and the number of its lock."""
    base = _base()
    _remove_left(base)
    while True:
        folder = Path(tempfile.mkdtemp(prefix=f"{_PREFIX}{os.getpid()}-", dir=base))
        # Before it is locked, another process may take it for one that was left.
        with suppress(BlockingIOError, FileNotFoundError):
            try:
                return folder, _lock_of(folder)
            except (BlockingIOError, FileNotFoundError):
                raise
            except OSError:  # The folder has no locks, and so nobody takes it.
                return folder, None


def room_words(folder: Path) -> str:
    """How much room there is for a store in memory that couldn't be written."""
    room = os.statvfs(folder)
    left = room.f_bavail * room.f_frsize >> 20
    word = f"{left:,} MB of room" if left else "no room"
    return f"{folder.parent}, where stores without a file are, has {word} left: name a file"


def _base() -> Path:
    """The folder where stores are made."""
    is_there = MEMORY.is_dir() and os.access(MEMORY, os.W_OK | os.X_OK)
    return MEMORY if is_there else Path(tempfile.gettempdir())


def _lock_of(folder: Path) -> int:
    """Locks a folder, and gives the number of the lock; a `BlockingIOError` where it is locked, and
    a `FileNotFoundError` where it is gone."""
    lock = os.open(folder, os.O_RDONLY | os.O_DIRECTORY | os.O_NOFOLLOW)
    try:
        fcntl.flock(lock, fcntl.LOCK_EX | fcntl.LOCK_NB)
        here, there = os.fstat(lock), os.stat(folder, follow_symlinks=False)
        if (here.st_dev, here.st_ino) != (there.st_dev, there.st_ino):
            raise FileNotFoundError(f"{folder} was removed")
    except BaseException:
        os.close(lock)
        raise
    _locked.add(lock)
    return lock


def _remove_left(base: Path) -> None:
    """Removes the folders of this user that processes left which were killed."""
    for folder in _folders(base):
        with suppress(OSError):
            _remove(folder, _lock_of(folder))


def _folders(base: Path) -> List[Path]:
    found: List[Path] = []
    with suppress(OSError):
        for entry in os.scandir(base):
            if _FOLDER.fullmatch(entry.name):
                told = entry.stat(follow_symlinks=False)
                if stat.S_ISDIR(told.st_mode) and told.st_uid == os.geteuid():
                    found.append(Path(entry.path))
    return found


def _remove_own(folder: Path, lock: Optional[int], process: int) -> None:
    if os.getpid() == process:  # And no forked one.
        _remove(folder, lock)


def _remove(folder: Path, lock: Optional[int]) -> None:
    """Removes a folder whose lock is held, and gives the lock back."""
    with suppress(OSError):
        for name in _FILES:
            with suppress(FileNotFoundError):
                os.unlink(folder / name)
        os.rmdir(folder)
    if lock is not None and lock in _locked:
        _locked.discard(lock)
        os.close(lock)


def _let_go() -> None:
    """In a forked process, so that the lock ends with the process whose it is."""
    for lock in list(_locked):
        with suppress(OSError):
            os.close(lock)
    _locked.clear()


os.register_at_fork(after_in_child=_let_go)
