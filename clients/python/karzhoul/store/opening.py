"""Why a store can't be opened, told from its file: who has it open, or what else is in the way."""

from __future__ import annotations

import os
import resource
import sqlite3
from contextlib import suppress
from enum import Enum
from pathlib import Path
from typing import Optional, Set

from .migration import opened_to_read


class Held(Enum):
    """Who has a store's file open."""

    BY_NOBODY = "nobody, as far as that can be told"
    BY_OWN = "this process, or a program that it started"
    BY_OTHERS = "another one"


_HELD = "another program has it open, and one at a time has a file"
_COLUMNS = ["t", "r", "c", "v"]
_PROCESSES, _LOCKS = Path("/proc"), Path("/proc/locks")


def why_unopened(db: Path) -> str:
    """What is in the way of an opening, as far as that can be told."""
    if not db.parent.is_dir():
        return f"there is no folder {db.parent}"
    if db.is_dir():
        return "it is a folder, and a database is a file"
    if not os.access(db.parent, os.W_OK | os.X_OK):
        return f"its folder {db.parent} may not be written by you, where its log is to stand"
    for file in (db, db.with_name(f"{db.name}-wal")):
        if file.exists() and not os.access(file, os.R_OK | os.W_OK):
            word = "it" if file == db else f"its log {file.name}"
            return f"{word} may not be read and written by you"
    if not db.exists():
        return "it can't be made" + _of_room(db.parent)
    if not db.is_file():
        return "it is no file, but a device or the like"
    if found := _of_lock(db) or _of_content(db):
        return found
    why = "it is empty" if db.stat().st_size == 0 else "it can't be told why"
    return why + _of_room(db.parent)


def why_unwritten(db: Path, pid: int) -> str:
    """What is in the way of a commit that a program of this number couldn't write, as far as that
    can be told."""
    way = "nothing of the commit is stored, and its transaction is still open"
    return f"{db} can't be written: {what_bars_writing(db, pid)}; {way}"


def what_bars_writing(db: Path, pid: int) -> str:
    """What is in the way of writing to a store, as far as that can be told."""
    if not db.parent.is_dir():
        return f"its folder {db.parent} is gone"
    if os.statvfs(db.parent).f_flag & os.ST_RDONLY:
        return f"the disk of {db.parent} can only be read now"
    if bound := _of_bound(db, pid):
        return bound
    room = os.statvfs(db.parent)
    left = room.f_bavail * room.f_frsize
    if left < 1 << 20:
        return f"the disk of {db.parent} has no room left: make room, and commit again"
    return f"it can't be told why, and the disk of {db.parent} has {left >> 20:,} MB of room left"


def _of_bound(db: Path, pid: int) -> Optional[str]:
    """That a program has reached its bound of the size of files, where the system tells it."""
    with suppress(OSError, ValueError, AttributeError):
        most, _ = resource.prlimit(pid, resource.RLIMIT_FSIZE)
        for file in (db.with_name(f"{db.name}-wal"), db):
            # A page of a file is written as a whole.
            if most != resource.RLIM_INFINITY and file.stat().st_size + (1 << 16) > most:
                return f"{file.name} may have at most {most:,} bytes (ulimit -f): raise that"
    return None


def _of_room(folder: Path) -> str:
    room = os.statvfs(folder)
    is_full = room.f_blocks > 0 and room.f_bavail * room.f_frsize < 1 << 20
    return ": the disk has no room left" if is_full else ""


# ---- who has it open


def held_by(db: Path) -> Held:
    """Who has a store's file open; another one where the system doesn't tell whose its lock is."""
    if not db.is_file():
        return Held.BY_NOBODY
    pids = _lockers(db)
    if not pids:
        return Held.BY_OTHERS if _of_content(db) == _HELD else Held.BY_NOBODY
    holders = {pid for pid in pids if pid > 0} or _openers(db)
    is_own = any(os.getpid() in (pid, _parent(pid)) for pid in holders)
    return Held.BY_OWN if is_own else Held.BY_OTHERS


def _of_lock(db: Path) -> Optional[str]:
    """Who holds a lock on a file; None where nobody is known to."""
    pids = _lockers(db)
    if not pids:
        return None
    # A lock of an open file, as the program's, is no process's. Then those that have it open are
    # looked for.
    names = [_process(pid) for pid in sorted({pid for pid in pids if pid > 0} or _openers(db))]
    return f"{_HELD}: {', '.join(names)}" if names else _HELD


def _lockers(db: Path) -> Set[int]:
    """The processes of the locks on a file that the system lists; -1 where one is no process's."""
    with suppress(OSError, ValueError):
        inode = str(db.stat().st_ino)
        lines = [line.split() for line in _LOCKS.read_text().splitlines()]
        return {
            int(words[4]) for words in lines
            if len(words) > 5 and words[5].rpartition(":")[2] == inode
        }
    return set()


def _openers(db: Path) -> Set[int]:
    """The processes that have a file open, as far as they may be looked at."""
    found = db.stat()
    pids = (int(each.name) for each in _PROCESSES.iterdir() if each.name.isdigit())
    return {pid for pid in pids if _has_open(pid, found)}


def _has_open(pid: int, file: os.stat_result) -> bool:
    with suppress(OSError):
        for each in (_PROCESSES / str(pid) / "fd").iterdir():
            with suppress(OSError):
                held = each.stat()
                if (held.st_dev, held.st_ino) == (file.st_dev, file.st_ino):
                    return True
    return False


def _process(pid: int) -> str:
    """A process in words, with the one that started it."""
    if pid == os.getpid():
        return "this process itself"
    word, parent = f"{_command(pid)} (process {pid})", _parent(pid)
    if parent == os.getpid():
        return f"{word}, which this process started"
    return word if parent <= 1 else f"{word}, started by {_command(parent)} (process {parent})"


def _command(pid: int) -> str:
    with suppress(OSError):
        return (_PROCESSES / str(pid) / "comm").read_text().strip()
    return "a program"


def _parent(pid: int) -> int:
    with suppress(OSError, ValueError, IndexError):
        # The name, which stands in brackets, may have any character.
        rest = (_PROCESSES / str(pid) / "stat").read_text().rpartition(")")[2].split()
        return int(rest[1])
    return 0


# ---- what it has


def _of_content(db: Path) -> Optional[str]:
    with db.open("rb") as file:
        head = file.read(16)
    if head not in (b"", b"SQLite format 3\0"):
        return "it is no database of SQLite"
    try:
        with opened_to_read(db) as database:
            asked = "SELECT name FROM sqlite_master WHERE type = 'table' ORDER BY name"
            names = [str(name) for (name,) in database.execute(asked)]
            columns = [str(row[1]) for row in database.execute("PRAGMA table_info(cell)")]
    except sqlite3.Error as fault:
        return _HELD if "locked" in str(fault) else f"SQLite can't read it ({fault})"
    if names and "cell" not in names:
        told = ", ".join(names[:5])
        return f"it is no store of this program: it has no table of cells, and has {told}"
    if columns not in ([], _COLUMNS):
        told = ", ".join(columns[:5])
        return f"it is no store of this program: its table of cells has the columns {told}"
    return None
