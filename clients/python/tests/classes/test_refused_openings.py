"""Openings with other classes that are refused, or killed, on the way: the store and the lock are
as they were, or the new classes go on with it."""

from __future__ import annotations

import shutil
import signal
import sqlite3
import subprocess
import sys
from contextlib import closing
from typing import Any, Dict, List, Tuple, Type
from unittest import mock

import karzhoul
from karzhoul import NotBroughtOver
from karzhoul.classes import lock as locks
from karzhoul.store import starting

from ..classed import ClassesTest
from ..support import HERE, PROGRAM, needs_program

FIRST = """
class State(Enum):
    OPEN = "open"
    SHUT = "shut"

class Place(Embedded):
    city: str
    zip: str | None = None

class Keeper(Entity):
    id: int = generated()
    version: int = version()
    name: str
    fax: str | None = None
    fee: Decimal = money(2, default=Decimal("1.50"))
    state: State
    home: Place | None = embedded(default=None)
"""
# What is new and required, and so is given to all of before.
GIVEN = ("    name: str", "    level: int = 3\n    name: str")
# Each with its words: what can't be brought over, beside what is given a default.
REFUSED: Dict[str, Tuple[str, str]] = {
    "    name: str\n    tag: str = field(default='t', unique=True)\n":
        ("    name: str\n", "Keeper.tag is to be unique, and 3 objects have 't'"),
    "    name: str = field(unique=True)\n":
        ("    name: str\n", "Keeper.name is to be unique, and 3 objects have 'Ada'"),
    "    fax: date | None":
        ("    fax: str | None", "Keeper.fax is stored as text, and is date now"),
    "money(0, default=Decimal(1))":
        ('money(2, default=Decimal("1.50"))', "has more digits than 0 behind the point"),
    "    OPEN = \"open\"\n\n":
        ("    OPEN = \"open\"\n    SHUT = \"shut\"\n", "which is none of State: 'OPEN'"),
    "    name: str\n    rank: int\n":
        ("    name: str\n", "Keeper.rank may not be None, and is in 3 stored"),
    "    zip: str\n":
        ("    zip: str | None = None\n", "Keeper.home.zip may not be None where home is there"),
}
# Opens a store with classes, and ends by itself before the commit of this number.
CHILD = """
import os, sys
here, folder, name, db, lock, program, left = sys.argv[1:]
sys.path[:0] = [here, folder]
import karzhoul
from karzhoul.store.program import Program
left, replies = [int(left)], Program.replies
def counted(self, exchange, *more):
    is_commit = any(b'"call":"commit"' in line for line in exchange.lines)
    left[0] -= is_commit
    if is_commit and not left[0]:
        os.kill(os.getpid(), 9)
    return replies(self, exchange, *more)
Program.replies = counted
karzhoul.open(__import__(name), db, program=program, lock=lock).close()
"""


class Stored(ClassesTest):
    """A store of the first classes."""

    def setUp(self) -> None:
        super().setUp()
        module = self.module(FIRST)
        with self.open(module) as app, app.begin() as manager:
            for number in range(3):
                manager.persist(module.Keeper(
                    name="Ada", fax="12", state=module.State.SHUT,
                    home=module.Place(city=f"{number}"),
                ))

    def cells(self) -> List[Any]:
        """All that the store has."""
        with closing(sqlite3.connect(self.db)) as store:
            return store.execute("SELECT t, r, c, v FROM cell ORDER BY t, r, c").fetchall()

    def judge(self) -> None:
        """The classes of before open the store, and have all."""
        with self.open(FIRST) as app, app.begin() as manager:
            rows = manager.query("SELECT k.name, k.fax, k.fee, k.home.city FROM Keeper k")
            self.assertEqual([[*map(str, row)] for row in rows],
                             [["Ada", "12", "1.50", str(number)] for number in range(3)])


@needs_program
class RefusedOpenings(Stored):
    def refuse(self, kind: Type[Exception], words: str, text: str) -> None:
        """The opening is refused in these words, and store and lock are as before."""
        before = self.lock.read_bytes(), self.cells()
        with self.assertRaises(kind) as raised:
            self.open(text)
        self.assertIn(words, str(raised.exception))
        self.assertTrue(raised.exception.__suppress_context__ or not raised.exception.__context__)
        self.assertEqual((self.lock.read_bytes(), self.cells()), before)
        self.assertEqual(sorted(it.name for it in self.lock.parent.glob(f"{locks.NAME}*")),
                         [locks.NAME])

    def test_what_is_refused_beside_a_default_leaves_all_as_it_was(self) -> None:
        for new, (old, words) in REFUSED.items():
            with self.subTest(words):
                self.assertIn(old, FIRST)
                self.refuse(NotBroughtOver, words, FIRST.replace(old, new).replace(*GIVEN))
        self.judge()

    def test_a_default_that_cannot_be_made(self) -> None:
        text = FIRST.replace("    name: str\n", "    name: str\n    level: int = 3\n"
                             "    rank: int = field(default_factory=lambda: [].pop())\n")
        self.refuse(IndexError, "pop from empty list", text)
        self.judge()

    def test_a_lock_that_cannot_be_written(self) -> None:
        with mock.patch("os.replace", side_effect=OSError("no room")):
            self.refuse(OSError, "no room", FIRST.replace(*GIVEN))
        self.judge()

    def test_a_commit_that_is_refused_takes_the_lock_back(self) -> None:
        write = locks.write

        def written(*given: Any) -> None:
            write(*given)
            raise karzhoul.StoreFault()

        with mock.patch.object(locks, "write", written):
            self.refuse(karzhoul.StoreFault, "StoreFault", FIRST.replace(*GIVEN))
        self.judge()


@needs_program
class KilledOpenings(Stored):
    """What is killed at any of its commits."""

    NEW = FIRST.replace(
        "    name: str\n", "    name: str\n    tag: int = field(default_factory=iter([7, 8, 9])."
        "__next__, unique=True)\n    level: int = 3\n"
    ).replace("money(2,", "money(4,")

    def test_a_kill_at_each_commit(self) -> None:
        kept = self.folder.with_name(f"{self.folder.name}.kept")
        shutil.copytree(self.folder, kept)
        self.addCleanup(shutil.rmtree, kept)
        at = 1
        while self.run_child(at) != 0:
            with mock.patch.object(starting, "PATIENCE", 60):
                if at <= 2:
                    self.judge()
                self.judge_new()
            shutil.rmtree(self.folder)
            shutil.copytree(kept, self.folder)
            at += 1
        self.assertGreater(at, 3)

    def run_child(self, at: int) -> int:
        module = self.module(self.NEW)
        words = map(str, (HERE.parent, self.folder, module.__name__, self.db, self.lock, PROGRAM,
                          at))
        status = subprocess.run([sys.executable, "-B", "-c", CHILD, *words]).returncode
        self.assertIn(status, (0, -signal.SIGKILL))
        return status

    def judge_new(self) -> None:
        """The new classes go on, and have all that is new."""
        with self.open(self.NEW) as app, app.begin() as manager:
            rows = manager.query("SELECT k.name, k.fee, k.level, k.tag FROM Keeper k")
            self.assertEqual([[*map(str, row)] for row in rows],
                             [["Ada", "1.5000", "3", str(tag)] for tag in (7, 8, 9)])
            self.assertEqual(manager.one("SELECT COUNT(k) FROM KarzhoulUnique k"), 3)
