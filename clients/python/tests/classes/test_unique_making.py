"""The keys of unique values as they are made over a store that has objects: whole after a kill at
any step, and of more objects than one commit takes."""

from __future__ import annotations

import shutil
import signal
import subprocess
import sys
from typing import Any
from unittest import mock

import karzhoul
from karzhoul import NotUnique
from karzhoul.store import starting

from ..classed import ClassesTest
from ..support import HERE, PROGRAM, needs_program

STORED = """
class Member(Entity):
    id: int = generated()
    email: str
"""
UNIQUE = STORED.replace("email: str", "email: str = field(unique=True)")
# Opens a store, a few keys to a commit, and ends by itself before the exchange of this number.
CHILD = """
import os, sys
here, folder, name, db, lock, program, left = sys.argv[1:]
sys.path[:0] = [here, folder]
import karzhoul
from karzhoul.classes import unique
from karzhoul.store.program import Program
unique._AT_ONCE, left, replies = 5, [int(left)], Program.replies
def counted(self, *words, **more):
    left[0] -= 1
    if not left[0]:
        os.kill(os.getpid(), 9)
    return replies(self, *words, **more)
Program.replies = counted
karzhoul.open(__import__(name), db, program=program, lock=lock).close()
"""
STEP = 9


@needs_program
class Making(ClassesTest):
    def store(self, count: int) -> Any:
        """Stores so many members without keys, and gives the module in which they are unique."""
        module = self.module(STORED)
        with self.open(module) as app, app.begin() as manager:
            manager.persist_all(app.new_many("Member", [{"email": f"m{n}"} for n in range(count)]))
        return self.module(UNIQUE)

    def judge(self, module: Any, count: int) -> None:
        """Each member has its key, and so its value is refused."""
        with mock.patch.object(starting, "PATIENCE", 60):
            app = self.open(module)
        with app:
            with app.begin() as manager:
                self.assertEqual(manager.one("SELECT COUNT(m) FROM Member m"), count)
                self.assertEqual(manager.one("SELECT COUNT(k) FROM KarzhoulUnique k"), count)
            for number in (0, count // 2, count - 1):
                with self.assertRaises(NotUnique), app.begin() as manager:
                    manager.persist(app.new("Member", email=f"m{number}"))

    def test_a_kill_at_any_step(self) -> None:
        module = self.store(23)
        kept = self.folder.with_name(f"{self.folder.name}.kept")
        shutil.copytree(self.folder, kept)
        self.addCleanup(shutil.rmtree, kept)
        status, at, killed = -signal.SIGKILL, 1, 0
        while status != 0:
            words = map(str, (HERE.parent, self.folder, module.__name__, self.db, self.lock,
                              PROGRAM, at))
            status = subprocess.run([sys.executable, "-B", "-c", CHILD, *words]).returncode
            self.assertIn(status, (0, -signal.SIGKILL))
            killed, at = killed + (status != 0), at + STEP
            if killed % 2 == 0 or status == 0:
                self.judge(module, 23)
            else:
                self.judge_back()
            shutil.rmtree(self.folder)
            shutil.copytree(kept, self.folder)
        self.assertGreater(killed, 4)

    def test_of_more_objects_than_one_commit_takes(self) -> None:
        count = 5_003
        self.judge(self.store(count), count)

    def judge_back(self) -> None:
        """The classes of before are opened again over the store, and take what was unique."""
        with mock.patch.object(starting, "PATIENCE", 60):
            app = self.open(STORED)
        with app:
            with app.begin() as manager:
                manager.persist(app.new("Member", email="m0"))
            with app.begin() as manager:
                asked = "SELECT COUNT(m) FROM Member m WHERE m.email = 'm0'"
                self.assertEqual(manager.one(asked), 2)
        with self.assertRaisesRegex(karzhoul.NotBroughtOver, "2 objects have 'm0'"):
            self.open(UNIQUE)
