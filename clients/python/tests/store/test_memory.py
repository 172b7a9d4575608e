"""Stores without a file of the user's."""

from __future__ import annotations

import contextlib
import os
import shutil
import signal
import subprocess
import sys
import time
import unittest
import warnings
from pathlib import Path
from typing import Any, Callable, Iterator, List, Tuple
from unittest import mock

import karzhoul
from karzhoul.store import memory
from karzhoul.store.memory import MemoryStore

from ..support import HERE, PERSONS, PROGRAM, FolderTest, needs_program, present

OPENED = """
import sys
sys.path.insert(0, {package!r})
import karzhoul
from karzhoul.store import memory
from pathlib import Path

memory.MEMORY = Path({place!r})
app = karzhoul.open({mapping!r}, program={program!r})
with app.begin() as manager:
    manager.persist(app.new("Person", name="Ada"))
"""


def interrupted_in_starting(number: int, work: Callable[[], object]) -> bool:
    """Does work, interrupted at its step of this number in the starting of processes; whether it
    has as many."""
    left = number

    def profile(frame: Any, event: str, _: object) -> None:
        nonlocal left
        is_step = event in ("call", "c_return")
        if is_step and frame.f_code.co_filename == subprocess.__file__:
            left -= 1
            if left == 0:
                raise KeyboardInterrupt

    try:
        sys.setprofile(profile)
        work()
    except KeyboardInterrupt:
        return True
    finally:
        sys.setprofile(None)
    return False


class MemoryTest(FolderTest):
    """A test whose stores in memory are made in a folder of its own."""

    def setUp(self) -> None:
        super().setUp()
        patched = mock.patch.object(memory, "MEMORY", self.place)
        patched.start()
        self.addCleanup(patched.stop)

    def folders(self) -> List[str]:
        return sorted(path.name for path in self.place.iterdir())

    def files(self) -> List[str]:
        """The files of all stores."""
        return sorted(path.name for path in self.place.glob("*/*"))

    def gone(self) -> List[str]:
        """The folders that are left after a while."""
        until = time.monotonic() + 10
        while self.folders() and time.monotonic() < until:
            time.sleep(0.01)
        return self.folders()

    @contextlib.contextmanager
    def process(self, more: str) -> Iterator["subprocess.Popen[str]"]:
        """Another process that has a store in memory, with Ada, and does more with it."""
        text = OPENED.format(
            package=str(HERE.parent), place=str(self.place), mapping=PERSONS, program=PROGRAM
        )
        words = [sys.executable, "-B", "-c", text + more]
        with subprocess.Popen(
            words, stdin=subprocess.PIPE, stdout=subprocess.PIPE, text=True
        ) as process:
            yield process
            process.kill()


@needs_program
class Opened(MemoryTest):
    def test_a_store_is_a_file_of_its_factory(self) -> None:
        with karzhoul.open(PERSONS, program=PROGRAM) as app:
            with karzhoul.open(PERSONS, program=PROGRAM) as other:
                self.assertEqual(len(self.folders()), 2)
                with app.begin() as manager:
                    manager.persist(app.new("Person", name="Ada"))
                with other.begin() as manager:
                    self.assertIsNone(manager.find("Person", 1))
            self.assertEqual(len(self.folders()), 1)
            self.assertIn("store.db", self.files())
            folder = self.place / self.folders()[0]
            self.assertEqual(folder.stat().st_mode & 0o777, 0o700)
        self.assertEqual(self.folders(), [])
        app.close()

    def test_it_is_restarted_as_others_are(self) -> None:
        with karzhoul.open(PERSONS, program=PROGRAM) as app:
            with app.begin() as manager:
                ada = app.new("Person", name="Ada")
                manager.persist(ada)
            app.restart()
            with self.assertRaises(karzhoul.Restarted):
                ada.name
            os.kill(app.program.pid, signal.SIGKILL)
            app.restart()
            with app.begin() as manager:
                self.assertEqual(present(manager, "Person", 1).name, "Ada")
        self.assertEqual(self.folders(), [])

    def test_a_restart_that_is_interrupted_keeps_it(self) -> None:
        """At each step of the starting of processes."""
        with warnings.catch_warnings(), karzhoul.open(PERSONS, program=PROGRAM) as app:
            warnings.simplefilter("ignore", ResourceWarning)  # Of what was interrupted.
            with app.begin() as manager:
                manager.persist(app.new("Person", name="Ada"))
            for at in range(1, 400):
                os.kill(app.program.pid, signal.SIGKILL)
                with contextlib.suppress(karzhoul.ProgramEnded):
                    app.create_entity_manager()
                if not interrupted_in_starting(at, app.restart):
                    break
                self.reopen(app)
                with app.begin() as manager:
                    self.assertEqual(present(manager, "Person", 1).name, "Ada")
            self.assertGreater(at, 30)

    def reopen(self, app: karzhoul.EntityManagerFactory) -> None:
        """Opens it again, once the program has ended whose start was interrupted."""
        until = time.monotonic() + 5
        while True:
            try:
                return app.reopen()
            except karzhoul.StoreFault:
                if time.monotonic() > until:
                    raise
                time.sleep(0.01)

    def test_an_opening_that_fails_leaves_nothing(self) -> None:
        with self.assertRaises(karzhoul.Mapping):
            karzhoul.open({"revision": 1}, program=PROGRAM)
        with self.assertRaises(karzhoul.ProgramNotFound):
            karzhoul.open(PERSONS, program=self.place)
        self.assertEqual(self.folders(), [])

    def test_without_a_memory_folder(self) -> None:
        """It is in the temporary folder."""
        there = self.place / "there"
        there.mkdir()
        for memory_folder in (self.place / "none", Path("/dev/null")):
            with mock.patch.object(memory, "MEMORY", memory_folder):
                with mock.patch("tempfile.gettempdir", lambda: str(there)):
                    with karzhoul.open(PERSONS, program=PROGRAM):
                        self.assertEqual(len(list(there.glob("karzhoul-store-*"))), 1)
                    self.assertEqual(list(there.iterdir()), [])


@needs_program
class Ended(MemoryTest):
    """How a store goes, whatever ends its process."""

    def test_the_end_of_the_interpreter(self) -> None:
        with self.process("print(1)") as process:
            process.communicate()
            self.assertEqual(process.returncode, 0)
            self.assertEqual(self.folders(), [])

    def test_a_kill(self) -> None:
        with self.process("print(1, flush=True); input()") as process:
            assert process.stdout is not None
            process.stdout.readline()
            self.assertIn("store.db", self.files())
            process.kill()
            self.assertEqual(self.gone(), [])

    def test_what_is_left_goes_with_the_next_opening(self) -> None:
        """Where all that belongs to a process was killed, as by the end of a machine's memory."""
        more = "print(app.program.pid, app.program._watch.pid, flush=True); input()"
        with self.process(more) as process:
            assert process.stdout is not None
            program, watch = map(int, process.stdout.readline().split())
            left = self.folders()
            with karzhoul.open(PERSONS, program=PROGRAM):  # It lives, and keeps its store.
                self.assertEqual(len(self.folders()), 2)
            self.assertEqual(self.folders(), left)
            for pid in (watch, process.pid, program):
                os.kill(pid, signal.SIGKILL)
            process.wait()
            self.assertEqual(self.folders(), left)
        with karzhoul.open(PERSONS, program=PROGRAM):
            self.assertEqual(len(self.folders()), 1)
            self.assertNotEqual(self.folders(), left)

    def test_a_forked_process_removes_nothing(self) -> None:
        more = (
            "import os, sys\n"
            "if os.fork() == 0: sys.exit()\n"
            "os.wait()\n"
            "with app.begin() as manager: print(manager.find('Person', 1).name)\n"
            "app.restart()\n"
            "with app.begin() as manager: print(manager.find('Person', 1).name)\n"
        )
        with self.process(more) as process:
            self.assertEqual(process.communicate()[0].split(), ["Ada", "Ada"])
        self.assertEqual(self.folders(), [])

    def test_a_forked_process_keeps_no_store(self) -> None:
        """The one that it was forked from ends by a kill while the fork goes on."""
        more = (
            "import os, time\n"
            "fork = os.fork()\n"
            "if fork == 0: time.sleep(60)\n"
            "print(fork, app.program._watch.pid, app.program.pid, flush=True); input()\n"
        )
        with self.process(more) as process:
            assert process.stdout is not None
            fork, watch, program = map(int, process.stdout.readline().split())
            self.addCleanup(os.kill, fork, signal.SIGKILL)
            for pid in (watch, process.pid, program):
                os.kill(pid, signal.SIGKILL)
            process.wait()
            until = time.monotonic() + 10
            while self.folders() and time.monotonic() < until:
                karzhoul.open(PERSONS, program=PROGRAM).close()
            self.assertEqual(self.folders(), [])


class Left(MemoryTest):
    """What is removed, and what isn't."""

    def made(self, name: str) -> Path:
        folder = self.place / name
        folder.mkdir()
        (folder / "store.db").write_bytes(b"x")
        return folder

    def test_only_folders_of_stores(self) -> None:
        left = self.made("karzhoul-store-1-abc")
        kept = [self.made(name) for name in ("karzhoul-store-1", "other", "karzhoul-store-x-abc")]
        linked = self.place / "karzhoul-store-2-abc"
        linked.symlink_to(kept[1])
        used = self.made("karzhoul-store-3-abc")
        (used / "mine").write_bytes(b"")
        MemoryStore().close()
        self.assertFalse(left.exists())
        self.assertTrue(all((each / "store.db").exists() for each in kept))
        self.assertTrue(linked.is_symlink() and (used / "mine").exists())

    def test_one_that_another_process_takes_before_it_is_locked(self) -> None:
        """Another folder is made then."""
        taken: List[Path] = []
        lock_of = memory._lock_of

        def lost(folder: Path) -> int:
            if not taken:
                taken.append(folder)
                memory._remove(folder, lock_of(folder))
            return lock_of(folder)

        with mock.patch.object(memory, "_lock_of", lost):
            store = MemoryStore()
        self.assertTrue(store.folder.is_dir())
        self.assertNotEqual(store.folder, taken[0])
        store.close()
        self.assertEqual(self.folders(), [])

    def test_one_that_is_being_taken(self) -> None:
        locks: List[Tuple[Path, int]] = []
        lock_of = memory._lock_of

        def held(folder: Path) -> int:
            if not locks:
                locks.append((folder, lock_of(folder)))
            return lock_of(folder)

        with mock.patch.object(memory, "_lock_of", held):
            store = MemoryStore()
        self.assertNotEqual(store.folder, locks[0][0])
        store.close()
        memory._remove(*locks[0])
        self.assertEqual(self.folders(), [])

    def test_where_nothing_can_be_locked(self) -> None:
        left = self.made("karzhoul-store-1-abc")
        with mock.patch.object(memory, "_lock_of", mock.Mock(side_effect=OSError)):
            store = MemoryStore()
            self.assertTrue(store.folder.is_dir() and left.is_dir())
            store.close()
        self.assertFalse(store.folder.exists())


FULL = """
import os, subprocess, sys
sys.path.insert(0, {package!r})
import karzhoul
from karzhoul.store import memory
from pathlib import Path

memory.MEMORY = Path({place!r})
subprocess.run(["mount", "-t", "tmpfs", "-o", "size=4m", "tmpfs", {place!r}], check=True)
app = karzhoul.open({mapping!r}, program={program!r})
try:
    for number in range(1000):
        with app.begin() as manager:
            for each in range(10):
                manager.persist(app.new("Person", name="x" * 60000))
except karzhoul.StoreFault as refused:
    print(refused)
    print(number)
with app.begin() as manager:
    print(manager.query_single("SELECT COUNT(p) FROM Person p"))
try:
    karzhoul.open({mapping!r}, program={program!r})
except karzhoul.StoreFault as refused:
    print(refused)
"""


@needs_program
class Full(FolderTest):
    def test_a_full_folder(self) -> None:
        """In a folder of four megabytes, which only a process with mounts of its own can have."""
        apart = ["unshare", "--user", "--map-root-user", "--mount"]
        if shutil.which("unshare") is None or subprocess.run([*apart, "true"]).returncode != 0:
            self.skipTest("this system gives nobody mounts of their own")
        text = FULL.format(
            package=str(HERE.parent), place=str(self.place), mapping=PERSONS, program=PROGRAM
        )
        told = subprocess.run(
            [*apart, sys.executable, "-B", "-c", text], capture_output=True, text=True
        )
        self.assertEqual(told.returncode, 0, told.stderr)
        refused, number, count, opened = told.stdout.splitlines()
        full = f"{self.place}, where stores without a file are, has no room left: name a file"
        self.assertEqual(refused, f"StoreFault: {full}")
        self.assertEqual(int(count), 10 * int(number))
        self.assertIn(full, opened)


if __name__ == "__main__":
    unittest.main()
