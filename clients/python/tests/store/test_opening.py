"""What an opening that fails says of the store's file."""

from __future__ import annotations

import os
import sqlite3
import subprocess
import sys
import unittest
from contextlib import closing
from pathlib import Path
from unittest import mock

import karzhoul
from karzhoul.store import starting
from karzhoul.store import opening

from ..support import FLAT, HERE, PROGRAM, FolderTest, needs_program

needs_locks = unittest.skipUnless(Path("/proc/locks").exists(), "no system that lists its locks")


@needs_program
class Opening(FolderTest):
    def setUp(self) -> None:
        super().setUp()
        self.db = self.place / "app.db"

    def fails(self, *told: str) -> None:
        with self.assertRaises(karzhoul.StoreFault) as raised:
            karzhoul.open(FLAT, self.db, program=PROGRAM).close()
        for each in told:
            self.assertIn(each, raised.exception.why)
        self.assertTrue(raised.exception.why.startswith(f"{self.db} can't be opened: "))
        self.assertEqual(str(raised.exception), f"StoreFault: {raised.exception.why}")
        self.assertEqual(raised.exception.explain(), raised.exception.why)

    @needs_locks
    def test_a_file_that_another_program_has_open(self) -> None:
        with karzhoul.open(FLAT, self.db, program=PROGRAM) as app:
            held = f"(process {app.program.pid}), which this process started"
            self.fails("another program has it open, and one at a time has a file: ", held)
            words = (
                "import karzhoul, karzhoul.store.starting\nkarzhoul.store.starting.PATIENCE = 0\n"
                f"karzhoul.open({str(FLAT)!r}, {str(self.db)!r})"
            )
            env = {**os.environ, "PYTHONPATH": str(HERE.parent), "KARZHOUL_PROGRAM": str(PROGRAM)}
            ran = subprocess.run(
                [sys.executable, "-c", words], env=env, capture_output=True, text=True
            )
            self.assertIn(f"started by {opening._command(os.getpid())} (process", ran.stderr)

    @needs_locks
    def test_a_file_that_this_process_has_locked(self) -> None:
        karzhoul.open(FLAT, self.db, program=PROGRAM).close()
        with closing(sqlite3.connect(self.db)) as held:
            held.execute("BEGIN EXCLUSIVE")
            self.fails("another program has it open", "this process itself")

    def test_a_locked_file_where_locks_are_not_listed(self) -> None:
        with karzhoul.open(FLAT, self.db, program=PROGRAM):
            with mock.patch.object(opening, "_LOCKS", self.place / "none"):
                with mock.patch.object(starting, "PATIENCE", 0):
                    self.fails("another program has it open, and one at a time has a file")

    def test_a_file_that_becomes_free_is_waited_for(self) -> None:
        """As behind a process that was killed, whose program still ends."""
        karzhoul.open(FLAT, self.db, program=PROGRAM).close()
        words = (
            "import sqlite3, sys\nheld = sqlite3.connect(sys.argv[1])\n"
            "held.execute('PRAGMA locking_mode = EXCLUSIVE')\nheld.execute('BEGIN EXCLUSIVE')\n"
            "print('held', flush=True)\nsys.stdin.read()"
        )
        for listed in (opening._LOCKS, self.place / "none"):
            other = subprocess.Popen(
                [sys.executable, "-c", words, str(self.db)], stdin=subprocess.PIPE,
                stdout=subprocess.PIPE, text=True,
            )
            assert other.stdout is not None
            self.assertEqual(other.stdout.readline(), "held\n")
            told = []
            held_by = opening.held_by

            def seen(db: Path) -> opening.Held:
                told.append(held_by(db))
                other.communicate("")
                return told[-1]

            # It is as a process that another one has started.
            with mock.patch.multiple(opening, _LOCKS=listed, held_by=seen, _parent=lambda _: 1):
                karzhoul.open(FLAT, self.db, program=PROGRAM).close()
            self.assertEqual(told, [opening.Held.BY_OTHERS])

    def test_one_that_became_free_meanwhile_is_tried_once_more(self) -> None:
        told = [opening.Held.BY_NOBODY] * 2
        with karzhoul.open(FLAT, self.db, program=PROGRAM) as app:

            def freed(_: Path) -> opening.Held:
                app.close()
                return told.pop()

            with mock.patch.object(opening, "held_by", freed):
                karzhoul.open(FLAT, self.db, program=PROGRAM).close()
        self.assertEqual(len(told), 1)

    def test_one_that_is_in_use_is_waited_for_some_seconds(self) -> None:
        with karzhoul.open(FLAT, self.db, program=PROGRAM):
            with mock.patch.object(opening, "held_by", lambda _: opening.Held.BY_OTHERS):
                with mock.patch.object(starting, "PATIENCE", 0.2):
                    self.fails("another program has it open")

    def test_folders(self) -> None:
        self.db.mkdir()
        self.fails("it is a folder, and a database is a file")
        self.db = self.place / "none" / "app.db"
        self.fails(f"there is no folder {self.place / 'none'}")

    def test_sqlites_name_of_a_store_in_memory_is_no_file(self) -> None:
        with self.assertRaises(ValueError) as raised:
            karzhoul.open(FLAT, ":memory:", program=PROGRAM).close()
        self.assertIn("leave db out", str(raised.exception))
        self.assertFalse(Path(":memory:").exists())

    def test_what_may_not_be_written(self) -> None:
        """Told without a program, since whoever runs tests as root may write all."""
        self.db.touch()
        log = self.place / "app.db-wal"
        log.touch()
        for denied, told in (
            (self.place, "may not be written by you, where its log is to stand"),
            (self.db, "it may not be read and written by you"),
            (log, "its log app.db-wal may not be read and written by you"),
        ):
            with mock.patch("os.access", lambda path, _, no=denied: path != no):
                self.assertIn(told, opening.why_unopened(self.db))

    def test_what_is_no_store(self) -> None:
        self.db.write_bytes(b"no database at all, whatever its name is")
        self.fails("it is no database of SQLite")
        for table, told in (
            ("other(a)", "it has no table of cells, and has other"),
            ("cell(a, b)", "its table of cells has the columns a, b"),
        ):
            self.db.unlink()
            with closing(sqlite3.connect(self.db)) as database:
                database.execute(f"CREATE TABLE {table}")
            self.fails(f"it is no store of this program: {told}")
        self.db = Path("/dev/null")
        self.fails("it is no file, but a device or the like")

    def test_what_can_not_be_told(self) -> None:
        karzhoul.open(FLAT, self.db, program=PROGRAM).close()
        self.assertIn("it can't be told why", opening.why_unopened(self.db))

    def test_a_restart(self) -> None:
        with karzhoul.open(FLAT, self.db, program=PROGRAM) as app:
            app.program.close()
            self.db.unlink()
            self.db.mkdir()
            with self.assertRaises(karzhoul.StoreFault) as raised:
                app.restart()
            self.assertIn("it is a folder", raised.exception.why)

    def test_a_mapping_that_can_not_be_read(self) -> None:
        with self.assertRaises(karzhoul.Mapping) as raised:
            karzhoul.open(self.place / "none.json", program=PROGRAM)
        self.assertIn("none.json can't be read: No such file", str(raised.exception))


if __name__ == "__main__":
    unittest.main()
