"""What docs/OPERATING.md says of a store in use."""

from __future__ import annotations

import contextlib
import json
import os
import resource
import shlex
import shutil
import signal
import sqlite3
import subprocess
import tempfile
import threading
import time
import unittest
from concurrent.futures import ThreadPoolExecutor
from pathlib import Path
from typing import Any, Callable, Iterator, List, Tuple

import karzhoul
from karzhoul.cli.beginnings import first_mapping

from ..support import PROGRAM, TOP, needs_program

COUNT = "SELECT COUNT(b) FROM Book b"
BEGIN = ['{"call":"createEntityManager"}']


def add(app: karzhoul.EntityManagerFactory, count: int, title: str = "x") -> None:
    """Commits so many books."""
    with app.create_entity_manager() as em, em.transaction():
        for book in app.new_many("Book", [{"title": title}] * count):
            em.persist(book)


@needs_program
class Operating(unittest.TestCase):
    """A test over a store in a folder of its own."""

    def setUp(self) -> None:
        place = tempfile.TemporaryDirectory()
        self.addCleanup(place.cleanup)
        self.place = Path(place.name)
        self.db, self.copy = self.place / "app.db", self.place / "copy.db"
        self.mapping = self.place / "mapping.json"
        self.mapping.write_text(json.dumps(first_mapping()), encoding="utf-8")

    @contextlib.contextmanager
    def opened(self, db: Path) -> Iterator[karzhoul.EntityManagerFactory]:
        with karzhoul.open(self.mapping, db, program=PROGRAM) as app:
            yield app

    def count(self, db: Path) -> int:
        """How many books a store has."""
        with self.opened(db) as app:
            return int(app.create_entity_manager().query_single(COUNT))

    def copied(self) -> Path:
        """A copy of both files."""
        for end in ("", "-wal"):
            shutil.copy(f"{self.db}{end}", f"{self.copy}{end}")
        return self.copy

    def backed_up(self) -> Path:
        """A copy by SQLite's own backup, as `.backup` of `sqlite3` makes it."""
        self.copy.unlink(missing_ok=True)
        with contextlib.closing(sqlite3.connect(self.db, timeout=0)) as source:
            source.execute("SELECT COUNT(*) FROM cell").fetchone()  # `backup` waits for a lock.
            with contextlib.closing(sqlite3.connect(self.copy)) as target:
                source.backup(target)
        return self.copy


class Backups(Operating):
    def test_while_no_program_has_it_open(self) -> None:
        with self.opened(self.db) as app:
            add(app, 15)
        shutil.copy(self.db, self.copy)  # After an ordinary end the file has all.
        self.assertEqual(self.count(self.copy), 15)
        self.assertEqual(self.count(self.backed_up()), 15)
        with self.opened(self.db) as app:
            add(app, 2)
            app.program.kill()
        self.assertEqual(self.count(self.copied()), 17)
        with self.opened(self.db) as app:
            add(app, 2)
            app.program.kill()
        self.assertEqual(self.count(self.backed_up()), 19)

    def test_while_it_runs_it_is_locked(self) -> None:
        with self.opened(self.db) as app:
            add(app, 15)
            with self.assertRaisesRegex(sqlite3.OperationalError, "database is locked"):
                self.backed_up()
            second = [str(PROGRAM), "--mapping", str(self.mapping), "--db", str(self.db)]
            ran = subprocess.run(second, input=b"", capture_output=True, timeout=60)
            self.assertEqual((ran.returncode, ran.stderr), (3, b"jpa: StoreFault\n"))
            shutil.copy(self.db, self.copy)
            self.assertEqual(self.count(self.copy), 0)  # The log has them.
        self.assertEqual(self.count(self.db), 15)

    def while_threads_commit(self, copy: Callable[[karzhoul.EntityManagerFactory], None]) -> None:
        """Copies, of which each has whole commits, of seven books each."""
        ends = threading.Event()

        def work() -> None:
            while not ends.is_set():
                add(app, 7, "y" * 300)

        with self.opened(self.db) as app, ThreadPoolExecutor(2) as pool:
            add(app, 7)
            working = [pool.submit(work) for _ in range(2)]
            try:
                for _ in range(8):
                    time.sleep(0.02)
                    copy(app)
                    count = self.count(self.copy)
                    self.assertGreater(count, 0)
                    self.assertEqual(count % 7, 0)
            finally:
                ends.set()
            for each in working:
                each.result()

    def test_by_the_application_between_its_calls(self) -> None:
        def copy(app: karzhoul.EntityManagerFactory) -> None:
            with app.pipeline():
                self.copied()

        self.while_threads_commit(copy)

    def test_of_a_process_that_is_stopped_meanwhile(self) -> None:
        def copy(app: karzhoul.EntityManagerFactory) -> None:
            os.kill(app.program.pid, signal.SIGSTOP)
            try:
                self.copied()
            finally:
                os.kill(app.program.pid, signal.SIGCONT)

        self.while_threads_commit(copy)


class Ends(Operating):
    def lines(self, first: int, last: int) -> List[str]:
        """The calls that commit a book each, of these numbers."""
        told = []
        for number in range(first, last + 1):
            told += [
                '{"call":"new","entity":"Book"}',
                f'{{"call":"set","object":{number},"name":"title","value":"t"}}',
                '{"call":"begin","em":1}',
                f'{{"call":"persist","em":1,"object":{number}}}',
                '{"call":"commit","em":1}',
            ]
        return told

    def ended_by(self, number: int) -> Tuple[int, int, int]:
        """The status of a program that a signal ends while it commits, how many commits it has
        answered, and how many books are stored."""
        words = [str(PROGRAM), "--mapping", str(self.mapping), "--db", str(self.db)]
        pipe = subprocess.PIPE
        with subprocess.Popen(words, stdin=pipe, stdout=pipe, bufsize=0) as process:
            assert process.stdin is not None and process.stdout is not None
            process.stdin.write("\n".join([*BEGIN, *self.lines(1, 20), ""]).encode())
            answers = b""
            while answers.count(b"\n") < 101:
                answers += process.stdout.read(1 << 16)
            # Few enough that they fit into the pipe.
            process.stdin.write("\n".join([*self.lines(21, 120), ""]).encode())
            process.send_signal(number)
            answers += process.stdout.read()
            process.stdin.close()
        answered = answers.count(b'"PostPersist"')
        return process.returncode, answered, self.count(self.db)

    def test_signals_that_end_it(self) -> None:
        for number in (signal.SIGTERM, signal.SIGINT, signal.SIGHUP, signal.SIGKILL):
            with self.subTest(number):
                status, answered, stored = self.ended_by(number)
                self.assertEqual(status, -number)
                self.assertGreaterEqual(answered, 20)
                self.assertIn(stored, (answered, answered + 1))
                for path in self.place.glob("app.db*"):
                    path.unlink()

    def test_a_pipe_that_nobody_reads(self) -> None:
        words = [str(PROGRAM), "--mapping", str(self.mapping), "--db", str(self.db)]
        reading, writing = os.pipe()
        os.close(reading)
        ran = subprocess.run(words, input="\n".join(BEGIN).encode(), stdout=writing, timeout=60)
        os.close(writing)
        self.assertEqual(ran.returncode, 4)

    def test_the_end_of_its_input_writes_the_log_into_the_file(self) -> None:
        with self.opened(self.db) as app:
            add(app, 3)
            app.create_entity_manager().transaction().begin()
            log = Path(f"{self.db}-wal")
            self.assertGreater(log.stat().st_size, 1000)
        self.assertLess(log.stat().st_size, 100)
        self.assertEqual(self.count(self.db), 3)


class Sharing(Operating):
    def test_threads_that_count_one_number_up(self) -> None:
        with self.opened(self.db) as app:
            with app.create_entity_manager() as em, em.transaction():
                em.persist(app.new("Book", title="x", copies=0))

            def work(_: int) -> None:
                with app.create_entity_manager() as em:
                    for _ in range(20):
                        for attempt in em.attempts(10_000):
                            with attempt:
                                book: Any = em.find("Book", 1)
                                book.copies += 1

            with ThreadPoolExecutor(8) as pool:
                list(pool.map(work, range(8)))
            found = app.create_entity_manager().query("SELECT b.copies FROM Book b")
        self.assertEqual(found, [160])


class FullDisk(Operating):
    def test_a_commit_without_room_is_refused_and_made_again(self) -> None:
        # A limit of a file's size stands for a full disk; its signal would end the program.
        deaf = self.place / "deaf"
        program = shlex.quote(str(PROGRAM))
        deaf.write_text(f"#!/bin/sh\ntrap '' XFSZ\nexec {program} \"$@\"\n", encoding="utf-8")
        deaf.chmod(0o755)
        with karzhoul.open(self.mapping, self.db, program=deaf) as app:
            em = app.create_entity_manager()
            add(app, 5)
            most = resource.prlimit(app.program.pid, resource.RLIMIT_FSIZE)
            now = Path(f"{self.db}-wal").stat().st_size
            resource.prlimit(app.program.pid, resource.RLIMIT_FSIZE, (now, most[1]))
            with self.assertRaises(karzhoul.StoreFault):
                add(app, 50, "z" * 4000)
            self.assertEqual(em.query_single(COUNT), 5)
            resource.prlimit(app.program.pid, resource.RLIMIT_FSIZE, most)
            add(app, 50, "z" * 4000)
            self.assertEqual(em.query_single(COUNT), 55)
        self.assertEqual(self.count(self.db), 55)


class Page(unittest.TestCase):
    def test_it_names_this_file(self) -> None:
        page = (TOP / "docs" / "OPERATING.md").read_text(encoding="utf-8")
        self.assertIn("clients/python/tests/papers/test_operating.py", page)


if __name__ == "__main__":
    unittest.main()
