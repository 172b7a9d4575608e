"""`karzhoul mirror`: tables that follow the store of a server."""

from __future__ import annotations

import contextlib
import json
import os
import random
import signal
import socket
import sqlite3
import subprocess
import sys
import threading
import time
from pathlib import Path
from types import ModuleType
from typing import Any, Iterator, List, Mapping, Optional, Sequence, Tuple
from unittest import mock

import karzhoul
from karzhoul.exporting import following
from karzhoul.exporting.sqlite import opened_to_write
from karzhoul.server.settings import Settings

from .exports import Exporting, files_of_at_most, rows_of
from .random_stores import Store
from ..served import SECONDS, Here
from ..support import HERE, PERSONS, PROGRAM, needs_program

TRIALS = 12
KILLS = 6


def _of_few_pages(path: Path, wait: float) -> sqlite3.Connection:
    """A file that gets no room for more than some pages."""
    store = opened_to_write(path, wait)
    store.execute("PRAGMA main.max_page_count = 60")
    return store


def dumped(db: Path) -> List[str]:
    """All that a file of SQLite has, its rows in an order of their own."""
    with contextlib.closing(sqlite3.connect(db)) as store:
        return sorted(store.iterdump())


class Mirroring(Exporting):
    """A library that is served at a socket in its folder, and a file that follows it."""

    def setUp(self) -> None:
        super().setUp()
        self.socket = self.folder / "s"
        self.common = ("mirror", "--from", f"unix:{self.socket}", "--sqlite", self.out)
        # The server is of this process, and what it logs isn't what a command tells.
        logging = mock.patch("karzhoul.server.copying.log")
        logging.start()
        self.addCleanup(logging.stop)
        self._server: Optional[Here] = None
        self.addCleanup(self.end_server)

    def serve(
        self, mapping: Mapping[str, Any], db: Path, settings: Optional[Settings] = None,
        is_trusted: bool = True,
    ) -> None:
        """Serves a store, in the place of the last one."""
        self.end_server()
        self._server = Here(mapping, db, settings, "wide", self.socket, is_trusted)

    def end_server(self) -> None:
        """Ends the server."""
        if self._server is not None:
            self._server.close()
            self.socket.unlink(missing_ok=True)
        self._server = None

    def serve_library(self) -> ModuleType:
        """The classes of a library, whose store is served."""
        module = self.library()
        with karzhoul.open(module, str(self.db), program=PROGRAM, lock=self.lock) as app:
            mapping = app.mapping
        self.serve(mapping, self.db)
        return module

    def connected(self, module: ModuleType) -> karzhoul.EntityManagerFactory:
        """A factory over the server."""
        app = karzhoul.connect(f"unix:{self.socket}", module, lock=self.lock)
        self.addCleanup(app.close)
        return app

    def exported(self, *words: Any) -> List[str]:
        """What an export of the store has, once the server has ended."""
        self.end_server()
        name = self.folder / "wanted.db"
        name.unlink(missing_ok=True)
        self.done("export", self.db, "--sqlite", name, *words)
        return dumped(name)

    def started(self, *words: Any) -> "subprocess.Popen[str]":
        """A mirror that runs, with these words."""
        line = [*self.common, "--program", PROGRAM, "--every", "0.2", *words]
        running = subprocess.Popen(
            [sys.executable, "-m", "karzhoul", *map(str, line)], stdout=subprocess.PIPE,
            stderr=subprocess.PIPE, text=True, cwd=HERE.parent,
            env={**os.environ, "PYTHONPATH": str(HERE.parent)},
        )
        self.addCleanup(running.communicate)
        self.addCleanup(running.kill)
        return running

    def wait_for(self, text: str, wanted: List[Tuple[Any, ...]]) -> None:
        """Waits until a query over the file finds this."""
        until = time.monotonic() + 2 * SECONDS
        while True:
            with contextlib.suppress(sqlite3.OperationalError):
                # (a look at a file that isn't there would make it)
                if self.out.exists() and rows_of(self.out, text) == wanted:
                    return
            self.assertLess(time.monotonic(), until, "the tables don't follow the store")
            time.sleep(0.2)

    def wait_until_closed(self) -> None:
        """Waits until the mirror has closed the file, whose log goes with the last that closes it."""
        until = time.monotonic() + 2 * SECONDS
        while self.out.with_name("out.db-wal").exists():
            self.assertLess(time.monotonic(), until, "the file stays open")
            time.sleep(0.1)
            with contextlib.closing(sqlite3.connect(self.out)) as store:
                store.execute("SELECT 1 FROM sqlite_master")


@needs_program
class Follows(Mirroring):
    def test_the_file_is_what_export_writes(self) -> None:
        module = self.serve_library()
        ways: List[Tuple[Path, Sequence[str]]] = [
            (self.folder / "a.db", ()), (self.folder / "b.db", ("--name", "Member=people")),
            (self.folder / "c.db", ("--names", "snake", "--as", "column")),
        ]

        def bring(out: Path, *words: str) -> str:
            return self.done("mirror", "--from", f"unix:{self.socket}", "--sqlite", out, "--once",
                             "--mapping", self.models, *words)

        for out, words in ways:
            self.assertRegex(bring(out, *words),
                             r"^\w.db: 11 objects, 17 rows written or removed, \d+\.\d s\n$")
        self.assertRegex(bring(ways[0][0]), "11 objects, 0 rows written or removed")
        with self.connected(module) as app, app.begin() as manager:
            self._change(module, manager)
        for out, words in ways:
            bring(out, *words)
        for out, words in ways:
            self.assertEqual(dumped(out), self.exported("--mapping", self.models, *words))
        self.assertEqual(list(self.folder.glob("*.mirroring")), [])

    def _change(self, module: ModuleType, manager: karzhoul.EntityManager) -> None:
        """Changes of each kind: of values, among which two that are unique are swapped, of links
        and lists, new objects and removed ones."""
        ada, bob, eve = manager.query("SELECT m FROM Member m ORDER BY m.id")
        eve.email, ada.email, ada.photo = "a@x", "e@x", None
        company = module.Company(name="New", vat="V2")
        manager.persist(company)
        first, second = manager.query("SELECT l FROM Loan l WHERE l.book IS NOT NULL ORDER BY "
                                      "l.number")
        book, first.book = first.book, None
        manager.flush()
        first.book, second.book = second.book, book
        second.more, second.member = second.more[:1], company
        manager.remove(manager.query("SELECT l FROM Loan l WHERE l.number = 3")[0])

    def test_a_row_that_has_changed_is_told_once(self) -> None:
        module = self.serve_library()
        self.done(*self.common, "--once")
        with self.connected(module) as app, app.begin() as manager:
            first, second, _ = manager.query("SELECT m FROM Member m ORDER BY m.id")
            first.photo, second.email = b"new", "new@x"
            manager.remove(manager.query("SELECT l FROM Loan l WHERE l.number = 3")[0])
        self.assertIn(" 3 rows written or removed", self.done(*self.common, "--once"))
        self.assertEqual(rows_of(self.out, "SELECT email FROM Member WHERE id = 2"), [("new@x",)])

    def test_a_mapping_of_the_server_has_no_classes(self) -> None:
        self.serve_library()
        self.done(*self.common, "--once")
        texts = ("SELECT * FROM Member", "SELECT * FROM Loan_more", "PRAGMA table_info(Member)")
        found = [rows_of(self.out, text) for text in texts]
        self.end_server()
        by_classes = self.folder / "classes.db"
        self.done("export", self.db, "--sqlite", by_classes, "--mapping", self.models)
        self.assertEqual(found, [rows_of(by_classes, text) for text in texts])

    def test_commits_are_followed_while_others_read(self) -> None:
        module = self.serve_library()
        running = self.started("--mapping", self.models)
        count = "SELECT count(*) FROM Member"
        self.wait_for(count, [(3,)])
        with self.connected(module) as app:
            with contextlib.closing(sqlite3.connect(self.out, isolation_level=None)) as reader:
                for number in range(3):
                    with app.begin() as manager:
                        manager.persist(module.Member(name=str(number)))
                    self.wait_for(count, [(4 + number,)])
                    if number == 0:
                        # One who reads sees what was there as it began, and holds up nobody.
                        reader.execute("BEGIN")
                        self.assertEqual(reader.execute(count).fetchall(), [(4,)])
                self.assertEqual(reader.execute(count).fetchall(), [(4,)])
                reader.execute("COMMIT")
                self.assertEqual(reader.execute(count).fetchall(), [(6,)])
            shell = subprocess.run(["sqlite3", "-readonly", self.out, count], capture_output=True,
                                   text=True, timeout=SECONDS)
            self.assertEqual((shell.stdout, shell.stderr), ("6\n", ""))
        running.send_signal(signal.SIGTERM)
        told, wrong = running.communicate(timeout=SECONDS)
        self.assertEqual((running.returncode, wrong), (0, ""))
        self.assertIn("1 rows written or removed", told)
        self.assertEqual(list(self.folder.glob("out.db?*")), [])
        self.assertEqual(dumped(self.out), self.exported("--mapping", self.models))

    def test_one_that_is_killed_goes_on(self) -> None:
        module = self.serve_library()
        r = random.Random(1)
        with self.connected(module) as app:
            for number in range(KILLS):
                running = self.started("--mapping", self.models)
                until = time.monotonic() + r.uniform(0.2, 1.2)
                while time.monotonic() < until:
                    with app.begin() as manager:
                        for more in range(20):
                            manager.persist(module.Member(name=f"{number} {more}"))
                running.kill()
                running.wait(SECONDS)
        self.done(*self.common, "--once", "--mapping", self.models)
        self.assertEqual(dumped(self.out), self.exported("--mapping", self.models))
        self.assertEqual(list(self.folder.glob("out.db?*")), [])

    def test_the_server_may_end_and_come_again(self) -> None:
        module = self.serve_library()
        running = self.started("--mapping", self.models)
        self.wait_for("SELECT count(*) FROM Member", [(3,)])
        self.end_server()
        assert running.stderr is not None
        self.assertIn("nobody serves at", running.stderr.readline())
        self.assertIn("out.db is as it was, and it is tried again each 0.2 s",
                      running.stderr.readline())
        with self.open(module) as app:
            with app.begin() as manager:
                manager.persist(module.Member(name="meanwhile"))
            mapping = app.mapping
        self.serve(mapping, self.db)
        self.wait_for("SELECT name FROM Member WHERE id = 5", [("meanwhile",)])

    def test_random_stores_are_followed(self) -> None:
        for seed in range(TRIALS):
            with self.subTest(seed=seed):
                self.out = self.folder / f"{seed}.db"
                self.common = ("mirror", "--from", f"unix:{self.socket}", "--sqlite", self.out)
                stores = [Store(random.Random(seed), self.folder / f"{seed}{name}", self.ran)
                          for name in "ab"]
                stores[0].load()
                stores[1].load(random.Random(-1 - seed))
                for store in stores:
                    self.serve(json.loads(store.mapping.read_text()), store.db)
                    self.done(*self.common, "--once", "--mapping", store.mapping)
                    self.end_server()
                    store.export()
                    self.assertEqual(dumped(self.out), dumped(store.out))


@needs_program
class WrongMirrors(Mirroring):
    """Each leaves the file as it was, and says why."""

    def setUp(self) -> None:
        super().setUp()
        self.module_served = self.serve_library()
        self.words = (*self.common, "--once", "--mapping", self.models)

    def test_a_file_that_is_no_database_or_no_file(self) -> None:
        self.out.write_text("mine, and long enough to be looked at" * 40)
        self.assertIn("out.db can't be read (file is not a database), and is as it was",
                      self.stopped(*self.words))
        self.out.unlink()
        self.out.mkdir()
        self.assertIn("out.db is no file", self.stopped(*self.words))
        self.out.rmdir()
        log = self.folder / "out.db-wal"
        log.write_text("of before")
        self.assertIn("there is a file out.db-wal without its out.db", self.stopped(*self.words))
        self.assertEqual(log.read_text(), "of before")

    def test_a_table_that_is_another_one(self) -> None:
        with contextlib.closing(sqlite3.connect(self.out)) as store:
            store.executescript("CREATE TABLE Member (mine); INSERT INTO Member VALUES ('x')")
        self.assertIn("out.db has another table Member: it was written by another mapping",
                      self.stopped(*self.words))
        self.out.unlink()
        self.out.touch()
        self.assertIn("out.db has no table Member", self.stopped(*self.words))

    def test_other_names(self) -> None:
        self.done(*self.words)
        self.assertIn("out.db has no table ", self.stopped(*self.words, "--name", "Member=people"))
        self.assertIn("out.db has another table Member",
                      self.stopped(*self.words, "--as", "column"))
        self.assertIn("did you mean 'Member'", self.stopped(*self.words, "--name", "Membr=x"))

    def test_a_mapping_of_another_store(self) -> None:
        other = self.folder / "other.json"
        other.write_text(json.dumps(PERSONS))
        self.done(*self.words)
        self.assertIn("serves other classes", self.stopped(*self.common, "--mapping", other))
        self.assertIn("there is no mapping none", self.stopped(*self.common, "--mapping", "none"))

    def test_a_file_of_another_mapping(self) -> None:
        self.done(*self.words)
        other = self.folder / "persons.db"
        self.serve(PERSONS, other)
        self.assertIn("out.db has no table Person", self.stopped(*self.common, "--once"))

    def test_no_leave_to_write_or_to_connect(self) -> None:
        common = ("mirror", "--from", f"unix:{self.socket}", "--once", "--sqlite")
        self.assertIn("there is no folder none", self.stopped(*common, self.folder / "none" / "o"))
        self.assertIn("/proc/out.db can't be written", self.stopped(*common, "/proc/out.db"))
        token = "t" * 32
        self.serve(PERSONS, self.folder / "persons.db", Settings(token=token.encode()), False)
        self.assertIn("Denied", self.stopped(*self.common, "--once"))

    def test_a_disk_that_is_full(self) -> None:
        self.done(*self.words)
        module = self.module_served
        with self.connected(module) as app, app.begin() as manager:
            for number in range(9):
                manager.persist(module.Book(isbn="f", number=number, title=str(number) * 60_000))
        with files_of_at_most(100_000):  # The server is of this process.
            self.assertIn("no copy can be made", self.stopped(*self.words))
        before = dumped(self.out)
        with mock.patch.object(following, "opened_to_write", _of_few_pages):
            status, out, told = self.ran(*self.words)
        self.assertEqual((status, out), (4, ""))
        self.assertIn("out.db can't be written, and is as it was: database or disk is full", told)
        # (its mode is another one since, so its bytes are)
        self.assertEqual(dumped(self.out), before)
        self.assertEqual(list(self.folder.glob("out.db?*")), [])
        self.done(*self.words)
        self.assertEqual(dumped(self.out), self.exported("--mapping", self.models))

    def test_a_connection_that_is_lost(self) -> None:
        self.done(*self.words)
        self.end_server()
        self.assertIn("nobody serves at", self.stopped(*self.words))
        for said in (b"", b'{"ok":{}}\n', b'{"ok":{}}\n{"ok":{"files":[9,9]}}\n1234'):
            with self._one_who_ends(said):
                self.assertIn("has ended the connection", self.stopped(*self.words))

    @contextlib.contextmanager
    def _one_who_ends(self, said: bytes) -> Iterator[None]:
        """One who answers a status, and ends the next connection behind these words."""
        status = b'{"ok":{"started":1,"commits":1,"programs":1}}\n'
        with socket.socket(socket.AF_UNIX) as listening:
            listening.bind(str(self.socket))
            listening.listen()

            def serve() -> None:
                for answer in (b'{"ok":{}}\n' + status, said):
                    with listening.accept()[0] as one:
                        one.recv(1 << 16)
                        one.sendall(answer)

            served = threading.Thread(target=serve, daemon=True)
            served.start()
            yield
            served.join(SECONDS)
        self.socket.unlink()

    def test_a_file_that_another_one_has(self) -> None:
        self.done(*self.words)
        module = self.module_served
        with self.connected(module) as app, app.begin() as manager:
            manager.persist(module.Member(name="new"))
        with mock.patch.object(following, "_WAIT", 0.1):
            with contextlib.closing(sqlite3.connect(self.out, isolation_level=None)) as other:
                other.execute("BEGIN IMMEDIATE")
                self.assertIn("out.db can't be written, and is as it was: database is locked",
                              self.stopped(*self.words))
        running = self.started("--mapping", self.models)
        self.wait_for("SELECT name FROM Member WHERE id = 5", [("new",)])
        self.wait_until_closed()
        self.assertIn("another mirror writes out.db already", self.stopped(*self.words))
        running.kill()

    def test_values_that_are_not_of_their_class(self) -> None:
        self.done(*self.words)
        self.end_server()
        with self.raw(self.module_served) as app:
            with app.begin() as manager:
                manager.query("SELECT m FROM Member m WHERE m.id = 1")[0].joined = "soon"
            mapping = app.mapping
        self.serve(mapping, self.db)
        self.assertIn("Member 1: joined is no date\nkarzhoul: out.db is as it was",
                      self.stopped(*self.words).replace(", which", ""))

    def test_two_that_are_to_be_unique(self) -> None:
        self.done(*self.words)
        self.end_server()
        with self.raw(self.module_served) as app:
            with app.begin() as manager:
                manager.query("SELECT m FROM Member m WHERE m.id = 3")[0].email = "a@x"
            mapping = app.mapping
        self.serve(mapping, self.db)
        self.assertIn("UNIQUE constraint failed: Member.email", self.stopped(*self.words))
