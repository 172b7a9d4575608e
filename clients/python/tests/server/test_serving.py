"""The commands serve, backup and status: sockets, tokens, ciphers, ends and copies."""

from __future__ import annotations

import io
import json
import os
import shutil
import signal
import socket
import stat
import subprocess
import sys
import tempfile
import threading
import time
import unittest
import urllib.request
from contextlib import redirect_stderr, redirect_stdout
from typing import Any, Dict, List, NamedTuple, Optional
from unittest import mock

import karzhoul
from karzhoul.cli.command import main
from karzhoul.server.way import Way

from ..served import SECONDS, Talk
from ..support import HERE, PERSONS, PROGRAM, FolderTest, needs_program

COUNT = "SELECT COUNT(p) FROM Person p"
OPENSSL = shutil.which("openssl")


# Where the modules of the processes are compiled, once for all.
_compiled = tempfile.TemporaryDirectory()


def tearDownModule() -> None:
    """Removes what was compiled."""
    _compiled.cleanup()


def environment(**more: str) -> Dict[str, str]:
    """The variables of a process that uses the package."""
    cached = {"PYTHONDONTWRITEBYTECODE": "", "PYTHONPYCACHEPREFIX": _compiled.name}
    return {**os.environ, **cached, "PYTHONPATH": str(HERE.parent), **more}


class Ended(NamedTuple):
    """What came of a command."""

    returncode: int
    stdout: str
    stderr: str


@needs_program
class ServingTest(FolderTest):
    """A test of servers that are processes."""

    def setUp(self) -> None:
        super().setUp()
        self.db, self.socket = self.place / "app.db", self.place / "s"
        self.mapping = self.place / "mapping.json"
        self.mapping.write_text(json.dumps(PERSONS))
        self.way = f"unix:{self.socket}"

    def command(self, *words: str) -> Ended:
        """A command that has ended."""
        told, wrong = io.StringIO(), io.StringIO()
        with redirect_stdout(told), redirect_stderr(wrong):
            try:
                status = main([*words])
            except SystemExit as ended:
                status = int(ended.code or 0)
        return Ended(status, told.getvalue(), wrong.getvalue())

    def serve(
        self, *words: str, listen: str = "", env: Optional[Dict[str, str]] = None
    ) -> "subprocess.Popen[str]":
        """A server that serves, with these words."""
        listen = listen or self.way
        server = subprocess.Popen(
            [sys.executable, "-m", "karzhoul", "serve", str(self.db), "--mapping",
             str(self.mapping), "--program", str(PROGRAM), "--listen", listen, *words],
            stderr=subprocess.PIPE, text=True, cwd=HERE.parent, env=environment(**(env or {})),
        )
        self.addCleanup(self.end, server)
        assert server.stderr is not None
        self.heard = []
        for line in server.stderr:
            self.heard.append(line)
            if '"serving"' in line:
                break
        else:
            raise AssertionError("".join(self.heard))
        # What else it tells is read, so that it never waits for that.
        self.hearing = threading.Thread(target=self.heard.extend, args=[server.stderr], daemon=True)
        self.hearing.start()
        return server

    def end(self, server: "subprocess.Popen[str]") -> None:
        """Ends a server at once."""
        server.kill()
        server.wait(SECONDS)

    def persist(self, app: karzhoul.EntityManagerFactory, name: str = "Ada") -> None:
        """Stores a person."""
        with app.begin() as manager:
            manager.persist(app.entity("Person")(name=name))

    def count(self, app: karzhoul.EntityManagerFactory) -> int:
        """How many persons are stored."""
        with app.begin() as manager:
            return int(manager.one(COUNT))


class Sockets(ServingTest):
    def test_a_socket_for_its_owner_and_one_for_a_group(self) -> None:
        self.serve()
        self.assertEqual(stat.S_IMODE(self.socket.stat().st_mode), 0o600)
        again = self.command("serve", str(self.db), "--mapping", str(self.mapping),
                             "--listen", self.way)
        self.assertEqual(again.returncode, 2)
        self.assertIn("a server listens at", again.stderr)
        other = self.place / "g"
        self.db = self.place / "other.db"
        self.serve("--mode", "660", listen=f"unix:{other}")
        self.assertEqual(stat.S_IMODE(other.stat().st_mode), 0o660)

    def test_a_socket_that_a_killed_server_left_is_taken(self) -> None:
        server = self.serve()
        with karzhoul.connect(self.way) as app:
            self.persist(app)
        self.end(server)
        self.assertTrue(self.socket.exists())
        self.serve()
        with karzhoul.connect(self.way) as app:
            self.assertEqual(self.count(app), 1)

    def test_words_that_do_not_go(self) -> None:
        token = self.place / "token"
        token.write_text("short")
        for words, told in (
            (["tcp:127.0.0.1:0"], "needs --token-file"),
            (["tcp:127.0.0.1:0", "--token-file", str(token)], "32 bytes"),
            (["http://x"], "is no address"),
            ([self.way, "--metrics", "0.0.0.0:9117"], "to this machine alone"),
            ([self.way, "--idle", "0"], "no number of seconds"),
            ([self.way, "--listen", "tcp:127.0.0.1:0"], "at one address, and not at unix:"),
        ):
            ended = self.command("serve", str(self.db), "--mapping", str(self.mapping),
                                 "--listen", *words)
            self.assertEqual(ended.returncode, 2, ended.stderr)
            self.assertIn(told, ended.stderr)
        token.write_text("t" * 32)
        ended = self.command("serve", str(self.db), "--mapping", str(self.mapping), "--listen",
                             "tcp:0.0.0.0:0", "--token-file", str(token))
        self.assertIn("it needs --tls-cert and --tls-key", ended.stderr)
        self.assertFalse(self.db.exists())
        way = f"unix:{self.place / 'nowhere' / 's'}"
        ended = self.command("serve", str(self.db), "--mapping", str(self.mapping), "--listen", way)
        self.assertEqual(ended.returncode, 4)
        self.assertIn(f"nobody can listen at {way}: No such file", ended.stderr)

    def free_port(self) -> int:
        """A port that is free."""
        with socket.socket() as made:
            made.bind(("127.0.0.1", 0))
            return int(made.getsockname()[1])

    def test_a_token(self) -> None:
        token = self.place / "token"
        token.write_text("0123456789abcdef" * 2 + "\n")
        way = f"tcp:127.0.0.1:{self.free_port()}"
        self.serve("--token-file", str(token), listen=way)
        for wrong, told in ((None, "missing"), ("x" * 32, "another one"), ("", "missing")):
            with self.assertRaises(karzhoul.Disconnected) as caught:
                karzhoul.connect(way, token=wrong)
            self.assertIn(f"the token is {told}", str(caught.exception))
        with karzhoul.connect(way, token=token.read_bytes()) as app:
            self.assertEqual(self.count(app), 0)
        with karzhoul.connect(way, token="0123456789abcdef" * 2) as app:
            self.persist(app)
            self.assertEqual(self.count(app), 1)
        ended = self.command("status", "--from", way, "--token-file", str(token))
        self.assertIn("commits: 3", ended.stdout, ended.stderr)

    @unittest.skipUnless(OPENSSL, "there is no openssl to make a certificate with")
    def test_ciphers(self) -> None:
        token, cert, key = (self.place / it for it in ("token", "cert.pem", "key.pem"))
        token.write_text("t" * 32)
        subprocess.run(
            [str(OPENSSL), "req", "-x509", "-newkey", "rsa:2048", "-nodes", "-days", "2",
             "-subj", "/CN=localhost", "-addext", "subjectAltName=DNS:localhost,IP:127.0.0.1",
             "-keyout", str(key), "-out", str(cert)],
            check=True, capture_output=True, timeout=SECONDS,
        )
        way = f"tcp:127.0.0.1:{self.free_port()}"
        server = self.serve(
            "--token-file", str(token), "--tls-cert", str(cert), "--tls-key", str(key), listen=way
        )
        with karzhoul.connect(way, token="t" * 32, tls=str(cert), threads=True) as app:
            self.persist(app, "x" * 60_000)
            self.assertEqual(self.count(app), 1)
        with self.assertRaises(karzhoul.Disconnected):
            karzhoul.connect(way, token="t" * 32, tls=True)
        server.terminate()
        self.assertEqual(server.wait(SECONDS), 0)
        self.hearing.join(SECONDS)
        self.assertEqual(json.loads(self.heard[-1])["event"], "ended")
        for line in self.heard:
            json.loads(line)  # No word of the loop's own beside the log.


class Ends(ServingTest):
    def test_open_transactions_may_end(self) -> None:
        server = self.serve("--grace", str(SECONDS))
        with karzhoul.connect(self.way, threads=True) as app:
            with app.begin() as manager:
                manager.persist(app.entity("Person")(name="Ada"))
                server.send_signal(signal.SIGTERM)
                self.wait_for('"ending"')
                with self.assertRaises(karzhoul.Disconnected):
                    karzhoul.connect(self.way)
                with self.assertRaises(karzhoul.KarzhoulError):
                    app.begin().__enter__()
            self.assertEqual(server.wait(SECONDS), 0)
        self.assertFalse(self.socket.exists())
        self.serve()
        with karzhoul.connect(self.way) as app:
            self.assertEqual(self.count(app), 1)

    def wait_for(self, word: str) -> None:
        """Waits until the server has told it."""
        until = time.monotonic() + SECONDS
        while not any(word in line for line in self.heard):
            self.assertLess(time.monotonic(), until)
            time.sleep(0.01)

    def test_they_are_rolled_back_once_the_time_is_over(self) -> None:
        server = self.serve("--grace", "0.1")
        with karzhoul.connect(self.way) as app:
            manager = app.create_entity_manager()
            with self.assertRaises(karzhoul.Disconnected), manager.transaction():
                manager.persist(app.entity("Person")(name="Ada"))
                server.send_signal(signal.SIGTERM)
                self.assertEqual(server.wait(SECONDS), 0)
        for line in self.heard:
            self.assertIn("time", json.loads(line))

    def test_work_waits_for_the_end_of_a_server(self) -> None:
        """It is refused once, and its second attempt waits as long as another one's transaction is
        open."""
        server = self.serve("--grace", str(SECONDS))
        with karzhoul.connect(self.way, threads=True, wait=SECONDS) as app:
            def work(manager: karzhoul.EntityManager) -> None:
                manager.persist(app.entity("Person")(name="Bob"))

            threads = [threading.Thread(target=app.retry, args=(work, 2)) for _ in range(3)]
            with app.begin() as manager:
                manager.persist(app.entity("Person")(name="Ada"))
                server.send_signal(signal.SIGTERM)
                self.wait_for('"ending"')
                for thread in threads:
                    thread.start()
                time.sleep(2)
                self.assertTrue(all(thread.is_alive() for thread in threads))
                self.assertEqual(manager.one(COUNT), 1)
            self.assertEqual(server.wait(SECONDS), 0)
            self.serve()
            for thread in threads:
                thread.join(SECONDS)
            self.assertEqual(self.count(app), 4)
            self.assertEqual(app.statistics().retries, 3)

    def test_a_server_that_does_not_end_in_time_is_told(self) -> None:
        server = self.serve("--grace", str(SECONDS))
        with karzhoul.connect(self.way) as other, karzhoul.connect(self.way, wait=0.1) as app:
            with other.begin() as manager:
                server.send_signal(signal.SIGTERM)
                self.wait_for('"ending"')
                with self.assertRaises(karzhoul.Disconnected) as caught:
                    app.retry(lambda manager: str(manager.one(COUNT)))
                self.assertIn("is ending, and still has transactions", str(caught.exception))
                self.assertEqual(manager.one(COUNT), 0)

    def test_a_connection_that_breaks_at_its_beginning(self) -> None:
        def broken(way: Way) -> socket.socket:
            mine, its = socket.socketpair()
            its.close()
            return mine

        with mock.patch.object(Way, "connected", broken):
            with self.assertRaises(karzhoul.Disconnected):
                karzhoul.connect(self.way)
        self.serve()
        with karzhoul.connect(self.way) as other, karzhoul.connect(self.way) as app:
            held = [other.create_entity_manager() for _ in range(16)]
            with mock.patch.object(Way, "connected", broken):
                with self.assertRaises(karzhoul.Disconnected):
                    app.create_entity_manager()
            held[0].close()
            app.create_entity_manager().close()

    def test_the_manager_of_services_is_told(self) -> None:
        with socket.socket(socket.AF_UNIX, socket.SOCK_DGRAM) as heard:
            heard.bind(str(self.place / "n"))
            heard.settimeout(SECONDS)
            server = self.serve(env={"NOTIFY_SOCKET": str(self.place / "n")})
            self.assertEqual(heard.recv(100), b"READY=1")
            server.send_signal(signal.SIGTERM)
            self.assertEqual(heard.recv(100), b"STOPPING=1")
            self.assertEqual(server.wait(SECONDS), 0)

    def test_work_goes_on_over_the_end_of_a_server(self) -> None:
        """A work that was begun is done again by `retry`, where no commit was under way."""
        server = self.serve()
        with karzhoul.connect(self.way, threads=True) as app:
            self.persist(app)
            done: List[int] = []

            def work(manager: karzhoul.EntityManager) -> None:
                manager.persist(app.entity("Person")(name="Bob"))
                if not done:
                    done.append(1)
                    self.end(server)
                    self.serve()
                manager.flush()

            app.retry(work)
            self.assertEqual(self.count(app), 2)


class Copies(ServingTest):
    def test_a_copy_while_others_commit(self) -> None:
        self.serve()
        with karzhoul.connect(self.way) as app:
            for _ in range(50):
                self.persist(app)
        is_over = threading.Event()
        stored: List[int] = [50]

        def go_on() -> None:
            with karzhoul.connect(self.way) as app:
                while not is_over.is_set():
                    self.persist(app)
                    stored[0] += 1

        thread = threading.Thread(target=go_on)
        thread.start()
        counts = []
        try:
            for number in range(3):
                copy = self.place / f"copy{number}.db"
                told = self.command("backup", "--from", self.way, str(copy))
                self.assertEqual(told.returncode, 0, told.stderr)
                after = stored[0]
                self.assertFalse(copy.with_name(f"{copy.name}-wal").exists())
                with karzhoul.open(PERSONS, copy, program=PROGRAM) as app:
                    counts.append(self.count(app))
                self.assertLessEqual(counts[-1], after + 1)
        finally:
            is_over.set()
            thread.join(SECONDS)
        self.assertEqual(counts, sorted(counts))
        self.assertGreaterEqual(counts[0], 50)
        again = self.command("backup", "--from", self.way, str(self.place / "copy0.db"))
        self.assertEqual(again.returncode, 4)
        self.assertIn("there is a file", again.stderr)
        self.assertEqual([it.name for it in self.place.iterdir() if it.name.startswith(".")], [])

    def test_what_is_told(self) -> None:
        port = Sockets.free_port(self)  # type: ignore[arg-type]
        self.serve("--metrics", f"127.0.0.1:{port}")
        with karzhoul.connect(self.way) as app:
            self.persist(app)
            talk = Talk(self.connected())
            talk.ask("x", "x", '{"call":"createEntityManager"}', '{"call":"begin","em":1}')
            told: Any = json.loads(self.command("status", "--from", self.way, "--json").stdout)
            self.assertEqual((told["commits"], told["transactions"], told["managers"]), (1, 1, 1))
            self.assertEqual(told["refusals"]["BadLine"], 2)
            page = self.command("status", "--from", self.way).stdout
            self.assertIn("managers: 1 of 16 are open, 0 wait for one", page)
            self.assertIn("BadLine 2", page)
            with urllib.request.urlopen(f"http://127.0.0.1:{port}/metrics", timeout=SECONDS) as it:
                text = it.read().decode()
            for line in (
                "karzhoul_commits_total 1", "karzhoul_transactions 1", "karzhoul_managers 1",
                'karzhoul_refusals_total{name="BadLine"} 2', "# TYPE karzhoul_objects gauge",
            ):
                self.assertIn(f"{line}\n", text)
            talk.close()

    def connected(self) -> socket.socket:
        """A socket that leads to the server."""
        made = socket.socket(socket.AF_UNIX)
        made.connect(str(self.socket))
        return made


class Classes(ServingTest):
    def test_classes_are_those_of_the_server(self) -> None:
        (self.place / "models.py").write_text(_MODELS)
        self.mapping = self.place / "models.py"
        self.serve()
        told = subprocess.run(
            [sys.executable, "-c", _USE, self.way], capture_output=True, text=True,
            cwd=self.place, timeout=SECONDS, env=environment(),
        )
        self.assertEqual(told.stdout, "Ada 2026-11-30 [10]\nNotUnique\nProgramNotFound Order\n",
                         told.stderr)


_MODELS = """\
from datetime import date

from karzhoul import Entity, field, generated, key, many_to_one, one_to_many, version


class Person(Entity):
    id: int = generated()
    version: int = version()
    name: str = field(unique=True)
    joined: date | None = None
    orders: list["Order"] = one_to_many("person", cascade="all")


class Order(Entity):
    number: int = key()
    person: Person = many_to_one()
""".replace("date | None", "'date | None'" if sys.version_info < (3, 10) else "date | None")
_USE = """\
import sys
from datetime import date
import karzhoul, models
from karzhoul import Entity, key
from models import Order, Person

with karzhoul.connect(sys.argv[1], models, threads=True) as app:
    with app.begin() as manager:
        ada = Person(name="Ada", joined=date(2026, 11, 30))
        ada.orders.append(Order(number=10, person=ada))
        manager.persist(ada)
    with app.begin() as manager:
        ada = manager.one("SELECT p FROM Person p WHERE p.joined = :day", day=date(2026, 11, 30))
        print(ada.name, ada.joined, [it.number for it in ada.orders])
    try:
        with app.begin() as manager:
            manager.persist(Person(name="Ada"))
    except karzhoul.NotUnique as refused:
        print(type(refused).__name__)

class Order(Entity):
    number: int = key()
    amount: int

try:
    karzhoul.connect(sys.argv[1], [Order])
except karzhoul.ProgramNotFound as refused:
    print(type(refused).__name__, "Order" * ("Order" in str(refused)))
"""


if __name__ == "__main__":
    unittest.main()
