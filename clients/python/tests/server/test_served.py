"""The client's own tests of queries, relations, merges, refusals and the like, over a server in
the place of a program of their own."""

from __future__ import annotations

import importlib
import tempfile
import threading
import time
import unittest
from concurrent.futures import ThreadPoolExecutor
from functools import partial
from pathlib import Path
from typing import Any, Callable, Dict, List, Type

import karzhoul

from ..served import SECONDS, Here
from ..support import PERSONS, PROGRAM, FolderTest, ManagerTest, needs_program

_MODULES = (
    "objects.test_values", "queries.test_queries", "session.test_begin",
    "session.test_merge_and_locks", "session.test_sessions",
)
# What is of a process of one's own; and interrupts at each step, which are the client's alone.
_LEFT_OUT = {"test_a_program_that_dies", "Between"}


class _Served(ManagerTest):
    """A test over a server."""

    def opened(self) -> karzhoul.EntityManagerFactory:
        place = tempfile.TemporaryDirectory()
        self.addCleanup(place.cleanup)
        path = Path(place.name, "s")
        server = Here(self.mapping, Path(place.name, "app.db"), listen=path)
        self.addCleanup(server.close)
        # Whose numbers are others than those of the test's connection.
        with karzhoul.connect(f"unix:{path}") as other, other.begin():
            other.new(next(iter(other._classes)))
            return karzhoul.connect(f"unix:{path}")


class Handed(unittest.TestCase):
    def test_connect_refuses_what_open_refuses_and_as_that_does(self) -> None:
        waits: List[Any] = [-1, float("nan"), float("inf"), "5", True]
        ways: List[Callable[..., Any]] = [partial(karzhoul.open, PERSONS), partial(karzhoul.connect, "unix:/nowhere")]
        for wait in waits:
            for opened in ways:
                with self.subTest(wait=wait), self.assertRaises(ValueError) as raised:
                    opened(wait=wait)
                words = f"wait={wait!r} is no number of seconds from 0 on; wait=None waits without an end"
                self.assertEqual(str(raised.exception), words)
        for opened in ways:
            with self.assertRaisesRegex(TypeError, "^lock= is the file of the numbers of classes, and a mapping has its own$"):
                opened(lock="l.json")


@needs_program
class Together(FolderTest):
    """Several factories over one server, each of them of several threads."""

    def test_more_threads_than_managers(self) -> None:
        path = self.place / "s"
        server = Here(PERSONS, self.place / "app.db", listen=path)
        self.addCleanup(server.close)
        apps = [karzhoul.connect(f"unix:{path}", threads=True, wait=SECONDS) for _ in range(4)]

        def work(app: karzhoul.EntityManagerFactory) -> None:
            for number in range(5):
                with app.begin() as manager:
                    manager.persist(app.entity("Person")(name=f"{number}"))

        threads = [threading.Thread(target=work, args=(app,)) for app in apps for _ in range(6)]
        for thread in threads:
            thread.start()
        for thread in threads:
            thread.join(SECONDS)
        with apps[0].begin() as manager:
            self.assertEqual(manager.one("SELECT COUNT(p) FROM Person p"), 120)
        held = [apps[0].create_entity_manager() for _ in range(16)]
        with karzhoul.connect(f"unix:{path}", wait=0.1) as app:
            with self.assertRaises(karzhoul.NoFreeManager) as caught:
                app.create_entity_manager()
            self.assertIn("has 16", str(caught.exception))
            held[0].close()
            app.create_entity_manager().close()
        for app in apps:
            app.close()


    def test_threads_wait_for_a_server_at_one_time(self) -> None:
        """And not each behind the others: `wait` seconds are the most."""
        path, threads, wait = self.place / "s", 8, 2.0
        server = Here(PERSONS, self.place / "app.db", listen=path)
        app = karzhoul.connect(f"unix:{path}", threads=True, wait=wait)
        self.addCleanup(app.close)
        app.create_entity_manager().close()
        server.close()

        def waited(_: int) -> float:
            begun = time.monotonic()
            with self.assertRaises(karzhoul.Disconnected):
                app.retry(lambda manager: manager.query("SELECT p FROM Person p"))
            return time.monotonic() - begun

        with ThreadPoolExecutor(threads) as pool:
            took = list(pool.map(waited, range(threads)))
        self.assertGreaterEqual(min(took), wait)
        self.assertLess(max(took), wait * threads / 2)


def load_tests(loader: unittest.TestLoader, tests: Any, pattern: Any) -> unittest.TestSuite:
    """The tests of those modules whose factory is one of `ManagerTest`."""
    suite = unittest.TestSuite()
    suite.addTests(tests)
    if PROGRAM is None:
        return suite
    for name in _MODULES:
        found: Dict[str, Any] = vars(importlib.import_module(f"tests.{name}"))
        kinds: List[Type[ManagerTest]] = [
            it for it in found.values()
            if isinstance(it, type) and issubclass(it, ManagerTest) and it.__module__.endswith(name)
            and it.__name__ not in _LEFT_OUT
        ]
        for kind in kinds:
            served = type(f"Served{kind.__name__}", (_Served, kind), {"__module__": __name__})
            names = [it for it in loader.getTestCaseNames(served) if it not in _LEFT_OUT]
            suite.addTests(map(served, names))
    return suite
