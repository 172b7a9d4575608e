"""Managers that hold nothing go on in a new run of the program."""

from __future__ import annotations

import contextlib
import os
import signal
import threading
import time
import unittest
from functools import partial
from typing import Any, Callable, Dict, Iterable, List, Tuple
from unittest import mock

import karzhoul
from karzhoul import LifecycleEvent, Restarted

from ..steps import interrupted_at_step
from ..support import needs_program, present
from . import test_runs
from .test_runs import NAMES


def detached(manager: karzhoul.EntityManager, found: Iterable[Any]) -> None:
    for each in found:
        manager.detach(each)


@needs_program
class GoesOn(test_runs.RunsTest):
    """A manager that has no object and no open transaction goes on in the next run."""

    def calls(self) -> Dict[str, Callable[[karzhoul.EntityManager], Any]]:
        """Each call that a manager can begin with, which says of itself that it was done."""

        def done(call: Callable[[karzhoul.EntityManager], Any]) -> Callable[[karzhoul.EntityManager], bool]:
            return lambda em: call(em) is None

        def names(entity: Any) -> Any:
            return entity.name

        def begun(manager: karzhoul.EntityManager) -> bool:
            with manager.transaction() as transaction:
                return transaction.is_active

        return {
            "find": lambda em: present(em, "Person", 1).name == "Ada",
            "find of a class": lambda em: names(em.find(self.Person, 1)) == "Ada",
            "find_many": lambda em: em.find_many("Person", [1, 9])[1] is None,
            "get_reference": lambda em: names(em.get_reference("Person", 2)) == "Bob",
            "query": lambda em: em.query("SELECT p.name FROM Person p") == list(NAMES),
            "query_single": lambda em: em.query_single("SELECT COUNT(p) FROM Person p") == 4,
            "page": lambda em: len(em.page("SELECT p FROM Person p", 1, 3, total=True)) == 3,
            "iterate": lambda em: len(list(em.iterate("SELECT p FROM Person p", 3))) == 4,
            "contains": lambda em: em.contains(self.Person(name="Eve")) is False,
            "clear": done(lambda em: em.clear()),
            "set_flush_mode": done(lambda em: em.set_flush_mode(karzhoul.FlushModeType.COMMIT)),
            "begin": begun,
            "persist": done(lambda em: em.persist(self.Person(name="Eve"))),
            "persist_all": done(lambda em: em.persist_all(iter([self.Person(name="Eve")]))),
            "merge": lambda em: em.merge(self.Person(name="Eve")).name == "Eve",
            "close": done(lambda em: em.close()),
        }

    def setUp(self) -> None:
        super().setUp()
        warnings = mock.patch("warnings.warn")  # Of what a close loses.
        warnings.start()
        self.addCleanup(warnings.stop)

    def test_a_program_that_is_killed_before_its_first_call(self) -> None:
        first = self.app.create_entity_manager()
        os.kill(self.app.program.pid, signal.SIGKILL)
        self.app.program._process.wait()
        calls: List[Callable[[], Any]] = [
            lambda: first.find("Person", 1), lambda: first.query("SELECT p FROM Person p"), lambda: first.contains(self.Person(name="Eve")),
        ]
        for call in calls:
            with self.assertRaises(karzhoul.ProgramEnded):
                call()
        self.app.reopen()
        self.assertEqual(present(first, "Person", 1).name, "Ada")
        first.close()

    def test_reopen_where_no_call_has_met_the_end(self) -> None:
        first, run = self.app.create_entity_manager(), self.app._run
        self.app.reopen()
        self.assertIs(self.app._run, run)
        os.kill(self.app.program.pid, signal.SIGKILL)
        self.app.program._process.wait()
        self.app.reopen()
        self.assertEqual(present(first, "Person", 1).name, "Ada")
        first.close()

    def test_each_call_after_a_restart(self) -> None:
        for name, call in self.calls().items():
            with self.subTest(name):
                with self.app.create_entity_manager() as manager:
                    self.app.restart()
                    self.assertIs(call(manager), True)
        self.assertEqual(self.names(), list(NAMES))

    def test_each_call_that_waits_while_another_thread_restarts(self) -> None:
        """Its line is spelled for the run before."""
        for name, call in self.calls().items():
            if name in ("contains", "persist", "persist_all", "merge"):
                continue  # Of an object of before.
            with self.subTest(name):
                with self.app.create_entity_manager() as manager:
                    told: List[Any] = []
                    thread = threading.Thread(target=lambda: told.append(call(manager)))
                    with self.app._lock:
                        thread.start()
                        time.sleep(0.05)  # So that it has spelled its line, and waits.
                        self.app.restart()
                    thread.join()
                    self.assertEqual(told, [True])
        self.assertEqual(self.names(), list(NAMES))

    def test_what_has_no_object_any_more(self) -> None:
        def rolled_back(manager: karzhoul.EntityManager) -> None:
            with contextlib.suppress(ZeroDivisionError), manager.transaction():
                present(manager, "Person", 1).name = "Eve"
                raise ZeroDivisionError

        def refused(manager: karzhoul.EntityManager) -> None:
            with contextlib.suppress(karzhoul.Rollback), manager.transaction() as transaction:
                present(manager, "Person", 1).name = "Eve"
                transaction.set_rollback_only()

        def cleared(manager: karzhoul.EntityManager) -> None:
            manager.find("Person", 1)
            manager.clear()

        def not_found(manager: karzhoul.EntityManager) -> None:
            with contextlib.suppress(karzhoul.EntityNotFound):
                manager.get_reference("Person", 9)

        ways: List[Callable[[karzhoul.EntityManager], Any]] = [
            cleared,
            rolled_back,
            refused,
            not_found,
            lambda em: em.find("Person", 9),
            lambda em: em.find_many("Person", [8, 9]),
            lambda em: em.query("SELECT p.name, p.id FROM Person p"),
            lambda em: em.query("SELECT p FROM Person p WHERE p.id > 9"),
            lambda em: em.transaction().begin().commit(),
            self.is_refused("SELECT p FORM Person p"),
            self.is_refused("SELECT p FROM Person p WHERE p.nam = 'a'"),
            self.is_refused("SELECT p FROM Person p WHERE p.name = :n"),
            self.is_refused("SELECT p.id + 9223372036854775807 FROM Person p"),
            self.is_refused("SELECT p FROM Person p WHERE p.name = :n", n=1.5),
            lambda em: self.assertRaises(karzhoul.TransactionRequired, em.execute_update, "DELETE FROM Person"),
            lambda em: self.assertRaises(karzhoul.NoResult, em.one, "SELECT p FROM Person p WHERE p.id > 9"),
        ]
        for way in ways:
            with self.app.create_entity_manager() as manager:
                way(manager)
                self.app.restart()
                with manager.transaction():
                    self.assertEqual(present(manager, "Person", 1).name, "Ada")

    @staticmethod
    def is_refused(text: str, **given: Any) -> Callable[[karzhoul.EntityManager], None]:
        def ask(manager: karzhoul.EntityManager) -> None:
            with contextlib.suppress(karzhoul.Refused, TypeError):
                manager.query(text, params=given)
                raise AssertionError(text)

        return ask

    def test_another_thread_makes_objects_meanwhile(self) -> None:
        """They are none of the manager's."""
        ways: List[Callable[[karzhoul.EntityManager], Any]] = [
            lambda em: em.find("Person", 9),
            lambda em: em.find_many("Person", [8, 9]),
            lambda em: em.query("SELECT p.name, p.id FROM Person p"),
            lambda em: em.one("SELECT COUNT(p) FROM Person p"),
            lambda em: em.query("SELECT p FROM Person p WHERE p.id > 9"),
        ]
        for way in ways:
            with self.app.create_entity_manager() as manager:
                self.while_others_make(lambda: way(manager))
                self.assertTrue(manager.is_free)
                self.app.restart()
                self.assertIsNone(manager.find("Person", 9))
        for way in (lambda em: em.find("Person", 1), lambda em: em.query("SELECT p.name, p FROM Person p")):
            with self.app.create_entity_manager() as manager:
                self.while_others_make(lambda: way(manager))
                self.assertFalse(manager.is_free)

    def while_others_make(self, ask: Callable[[], Any]) -> None:
        """Asks, and an object is made before the call is over."""
        asks = self.app.ask_lines

        def made(*given: Any, **more: Any) -> Any:
            self.Person(name="Eve")
            return asks(*given, **more)

        with mock.patch.object(self.app, "ask_lines", made), mock.patch.object(self.app, "ask_found", self.found_by(made)):
            ask()

    @staticmethod
    def found_by(made: Callable[..., Any]) -> Callable[..., Any]:
        return lambda run, line, kind, _: made(run, [line], kind.__name__)[0]

    def test_a_refused_call_that_keeps_objects(self) -> None:
        """Those before the refused one are managed."""
        manager = self.app.create_entity_manager()
        with self.assertRaises(karzhoul.Refused):
            manager.persist_all([self.Person(name="Eve"), self.gone()])
        self.assertFalse(manager.is_free)

    def gone(self) -> Any:
        """An object that can't be persisted, as it is detached."""
        with self.app.create_entity_manager() as manager:
            return present(manager, "Person", 1)

    def test_what_has_one_is_of_before(self) -> None:
        ways: List[Callable[[karzhoul.EntityManager], Any]] = [
            lambda em: em.find("Person", 1),
            lambda em: em.find_many("Person", [9, 1]),
            lambda em: em.get_reference("Person", 1),
            lambda em: em.query("SELECT p FROM Person p WHERE p.id = 1"),
            lambda em: em.query("SELECT p.name, p FROM Person p"),
            lambda em: em.persist(self.Person(name="Eve")),
            lambda em: em.persist_all([self.Person(name="Eve")]),
            lambda em: em.merge(self.Person(name="Eve")),
            lambda em: em.transaction().begin(),
            lambda em: em.transaction().begin() and em.find("Person", 1),
            lambda em: em.close(),
        ]
        for way in ways:
            manager = self.app.create_entity_manager()
            way(manager)
            self.app.restart()
            calls: List[Callable[[], Any]] = [
                manager.transaction().begin, partial(manager.find, "Person", 1)
            ]
            for call in calls:
                with self.assertRaisesRegex(Restarted, "of before a restart: create another one"):
                    call()
        self.assertEqual(self.names(), list(NAMES))

    def test_whose_objects_were_detached(self) -> None:
        def linked(manager: karzhoul.EntityManager) -> None:
            ada = present(manager, "Person", 1)
            ada.name = "Eve"
            manager.detach(ada)

        def among_others(manager: karzhoul.EntityManager) -> None:
            manager.query("SELECT p.name FROM Person p")
            manager.detach(manager.get_reference("Person", 1))
            manager.find("Person", 9)

        ways: List[Callable[[karzhoul.EntityManager], Any]] = [
            lambda em: em.detach(present(em, "Person", 1)),
            lambda em: em.detach(em.one("SELECT p FROM Person p WHERE p.id = 2")),
            lambda em: detached(em, em.query("SELECT p FROM Person p")),
            lambda em: detached(em, em.find_many("Person", [1, 2, 1])),
            lambda em: em.detach(self.Person(name="Eve")),
            among_others, linked,
        ]
        for way in ways:
            with self.app.create_entity_manager() as manager:
                way(manager)
                self.assertTrue(manager.is_free)
                self.app.restart()
                with manager.transaction():
                    self.assertEqual(present(manager, "Person", 1).name, "Ada")

    def test_what_may_hold_others_than_were_detached(self) -> None:
        def followed(manager: karzhoul.EntityManager) -> None:
            ada = present(manager, "Person", 1)
            list(ada.orders)
            manager.detach(ada)

        def flushed(manager: karzhoul.EntityManager) -> None:
            ada = present(manager, "Person", 1)
            ada.name = "Ada"
            with manager.transaction():
                manager.flush()
            manager.detach(ada)

        def kept(manager: karzhoul.EntityManager) -> None:
            ada = present(manager, "Person", 1)
            with self.app.pipeline():
                manager.detach(ada)
                self.assertFalse(manager.is_free)

        def beside(manager: karzhoul.EntityManager) -> None:
            manager.find("Order", 1)
            manager.detach(present(manager, "Person", 1))

        def persisted(manager: karzhoul.EntityManager) -> None:
            present(manager, "Person", 1)
            manager.persist(self.Person(name="Eve"))
            manager.detach(present(manager, "Person", 1))

        ways: List[Callable[[karzhoul.EntityManager], Any]] = [
            lambda em: em.detach(em.query("SELECT p FROM Person p")[0]),
            beside, persisted, followed, flushed, kept,
        ]
        for way in ways:
            manager = self.app.create_entity_manager()
            way(manager)
            self.assertFalse(manager.is_free)

    def test_objects_of_other_managers_count_for_none(self) -> None:
        """Calls are refused, or an object is detached, while others load and make some."""
        other = self.app.create_entity_manager()

        def made() -> None:
            self.Person(name="Eve")
            other.clear()
            other.query("SELECT p FROM Person p")

        calls: List[Callable[[karzhoul.EntityManager], Any]] = [
            self.is_refused("SELECT p FORM Person p"),
            self.is_refused("SELECT p.id + 9223372036854775807 FROM Person p"),
            self.is_refused("SELECT p FROM Person p WHERE p.name = :n", n=1.5),
            lambda em: self.assertRaises(karzhoul.EntityNotFound, em.get_reference, "Person", 9),
            lambda em: self.assertRaises(karzhoul.Refused, em.find, "Person", "a"),
        ]
        for call in calls:
            with self.app.create_entity_manager() as manager:
                with self.app._lock:
                    thread = threading.Thread(target=call, args=(manager,))
                    thread.start()
                    time.sleep(0.02)  # So that it waits.
                    made()
                thread.join()
                self.assertTrue(manager.is_free)
        with self.app.create_entity_manager() as manager:
            ada = present(manager, "Person", 1)
            made()
            manager.detach(ada)
            self.assertTrue(manager.is_free)

    def test_refused_calls_of_an_object(self) -> None:
        """They change nothing, and so the manager goes on."""
        ada, calls = self.gone(), ("persist", "remove", "refresh")
        with self.app.create_entity_manager() as manager:
            for call in calls:
                with self.assertRaises(karzhoul.Refused):
                    getattr(manager, call)(ada)
                self.assertTrue(manager.is_free, call)
            self.app.restart()
            for call in (*calls, "detach"):
                with self.assertRaises(Restarted):
                    getattr(manager, call)(ada)
                self.assertTrue(manager.is_free, call)
            with self.assertRaises(ValueError):
                manager.persist(7)  # type: ignore[arg-type]
            self.app.restart()
            self.assertEqual(present(manager, "Person", 1).name, "Ada")

    def test_a_restart_as_a_call_ends(self) -> None:
        """It found nothing, in the run before."""
        asks = self.app.ask_found

        def found(*given: Any) -> Any:
            answer = asks(*given)
            self.app.restart()
            return answer

        with self.app.create_entity_manager() as manager:
            with mock.patch.object(self.app, "ask_found", found):
                self.assertIsNone(manager.find("Person", 9))
            self.assertTrue(manager.is_free)
            self.assertEqual(present(manager, "Person", 1).name, "Ada")

    def test_many_that_ask_while_it_restarts(self) -> None:
        """Each goes on, with its flush mode."""
        managers = [self.app.create_entity_manager() for _ in range(16)]
        raised: List[BaseException] = []
        ended = threading.Event()

        def work(manager: karzhoul.EntityManager) -> None:
            try:
                manager.set_flush_mode(karzhoul.FlushModeType.COMMIT)
                while not ended.is_set():
                    manager.find("Person", 9)
            except BaseException as fault:
                raised.append(fault)

        threads = [threading.Thread(target=work, args=(manager,)) for manager in managers]
        for thread in threads:
            thread.start()
        for _ in range(60):
            self.app.restart()
            time.sleep(0.002)
        ended.set()
        for thread in threads:
            thread.join()
        self.assertEqual(raised, [])

    def test_a_close_is_quiet(self) -> None:
        """What is lost with it is said by a warning."""
        def closed(manager: karzhoul.EntityManager) -> List[str]:
            with mock.patch("warnings.warn") as warned:
                manager.close()
                manager.close()
            return [call.args[0] for call in warned.call_args_list]

        told = ["a manager of before a restart, or whose program has ended, is closed with what was persisted, removed, merged or set, "
                "and no commit has said that this is stored"]
        def begun(manager: karzhoul.EntityManager) -> None:
            manager.transaction().begin()
            manager.persist(self.Person(name="Eve"))

        ways: List[Tuple[Callable[[karzhoul.EntityManager], Any], List[str]]] = [
            (lambda em: em.find("Person", 1), []),
            (lambda em: em.transaction().begin() and em.find("Person", 1), []),
            (lambda em: em.close(), []),
            (lambda em: em.persist(self.Person(name="Eve")), told),
            (lambda em: em.remove(present(em, "Person", 1)), told),
            (lambda em: setattr(present(em, "Person", 1), "name", "Eve"), told),
            (begun, told),
        ]
        for is_killed in (False, True):
            for way, wanted in ways:
                manager = self.app.create_entity_manager()
                way(manager)
                if is_killed:
                    self.app.program.kill()
                else:
                    self.app.restart()
                self.assertEqual(closed(manager), wanted, (is_killed, ways.index((way, wanted))))
                self.app.reopen()
        self.assertEqual(self.names(), list(NAMES))

    def test_several_restarts(self) -> None:
        with self.app.create_entity_manager() as manager:
            for _ in range(3):
                self.app.restart()
                self.app.restart()
                with manager.transaction():
                    pass
            manager.persist(self.Person(name="Eve"))
            with manager.transaction():
                pass
        self.assertEqual(self.names(), [*NAMES, "Eve"])

    def test_its_flush_mode(self) -> None:
        with self.app.create_entity_manager() as manager:
            manager.set_flush_mode(karzhoul.FlushModeType.COMMIT)
            self.app.restart()
            with manager.transaction():
                manager.persist(self.Person(name="Eve"))
                self.assertEqual(manager.query_single("SELECT COUNT(p) FROM Person p"), 4)
        self.assertEqual(self.names(), [*NAMES, "Eve"])

    def test_a_program_that_is_started_again(self) -> None:
        with self.app.create_entity_manager() as manager:
            self.app.program.kill()
            self.app.reopen()
            self.assertEqual(present(manager, "Person", 1).name, "Ada")

    def test_a_callback_that_restarts(self) -> None:
        """What was found before it is of before."""
        done: List[int] = []

        def callback(event: karzhoul.Event) -> None:
            if not done:
                done.append(1)
                self.app.restart()

        self.app.listen(callback, LifecycleEvent.POST_LOAD)
        manager = self.app.create_entity_manager()
        manager.find("Person", 1)
        with self.assertRaises(Restarted):
            manager.find("Person", 1)

    def test_an_interrupt_at_any_step(self) -> None:
        """The manager goes on, or is of before as one whose find may have loaded something; and
        none is left open."""
        gone_on = 0
        for step in range(1, 400):
            with self.app.create_entity_manager() as manager:
                self.app.restart()
                was_interrupted = interrupted_at_step(step, lambda: manager.find("Person", 9))
                with contextlib.suppress(Restarted):
                    self.assertIsNone(manager.find("Person", 9))
                    gone_on += 1
            managers = [self.app.create_entity_manager() for _ in range(16)]
            for each in managers:
                each.close()
            if not was_interrupted:
                break
        else:
            self.fail("a call that goes on has more steps")
        self.assertGreater(step, 20)
        self.assertGreater(gone_on, 10)


if __name__ == "__main__":
    unittest.main()
