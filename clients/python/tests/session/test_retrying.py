"""Work that is done again: after another manager's commit, and after the end of the program."""

from __future__ import annotations

import os
import signal
import threading
import time
import traceback
import unittest
import warnings
from concurrent.futures import ThreadPoolExecutor
from contextlib import suppress
from typing import Any, Callable, List, Optional
from unittest import mock

import karzhoul
from karzhoul import EntityManager
from karzhoul.session import pausing

from ..support import PERSONS, PROGRAM, FolderTest, needs_program, played

ASK = "SELECT o FROM Order o"


class StoreTest(FolderTest):
    """A test over a store in a file, with an order whose amount is counted up."""

    def setUp(self) -> None:
        super().setUp()
        self.app = karzhoul.open(PERSONS, self.place / "app.db", program=PROGRAM)
        self.addCleanup(self.app.close)
        self.tries = 0
        with self.app.begin() as manager:
            manager.persist(self.app.new("Order", number=1, amount=0))

    def add(self, manager: EntityManager) -> int:
        self.tries += 1
        order: Any = manager.find("Order", 1)
        order.amount += 1
        return int(order.amount)

    def amount(self) -> Any:
        with self.app.begin() as manager:
            return manager.one("SELECT o.amount FROM Order o")

    def meanwhile(self, step: Callable[[], object]) -> Callable[[EntityManager], int]:
        """Work during whose first attempt a step is done."""

        def work(manager: EntityManager) -> int:
            answer = self.add(manager)
            if self.tries == 1:
                step()
            return answer

        return work

    def in_another_thread(self, step: Callable[[], object]) -> Callable[[], None]:
        def run() -> None:
            with ThreadPoolExecutor(1) as pool:
                pool.submit(step).result()

        return run



@needs_program
class Conflicts(StoreTest):
    def test_eight_threads_that_change_one_row(self) -> None:
        def work(_: int) -> None:
            for _ in range(50):
                self.app.retry(lambda manager: self.add(manager))

        with ThreadPoolExecutor(8) as pool:
            list(pool.map(work, range(8)))
        self.assertEqual(self.amount(), 400)
        told = self.app.statistics()
        self.assertEqual(told.retries, told.refusals.get("Rollback(OptimisticLock)", 0))

    def test_attempts_of_eight_threads(self) -> None:
        """Of an entity with a version, since their managers hold what they read before."""
        with self.app.begin() as manager:
            manager.persist(self.app.new("Person", name=""))

        def work(_: int) -> None:
            with self.app.create_entity_manager() as manager:
                for _ in range(10):
                    for attempt in manager.attempts(100):
                        with attempt:
                            person: Any = manager.find("Person", 1)
                            person.name += "x"

        with ThreadPoolExecutor(8) as pool:
            list(pool.map(work, range(8)))
        with self.app.begin() as manager:
            self.assertEqual(len(manager.one("SELECT p.name FROM Person p")), 80)
        told = self.app.statistics()
        self.assertEqual(told.retries, told.refusals.get("Rollback(OptimisticLock)", 0))

    def outrun(self, manager: EntityManager) -> None:
        """Work that another manager's commit always comes before."""
        self.add(manager)
        with self.app.begin() as other:
            other.find("Order", 1).amount += 1  # type: ignore[union-attr]

    def test_the_last_refusal_says_how_often(self) -> None:
        with self.assertRaises(karzhoul.Rollback) as raised:
            self.app.retry(self.outrun, 3)
        self.assertEqual((self.tries, raised.exception.times_refused), (3, 3))
        self.assertEqual(self.app.statistics().retries, 2)
        self.assertIn("done again by retry and attempts: 2 times", str(self.app.statistics()))
        self.says("refused 3 times in all", raised.exception)

    def test_the_last_attempt_says_how_often(self) -> None:
        with self.assertRaises(karzhoul.Rollback) as raised:
            with self.app.create_entity_manager() as manager:
                for attempt in manager.attempts(2):
                    with attempt:
                        self.outrun(manager)
        self.assertEqual((self.tries, raised.exception.times_refused), (2, 2))
        self.says("refused 2 times in all", raised.exception)

    def says(self, words: str, fault: BaseException) -> None:
        if hasattr(fault, "add_note"):  # A Python that tells notes.
            told = "".join(traceback.format_exception_only(type(fault), fault))
            self.assertIn(words, told)

    def test_a_conflict_that_the_work_keeps_for_itself(self) -> None:
        """It marks the transaction, and its commit is refused for that."""
        person = self.app.new("Person", name="Ada")
        with self.app.begin() as manager:
            manager.persist(person)
        with self.app.begin() as manager:
            manager.find("Person", 1).name = "Bob"  # type: ignore[union-attr]

        def work(manager: EntityManager) -> None:
            self.tries += 1
            if self.tries == 1:
                with self.assertRaises(karzhoul.OptimisticLock):
                    manager.merge(person)  # Whose version is another one.

        self.app.retry(work)
        self.assertEqual(self.tries, 2)

    def test_what_else_is_raised_says_how_often_too(self) -> None:
        def work(manager: EntityManager) -> None:
            if self.tries == 1:
                raise ZeroDivisionError
            self.outrun(manager)

        with self.assertRaises(ZeroDivisionError) as raised:
            self.app.retry(work)
        self.says("refused once in all", raised.exception)

    def test_how_often_work_is_done_at_most(self) -> None:
        with mock.patch("time.sleep"):
            with self.assertRaises(karzhoul.Rollback) as raised:
                self.app.retry(self.outrun)
        self.assertEqual((self.tries, raised.exception.times_refused), (100, 100))
        for most in (0, -1):
            with self.assertRaises(ValueError):
                self.app.retry(self.add, most)

    def test_pauses_are_random_and_grow(self) -> None:
        def longest(refused: int) -> float:
            with mock.patch("time.sleep") as sleeps:
                for _ in range(200):
                    pausing.pause(refused)
            spans = [call.args[0] for call in sleeps.call_args_list]
            self.assertGreater(len(set(spans)), 100)
            self.assertGreaterEqual(min(spans), 0)
            return float(max(spans))

        self.assertLessEqual(longest(1), 0.002)
        self.assertLess(longest(1), longest(4))
        for refused in (6, 10, 100, 100_000):
            self.assertLessEqual(longest(refused), 0.05)


@needs_program
class Ends(StoreTest):
    """What becomes of work where the program is ended in the middle of it."""

    def setUp(self) -> None:
        super().setUp()
        self.asks = self.app.create_entity_manager()
        self.restarts = 0
        restart = self.app.restart

        def counting() -> None:
            self.restarts += 1
            restart()

        patched = mock.patch.object(self.app, "restart", counting)
        patched.start()
        self.addCleanup(patched.stop)

    def end(self, seconds: float = 0.1) -> None:
        """Has a query take too long, as of a program that stands still."""
        os.kill(self.app.program.pid, signal.SIGSTOP)
        with self.assertRaises(karzhoul.GivenUp):
            self.asks.query(ASK, end_program_after=seconds)

    def take_too_long(self, manager: EntityManager) -> None:
        with self.app._lock:  # So that no other call waits for a program that stands still.
            os.kill(self.app.program.pid, signal.SIGSTOP)
            manager.query(ASK, end_program_after=0.1)

    def kill(self) -> None:
        with suppress(ProcessLookupError):  # As of one that has ended.
            os.kill(self.app.program.pid, signal.SIGKILL)

    def test_what_another_thread_ended_is_opened_and_done_again(self) -> None:
        work = self.meanwhile(self.in_another_thread(self.end))
        self.assertEqual(self.app.retry(work), 1)
        self.assertEqual((self.tries, self.restarts, self.amount()), (2, 1, 1))
        self.assertEqual(self.app.statistics().retries, 1)

    def test_what_another_thread_ended_and_opened_again(self) -> None:
        def end_and_open() -> None:
            self.end()
            self.app.restart()

        work = self.meanwhile(self.in_another_thread(end_and_open))
        self.assertEqual(self.app.retry(work), 1)
        self.assertEqual((self.tries, self.restarts, self.amount()), (2, 1, 1))

    def test_eight_threads_whose_program_is_ended_again_and_again(self) -> None:
        at_work = threading.Event()
        at_work.set()

        def work(_: int) -> int:
            count = 0
            while at_work.is_set() or count < 5:
                self.app.retry(self.add)
                count += 1
            return count

        with ThreadPoolExecutor(8) as pool:
            working = [pool.submit(work, each) for each in range(8)]
            try:
                for _ in range(4):
                    time.sleep(0.3)
                    with self.assertRaises(karzhoul.GivenUp):
                        self.app.retry(self.take_too_long)
            finally:
                at_work.clear()
            counts = [each.result() for each in working]
        self.assertEqual(self.amount(), sum(counts))
        self.assertEqual(self.restarts, 4)

    def test_a_program_that_is_killed_again_and_again(self) -> None:
        """What is answered is stored once; what isn't, at most once."""
        ends = threading.Event()
        stored: List[int] = []
        unknown: List[int] = []
        lost: List[int] = []

        def work(worker: int) -> None:
            number = worker * 100_000
            while not ends.is_set():
                number += 1
                row = {"number": number + 10, "amount": 1}
                try:
                    self.app.retry(lambda manager: self.store(manager, row))
                    stored.append(number + 10)
                except karzhoul.ProgramEnded as ended:
                    (unknown if ended.may_be_stored else lost).append(number + 10)

        with ThreadPoolExecutor(8) as pool:
            working = [pool.submit(work, each) for each in range(8)]
            for _ in range(8):
                time.sleep(0.2)
                self.kill()
            ends.set()
            for each in working:
                each.result()
        with self.app.begin() as manager:
            found = manager.query("SELECT o.number FROM Order o WHERE o.number > 1")
        self.assertEqual(len(set(found)), len(found))
        self.assertEqual(set(stored) - set(found), set())
        self.assertEqual(set(found) & set(lost), set())
        self.assertLessEqual(set(found), {*stored, *unknown})
        self.assertEqual(self.amount_of(1), len(found))

    def store(self, manager: EntityManager, row: Any) -> None:
        self.add(manager)
        manager.persist(self.app.new("Order", **row))

    def amount_of(self, number: int) -> Any:
        with self.app.begin() as manager:
            return manager.get_reference("Order", number).amount

    def test_a_commit_that_waited_and_was_not_sent_is_done_again(self) -> None:
        ends = threading.Thread(target=self.end, args=(0.5,))

        def begin_to_end() -> None:
            ends.start()
            time.sleep(0.2)  # So that the commit waits for it.

        self.assertEqual(self.app.retry(self.meanwhile(begin_to_end)), 1)
        ends.join()
        self.assertEqual((self.tries, self.restarts, self.amount()), (2, 1, 1))

    def test_work_whose_own_query_took_too_long_is_raised_at_once(self) -> None:
        def work(manager: EntityManager) -> None:
            self.tries += 1
            self.take_too_long(manager)

        with self.assertRaises(karzhoul.GivenUp) as raised:
            self.app.retry(work)
        self.assertFalse(raised.exception.may_be_stored)
        self.assertEqual((self.tries, self.restarts), (1, 0))
        # What comes next opens it again.
        self.assertEqual((self.app.retry(self.add), self.restarts), (1, 1))

    def test_an_end_of_its_own_that_the_work_keeps_for_itself(self) -> None:
        def work(manager: EntityManager) -> None:
            self.tries += 1
            with self.assertRaises(karzhoul.GivenUp):
                self.take_too_long(manager)

        with self.assertRaises(karzhoul.GivenUp):
            self.app.retry(work)
        self.assertEqual(self.tries, 1)

    def test_a_crash_in_the_middle_is_raised_and_the_next_opens_again(self) -> None:
        def crash(manager: EntityManager) -> None:
            self.add(manager)
            self.kill()
            self.add(manager)

        with self.assertRaises(karzhoul.ProgramEnded) as raised:
            self.app.retry(crash)
        self.assertNotIsInstance(raised.exception, karzhoul.GivenUp)
        self.assertEqual((self.tries, self.restarts), (2, 0))
        self.assertEqual((self.app.retry(self.add), self.restarts), (1, 1))

    def test_a_crash_before_the_work_begins(self) -> None:
        self.kill()
        self.assertEqual(self.app.retry(self.add), 1)
        self.assertEqual((self.tries, self.restarts), (1, 1))

    def test_a_commit_that_was_sent_and_not_answered_is_not_done_again(self) -> None:
        def stop_and_end() -> None:
            os.kill(self.app.program.pid, signal.SIGSTOP)
            threading.Timer(0.3, self.kill).start()

        with self.assertRaises(karzhoul.ProgramEnded) as raised:
            self.app.retry(self.meanwhile(stop_and_end))
        self.assertTrue(raised.exception.may_be_stored)
        self.assertIn("may be stored or not: look", str(raised.exception))
        self.assertEqual((self.tries, self.restarts), (1, 0))

    def test_an_app_that_is_closed_stays_closed(self) -> None:
        self.end()
        self.app.close()
        with self.assertRaises(karzhoul.ProgramEnded) as raised:
            self.app.retry(self.add)
        self.assertIn("is closed", str(raised.exception))
        self.assertEqual((self.tries, self.restarts), (0, 0))

    def test_an_app_that_is_closed_by_a_handler_stays_closed(self) -> None:
        before = signal.signal(signal.SIGALRM, lambda *_: self.app.close())
        self.addCleanup(signal.signal, signal.SIGALRM, before)
        os.kill(self.app.program.pid, signal.SIGSTOP)
        signal.setitimer(signal.ITIMER_REAL, 0.1)
        with self.assertRaises(karzhoul.ProgramEnded):
            self.app.retry(self.add)
        self.assertEqual((self.tries, self.restarts), (0, 0))

    def test_what_a_callback_of_a_commit_meets_is_raised(self) -> None:
        def fail(event: karzhoul.Event) -> None:
            raise karzhoul.GivenUp(-9, "as of another factory")

        self.app.listen(fail, karzhoul.LifecycleEvent.POST_UPDATE)
        with self.assertRaises(karzhoul.GivenUp):
            self.app.retry(self.add)
        self.assertEqual((self.tries, self.amount()), (1, 1))

    @unittest.skipUnless(hasattr(os, "fork"), "a system without forks")
    def test_a_forked_process_opens_nothing(self) -> None:
        child = os.fork()
        if not child:
            status = 1
            try:
                self.app.retry(self.add)
            except karzhoul.ProgramEnded:
                status = 0 if self.restarts == 0 else 2
            finally:
                os._exit(status)
        self.assertEqual(os.waitpid(child, 0)[1], 0)
        self.assertEqual(self.app.retry(self.add), 1)


@needs_program
class InMemory(unittest.TestCase):
    def test_a_store_in_memory_is_opened_again(self) -> None:
        def add(manager: EntityManager) -> Any:
            manager.persist(app.new("Person", name="Ada"))
            manager.flush()
            return manager.one("SELECT COUNT(p) FROM Person p")

        with karzhoul.open(PERSONS, program=PROGRAM) as app:
            self.assertEqual(app.retry(add), 1)
            manager = app.create_entity_manager()
            os.kill(app.program.pid, signal.SIGSTOP)
            with self.assertRaises(karzhoul.GivenUp):
                manager.query(ASK, end_program_after=0.1)
            self.assertEqual(app.retry(add), 2)


class Unanswered(unittest.TestCase):
    def test_a_program_that_ends_at_a_commit(self) -> None:
        null = '{"events":[],"ok":null}'
        script = f"""
> {{"call":"createEntityManager"}}
< {{"events":[],"ok":1}}
> {{"call":"begin","em":1}}
< {null}
> {{"call":"commit","em":1}}
! kill
"""
        tries: List[Optional[EntityManager]] = []
        with played(script, PERSONS) as app:
            with self.assertRaises(karzhoul.ProgramEnded) as raised:
                app.retry(tries.append)
        self.assertTrue(raised.exception.may_be_stored)
        self.assertIn("may be stored or not: look", str(raised.exception))
        self.assertEqual(len(tries), 1)

    def test_a_program_that_ends_before_a_commit(self) -> None:
        script = '> {"call":"createEntityManager"}\n! kill\n'
        with played(script, PERSONS) as app:
            with self.assertRaises(karzhoul.ProgramEnded) as raised:
                app.create_entity_manager()
        self.assertFalse(raised.exception.may_be_stored)
        self.assertNotIn("may be stored", str(raised.exception))


@needs_program
class Misuse(StoreTest):
    """Work that would be lost without a word."""

    def test_work_that_would_run_after_its_transaction(self) -> None:
        async def coroutine(manager: EntityManager) -> None:
            self.add(manager)

        def generator(manager: EntityManager) -> Any:
            yield self.add(manager)

        for work, kind in ((coroutine, "coroutine"), (generator, "generator")):
            given: List[Any] = []

            def keep(manager: EntityManager) -> Any:
                given.append(work(manager))
                return given[-1]

            with self.assertRaises(TypeError) as raised:
                self.app.retry(keep)
            self.assertIn(f"gave a {kind}, which would run after", str(raised.exception))
            given[0].close()
        self.assertEqual(self.tries, 0)

    def test_a_begin_without_its_block(self) -> None:
        with self.assertRaises(AttributeError) as raised:
            self.app.begin().persist  # type: ignore[attr-defined]
        self.assertIn("with app.begin() as manager", str(raised.exception))

    def test_what_is_persisted_and_never_committed(self) -> None:
        with self.assertWarns(RuntimeWarning) as warned:
            manager = self.app.create_entity_manager()
            manager.persist(self.app.new("Order", number=2))
            manager.close()
        self.assertEqual(warned.filename, __file__)
        self.assertIn("not stored", str(warned.warning))
        with self.assertWarns(RuntimeWarning):
            with self.app.begin() as manager:
                manager.transaction().commit()
                manager.remove(manager.get_reference("Order", 1))
        with warnings.catch_warnings():
            warnings.simplefilter("error")
            with self.app.create_entity_manager() as manager:
                manager.persist(self.app.new("Order", number=2))
                with manager.transaction():
                    pass
            with self.assertRaises(ZeroDivisionError), self.app.begin() as manager:
                manager.persist(self.app.new("Order", number=3))
                raise ZeroDivisionError
        with self.app.begin() as manager:
            self.assertEqual(manager.query("SELECT o.number FROM Order o"), [1, 2])


@needs_program
class Words(StoreTest):
    def test_the_former_name_of_the_time_limit_warns(self) -> None:
        manager = self.app.create_entity_manager()
        calls: List[Callable[..., Any]] = [
            lambda **given: manager.query(ASK, **given), lambda **given: manager.one(ASK, **given),
            lambda **given: manager.one_or_none(ASK, **given),
            lambda **given: manager.first(ASK, **given),
            lambda **given: manager.scalars("SELECT o.number FROM Order o", **given),
            lambda **given: manager.page(ASK, 1, 2, **given),
            lambda **given: list(manager.iterate(ASK, **given)),
        ]
        for call in calls:
            with warnings.catch_warnings(record=True) as told:
                warnings.simplefilter("always")
                self.assertEqual(repr(call(timeout=5)), repr(call(end_program_after=5)))
            self.assertEqual([each.category for each in told], [DeprecationWarning])
            self.assertEqual(told[0].filename, __file__)
            self.assertIn("end_program_after", str(told[0].message))
        with self.assertRaises(TypeError):
            manager.query(ASK, timeout=5, end_program_after=5)

    def test_the_former_name_ends_the_program_too(self) -> None:
        manager = self.app.create_entity_manager()
        os.kill(self.app.program.pid, signal.SIGSTOP)
        with warnings.catch_warnings():
            warnings.simplefilter("ignore")
            with self.assertRaises(karzhoul.GivenUp):
                manager.query(ASK, timeout=0.1)


if __name__ == "__main__":
    unittest.main()
