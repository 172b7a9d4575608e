"""A service of many threads, whose factory has places for its managers and begins new runs."""

from __future__ import annotations

import contextlib
import gc
import os
import random
import signal
import threading
import time
import unittest
from typing import Any, Callable, Iterator, List
from unittest import mock

import karzhoul
from karzhoul import LifecycleEvent, NoFreeManager, Restarted
from karzhoul.session import places

from ..steps import interrupted_at_step
from ..support import PERSONS, PROGRAM, FolderTest, needs_program, present


class ThreadsTest(FolderTest):
    """A test over a factory that is opened for threads, whose runs are due after 200 objects."""

    def setUp(self) -> None:
        super().setUp()
        for name, number in (("MOST_OBJECTS", 400), ("_DUE", 200), ("_LATE", 360), ("_STEP", 20)):
            patched = mock.patch.object(places, name, number)
            patched.start()
            self.addCleanup(patched.stop)
        self.app = karzhoul.open(
            PERSONS, self.place / "app.db", program=PROGRAM, threads=True, wait=600
        )
        self.addCleanup(self.app.close)
        self.Person = self.app.entity("Person")
        self.pid = self.app.program.pid

    def until(self, is_so: Callable[[], bool]) -> None:
        """Waits until something is so."""
        deadline = time.monotonic() + 60
        while not is_so() and time.monotonic() < deadline:
            time.sleep(0.001)
        self.assertTrue(is_so())

    @property
    def places(self) -> places.Places:
        assert self.app._places is not None
        return self.app._places

    def make(self, count: int) -> List[Any]:
        """New objects of the run."""
        return self.app.new_many("Person", [{"name": "Ada"}] * count)

    def counted(self) -> int:
        with self.app.begin() as manager:
            return int(manager.query_single("SELECT COUNT(p) FROM Person p"))

    def all_of(self, works: List[Callable[[], Any]]) -> List[BaseException]:
        """Does works by a thread each, and gives what they raise."""
        raised: List[BaseException] = []

        def done(work: Callable[[], Any]) -> None:
            try:
                work()
            except BaseException as fault:
                raised.append(fault)

        threads = [threading.Thread(target=done, args=(work,)) for work in works]
        for thread in threads:
            thread.start()
        for thread in threads:
            thread.join()
        return raised

    @contextlib.contextmanager
    def other_thread(self, work: Callable[[threading.Event], Any]) -> Iterator[threading.Event]:
        """Another thread does work within the block, until the event that is given is set."""
        begun, ended = threading.Event(), threading.Event()
        faults: List[BaseException] = []

        def done() -> None:
            try:
                with work(ended):
                    begun.set()
                    ended.wait(60)
            except BaseException as fault:
                faults.append(fault)
                begun.set()

        thread = threading.Thread(target=done, name="other")
        thread.start()
        begun.wait(60)
        try:
            yield ended
        finally:
            ended.set()
            thread.join()
        self.assertEqual(faults, [])


@needs_program
class Services(ThreadsTest):
    def test_eight_threads_make_more_objects_than_a_run_has(self) -> None:
        """With no code of their own, and no refusal."""
        def work() -> None:
            for _ in range(50):
                with self.app.begin() as manager:
                    manager.persist_all(self.make(10))

        self.assertEqual(self.all_of([work] * 8), [])
        self.assertEqual(self.counted(), 4000)
        self.assertEqual(self.app.program.pid, self.pid)
        self.assertLess(self.app.statistics().made, 400)

    def test_retry(self) -> None:
        with self.app.begin() as manager:
            manager.persist(self.Person(name="0"))

        def add(manager: karzhoul.EntityManager) -> None:
            self.make(5)
            person = present(manager, "Person", 1)
            person.name = str(int(person.name) + 1)

        def work() -> None:
            for _ in range(20):
                self.app.retry(add, 1000)

        self.assertEqual(self.all_of([work] * 8), [])
        with self.app.begin() as manager:
            self.assertEqual(present(manager, "Person", 1).name, "160")

    def test_work_for_which_a_run_has_too_few_objects_left(self) -> None:
        """It is done in the next run; but once more than a whole run has is refused."""
        begun: List[int] = []

        def work(manager: karzhoul.EntityManager) -> None:
            begun.append(self.app.statistics().made)
            self.make(200)
            if begun[-1] > 0:
                raise karzhoul.ObjectLimit()
            manager.persist(self.Person(name="Ada"))

        self.make(10)
        self.app.retry(work)
        self.assertEqual((begun, self.counted()), ([10, 0], 1))
        with self.assertRaises(karzhoul.ObjectLimit):
            self.app.retry(self.limited)

    def limited(self, manager: karzhoul.EntityManager) -> None:
        raise karzhoul.ObjectLimit()

    def test_forty_threads_wait_for_sixteen_managers(self) -> None:
        most = [0]
        opened: List[int] = []

        def work() -> None:
            for _ in range(5):
                with self.app.begin() as manager:
                    opened.append(manager.number)
                    most[0] = max(most[0], len(opened))
                    time.sleep(0.001)
                    manager.persist(self.Person(name="Ada"))
                    opened.remove(manager.number)

        self.assertEqual(self.all_of([work] * 40), [])
        self.assertEqual(self.counted(), 200)
        self.assertLessEqual(most[0], 16)

    def test_managers_of_one_s_own(self) -> None:
        def work() -> None:
            for _ in range(20):
                with self.app.create_entity_manager() as manager, manager.transaction():
                    manager.persist_all(self.make(5))

        self.assertEqual(self.all_of([work] * 24), [])
        self.assertEqual(self.counted(), 2400)

    def test_a_new_run_between_a_manager_and_its_transaction(self) -> None:
        """Threads that were held up there find their managers as they were."""
        def work() -> None:
            for _ in range(10):
                with self.app.create_entity_manager() as manager:
                    barrier.wait()  # Each has a manager.
                    barrier.wait()  # Another run is on.
                    with manager.transaction():
                        manager.persist_all(self.make(2))

        def restart() -> None:
            for _ in range(10):
                barrier.wait()
                self.app.restart()
                self.assertEqual(len(self.places._held), 0)
                barrier.wait()

        barrier = threading.Barrier(17, timeout=60)
        self.assertEqual(self.all_of([*[work] * 16, restart]), [])
        self.assertEqual(self.counted(), 320)
        self.assertEqual(len(self.places._held), 0)

    def test_a_place_is_waited_for_in_the_new_run(self) -> None:
        manager = self.app.create_entity_manager()
        self.app.restart()
        self.assertEqual(len(self.places._held), 0)
        others = [self.app.create_entity_manager() for _ in range(16)]
        closing = threading.Timer(0.05, others[3].close)
        closing.start()
        with manager.transaction():
            manager.persist(self.Person(name="Ada"))
        closing.join()
        self.assertEqual(len(self.places._held), 16)
        manager.close()
        self.assertEqual(len(self.places._held), 15)

    def test_managers_that_go_on_give_their_places_back(self) -> None:
        managers = [self.app.create_entity_manager() for _ in range(16)]
        self.app.restart()
        for manager in managers[:3]:
            with manager.transaction():
                pass
        self.assertEqual(len(self.places._held), 3)
        for manager in managers:
            manager.close()
        self.assertEqual(len(self.places._held), 0)
        managers = [self.app.create_entity_manager() for _ in range(16)]
        self.app.restart()
        del manager, managers
        gc.collect()
        for _ in range(16):
            self.app.create_entity_manager()

    def test_what_is_held_of_before_is_told(self) -> None:
        with self.app.begin() as manager:
            ada = self.Person(name="Ada")
            manager.persist(ada)
        with self.app.begin():
            self.make(200)
        with self.assertRaises(Restarted):
            ada.name
        # A thread that goes on without a block of its own keeps what it has made.
        made = self.make(250)
        self.assertEqual(made[0].name, "Ada")


@needs_program
class Waiting(ThreadsTest):
    def test_no_manager_in_time(self) -> None:
        managers = [self.app.create_entity_manager() for _ in range(16)]
        for ask in (self.app.create_entity_manager, self.app.begin().__enter__):
            began = time.monotonic()
            with mock.patch.object(self.places, "wait", 0.2):
                with self.assertRaises(NoFreeManager) as raised:
                    ask()
            self.assertGreaterEqual(time.monotonic() - began, 0.2)
            self.assertIn("none became free within 0.2 seconds; 16 are open", str(raised.exception))
            self.assertIn("MainThread (a manager, ", str(raised.exception))
        self.assertIsInstance(raised.exception, karzhoul.KarzhoulError)
        managers[3].close()
        self.app.create_entity_manager()

    def test_a_manager_that_is_closed_meanwhile(self) -> None:
        managers = [self.app.create_entity_manager() for _ in range(16)]
        closing = threading.Timer(0.05, managers[3].close)
        closing.start()
        self.app.create_entity_manager()
        closing.join()

    def test_many_who_wait_hold_nobody_up(self) -> None:
        """They look for dropped managers, which takes long where a process has much; yet those who
        give a place back are let in between."""
        collected: List[float] = []

        def collect() -> int:
            collected.append(time.monotonic())
            time.sleep(0.2)
            return 0

        managers = [self.app.create_entity_manager() for _ in range(16)]

        def work() -> None:
            with self.app.begin():
                pass

        with mock.patch("gc.collect", collect):
            threads = [threading.Thread(target=work) for _ in range(24)]
            for thread in threads:
                thread.start()
            self.until(lambda: len(self.places._waiting) == 24)
            time.sleep(3)
            for manager in managers:
                manager.close()
            for thread in threads:
                thread.join()
        self.assertIn(len(collected), range(1, 4))
        for first, second in zip(collected, collected[1:]):
            self.assertGreaterEqual(second - first, 1.8)

    def test_turns(self) -> None:
        """Who waits first is let in first."""
        managers = [self.app.create_entity_manager() for _ in range(16)]
        order: List[int] = []

        def work(place: int) -> None:
            with self.app.begin():
                order.append(place)

        threads = [threading.Thread(target=work, args=(place,)) for place in range(8)]
        for thread in threads:
            thread.start()
            self.until(lambda: len(self.places._waiting) == threads.index(thread) + 1)
        managers[0].close()
        for thread in threads:
            thread.join()
        self.assertEqual(order, list(range(8)))

    def test_a_manager_that_is_dropped(self) -> None:
        """Its place is free again, and what it hasn't committed is gone."""
        for _ in range(3):
            managers = [self.app.create_entity_manager() for _ in range(16)]
            for manager in managers:
                manager.transaction().begin()
                manager.persist(self.Person(name="Ada"))
            del managers, manager
        self.assertEqual(self.counted(), 0)

    def test_the_block_of_a_begin_that_raises(self) -> None:
        for _ in range(40):
            with self.assertRaises(ZeroDivisionError), self.app.begin():
                1 // 0
        for _ in range(40):
            with self.assertRaises(karzhoul.Rollback), self.app.begin() as manager:
                manager.transaction().set_rollback_only()
        self.assertEqual(len([self.app.create_entity_manager() for _ in range(16)]), 16)

    def test_a_thread_that_holds_one_and_asks_for_another_one(self) -> None:
        with self.app.begin() as outer:
            outer.persist(self.Person(name="Ada"))
            with self.app.begin() as inner:
                inner.persist(self.Person(name="Bob"))
        self.assertEqual(self.counted(), 2)

    def test_threads_that_wait_for_each_other(self) -> None:
        """One is refused at once, and so the others go on."""
        barrier = threading.Barrier(16)
        refused: List[BaseException] = []

        def work() -> None:
            with self.app.begin() as outer:
                outer.persist(self.Person(name="Ada"))
                barrier.wait()
                try:
                    with self.app.begin() as inner:
                        inner.persist(self.Person(name="Bob"))
                except NoFreeManager as fault:
                    refused.append(fault)

        with mock.patch.object(self.places, "wait", 60):
            began = time.monotonic()
            self.assertEqual(self.all_of([work] * 16), [])
            self.assertLess(time.monotonic() - began, 30)
        self.assertEqual(len(refused), 1)
        self.assertIn("each thread that has one waits for another one", str(refused[0]))
        self.assertEqual(self.counted(), 31)

    def test_a_pipeline_and_a_callback_do_not_wait(self) -> None:
        """No other thread goes on meanwhile."""
        managers = [self.app.create_entity_manager() for _ in range(16)]
        with mock.patch.object(self.places, "wait", 60):
            with self.assertRaisesRegex(NoFreeManager, "keeps all others from going on"):
                with self.app.pipeline(), self.app.begin():
                    pass
            raised: List[BaseException] = []

            def callback(event: karzhoul.Event) -> None:
                try:
                    self.app.create_entity_manager()
                except NoFreeManager as fault:
                    raised.append(fault)

            self.app.listen(callback, LifecycleEvent.PRE_PERSIST)
            managers[0].transaction().begin()
            managers[0].persist(self.Person(name="Ada"))
            managers[0].flush()
        self.assertEqual(len(raised), 1)

    def test_an_end_while_one_waits(self) -> None:
        managers = [self.app.create_entity_manager() for _ in range(16)]
        for end in (self.app.close, managers.clear):
            with mock.patch.object(self.places, "wait", 60):
                threading.Timer(0.1, end).start()
                with self.assertRaises(karzhoul.ProgramEnded):
                    self.app.create_entity_manager()

    def test_a_restart_gives_all_places_back(self) -> None:
        for _ in range(3):
            self.managers = [self.app.create_entity_manager() for _ in range(16)]
            self.app.restart()
        self.assertEqual(self.counted(), 0)

    def test_an_explanation_does_not_wait(self) -> None:
        with mock.patch.object(self.places, "wait", 60):
            managers = [self.app.create_entity_manager() for _ in range(16)]
            with self.assertRaises(karzhoul.Rollback) as raised:
                with managers[0].transaction():
                    managers[0].persist(self.app.new("Place", at=(1, "a", b"")))
            began = time.monotonic()
            self.assertIn("null", raised.exception.explain())
            self.assertLess(time.monotonic() - began, 30)

    def test_words_that_are_no_wait(self) -> None:
        for wait in (-1, float("nan")):
            with self.assertRaises(ValueError):
                karzhoul.open(PERSONS, program=PROGRAM, threads=True, wait=wait)


def interrupt_in(seconds: float) -> threading.Timer:
    """Once it is started, interrupts the main thread in so many seconds, as Ctrl-C does: by a
    signal from outside of what it runs. (One that a handler raises would interrupt the handler.)"""
    main = threading.main_thread().ident
    assert main is not None
    return threading.Timer(seconds, signal.pthread_kill, (main, signal.SIGINT))


@needs_program
class Interrupts(ThreadsTest):
    def test_an_interrupt_while_one_waits(self) -> None:
        """No place is lost, and who comes after is let in."""
        for _ in range(20):
            managers = [self.app.create_entity_manager() for _ in range(16)]
            interrupt = interrupt_in(random.uniform(0.001, 0.02))
            with self.assertRaises(KeyboardInterrupt):
                interrupt.start()
                with self.app.begin():
                    self.fail("16 are open")
            interrupt.join()
            for manager in managers:
                manager.close()
        self.assertEqual(len([self.app.create_entity_manager() for _ in range(16)]), 16)

    def test_interrupts_at_random(self) -> None:
        def work() -> None:
            with self.app.begin() as manager:
                manager.persist(self.Person(name="Ada"))

        for _ in range(100):
            deadline = time.monotonic() + 60
            interrupt = interrupt_in(random.uniform(0.0001, 0.003))
            with self.assertRaises(KeyboardInterrupt):
                interrupt.start()
                while time.monotonic() < deadline:
                    work()
            interrupt.join()
        self.assertEqual(len([self.app.create_entity_manager() for _ in range(16)]), 16)

    def test_an_interrupt_at_each_step(self) -> None:
        """No place is lost, nobody waits for a new run that doesn't come, and what was committed
        stays."""
        patched = mock.patch.object(places, "_DUE", 2)
        patched.start()
        self.addCleanup(patched.stop)
        committed = 0

        def work() -> None:
            with self.app.begin() as manager:
                manager.persist(self.Person())
                manager.persist(self.Person())

        step = 1
        while interrupted_at_step(step, work):
            step += 1
            began = time.monotonic()
            count = self.counted()
            self.assertIn(count, (committed, committed + 2))
            committed = count
            self.assertLess(time.monotonic() - began, 5)
        self.assertGreater(step, 100)
        gc.collect()
        self.assertEqual(len([self.app.create_entity_manager() for _ in range(16)]), 16)
        self.assertEqual(self.app.program.pid, self.pid)

    def test_an_interrupt_at_each_step_of_a_manager_of_one_s_own(self) -> None:
        step = 1
        while interrupted_at_step(step, lambda: self.app.create_entity_manager().close()):
            step += 1
            gc.collect()
        self.assertGreater(step, 20)
        self.assertEqual(len([self.app.create_entity_manager() for _ in range(16)]), 16)

    def setUp(self) -> None:
        super().setUp()
        before = signal.signal(signal.SIGINT, signal.default_int_handler)
        self.addCleanup(signal.signal, signal.SIGINT, before)


@needs_program
class Runs(ThreadsTest):
    """When a new run begins, and what holds it off."""

    def made(self) -> int:
        return self.app.statistics().made

    def test_blocks_that_only_count_use_up_managers(self) -> None:
        first = self.app._run
        for _ in range(220):
            self.counted()
        self.assertIsNot(self.app._run, first)

    def test_the_end_of_the_last_block(self) -> None:
        with self.app.begin():
            with self.app.begin():
                self.make(250)
            self.assertEqual(self.made(), 250)
        self.assertEqual(self.made(), 0)

    def test_a_transaction_holds_it_off_and_is_waited_for(self) -> None:
        """For a time, while objects are left."""
        patience = mock.patch.object(places, "_PATIENCE", 3)
        with patience, self.other_thread(lambda ended: self.app.begin()):
            self.make(250)
            began = time.monotonic()
            with self.app.begin() as manager:
                manager.persist(self.Person(name="Ada"))
            self.assertGreaterEqual(time.monotonic() - began, 2.9)
            self.assertEqual(self.made(), 251)
            began = time.monotonic()
            with self.app.begin():  # Not yet again.
                self.make(10)
            self.assertLess(time.monotonic() - began, 2.9)
            self.assertEqual(self.made(), 261)
        self.assertEqual(self.made(), 0)
        self.assertEqual(self.counted(), 1)

    def test_who_waits_goes_on_in_the_new_run(self) -> None:
        patience = mock.patch.object(places, "_PATIENCE", 60)
        with patience, self.other_thread(lambda ended: self.app.begin()) as ended:
            self.make(250)
            threading.Timer(0.2, ended.set).start()
            with self.app.begin():
                self.assertEqual(self.made(), 0)

    def test_few_objects_are_left(self) -> None:
        """Then it is waited for as long as it takes."""
        with self.other_thread(lambda ended: self.app.begin()) as ended:
            self.make(370)
            threading.Timer(1.5, ended.set).start()
            began = time.monotonic()
            with self.app.begin():
                self.assertGreaterEqual(time.monotonic() - began, 1.2)
                self.assertEqual(self.made(), 0)

    def test_few_objects_are_left_and_a_transaction_does_not_end(self) -> None:
        with mock.patch.object(self.places, "wait", 0.3):
            with self.other_thread(lambda ended: self.app.begin()):
                self.make(370)
                with self.assertRaises(NoFreeManager) as raised:
                    self.app.create_entity_manager()
                told = str(raised.exception)
                self.assertIn("a new one waits for transactions to end; 1 are open: other", told)
            self.app.create_entity_manager()

    def test_a_manager_of_one_s_own_holds_it_off_until_few_are_left(self) -> None:
        manager, other = self.app.create_entity_manager(), self.app.create_entity_manager()
        other.persist(self.make(1)[0])
        with self.app.begin():
            self.make(299)
        self.assertEqual((self.made(), manager.find("Person", 1)), (300, None))
        with self.app.begin():
            self.make(70)
        self.assertEqual(self.made(), 0)
        with self.assertRaises(Restarted):
            other.find("Person", 1)
        self.assertIsNone(manager.find("Person", 1))  # It has no object, and goes on.

    def test_a_transaction_of_one_s_own_is_not_given_up(self) -> None:
        manager = self.app.create_entity_manager()
        with manager.transaction():
            manager.persist(self.Person(name="Ada"))
            for _ in range(3):
                with self.app.begin():
                    self.make(130)
        self.assertEqual(self.app.program.pid, self.pid)
        manager.close()
        self.assertEqual((self.made(), self.counted()), (0, 1))

    def test_who_holds_a_manager_is_let_in_while_others_wait(self) -> None:
        """Else the transaction that they wait for would wait for them."""
        order: List[str] = []
        with self.app.begin():
            self.make(250)

            def work() -> None:
                with self.app.begin():
                    order.append(f"other {self.made()}")

            thread = threading.Thread(target=work)
            thread.start()
            self.until(lambda: len(self.places._waiting) == 1)
            with self.app.begin():
                order.append(f"inner {self.made()}")
        thread.join()
        self.assertEqual(order, ["inner 250", "other 0"])

    def test_a_program_that_does_not_restart_itself(self) -> None:
        """It is started again, between transactions."""
        refused = mock.Mock(side_effect=karzhoul.BadLine)
        with mock.patch.object(self.app, "ask_restart", refused):
            with self.app.begin() as manager:
                manager.persist_all(self.make(250))
        self.assertNotEqual(self.app.program.pid, self.pid)
        self.assertEqual(self.counted(), 250)

    def test_a_program_that_has_ended(self) -> None:
        """Nothing of that is raised by a block that has committed."""
        with self.app.begin() as manager:
            self.make(250)
            fault = mock.Mock(side_effect=karzhoul.ProgramEnded(None))
            patched = mock.patch.object(self.app, "ask_restart", fault)
            patched.start()
        patched.stop()
        self.assertEqual(self.counted(), 0)

    def test_a_forked_process(self) -> None:
        """Its calls are refused, also where others held all places."""
        managers = [self.app.create_entity_manager() for _ in range(16)]
        with self.places._lock:
            fork = os.fork()
            if fork == 0:
                threading.Thread(target=self.forked).start()
                time.sleep(10)
                os._exit(1)
        self.assertEqual(os.waitstatus_to_exitcode(os.waitpid(fork, 0)[1]), 7)
        managers[0].close()
        self.assertEqual(self.counted(), 0)

    def forked(self) -> None:
        try:
            self.app.create_entity_manager()
        except karzhoul.ProgramEnded:
            os._exit(7)


if __name__ == "__main__":
    unittest.main()
