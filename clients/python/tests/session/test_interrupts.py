"""An interrupt at any moment loses nothing and does nothing twice; what takes too long can be given
up."""

from __future__ import annotations

import contextlib
import gc
import inspect
import json
import os
import random
import signal
import subprocess
import sys
import tempfile
import threading
import time
import unittest
from pathlib import Path
from typing import Any, Callable, Iterator, List, Optional, Set
from unittest import mock

import karzhoul

from ..support import (
    FLAT, HERE, PERSONS, PROGRAM, FolderTest, ProgramTest, needs_program, present,
)
from ..store.test_program import PACKAGE, lives

LEDGER = HERE / "session" / "ledger.py"
# How often each loop over the program is interrupted; 100 take a second or less.
INTERRUPTS = int(os.environ.get("KARZHOUL_INTERRUPTS", "100"))


class Interrupted(FolderTest):
    """A test over a ledger, whose alarm raises a KeyboardInterrupt as Ctrl-C does."""

    def setUp(self) -> None:
        super().setUp()
        self.log = self.place / "log"
        with mock.patch.dict(os.environ, KARZHOUL_LEDGER=str(self.log)):
            self.app = karzhoul.open(PERSONS, program=LEDGER)
        self.addCleanup(self.app.close)
        self.em = self.app.create_entity_manager()
        self.handled_by(signal.default_int_handler)

    def handled_by(self, handler: Any) -> None:
        self.addCleanup(signal.signal, signal.SIGALRM, signal.signal(signal.SIGALRM, handler))
        self.addCleanup(signal.setitimer, signal.ITIMER_REAL, 0)

    def lines(self, call: str) -> List[Any]:
        """The lines of a call that have come to the program, after all that was sent before is
        done."""
        self.app.send_line('{"call":"get","object":1,"name":"number"}')
        said = map(json.loads, self.log.read_text(encoding="utf-8").splitlines())
        return [each for each in said if each["call"] == call]


def interrupt_at(seconds: float, work: Callable[[], object]) -> None:
    """Does work again and again, until it is interrupted after so many seconds."""
    try:
        signal.setitimer(signal.ITIMER_REAL, seconds)
        repeat(work)
    except KeyboardInterrupt:
        return
    finally:
        signal.setitimer(signal.ITIMER_REAL, 0)
    raise AssertionError("an interrupt was lost")


def repeat(work: Callable[[], object]) -> None:
    """Does work for 100 seconds. (An interrupt of the jump at a loop's end passes by a `try` of the
    same function in Python 3.13.)"""
    deadline = time.monotonic() + 100
    while time.monotonic() < deadline:
        work()


class AtRandom(Interrupted):
    ROUNDS = 100

    def interrupt_often(self, work: Callable[[], object]) -> None:
        for _ in range(self.ROUNDS):
            interrupt_at(random.uniform(0.0001, 0.003), work)

    def test_a_count(self) -> None:
        order, counted = self.app.new("Order", amount=0), []

        def count() -> None:
            order.amount += 1
            counted.append(1)

        self.interrupt_often(count)
        # Each number once: none is lost, and none is set twice.
        self.assertEqual(
            [each["value"] for each in self.lines("set")], list(range(order.amount + 1))
        )
        self.assertLessEqual(len(counted), order.amount)
        self.assertLessEqual(order.amount, len(counted) + self.ROUNDS)

    def test_finds(self) -> None:
        keys = iter(range(1, 10**9))

        def find() -> None:
            key = next(keys)
            self.assertEqual(present(self.em, "Order", key)._karzhoul_number, key)

        self.interrupt_often(find)

    def test_queries(self) -> None:
        numbers = iter(range(1, 10**9))

        def ask() -> None:
            text = f"1e-{next(numbers)}"
            self.assertEqual(self.em.query(text), [text])

        self.interrupt_often(ask)

    def test_many_new_ones(self) -> None:
        amounts = iter(range(10**9))
        self.interrupt_often(
            lambda: self.app.new_many("Order", [{"amount": next(amounts)} for _ in range(5)])
        )
        told = [each["value"] for each in self.lines("set")]
        self.assertEqual(told, sorted(set(told)))
        self.assertEqual(self.app.get(self.app.new("Order", amount=7), "amount"), 7)


class AtEachStep(Interrupted):
    """Ctrl-C at each place of the package, and of `contextlib` for it, where the interpreter runs
    the handlers of signals: where a function begins, and where one of C has ended."""

    def setUp(self) -> None:
        super().setUp()
        self.addCleanup(
            signal.signal, signal.SIGINT, signal.signal(signal.SIGINT, signal.default_int_handler)
        )

    def interrupt_at_step(self, number: int, work: Callable[[], object]) -> bool:
        """Does work, interrupted at its step of this number; whether it has as many."""
        left, package = number, os.path.dirname(karzhoul.__file__) + os.sep

        def profile(frame: Any, event: str, _: object) -> None:
            nonlocal left
            file = frame.f_code.co_filename
            # (Where a generator is called, a profile's exception would pass by its `finally`, as no
            # interrupt does.)
            is_step = (
                event == "c_return"
                or event == "call"
                and not frame.f_code.co_flags & inspect.CO_GENERATOR
            )
            if is_step and (file.startswith(package) or file == contextlib.__file__):
                left -= 1
                if left == 0:
                    handler: Any = signal.getsignal(signal.SIGINT)
                    handler(signal.SIGINT, frame)

        try:
            sys.setprofile(profile)
            work()
            sys.setprofile(None)
            if left <= 0:
                time.sleep(5)  # It was put off.
        except KeyboardInterrupt:
            return True
        finally:
            sys.setprofile(None)
        self.assertGreater(left, 0, "an interrupt was lost")
        return False

    def each_step(self, work: Callable[[int], object]) -> int:
        number = 1
        while self.interrupt_at_step(number, lambda: work(number)):
            self.assertEqual(self.em.query(str(number / 1e6)), [str(number / 1e6)])
            number += 1
        self.assertGreater(number, 10)
        return number

    def test_a_pipeline(self) -> None:
        order = self.app.new("Order")
        told: List[int] = []

        def work(number: int) -> None:
            with self.app.pipeline():
                for amount in (2 * number, 2 * number + 1):
                    order.amount = amount
                    told.append(amount)

        self.each_step(work)
        sent = [each["value"] for each in self.lines("set")]
        self.assertEqual(sent, sorted(set(sent)))
        self.assertEqual(set(told) - set(sent), set())

    def test_an_embedded_id(self) -> None:
        place = self.app.new("Place")

        def work(number: int) -> None:
            place.at = (number, str(number), bytes(number))

        self.each_step(work)
        sent = [each["value"] for each in self.lines("set")]
        for row, shelf, tag in zip(sent[::3], sent[1::3], sent[2::3]):
            self.assertEqual((shelf, tag), (str(row), {"hex": bytes(row).hex()}))

    def test_events(self) -> None:
        heard: List[karzhoul.Event] = []
        orders = self.app.new_many("Order", [{}] * 500)
        self.app.listen(heard.append)  # (a callback's own steps may be interrupted)
        self.each_step(lambda number: self.em.persist(orders[number]))
        # Each once, of its own object, and in their order.
        self.assertEqual(
            [event.object._karzhoul_number for event in heard],
            [each["object"] for each in self.lines("persist")],
        )
        self.assertGreater(len(heard), 10)

    def ends_at_each_step(self, work: Callable[[], object]) -> None:
        """Work whose transaction is over at its end, wherever it is interrupted."""
        number = 1
        while self.interrupt_at_step(number, work):
            number += 1
            self.assertFalse(self.em.transaction().is_active)
            self.em.transaction().begin().rollback()
        self.assertGreater(number, 10)
        begun, ended = len(self.lines("begin")), len(self.lines("commit")) + len(
            self.lines("rollback")
        )
        self.assertGreaterEqual(ended, begun)

    def test_a_transaction_that_is_committed(self) -> None:
        def work() -> None:
            with self.em.transaction():
                pass

        self.ends_at_each_step(work)

    def test_a_transaction_whose_block_raises(self) -> None:
        def work() -> None:
            with contextlib.suppress(ZeroDivisionError), self.em.transaction():
                raise ZeroDivisionError

        self.ends_at_each_step(work)

    def test_a_transaction_within_a_pipeline(self) -> None:
        order = self.app.new("Order")

        def work() -> None:
            with self.app.pipeline(), self.em.transaction():
                order.amount = 1

        self.ends_at_each_step(work)

    def test_a_transaction_that_contextlib_ends(self) -> None:
        @contextlib.contextmanager
        def transaction() -> Iterator[None]:
            with self.em.transaction():
                yield

        def work() -> None:
            with contextlib.ExitStack() as stack:
                stack.enter_context(transaction())

        self.ends_at_each_step(work)

    def test_a_manager(self) -> None:
        made: List[Any] = []

        def work() -> None:
            with self.app.create_entity_manager() as other:
                made.append(other)
                other.transaction().begin()

        number = 1
        while self.interrupt_at_step(number, work):
            number += 1
            for other in made:
                self.assertFalse(other.transaction().is_active)
        self.assertGreater(number, 10)
        closed = {each["em"] for each in self.lines("close")}
        self.assertEqual({other.number for other in made} - closed, set())

    def test_a_manager_with_its_transaction(self) -> None:
        made: List[Any] = []

        def work() -> None:
            with self.app.begin() as other:
                made.append(other)

        number = 1
        while self.interrupt_at_step(number, work):
            number += 1
            self.em.transaction().begin().rollback()  # None is open.
        self.assertGreater(number, 10)
        closed = {each["em"] for each in self.lines("close")}
        self.assertEqual({other.number for other in made} - closed, set())

    def test_the_interpreter_s_own_handler_is_back(self) -> None:
        with self.app.create_entity_manager() as other, other.transaction(), self.app.pipeline():
            self.assertIsNot(signal.getsignal(signal.SIGINT), signal.default_int_handler)
        self.assertIs(signal.getsignal(signal.SIGINT), signal.default_int_handler)

    def test_another_handler_stays(self) -> None:
        signal.signal(signal.SIGINT, signal.SIG_IGN)
        with self.em.transaction():
            self.assertIs(signal.getsignal(signal.SIGINT), signal.SIG_IGN)
        self.assertIs(signal.getsignal(signal.SIGINT), signal.SIG_IGN)

    def test_an_interrupt_where_contextlib_waits_is_not_put_off_for_ever(self) -> None:
        lock = threading.Lock()
        lock.acquire()
        with self.assertRaises(KeyboardInterrupt):
            with self.em.transaction(), contextlib.ExitStack() as stack:
                threading.Timer(0.1, os.kill, (os.getpid(), signal.SIGINT)).start()
                stack.enter_context(lock)
        self.assertFalse(self.em.transaction().is_active)


class Collected(Interrupted):
    def test_an_interrupt_while_closed_factories_are_collected(self) -> None:
        # With so many lists a collection takes long enough to be interrupted.
        lists = [[0] for _ in range(300_000)]
        gc.disable()
        self.addCleanup(gc.enable)
        with mock.patch.dict(os.environ, KARZHOUL_LEDGER=str(self.log)):
            for _ in range(3):
                karzhoul.open(PERSONS, program=LEDGER).close()
        with self.assertRaises(KeyboardInterrupt):
            signal.setitimer(signal.ITIMER_REAL, 0.002)
            gc.collect()
            time.sleep(5)
        self.assertEqual(len(lists), 300_000)


class WhileItWaits(Interrupted):
    def test_a_long_query_is_answered_to_nobody(self) -> None:
        start = time.monotonic()
        interrupt_at(0.1, lambda: self.em.query("0.5"))
        self.assertLess(time.monotonic() - start, 0.4)
        self.assertEqual(self.em.query("0"), ["0"])
        self.assertGreater(time.monotonic() - start, 0.4)

    def test_the_events_of_an_interrupted_call_are_told_by_the_next(self) -> None:
        heard: List[karzhoul.Event] = []
        order = self.app.new("Order")
        self.app.listen(heard.append)
        os.kill(self.app.program.pid, signal.SIGSTOP)
        interrupt_at(0.1, lambda: self.em.persist(order))
        os.kill(self.app.program.pid, signal.SIGCONT)
        self.assertEqual(heard, [])
        self.assertEqual(self.em.query("0"), ["0"])
        self.assertEqual([event.object for event in heard], [order])

    def test_a_second_interrupt_ends_the_program(self) -> None:
        interrupt_at(0.1, lambda: self.em.query("100"))
        signal.setitimer(signal.ITIMER_REAL, 0.1)
        for _ in range(2):
            with self.assertRaises(karzhoul.GivenUp) as raised:
                self.em.query("0")
            self.assertIn("not committed is lost", str(raised.exception))
            self.assertIn("app.reopen()", str(raised.exception))
        self.assertFalse(lives(self.app.program.pid))

    def test_a_second_interrupt_of_a_program_that_is_about_to_answer(self) -> None:
        interrupt_at(0.1, lambda: self.em.query("0.3"))
        interrupt_at(0.1, lambda: self.em.query("0"))
        self.assertEqual(self.em.query("0"), ["0"])

    def test_a_time_limit(self) -> None:
        self.assertEqual(self.em.query("0", end_program_after=5), ["0"])
        for wrong in (0, -1, float("nan")):
            with self.assertRaises(ValueError):
                self.em.query("0", end_program_after=wrong)
        start = time.monotonic()
        with self.assertRaises(karzhoul.GivenUp) as raised:
            self.em.query("100", end_program_after=0.2)
        self.assertLess(time.monotonic() - start, 2)
        self.assertIn("0.2 seconds", str(raised.exception))
        self.assertFalse(lives(self.app.program.pid))

    def test_another_signal_s_exception(self) -> None:
        def too_late(*_: object) -> None:
            raise TimeoutError

        self.handled_by(too_late)
        for _ in range(2):
            signal.setitimer(signal.ITIMER_REAL, 0.1)
            with self.assertRaises(TimeoutError):
                self.em.query("0.3")
        self.assertEqual(self.em.query("0"), ["0"])

    def test_a_lock_that_is_waited_for(self) -> None:
        asks = threading.Thread(target=self.em.query, args=("0.5",))
        asks.start()
        time.sleep(0.1)
        start = time.monotonic()
        interrupt_at(0.1, lambda: self.em.query("0"))
        self.assertLess(time.monotonic() - start, 0.35)
        asks.join()
        other: List[Any] = []
        asks = threading.Thread(target=lambda: other.append(self.em.query("0.01")))
        asks.start()
        asks.join(5)
        self.assertEqual(other, [["0.01"]])

    def test_an_interrupted_begin_opens_nothing(self) -> None:
        os.kill(self.app.program.pid, signal.SIGSTOP)
        threading.Timer(0.3, os.kill, (self.app.program.pid, signal.SIGCONT)).start()
        with self.assertRaises(KeyboardInterrupt):
            signal.setitimer(signal.ITIMER_REAL, 0.1)
            with self.em.transaction():
                self.fail("the block was run")
        self.assertFalse(self.em.transaction().is_active)
        with self.em.transaction():
            pass


class Managers(Interrupted):
    def test_what_its_block_raises_is_raised(self) -> None:
        with self.assertRaises(ZeroDivisionError):
            with self.app.create_entity_manager() as other:
                other.transaction().begin()
                raise ZeroDivisionError
        self.assertEqual(len(self.lines("rollback")), 1)
        self.assertEqual(len(self.lines("close")), 1)
        with self.em.transaction():
            pass

    def test_an_open_transaction_is_rolled_back_at_its_end(self) -> None:
        with self.app.create_entity_manager() as other:
            other.transaction().begin()
        self.assertFalse(other.transaction().is_active)
        self.assertEqual([len(self.lines(call)) for call in ("rollback", "close")], [1, 1])

    def test_a_transaction_within_a_pipeline_is_rolled_back(self) -> None:
        order = self.app.new("Order")
        with self.assertRaises(ZeroDivisionError):
            with self.app.pipeline(), self.em.transaction():
                order.amount = 1
                raise ZeroDivisionError
        self.assertFalse(self.em.transaction().is_active)
        self.assertEqual(len(self.lines("rollback")), 1)


class Killed(unittest.TestCase):
    CODE = (
        "import karzhoul, sys, threading\n"
        "app = karzhoul.open(sys.argv[1], program=sys.argv[2])\n"
        "em = app.create_entity_manager()\n"
        "asks = threading.Thread(target=em.query, args=('100',))\n"
        "asks.start()\n"
        "print(app.program.pid, app.program._watch.pid, flush=True)\n"
        "asks.join()\n"
    )

    def test_a_killed_client_takes_its_program_along(self) -> None:
        with tempfile.TemporaryDirectory() as place:
            env = {**os.environ, "KARZHOUL_LEDGER": str(Path(place, "log"))}
            words = [sys.executable, "-c", self.CODE, str(FLAT), str(LEDGER)]
            with subprocess.Popen(
                words, cwd=PACKAGE, env=env, stdout=subprocess.PIPE, text=True
            ) as client:
                assert client.stdout is not None
                pids = list(map(int, client.stdout.readline().split()))
                time.sleep(0.2)
                self.assertEqual(list(map(lives, pids)), [True, True])
                client.kill()
            deadline = time.monotonic() + 5
            while any(map(lives, pids)) and time.monotonic() < deadline:
                time.sleep(0.02)
            self.assertEqual(list(map(lives, pids)), [False, False])

    def test_the_thread_that_opened_may_end(self) -> None:
        apps: List[Any] = []
        with tempfile.TemporaryDirectory() as place:
            with mock.patch.dict(os.environ, KARZHOUL_LEDGER=str(Path(place, "log"))):
                opens = threading.Thread(
                    target=lambda: apps.append(karzhoul.open(PERSONS, program=LEDGER))
                )
                opens.start()
                opens.join()
            with apps[0] as app:
                time.sleep(0.1)
                self.assertEqual(app.create_entity_manager().query("0"), ["0"])
                watch = app.program._watch.pid
            self.assertFalse(lives(watch))


@needs_program
class AtRandomOverTheProgram(ProgramTest):
    """Loops over the program in an open transaction, each interrupted many times."""

    def setUp(self) -> None:
        super().setUp()
        self.addCleanup(
            signal.signal, signal.SIGALRM, signal.signal(signal.SIGALRM, signal.default_int_handler)
        )
        self.order = self.Order(number=1, amount=0)
        self.em.transaction().begin()
        self.em.persist(self.order)
        # What the calls that answered have said.
        self.amount, self.made = 0, 1

    def interrupt_often(self, work: Callable[[], object]) -> None:
        """Interrupts work at random moments, and finds the session whole after each."""
        for _ in range(INTERRUPTS):
            interrupt_at(random.uniform(0.0001, 0.005), work)
            # The call that was interrupted may be done, and no other one.
            self.assertIn(self.order.amount, (self.amount, self.amount + 1))
            self.amount = self.order.amount
            self.assertIs(self.em.find("Order", 1), self.order)
            self.assertIsNone(self.app.program.fault)
        self.em.transaction().commit()
        self.em.clear()
        found = present(self.em, "Order", 1)
        self.assertIsNot(found, self.order)
        self.assertEqual(found.amount, self.amount)

    def test_interrupts_of_a_count(self) -> None:
        def count() -> None:
            self.order.amount += 1
            self.amount += 1

        self.interrupt_often(count)
        self.assertGreater(self.amount, INTERRUPTS)

    def test_interrupts_of_finds(self) -> None:
        self.interrupt_often(lambda: self.assertIs(self.em.find("Order", 1), self.order))

    def test_interrupts_of_queries(self) -> None:
        text = "SELECT o.amount FROM Order o WHERE o.number = 1"
        self.interrupt_often(lambda: self.assertEqual(self.em.query(text), [self.amount]))

    def test_interrupts_of_many_new_ones(self) -> None:
        def make() -> None:
            first, self.made = self.made, self.made + 3
            numbers = range(first, first + 3)
            made = self.app.new_many("Order", [{"number": number} for number in numbers])
            self.assertEqual(self.app.get_many(made, "number"), list(numbers))

        self.interrupt_often(make)


@needs_program
class TransactionsAtRandom(ProgramTest):
    """Ctrl-C at random moments of transactions over the program: none stays open, and each is
    stored whole or not at all."""

    def setUp(self) -> None:
        super().setUp()
        self.addCleanup(
            signal.signal, signal.SIGINT, signal.signal(signal.SIGINT, signal.default_int_handler)
        )
        self.addCleanup(signal.signal, signal.SIGALRM, signal.signal(signal.SIGALRM, self.press))
        self.keys = iter(range(1, 10**9))
        self.committed_keys: Set[int] = set()

    def press(self, _: int, frame: Any) -> None:
        """Does what Ctrl-C does."""
        handler: Any = signal.getsignal(signal.SIGINT)
        handler(signal.SIGINT, frame)

    def store_two(self) -> None:
        key = next(self.keys)
        with self.em.transaction():
            for number in (key, -key):
                self.em.persist(self.Order(number=number))
        self.committed_keys.add(key)

    def test_each_block_ends_its_transaction(self) -> None:
        for _ in range(INTERRUPTS):
            interrupt_at(random.uniform(0.0001, 0.005), self.store_two)
            self.assertFalse(self.em.transaction().is_active)
            self.em.transaction().begin().rollback()
        stored = set(self.em.query("SELECT o.number FROM Order o"))
        self.assertEqual(stored, {-number for number in stored})
        self.assertEqual(self.committed_keys - stored, set())
        # Beside these a commit that was interrupted may be done.
        self.assertLessEqual(len(stored), 2 * (len(self.committed_keys) + INTERRUPTS))

    def test_a_manager_s_block(self) -> None:
        for _ in range(INTERRUPTS):
            managers = [self.app.create_entity_manager() for _ in range(3)]

            def work() -> None:
                if managers:
                    with managers[0] as manager, manager.transaction():
                        manager.persist(self.Order(number=next(self.keys)))
                    del managers[0]

            interrupt_at(random.uniform(0.0001, 0.001), work)
            for manager in managers:
                self.assertFalse(manager.transaction().is_active)
                with contextlib.suppress(karzhoul.NoSuchManager):
                    manager.close()
        # None is left open, of which 16 are the most.
        self.em.close()
        for _ in range(16):
            self.app.create_entity_manager()


@needs_program
class OfTheProgram(ProgramTest):
    def test_a_restart(self) -> None:
        with tempfile.TemporaryDirectory() as place, karzhoul.open(
            PERSONS, Path(place, "app.db"), program=PROGRAM
        ) as app:
            heard: List[Optional[object]] = []
            app.listen(lambda event: heard.append(event.kind))
            em, Person = app.create_entity_manager(), app.entity("Person")
            ada, bob = Person(name="Ada"), Person(name="Bob")
            with em.transaction():
                em.persist(ada)
            em.transaction().begin()
            em.persist(bob)
            heard.clear()
            os.kill(app.program.pid, signal.SIGKILL)
            app.restart()
            again = app.create_entity_manager()
            for call in (
                lambda: ada.name, lambda: setattr(bob, "name", "Cy"), lambda: again.contains(ada),
                em.clear, em.transaction().commit,
            ):
                with self.assertRaises(karzhoul.Restarted) as raised:
                    call()
                self.assertIn("before a restart", str(raised.exception))
            self.assertEqual([present(again, Person, 1).name, again.find(Person, 2)], ["Ada", None])
            self.assertEqual(heard, [karzhoul.LifecycleEvent.POST_LOAD])
            # A program that runs is ended.
            app.restart()
            self.assertEqual(present(app.create_entity_manager(), "Person", 1).name, "Ada")


if __name__ == "__main__":
    unittest.main()
