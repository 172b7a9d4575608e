"""What a session keeps whole: calls that come within others, callbacks that call, forks, copies,
and what is left of objects and refusals where a session has ended."""

from __future__ import annotations

import copy
import json
import os
import pickle
import signal
import subprocess
import sys
import tempfile
import traceback
import unittest
from pathlib import Path
from typing import Any, Callable, List, Type
from unittest import mock

import karzhoul
from karzhoul import Event, LifecycleEvent
from karzhoul.session.reading import Reader

from ..support import HERE, ORDERS, PERSONS, PROGRAM, ManagerTest, ProgramTest, needs_program, played


class Late:
    """Raises an exception out of this file, as a handler of a signal does."""

    def __init__(self, kind: Type[Exception]) -> None:
        self.kind = kind

    def __call__(self, *_: object) -> None:
        raise self.kind("late")


def lines_of_end(work: Callable[[], object]) -> List[str]:
    """The lines of code in the traceback of the program's end, which work meets."""
    try:
        work()
    except karzhoul.ProgramEnded as ended:
        return [str(frame.line) for frame in traceback.extract_tb(ended.__traceback__)]
    raise AssertionError("the program didn't end")


@needs_program
class Callbacks(ProgramTest):
    is_done = False

    def test_what_a_callback_sets_within_a_pipeline_is_kept(self) -> None:
        def stamp(event: Event) -> None:
            event.object.name = "stamped"

        self.app.listen(stamp, LifecycleEvent.PRE_PERSIST)
        with self.em.transaction(), self.app.pipeline():
            self.em.persist(self.Person(name="Ada"))
            self.em.flush()
        self.em.clear()
        self.assertEqual(self.em.find("Person", 1).name, "stamped")  # type: ignore[union-attr]

    def refused_of_its_own(self, event: Event) -> None:
        """A callback whose own commit comes too late, once."""
        if event.object.name == "x" and not self.is_done:
            self.is_done = True
            late, first = (self.app.create_entity_manager() for _ in range(2))
            log = late.find("Person", 1)
            with first.transaction():
                first.find("Person", 1).name += "!"  # type: ignore[union-attr]
            with late.transaction():
                log.name = "late"  # type: ignore[union-attr]

    def test_work_that_is_committed_is_not_done_again(self) -> None:
        self.is_done = False
        self.committed(name="log")
        self.app.listen(self.refused_of_its_own, LifecycleEvent.POST_PERSIST)
        with self.assertRaises(karzhoul.Rollback):
            self.app.retry(lambda em: em.persist(self.Person(name="x")))
        self.is_done = False
        with self.assertRaises(karzhoul.Rollback):
            for attempt in self.em.attempts(3):
                with attempt:
                    self.em.persist(self.Person(name="x"))
        names = self.em.query("SELECT p.name FROM Person p ORDER BY p.id")
        self.assertEqual(names, ["log!!", "x", "x"])

    def test_a_commit_is_over_where_a_callback_raises(self) -> None:
        def fail(event: Event) -> None:
            raise LookupError(event.object.name)

        self.app.listen(fail, "PostPersist")  # type: ignore[arg-type]
        transaction = self.em.transaction().begin()
        self.em.persist(self.Person(name="Ada"))
        with self.assertRaises(LookupError):
            transaction.commit()
        self.assertFalse(transaction.is_active)
        with self.assertRaises(ValueError):
            self.app.listen(fail, "postPersist")  # type: ignore[arg-type]


@needs_program
class Transactions(ManagerTest):
    mapping = ORDERS

    def test_a_callback_that_raises_before_the_commit(self) -> None:
        Person = self.app.entity("Person")

        def more(event: Event) -> None:
            if event.object.name == "b":
                raise LookupError("b")
            self.em.persist(Person(name="b"))

        self.app.listen(more, LifecycleEvent.PRE_PERSIST)
        transaction = self.em.transaction()
        with self.assertRaises(LookupError), self.app.pipeline():
            transaction.begin()
            self.em.persist(Person(name="a"))
            transaction.commit()
        self.assertTrue(transaction.is_active)
        transaction.rollback()
        with self.assertRaises(LookupError), self.app.pipeline(), self.em.transaction() as again:
            self.em.persist(Person(name="b"))
        self.assertFalse(again.is_active)

    def test_the_traceback_of_an_end_names_the_call(self) -> None:
        def work() -> None:
            with self.app.begin() as em:
                self.app.program.stop()
                em.query("SELECT p FROM Person p")

        self.assertIn('em.query("SELECT p FROM Person p")', lines_of_end(work))

    def test_an_attempt_that_is_left_by_a_return_tells_its_refusal(self) -> None:
        Person = self.app.entity("Person")
        with self.em.transaction():
            self.em.persist(Person(name="Ada"))
        attempts = self.em.attempts(3)
        with next(iter(attempts)):
            self.em.find(Person, 1).name = "Bob"  # type: ignore[union-attr]
            with self.app.begin() as other:
                other.find(Person, 1).name = "Cy"  # type: ignore[union-attr]
        with self.assertRaises(karzhoul.Rollback):
            attempts.close()  # type: ignore[attr-defined]

    def test_a_kept_call_that_is_refused_is_no_end(self) -> None:
        Person, Order = self.app.entity("Person"), self.app.entity("Order")
        with self.em.transaction():
            self.em.persist(Person(name="Ada"))
        self.em.clear()
        ada = self.em.find(Person, 1)
        self.em.clear()
        transaction = self.em.transaction().begin()
        with self.assertRaises(karzhoul.IllegalState):
            with self.app.pipeline():
                ada.orders.append(Order(number=1))  # type: ignore[union-attr]
                transaction.rollback()
        self.assertTrue(transaction.is_active)
        transaction.rollback()
        self.assertFalse(transaction.is_active)

    def test_a_manager_that_is_closed_in_its_block(self) -> None:
        with self.app.create_entity_manager() as em:
            em.close()

    def test_a_collection_is_a_list(self) -> None:
        Person, Order = self.app.entity("Person"), self.app.entity("Order")
        ada = Person(orders=[Order(number=n) for n in (2, 1)])
        ada.orders.sort(key=lambda order: order.number)
        self.assertEqual([order.number for order in ada.orders], [1, 2])
        self.assertIs(type(ada.orders.copy()), list)

    def test_a_collection_of_before_a_restart(self) -> None:
        with tempfile.TemporaryDirectory() as place:
            with karzhoul.open(ORDERS, Path(place, "a.db"), program=PROGRAM) as app:
                with app.begin() as em:
                    em.persist(app.new("Person"))
                    em.persist(app.new("Order", number=1, person=em.find("Person", 1)))
                ada = app.create_entity_manager().find("Person", 1)
                orders = ada.orders  # type: ignore[union-attr]
                self.assertEqual(len(orders), 1)
                app.restart()
                with self.assertRaises(karzhoul.Restarted):
                    len(orders)


@needs_program
class Within(ProgramTest):
    def test_a_call_within_another_one_is_refused(self) -> None:
        """Of a handler of a signal, which comes while a long query is waited for."""
        person, raised = self.Person(name="Ada"), []

        def handle(*_: Any) -> None:
            try:
                person.name
            except RuntimeError as fault:
                raised.append(str(fault))

        with self.em.transaction():
            self.em.persist_all([self.Person(name=f"p{n}") for n in range(150)])
        before = signal.signal(signal.SIGALRM, handle)
        self.addCleanup(signal.signal, signal.SIGALRM, before)
        signal.setitimer(signal.ITIMER_REAL, 0.1)
        text = "SELECT COUNT(p) FROM Person p, Person q, Person r WHERE p.id < q.id AND q.id < r.id"
        self.assertEqual(self.em.query_single(text), 150 * 149 * 148 // 6)
        self.assertEqual(len(raised), 1)
        self.assertIn("reentrant call", raised[0])
        self.assertEqual(person.name, "Ada")

    def test_a_handler_that_raises_loses_no_event(self) -> None:
        """Whatever it raises, and be it while replies are read."""
        told: List[Event] = []
        self.app.listen(told.append, LifecycleEvent.POST_PERSIST)
        self.em.transaction().begin()
        for kind in (TimeoutError, ValueError, LookupError):
            ada = self.Person(name="Ada")
            self.em.persist(ada)
            with mock.patch.object(Reader, "answer", mock.Mock(side_effect=Late(kind))):
                with self.assertRaises(kind):
                    self.em.flush()
            self.assertTrue(self.em.contains(ada))
            self.assertEqual([event.object for event in told], [ada], kind)
            told.clear()

    def test_a_handler_of_a_signal_may_close(self) -> None:
        before = signal.signal(signal.SIGALRM, lambda *_: self.app.close())
        self.addCleanup(signal.signal, signal.SIGALRM, before)
        with self.em.transaction():
            self.em.persist_all([self.Person(name=f"p{n}") for n in range(300)])
        signal.setitimer(signal.ITIMER_REAL, 0.1)
        text = "SELECT COUNT(p) FROM Person p, Person q, Person r WHERE p.id < q.id AND q.id < r.id"
        with self.assertRaises(karzhoul.ProgramEnded):
            self.em.query_single(text)

    def test_an_event_of_another_kind_is_no_reply(self) -> None:
        script = '> {"call":"createEntityManager"}\n< {"events":[],"ok":1}\n'
        script += '> {"call":"begin","em":1}\n< {"events":[["PostFoo",1]],"ok":null}\n'
        script += '> {"call":"begin","em":1}\n< {"events":[],"ok":null}\n'
        with played(script, PERSONS) as app:
            em = app.create_entity_manager()
            app.listen(lambda event: None)
            with self.assertRaises(LookupError):
                em.transaction().begin()
            em.transaction().begin()

    def test_a_line_is_one_line(self) -> None:
        with self.assertRaises(ValueError):
            self.app.send_line('{"call":"createEntityManager"}\n')
        self.assertEqual(self.app.send_line('{"call":"createEntityManager"}'), 2)

    def test_an_entity_takes_no_subclass(self) -> None:
        with self.assertRaisesRegex(TypeError, "takes no subclass of your own"):

            class Mine(self.Person):  # type: ignore[name-defined,misc]
                pass

    def test_lists_are_taken_as_they_are(self) -> None:
        persons = [self.committed(name=f"p{n}") for n in range(3)]
        wanted = [person.id for person in persons]
        found: List[Any] = []
        text = "SELECT p.id FROM Person p WHERE p.id IN :ids"
        for row in self.em.iterate(text, 1, ids=wanted):
            found.append(row)
            wanted.clear()
        self.assertEqual(found, [person.id for person in persons])

    @unittest.skipUnless(hasattr(os, "fork"), "a system without forks")
    def test_a_forked_process_asks_nothing(self) -> None:
        person = self.Person(name="Ada")
        child = os.fork()
        if not child:
            status = 1
            try:
                person.name
            except karzhoul.ProgramEnded as ended:
                status = 0 if "forked" in str(ended) else 2
            finally:
                os._exit(status)
        self.assertEqual(os.waitpid(child, 0)[1], 0)
        self.assertEqual(person.name, "Ada")


@needs_program
class Ended(ProgramTest):
    def test_a_refusal_and_a_page_can_be_copied(self) -> None:
        with self.assertRaises(karzhoul.IllegalArgument) as raised:
            self.em.find("Persn", 1)
        told = raised.exception
        for made in (pickle.loads(pickle.dumps(told)), copy.deepcopy(told)):
            self.assertIs(type(made), karzhoul.IllegalArgument)
            self.assertEqual((made.word, made.line), ("IllegalArgument(entity)", told.line))
            self.assertEqual(str(made), "there is no entity 'Persn': did you mean 'Person'?")
        for n in range(3):
            self.committed(name=f"p{n}")
        page = self.em.page("SELECT p.id FROM Person p ORDER BY p.id", 1, 2, total=True)
        for again in (copy.copy(page), pickle.loads(pickle.dumps(page))):
            self.assertEqual((again, again.has_next, again.total), ([1, 2], True, 3))

    def test_the_traceback_of_an_end_does_not_grow(self) -> None:
        self.app.close()
        counts = {len(lines_of_end(lambda: self.app.new("Person"))) for _ in range(50)}
        self.assertEqual(len(counts), 1)

    def test_a_call_at_the_interpreter_s_exit(self) -> None:
        script = f"""
import atexit, sys
def last():
    files = [open(f"{{sys.argv[1]}}/{{n}}", "w+b", buffering=0) for n in range(8)]
    try:
        person.name
    except karzhoul.ProgramEnded:
        print("ended", *[open(it.name).read() for it in files], sep="")
atexit.register(last)
sys.path.insert(0, {str(HERE.parent)!r})
import karzhoul
app = karzhoul.open({json.dumps(PERSONS)}, program={PROGRAM!r})
person = app.new("Person")
"""
        with tempfile.TemporaryDirectory() as place:
            words = [sys.executable, "-c", script.replace("true", "True"), place]
            ran = subprocess.run(words, capture_output=True, text=True, timeout=100)
        self.assertEqual((ran.stdout, ran.stderr), ("ended\n", ""))


if __name__ == "__main__":
    unittest.main()
