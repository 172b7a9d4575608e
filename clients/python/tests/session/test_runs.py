"""Objects and managers of one run of the program are never those of another one."""

from __future__ import annotations

import contextlib
import random
import re
import threading
import time
import unittest
from pathlib import Path
from typing import Any, Callable, Dict, Iterator, List, Tuple
from unittest import mock

import karzhoul
from karzhoul import LifecycleEvent, Restarted
from karzhoul.objects.foresight import Foresight
from karzhoul.objects.identity import IdentityMap
from karzhoul.store.program import Exchange, Program

from ..steps import interrupted_at_step
from ..support import HERE, PERSONS, PROGRAM, FolderTest, needs_program, present

# Whose orders are a collection of it, and whose place has a key of three parts.
MAPPING: Dict[str, Any] = {
    **PERSONS,
    "entities": [
        {
            **PERSONS["entities"][0],
            "relations": [
                {"name": "orders", "kind": "oneToMany", "target": "Order", "mappedBy": "person"}
            ],
        },
        PERSONS["entities"][1],
        {
            **PERSONS["entities"][2],
            "relations": [
                {"name": "person", "kind": "manyToOne", "target": "Person", "column": 2}
            ],
        },
    ],
}
NAMES = ("Ada", "Bob", "Cyd", "Dee")


class RunsTest(FolderTest):
    """A test over a store with four persons, each with an order."""

    def setUp(self) -> None:
        super().setUp()
        self.app = karzhoul.open(MAPPING, self.place / "app.db", program=PROGRAM)
        self.addCleanup(self.app.close)
        self.Person, self.Order = self.app.entity("Person"), self.app.entity("Order")
        with self.app.begin() as manager:
            for number, name in enumerate(NAMES, 1):
                person = self.Person(name=name)
                manager.persist(person)
                manager.persist(self.Order(number=number, amount=number, person=person))
                manager.persist(self.app.new("Place", at=(number, name, b""), label=name))

    def swapped(self) -> Tuple[karzhoul.EntityManager, Any, Any]:
        """A manager with Ada, and Bob, who has Ada's number after a restart."""
        self.app.restart()
        manager = self.app.create_entity_manager()
        ada, bob = present(manager, "Person", 1), present(manager, "Person", 2)
        self.assertEqual((ada._karzhoul_number, bob._karzhoul_number), (1, 2))
        return manager, ada, bob

    def restart_as_bob(self) -> Any:
        """Restarts, and finds Bob, who gets the number that Ada had."""
        self.app.restart()
        self.again = self.app.create_entity_manager()
        bob = present(self.again, "Person", 2)
        self.assertEqual((self.again.number, bob._karzhoul_number), (1, 1))
        return bob

    def names(self) -> List[Any]:
        """What is stored."""
        with self.app.begin() as manager:
            return list(manager.query("SELECT p.name FROM Person p ORDER BY p.id"))


@needs_program
class Waiting(RunsTest):
    """A call that waits for its turn while another thread restarts is sent to no other object."""

    def waits(self, call: Callable[[], Any]) -> BaseException:
        """What is raised by a call that another thread makes, and that is sent after a restart."""
        raised: List[BaseException] = []

        def work() -> None:
            try:
                told = call()
                raised.append(AssertionError(f"it was done: {told!r}"))
            except BaseException as fault:
                raised.append(fault)

        with self.app._lock:
            thread = threading.Thread(target=work)
            thread.start()
            time.sleep(0.05)  # So that it has spelled its line, and waits.
            self.restart_as_bob()
        thread.join()
        return raised[0]

    def test_each_call_of_an_object_or_a_manager(self) -> None:
        calls: Dict[str, Callable[[karzhoul.EntityManager, Any], Any]] = {
            "get": lambda em, ada: ada.name,
            "set": lambda em, ada: setattr(ada, "name", "Eve"),
            "factory.get": lambda em, ada: self.app.get(ada, "name"),
            "factory.get_many": lambda em, ada: self.app.get_many([ada], "name"),
            "factory.get_members": lambda em, ada: self.app.get_members(ada, ["name"]),
            "factory.set": lambda em, ada: self.app.set(ada, "name", "Eve"),
            "collection": lambda em, ada: list(ada.orders),
            "append": lambda em, ada: ada.orders.append(ada),
            "take_out": lambda em, ada: self.app.take_out(ada, "orders", ada),
            "find": lambda em, ada: em.find("Person", 3),
            "find_many": lambda em, ada: em.find_many("Person", [3, 4]),
            "get_reference": lambda em, ada: em.get_reference("Person", 3),
            "persist": lambda em, ada: em.persist(ada),
            "persist_all": lambda em, ada: em.persist_all([ada]),
            "remove": lambda em, ada: em.remove(ada),
            "refresh": lambda em, ada: em.refresh(ada),
            "detach": lambda em, ada: em.detach(ada),
            "merge": lambda em, ada: em.merge(ada),
            "contains": lambda em, ada: em.contains(ada),
            "lock": lambda em, ada: em.lock(ada, karzhoul.LockModeType.OPTIMISTIC),
            "fetch": lambda em, ada: em.fetch([ada], "orders"),
            "query": lambda em, ada: em.query("SELECT p.name FROM Person p"),
            "query of an object": lambda em, ada: em.query(
                "SELECT o FROM Order o WHERE o.person = :p", p=ada
            ),
            "execute_update": lambda em, ada: em.execute_update("DELETE FROM Order o"),
            "iterate": lambda em, ada: list(em.iterate("SELECT p FROM Person p")),
            "clear": lambda em, ada: em.clear(),
            "flush": lambda em, ada: em.flush(),
            "set_flush_mode": lambda em, ada: em.set_flush_mode(karzhoul.FlushModeType.COMMIT),
            "begin": lambda em, ada: em.transaction().begin(),
            "commit": lambda em, ada: em.transaction().commit(),
            "set_rollback_only": lambda em, ada: em.transaction().set_rollback_only(),
            "send_line": lambda em, ada: self.app.send_line(
                '{"call":"set","object":1,"name":"name","value":"Eve"}'
            ),
            "ask": lambda em, ada: self.app.ask("get", object="1", name='"name"'),
        }
        for name, call in calls.items():
            with self.subTest(name):
                manager, ada, _ = self.swapped()
                fault = self.waits(lambda: call(manager, ada))
                self.assertIsInstance(fault, Restarted, repr(fault))
                self.assertIn("of before a restart", str(fault))
        self.assertEqual(self.names(), list(NAMES))

    def test_an_embedded_id(self) -> None:
        calls: List[Callable[[Any], Any]] = [
            lambda place: place.at.shelf,
            lambda place: tuple(place.at),
            lambda place: setattr(place, "at", (9, "Eve", b"")),
            lambda place: setattr(place.at, "shelf", "Eve"),
        ]
        for call in calls:
            self.app.restart()
            place = self.app.new("Place")
            fault = self.waits(lambda: call(place))
            self.assertIsInstance(fault, Restarted, repr(fault))

    def test_a_set_is_not_done_to_another_object_and_committed(self) -> None:
        _, ada, _ = self.swapped()
        self.assertIsInstance(self.waits(lambda: setattr(ada, "name", "Eve")), Restarted)
        with self.again.transaction():  # Bob is managed here.
            pass
        self.assertEqual(self.names(), list(NAMES))

    def test_a_pipeline_that_waits(self) -> None:
        _, ada, _ = self.swapped()

        def work() -> None:
            with self.app.pipeline():
                ada.name = "Eve"

        self.assertIsInstance(self.waits(work), Restarted)
        self.assertEqual(self.names(), list(NAMES))

    def test_new_objects_and_managers_name_nothing_of_before(self) -> None:
        """So what makes them waits, and they are of the next run."""
        told: List[Any] = []
        makes: List[Callable[[], Any]] = [
            lambda: told.append(self.app.new("Person", name="Eve").name),
            lambda: told.append(self.app.new_many("Person", [{"name": "Eve"}])[0].name),
            lambda: told.append(present(self.app.create_entity_manager(), "Person", 3).name),
        ]
        for make in makes:
            self.app.restart()
            self.assertIn("it was done", str(self.waits(make)))
        self.assertEqual(told, ["Eve", "Eve", "Cyd"])


@needs_program
class Within(RunsTest):
    """Restarts by a callback, in the middle of what is several calls."""

    done = False

    def restarts_at(self, kind: LifecycleEvent) -> None:
        def callback(event: karzhoul.Event) -> None:
            if not self.done:
                self.done = True
                self.restart_as_bob()

        self.app.listen(callback, kind)

    def test_calls_after_a_callback_that_restarts(self) -> None:
        """A callback of the first call restarts, and the second isn't done to another object."""
        manager, ada, _ = self.swapped()
        self.restarts_at(LifecycleEvent.PRE_PERSIST)
        eve = self.Person(name="Eve")
        with self.assertRaises(Restarted):
            with manager.transaction():
                manager.persist(eve)
                ada.name = "Eve"
        self.assertEqual(self.names(), list(NAMES))

    def test_what_a_call_answers_is_of_its_own_run(self) -> None:
        self.app.restart()
        manager = self.app.create_entity_manager()
        self.restarts_at(LifecycleEvent.POST_LOAD)
        ada = manager.find("Person", 1)
        self.assertTrue(self.done)
        with self.assertRaises(Restarted):
            assert ada is not None
            ada.name = "Eve"
        self.assertEqual(self.names(), list(NAMES))

    def test_kept_calls_are_sent_before_a_restart(self) -> None:
        """Their refusal is raised, and what comes after is of another run."""
        _, ada, _ = self.swapped()
        with self.assertRaises(karzhoul.IllegalArgument):
            with self.app.pipeline():
                ada.name = 7
                self.app.restart()
        with self.assertRaises(Restarted):
            with self.app.pipeline():
                self.app.restart()
                ada.name = "Eve"
        self.assertEqual(self.names(), list(NAMES))


@needs_program
class Together(RunsTest):
    """Things of two runs in one line."""

    def test_each_way_to_name_two(self) -> None:
        manager, ada, _ = self.swapped()
        order = present(manager, "Order", 1)
        bob, again = self.restart_as_bob(), self.again
        other = present(again, "Order", 2)
        calls: List[Callable[[], Any]] = [
            lambda: setattr(other, "person", ada),
            lambda: setattr(order, "person", bob),
            lambda: bob.orders.append(order),
            lambda: ada.orders.append(other),
            lambda: ada.orders.remove(other),
            lambda: again.persist(ada),
            lambda: manager.persist(bob),
            lambda: again.persist_all([bob, ada]),
            lambda: again.merge(ada),
            lambda: manager.merge(bob),
            lambda: again.query("SELECT o FROM Order o WHERE o.person = :p", p=ada),
            lambda: again.query("SELECT o FROM Order o WHERE o.person IN :p", p=[bob, ada]),
            lambda: manager.query("SELECT o FROM Order o WHERE o.person = :p", p=bob),
            lambda: self.app.get_many([bob, ada], "name"),
            lambda: self.app.get_many([ada, bob], "name"),
            lambda: again.fetch([bob, ada], "orders"),
            lambda: self.app.new_many("Order", [{"person": bob}, {"person": ada}]),
        ]
        for call in calls:
            with self.assertRaises(Restarted):
                call()
        with self.app.pipeline():
            bob.name = "Bob"
            with self.assertRaises(Restarted):
                ada.name = "Eve"
        self.assertEqual(self.names(), list(NAMES))

    def test_an_object_of_another_factory(self) -> None:
        with karzhoul.open(MAPPING, program=PROGRAM) as other:
            eve = other.new("Person", name="Eve")
            bob = self.restart_as_bob()
            calls: List[Callable[[], Any]] = [
                lambda: self.again.persist(eve),
                lambda: self.app.get(eve, "name"),
                lambda: bob.orders.append(eve),
            ]
            for call in calls:
                with self.assertRaisesRegex(ValueError, "no object of this factory"):
                    call()

    def test_what_is_shown_of_before(self) -> None:
        _, ada, _ = self.swapped()
        orders = ada.orders
        self.assertEqual(len(orders), 1)
        self.restart_as_bob()
        self.assertEqual(repr(ada), "<Person #1>")
        with self.assertRaises(Restarted):
            len(orders)

    def test_what_was_read_before(self) -> None:
        """It isn't told from then on, since it may have changed."""
        manager, ada, _ = self.swapped()
        self.assertEqual((ada.name, ada.name, ada.id), ("Ada", "Ada", 1))
        self.restart_as_bob()
        reads: List[Callable[[], Any]] = [
            lambda: ada.name,
            lambda: self.app.get(ada, "name"),
            lambda: self.app.get_members(ada, ["name", "id"]),
            lambda: self.app.get_many([ada, ada], "name"),
        ]
        for read in reads:
            with self.assertRaisesRegex(Restarted, "object 1 is of before a restart: make or find"):
                read()
        with self.assertRaisesRegex(Restarted, "manager 1 is of before a restart: create another"):
            manager.find("Person", 1)

    def test_a_refusal_of_before_is_explained_by_no_object_of_now(self) -> None:
        manager, ada, _ = self.swapped()
        with self.assertRaises(karzhoul.Refused) as raised:
            with manager.transaction():
                manager.persist(self.Order(amount=1, number=1))
        before = raised.exception.explain()
        self.restart_as_bob()
        after = raised.exception.explain()
        self.assertIn("Order 1", before)
        self.assertNotIn("Person", after)
        self.assertNotIn("Order 1", after)


@needs_program
class Many(RunsTest):
    """Eight threads, and a restart at any moment."""

    RESTARTS = 400

    def test_no_value_of_another_object_is_read_or_written(self) -> None:
        self.many(True)

    def test_none_that_is_read_with_its_find(self) -> None:
        """Without a callback: so the values of what is found are asked for with it."""
        foresight = self.Person._karzhoul_foresight
        taken: List[bool] = []
        one_shown = IdentityMap.one_shown

        def noted(objects: IdentityMap, *given: Any) -> Any:
            found = one_shown(objects, *given)
            taken.append(found is not None)
            return found

        shown = mock.patch.object(IdentityMap, "one_shown", noted)
        with mock.patch.object(Foresight, "note"), shown:
            foresight.is_on = True
            self.many(False)
        self.assertGreater(taken.count(True), 100)

    def many(self, are_heard: bool) -> None:
        found: List[str] = []
        counts = dict.fromkeys(("done", "Restarted"), 0)
        is_over = threading.Event()
        works = [self.by_set, self.by_pipeline, self.by_collection, self.by_query]
        works += [self.by_reading] * 4
        heard: List[str] = []

        def callback(event: karzhoul.Event) -> None:
            with contextlib.suppress(Restarted):
                is_person = type(event.object) is self.Person
                if is_person and event.object.name.rstrip("0123456789") not in NAMES:
                    heard.append(f"{event.kind} {event.object.name}")

        if are_heard:
            self.app.listen(callback, LifecycleEvent.POST_LOAD, LifecycleEvent.POST_UPDATE)

        def work(place: int) -> None:
            chance = random.Random(place)
            while not is_over.is_set():
                try:
                    works[place % len(works)](chance, found)
                    counts["done"] += 1
                except Restarted:
                    counts["Restarted"] += 1
                except karzhoul.Limit:  # As where restarts leave managers open.
                    pass
                except karzhoul.Rollback as refused:  # Another one was first.
                    if not isinstance(refused.cause, karzhoul.OptimisticLock):
                        found.append(repr(refused))
                except Exception as fault:
                    found.append(repr(fault))
                    is_over.set()

        threads = [threading.Thread(target=work, args=(place,)) for place in range(8)]
        for thread in threads:
            thread.start()
        programs = {self.app.program.pid}
        restarts, latest = 0, time.monotonic() + 300
        while not is_over.is_set() and time.monotonic() < latest:
            if restarts >= self.RESTARTS and min(counts.values()) > 100:
                break  # On a busy machine it takes more of them.
            # Where restarts leave no time to work, they come later.
            most = 0.01 if counts["done"] * 4 > restarts else 0.2
            time.sleep(random.uniform(0, most))
            self.app.restart()
            programs.add(self.app.program.pid)
            restarts += 1
        is_over.set()
        for thread in threads:
            thread.join()
        self.assertEqual((found, heard), ([], []))
        self.assertGreater(counts["done"], 100)
        self.assertGreater(counts["Restarted"], 100)
        # Some were done by the program itself, and some by another one, as transactions were open.
        self.assertGreater(len(programs), restarts // 50)
        self.assertLess(len(programs), restarts - restarts // 50)
        stored = [re.sub("[0-9]+$", "", name) for name in self.names()]
        self.assertEqual(stored, list(NAMES))

    def drawn(self, chance: random.Random, manager: karzhoul.EntityManager) -> Tuple[str, Any]:
        key = chance.randrange(len(NAMES))
        return NAMES[key], present(manager, "Person", key + 1)

    def by_reading(self, chance: random.Random, found: List[str]) -> None:
        """Without a transaction, which would hold off a restart by the program itself."""
        with self.app.create_entity_manager() as manager:
            for _ in range(3):
                name, person = self.drawn(chance, manager)
                names = [person.name, *self.app.get_many([person], "name")]
                names += [order.person.name for order in person.orders]
                if {each.rstrip("0123456789") for each in names} != {name}:
                    found.append(f"{names} were read, and not {name}")
            manager.detach(person)
            person.name = "Eve"  # Of what is detached nothing is stored.

    def by_set(self, chance: random.Random, found: List[str]) -> None:
        with self.app.begin() as manager:
            for _ in range(3):
                name, person = self.drawn(chance, manager)
                if not person.name.startswith(name):
                    found.append(f"{person.name} was read, and not {name}")
                person.name = f"{name}{chance.randrange(100)}"

    def by_pipeline(self, chance: random.Random, found: List[str]) -> None:
        with self.app.begin() as manager:
            drawn = [self.drawn(chance, manager) for _ in range(3)]
            with self.app.pipeline():
                for name, person in drawn:
                    person.name = f"{name}{chance.randrange(100)}"
                    manager.lock(person, karzhoul.LockModeType.WRITE)

    def by_collection(self, chance: random.Random, found: List[str]) -> None:
        with self.app.begin() as manager:
            key = chance.randrange(len(NAMES))
            person = present(manager, "Person", key + 1)
            numbers = [order.number for order in person.orders]
            if numbers != [key + 1]:
                found.append(f"the orders {numbers} were read, and not {key + 1}")
            person.orders.remove(person.orders[0])
            person.orders.append(present(manager, "Order", key + 1))
            shelf = present(manager, "Place", (key + 1, NAMES[key], b"")).at.shelf
            if shelf != NAMES[key]:
                found.append(f"the shelf {shelf} was read, and not {NAMES[key]}")

    def by_query(self, chance: random.Random, found: List[str]) -> None:
        with self.app.begin() as manager:
            name, person = self.drawn(chance, manager)
            text = "SELECT o.person.name FROM Order o WHERE o.person = :person"
            names = manager.query(text, person=person)
            if [each.rstrip("0123456789") for each in names] != [name]:
                found.append(f"{names} were found, and not {name}")
            merged = manager.merge(person)
            if not merged.name.startswith(name):
                found.append(f"{merged.name} was merged, and not {name}")


@needs_program
class ByCall(RunsTest):
    """A restart that the program does itself."""

    def test_the_program_goes_on(self) -> None:
        pid = self.app.program.pid
        self.app.restart()
        for _ in range(3):
            managers = [self.app.create_entity_manager() for _ in range(16)]
            self.assertEqual([each.number for each in managers], list(range(1, 17)))
            eve = self.Person(name="Eve")
            self.assertEqual((eve._karzhoul_number, self.app.statistics().made), (1, 1))
            self.app.restart()
            self.assertEqual(self.app.statistics().made, 0)
        self.assertEqual(self.app.program.pid, pid)
        self.assertEqual(self.names(), list(NAMES))

    def test_callbacks_and_classes_stay(self) -> None:
        told: List[Any] = []
        self.app.listen(lambda event: told.append(event.object.name), LifecycleEvent.POST_LOAD)
        self.app.restart()
        with self.app.begin() as manager:
            self.assertIsInstance(manager.find("Person", 1), self.Person)
        self.assertEqual(told, ["Ada"])

    def test_what_is_not_committed_is_gone(self) -> None:
        """Where a transaction is open the program is started again."""
        pid, manager = self.app.program.pid, self.app.create_entity_manager()
        with self.assertRaises(Restarted):
            with manager.transaction():
                present(manager, "Person", 1).name = "Eve"
                manager.flush()
                self.app.restart()
        self.assertNotEqual(self.app.program.pid, pid)
        self.assertFalse(manager.transaction().is_active)
        self.assertEqual(self.names(), list(NAMES))

    def test_a_program_that_has_ended(self) -> None:
        self.app.program._process.kill()
        with self.assertRaises(karzhoul.ProgramEnded):
            self.names()
        self.app.restart()
        self.assertEqual(self.names(), list(NAMES))

    def test_a_program_that_does_not_restart_itself(self) -> None:
        """It is started again."""
        pid = self.app.program.pid
        with mock.patch.object(self.app, "ask_restart", mock.Mock(side_effect=karzhoul.BadLine)):
            self.app.restart()
        self.assertNotEqual(self.app.program.pid, pid)
        self.assertEqual(self.names(), list(NAMES))

    def test_no_generated_key_is_given_twice(self) -> None:
        """Also none that a transaction had taken which was rolled back."""
        manager = self.app.create_entity_manager()
        manager.transaction().begin()
        eve = self.Person(name="Eve")
        manager.persist(eve)
        taken = eve.id
        manager.transaction().rollback()
        self.app.restart()
        with self.app.begin() as manager:
            eve = self.Person(name="Eve")
            manager.persist(eve)
            self.assertGreater(eve.id, taken)

    def test_a_line_of_one_s_own(self) -> None:
        """It is known to restart, however it is written."""
        restarts: List[Callable[[], Any]] = [
            lambda: self.app.send_line(' { "call" : "\\u0072estart" } '),
            lambda: self.app.ask("restart"),
        ]
        for restart in restarts:
            _, ada, _ = self.swapped()
            self.assertIsNone(restart())
            self.again = self.app.create_entity_manager()
            present(self.again, "Person", 2)
            with self.assertRaises(Restarted):
                ada.name = "Eve"
            with self.again.transaction():
                with self.assertRaises(karzhoul.IllegalState):
                    restart()
        self.assertEqual(self.names(), list(NAMES))

    def test_an_interrupt_at_any_step(self) -> None:
        """Ada is herself, or `Restarted`, and another call restarts."""
        done = 0
        for step in range(1, 400):
            _, ada, _ = self.swapped()
            if not interrupted_at_step(step, self.app.restart):
                break
            bob = present(self.app.create_entity_manager(), "Person", 2)
            self.assertEqual(bob.name, "Bob")
            try:
                self.assertEqual(ada.name, "Ada")
            except Restarted:
                done += 1
        else:
            self.fail("a restart has more steps")
        self.assertGreater(step, 10)
        self.assertGreater(done, 3)
        self.assertEqual(self.names(), list(NAMES))


MAY_ASK = {"cli/shell.py", "session/calls.py"}


@needs_program
class Lines(RunsTest):
    """The one place that sends."""

    def test_each_line_that_names_something_comes_with_its_run(self) -> None:
        named = re.compile(rb'"(em|object|member)":[0-9]')
        replies = Program.replies
        seen = {True: 0, False: 0}

        def checked(program: Program, calls: Exchange, timeout: Any = None) -> List[bytes]:
            for line in calls.lines:
                names = named.search(line) is not None
                seen[names] += 1
                if names:
                    self.assertIsNotNone(calls.run, line)
            return replies(program, calls, timeout)

        with mock.patch.object(Program, "replies", checked):
            with self.app.begin() as manager, self.app.pipeline():
                ada = present(manager, "Person", 1)
                eve, *_ = self.app.new_many("Person", [{"name": "Eve"}])
                manager.persist_all([eve])
                ada.orders.append(present(manager, "Order", 1))
                manager.merge(ada)
                manager.query("SELECT o FROM Order o WHERE o.person = :p", p=ada)
                place: Any = self.app.new("Place", at=(8, "x", b""), label="")
                manager.persist(place)
        self.assertGreater(seen[True], 10)
        self.assertGreater(seen[False], 2)

    def test_only_the_prompt_asks_by_numbers_that_were_typed(self) -> None:
        """Everything else sends a line with the run of what it names."""
        for path in sorted(Path(HERE.parent, "karzhoul").rglob("*.py")):
            # (A server has an `ask` of its own, in numbers of the program.)
            place = f"{path.parent.name}/{path.name}"
            if place not in MAY_ASK and path.parent.name != "server":
                text = path.read_text(encoding="utf-8")
                self.assertNotRegex(text, r"\.(ask|send_line)\(", path.name)


if __name__ == "__main__":
    unittest.main()
