"""Callbacks that run before a flush writes: what they set, raise, persist and remove is in the
flush that they come before."""

from __future__ import annotations

import contextlib
import sys
import threading
import unittest
from pathlib import Path
from typing import Any, Callable, List, Optional, Tuple

import karzhoul
from karzhoul import Event, LifecycleEvent

from ..support import ORDERS, ManagerTest, counted, needs_program, present

PRE_PERSIST, PRE_UPDATE = LifecycleEvent.PRE_PERSIST, LifecycleEvent.PRE_UPDATE
PRE_REMOVE, POST_UPDATE = LifecycleEvent.PRE_REMOVE, LifecycleEvent.POST_UPDATE


class Desk(ManagerTest):
    """A person and her two orders, which are stored, and what callbacks heard of."""

    mapping = ORDERS

    def setUp(self) -> None:
        super().setUp()
        self.Person, self.Order = self.app.entity("Person"), self.app.entity("Order")
        with self.app.begin() as manager:
            self.order(manager, self.person(manager, "Ada"), 10, 11)
        self.ada = present(self.em, self.Person, 1)
        self.told: List[Tuple[str, Any]] = []

    def person(self, manager: karzhoul.EntityManager, name: str) -> Any:
        made = self.Person(name=name)
        manager.persist(made)
        return made

    def order(self, manager: karzhoul.EntityManager, person: Any, *numbers: int) -> None:
        for number in numbers:
            made = self.Order(number=number, amount=1, person=person)
            person.orders.append(made)
            manager.persist(made)

    def on(self, kind: LifecycleEvent, work: Callable[[Any], object]) -> None:
        """Has an event's object handed to work, once it is written down that it came."""

        def heard(event: Event) -> None:
            self.told.append((event.kind.value, event.object))
            work(event.object)

        self.app.listen(heard, kind)

    def stored(self) -> List[List[Any]]:
        """The name and version of each person that is committed, and the orders' numbers."""
        with self.app.create_entity_manager() as other:
            persons = other.query("SELECT p.name, p.version FROM Person p ORDER BY p.id")
            orders = other.query("SELECT o.number FROM Order o ORDER BY o.number")
        return [list(row) for row in persons] + [list(orders)]


@needs_program
class Sets(Desk):
    def test_it_is_in_the_same_commit(self) -> None:
        def shout(person: Any) -> None:
            person.name += "!"

        self.on(PRE_UPDATE, shout)
        with self.em.transaction():
            self.ada.name = "Bob"
        self.assertEqual(self.stored(), [["Bob!", 1], [10, 11]])
        for _ in range(3):  # Nothing is left for the next ones.
            with self.em.transaction():
                pass
        self.assertEqual(self.stored(), [["Bob!", 1], [10, 11]])
        self.assertEqual(self.told, [("PreUpdate", self.ada)])
        self.assertEqual((self.ada.name, self.ada.version), ("Bob!", 1))

    def test_it_is_in_the_flush(self) -> None:
        self.on(PRE_UPDATE, lambda person: setattr(person, "name", "Eve"))
        transaction = self.em.transaction().begin()
        self.ada.name = "Bob"
        self.em.flush()
        self.assertEqual(self.ada.version, 1)
        self.em.refresh(self.ada)
        self.assertEqual((self.ada.name, self.ada.version), ("Eve", 1))
        transaction.commit()
        self.assertEqual(self.stored(), [["Eve", 1], [10, 11]])
        self.assertEqual(len(self.told), 1)

    def test_what_a_flush_reaches_by_a_cascade(self) -> None:
        self.on(PRE_PERSIST, lambda order: setattr(order, "amount", order.number * 2))
        with self.em.transaction():
            order = self.Order(number=12, person=self.ada)
            self.ada.orders.append(order)
        self.assertEqual(self.told, [("PrePersist", order)])
        with self.app.create_entity_manager() as other:
            self.assertEqual(present(other, self.Order, 12).amount, 24)

    def test_before_a_query(self) -> None:
        self.on(PRE_UPDATE, lambda person: setattr(person, "name", person.name + "!"))
        names = "SELECT p.name FROM Person p"
        update = "UPDATE Order o SET o.amount = 5 WHERE o.person.name = :name"
        asked: List[Callable[[str], Any]] = [
            lambda name: self.em.query(names)[0],
            lambda name: self.em.query_single(names),
            lambda name: self.em.one_or_none(names),
            lambda name: self.em.first(names),
            lambda name: self.em.scalars(names)[0],
            lambda name: self.em.page(names, 1, 5, total=True)[0],
            lambda name: next(iter(self.em.iterate(names))),
            lambda name: self.em.execute_update(update, name=name) and name,
        ]
        for place, ask in enumerate(asked):
            with self.subTest(place), self.em.transaction() as transaction:
                self.told.clear()
                ada = present(self.em, self.Person, 1)
                ada.name = f"Bob {place}"
                self.assertEqual(ask(f"Bob {place}!"), f"Bob {place}!")
                self.assertEqual(self.told, [("PreUpdate", ada)])
                transaction.rollback()
        self.assertEqual(self.stored(), [["Ada", 0], [10, 11]])

    def test_a_query_that_does_not_flush(self) -> None:
        self.on(PRE_UPDATE, lambda person: None)
        self.ada.name = "Bob"
        with counted(self.app) as sent:
            self.em.query("SELECT p.name FROM Person p")
            self.em.set_flush_mode(karzhoul.FlushModeType.COMMIT)
            with self.em.transaction() as transaction:
                self.em.query("SELECT p.name FROM Person p")
                transaction.rollback()
        self.assertEqual([line for line in sent if b"pending" in line], [])
        self.assertEqual(self.told, [])
        self.em.set_flush_mode(karzhoul.FlushModeType.AUTO)
        with self.em.transaction():
            present(self.em, self.Person, 1).name = "Eve"
            self.em.query("SELECT p.name FROM Person p")
            self.assertEqual(len(self.told), 1)

    def test_within_a_pipeline(self) -> None:
        self.on(PRE_UPDATE, lambda person: setattr(person, "name", person.name + "!"))
        with self.app.pipeline(), self.em.transaction():
            self.ada.name = "Bob"
        with self.em.transaction(), self.app.pipeline():
            self.ada.name = "Cy"
        self.assertEqual(self.stored(), [["Cy!", 2], [10, 11]])

    def test_what_a_callback_sets_wrongly_within_a_pipeline(self) -> None:
        self.on(PRE_UPDATE, lambda person: setattr(person, "name", 7))
        with self.assertRaises(karzhoul.IllegalArgument):
            with self.app.pipeline(), self.em.transaction():
                self.ada.name = "Bob"
        self.assertEqual(self.stored(), [["Ada", 0], [10, 11]])

    def test_by_each_way_to_a_commit(self) -> None:
        self.on(PRE_UPDATE, lambda person: setattr(person, "name", person.name + "!"))

        def rename(manager: karzhoul.EntityManager) -> None:
            person = present(manager, self.Person, 1)
            person.name = f"Bob {person.version}"

        with self.app.begin() as manager:
            rename(manager)
        self.app.retry(rename)
        for attempt in self.em.attempts(2):
            with attempt:
                self.em.refresh(self.ada)
                rename(self.em)
        self.em.transaction().begin()
        rename(self.em)
        self.em.transaction().commit()
        self.assertEqual(self.stored(), [["Bob 3!", 4], [10, 11]])
        self.assertEqual(len(self.told), 4)

    def test_an_object_of_another_manager_is_not_in_this_commit(self) -> None:
        other = self.app.create_entity_manager()
        hers = present(other, self.Person, 1)

        def rename(person: Any) -> None:
            if person is self.ada:
                hers.name = "Eve"

        self.on(PRE_UPDATE, rename)
        with self.em.transaction():
            self.ada.name = "Bob"
        self.assertEqual(self.stored(), [["Bob", 1], [10, 11]])
        self.assertEqual(hers.name, "Eve")


@needs_program
class Raises(Desk):
    def raise_on(self, kind: LifecycleEvent) -> None:
        def refuse(_: Any) -> None:
            raise LookupError(kind.value)

        self.on(kind, refuse)

    def test_nothing_is_written_and_the_block_rolls_back(self) -> None:
        self.raise_on(PRE_UPDATE)
        with counted(self.app) as sent:
            with self.assertRaises(LookupError), self.em.transaction():
                self.ada.name = "Bob"
            with self.assertRaises(LookupError), self.app.begin() as manager:
                present(manager, self.Person, 1).name = "Bob"
        self.assertEqual([line for line in sent if b'"commit"' in line or b'"flush"' in line], [])
        self.assertFalse(self.em.transaction().is_active)
        self.assertEqual(self.stored(), [["Ada", 0], [10, 11]])

    def test_the_transaction_is_open_as_before(self) -> None:
        self.raise_on(PRE_UPDATE)
        transaction = self.em.transaction().begin()
        self.ada.name = "Bob"
        for _ in range(2):
            with self.assertRaises(LookupError):
                transaction.commit()
            self.assertTrue(transaction.is_active)
        with self.assertRaises(LookupError):
            self.em.flush()
        with self.assertRaises(LookupError):
            self.em.query("SELECT p FROM Person p")
        self.assertEqual(self.ada.version, 0)
        self.ada.name = "Ada"
        transaction.commit()
        self.assertEqual(self.stored(), [["Ada", 0], [10, 11]])

    def test_nothing_runs_after_it(self) -> None:
        self.raise_on(PRE_UPDATE)
        self.on(PRE_UPDATE, lambda _: self.fail("it ran"))
        bob = self.person(self.em, "Bob")
        with self.em.transaction():
            pass
        with self.assertRaises(LookupError), self.em.transaction():
            bob.name, self.ada.name = "B", "A"
        self.assertEqual(len(self.told), 1)

    def test_a_removal(self) -> None:
        self.raise_on(PRE_REMOVE)
        order = self.ada.orders[0]
        with self.assertRaises(LookupError), self.em.transaction():
            self.ada.orders.remove(order)
        self.assertEqual(self.told, [("PreRemove", order)])
        self.assertEqual(self.stored(), [["Ada", 0], [10, 11]])

    def test_what_persist_is_refused_is_not_stored_where_that_is_caught(self) -> None:
        """Chapter 3.5: what a callback throws within a transaction marks it."""
        self.raise_on(PRE_PERSIST)

        def each_alone(manager: karzhoul.EntityManager) -> None:
            with self.assertRaises(LookupError):
                manager.persist(self.Person(name="Bob"))

        def together(manager: karzhoul.EntityManager) -> None:
            with self.assertRaises(LookupError):
                manager.persist_all([self.Person(name="Bob"), self.Person(name="Cy")])

        def in_a_pipeline(manager: karzhoul.EntityManager) -> None:
            with self.assertRaises(LookupError), self.app.pipeline():
                manager.persist(self.Person(name="Bob"))

        def copied(manager: karzhoul.EntityManager) -> None:
            with self.assertRaises(LookupError):
                manager.merge(self.Person(name="Bob"))

        for work in (each_alone, together, in_a_pipeline, copied):
            for manager in (None, self.em):
                with self.assertRaises(karzhoul.Rollback) as raised:
                    self.in_transaction(manager, work)
                self.assertEqual(raised.exception.word, "Rollback(marked)")
                self.assertIn("refused: LookupError('PrePersist') of ", str(raised.exception))
                self.assertEqual(self.stored(), [["Ada", 0], [10, 11]])

    def in_transaction(
        self, manager: Optional[karzhoul.EntityManager],
        work: Callable[[karzhoul.EntityManager], None],
    ) -> None:
        """Does work in a transaction of a manager, or without one in a `retry`."""
        if manager is None:
            self.app.retry(work)
            return
        with manager.transaction():
            work(manager)

    def test_a_removal_that_is_refused_is_not_done_where_that_is_caught(self) -> None:
        self.raise_on(PRE_REMOVE)
        with self.assertRaises(karzhoul.Rollback) as raised, self.app.begin() as manager:
            with self.assertRaises(LookupError):
                manager.remove(present(manager, self.Order, 10))
        self.assertIn("refused: LookupError('PreRemove') of ", str(raised.exception))
        self.assertEqual(self.stored(), [["Ada", 0], [10, 11]])

    def test_the_next_transaction_is_not_marked(self) -> None:
        self.raise_on(PRE_PERSIST)
        with self.assertRaises(LookupError), self.em.transaction():
            self.em.persist(self.Person(name="Bob"))
        with self.em.transaction():
            present(self.em, self.Person, 1).name = "Eve"
        self.assertEqual(self.stored(), [["Eve", 1], [10, 11]])

    def test_it_is_not_done_again(self) -> None:
        self.raise_on(PRE_UPDATE)

        def rename(manager: karzhoul.EntityManager) -> None:
            present(manager, self.Person, 1).name = "Bob"

        with self.assertRaises(LookupError):
            self.app.retry(rename)
        with self.assertRaises(LookupError):
            for attempt in self.em.attempts(3):
                with attempt:
                    rename(self.em)
        self.assertEqual(len(self.told), 2)

    def test_another_commit_that_came_first_is_done_again(self) -> None:
        def change(person: Any) -> None:
            if len(self.told) == 1:
                raise karzhoul.Rollback("OptimisticLock")

        self.on(PRE_UPDATE, change)
        self.app.retry(lambda manager: setattr(manager.find(self.Person, 1), "name", "Bob"))
        self.assertEqual(self.stored(), [["Bob", 1], [10, 11]])
        self.assertEqual(len(self.told), 2)

    def test_an_interrupt_in_a_callback(self) -> None:
        def interrupt(_: Any) -> None:
            if len(self.told) == 1:
                raise KeyboardInterrupt

        self.on(PRE_UPDATE, interrupt)
        transaction = self.em.transaction().begin()
        self.ada.name = "Bob"
        with self.assertRaises(KeyboardInterrupt):
            transaction.commit()
        self.assertTrue(transaction.is_active)
        transaction.commit()  # It is another flush.
        self.assertEqual(len(self.told), 2)
        self.assertEqual(self.stored(), [["Bob", 1], [10, 11]])

    def test_what_a_callback_raises_behind_a_commit(self) -> None:
        self.raise_on(POST_UPDATE)
        with self.assertRaises(LookupError), self.em.transaction():
            self.ada.name = "Bob"
        self.assertEqual(self.stored(), [["Bob", 1], [10, 11]])


@needs_program
class Calls(Desk):
    def test_it_persists_and_removes_others(self) -> None:
        with self.em.transaction():
            zoe = self.person(self.em, "Zoe")

        def replace(person: Any) -> None:
            self.em.persist(self.Person(name="Eve"))
            self.em.remove(zoe)
            person.orders.append(self.Order(number=12, person=person))

        self.on(PRE_UPDATE, replace)
        with self.em.transaction():
            self.ada.name = "Bob"
        self.assertEqual(self.stored(), [["Bob", 1], ["Eve", 0], [10, 11, 12]])

    def test_the_events_of_its_own_calls_come_before_the_write(self) -> None:
        eve = self.Person(name="Eve")
        self.on(PRE_UPDATE, lambda person: self.em.persist(eve))
        self.on(PRE_PERSIST, lambda person: setattr(person, "name", "Eve!"))
        with self.em.transaction():
            self.ada.name = "Bob"
        self.assertEqual(self.told, [("PreUpdate", self.ada), ("PrePersist", eve)])
        self.assertEqual(self.stored(), [["Bob", 1], ["Eve!", 0], [10, 11]])

    def test_what_another_callback_raises_that_it_has_run(self) -> None:
        def refuse(_: Any) -> None:
            raise LookupError

        self.on(PRE_UPDATE, lambda person: self.em.persist(self.Person(name="Eve")))
        self.on(PRE_PERSIST, refuse)
        with self.assertRaises(LookupError), self.em.transaction():
            self.ada.name = "Bob"
        self.assertEqual(self.stored(), [["Ada", 0], [10, 11]])
        self.assertFalse(self.em.transaction().is_active)

    def test_what_it_changes_has_its_callback_run_too(self) -> None:
        orders = list(self.ada.orders)

        def touch(it: Any) -> None:
            if it is self.ada:
                orders[0].amount = 5
            elif it is orders[0]:
                orders[1].amount = 6
                self.ada.name = "Cy"  # She has had hers.

        self.on(PRE_UPDATE, touch)
        with self.em.transaction():
            self.ada.name = "Bob"
        wanted = [("PreUpdate", it) for it in (self.ada, *orders)]
        self.assertEqual(self.told, wanted)
        self.assertEqual(self.stored(), [["Cy", 1], [10, 11]])
        self.assertEqual([order.amount for order in orders], [5, 6])

    def test_two_that_set_each_other_off_for_ever(self) -> None:
        def replace(order: Any) -> None:
            following = self.Order(number=order.number + 1, person=self.ada)
            self.ada.orders.append(following)

        self.on(PRE_PERSIST, replace)
        told = "others run 1,000 times over: PrePersist of <Order"
        with self.assertRaisesRegex(RuntimeError, told):
            with self.em.transaction():
                self.ada.orders.append(self.Order(number=12, person=self.ada))
        self.assertEqual(self.stored(), [["Ada", 0], [10, 11]])

    def test_a_long_chain_is_none_for_ever(self) -> None:
        def replace(order: Any) -> None:
            if order.number < 300:
                self.ada.orders.append(self.Order(number=order.number + 1, person=self.ada))

        self.on(PRE_PERSIST, replace)
        with self.em.transaction():
            self.ada.orders.append(self.Order(number=12, person=self.ada))
        self.assertEqual(self.stored()[-1], [10, 11, *range(12, 301)])

    def test_once_for_an_object_and_flush(self) -> None:
        self.on(PRE_UPDATE, lambda person: None)
        with self.em.transaction():
            for name in ("A", "B"):
                self.ada.name = name
                self.em.flush()
            self.ada.name = "C"
        self.assertEqual(self.told, [("PreUpdate", self.ada)] * 3)
        self.assertEqual(self.stored(), [["C", 3], [10, 11]])

    def test_what_persist_and_remove_tell_is_not_told_again(self) -> None:
        for kind in (PRE_PERSIST, PRE_REMOVE):
            self.on(kind, lambda it: None)
        orders = list(self.ada.orders)
        with self.em.transaction():
            eve = self.person(self.em, "Eve")
            self.assertEqual(self.told, [("PrePersist", eve)])
            self.em.remove(self.ada)
            wanted = [("PreRemove", it) for it in (self.ada, *orders)]
            self.assertEqual(self.told, [("PrePersist", eve), *wanted])
        self.assertEqual(len(self.told), 4)
        self.assertEqual(self.stored(), [["Eve", 0], []])

    def test_a_flush_of_its_own(self) -> None:
        order = self.ada.orders[0]

        def flush(it: Any) -> None:
            self.em.flush()
            it.name = "Cy"

        self.on(PRE_UPDATE, lambda it: flush(it) if it is self.ada else None)
        with self.em.transaction():
            self.ada.name, order.amount = "Bob", 5
        self.assertEqual(self.told, [("PreUpdate", self.ada), ("PreUpdate", order)])
        # Her own flush wrote her once, and the commit what was set then.
        self.assertEqual(self.stored(), [["Cy", 2], [10, 11]])

    def test_a_query_of_its_own(self) -> None:
        def name(person: Any) -> None:
            count = self.em.query_single("SELECT COUNT(o) FROM Order o")
            person.name = f"{person.name} has {count}"

        self.on(PRE_UPDATE, name)
        with self.em.transaction():
            self.ada.name = "Bob"
        self.assertEqual(self.stored()[0][0], "Bob has 2")
        self.assertEqual(len(self.told), 1)

    def test_it_ends_the_transaction_itself(self) -> None:
        transaction = self.em.transaction()
        ends: List[Tuple[Callable[[], object], Any]] = [
            (transaction.rollback, ["Ada", 0]), (transaction.commit, ["Bob", 1]),
        ]
        for end, wanted in ends:
            self.app._events.callbacks.clear()
            self.on(PRE_UPDATE, lambda person, end=end: end())  # type: ignore[misc]
            with self.assertRaises(karzhoul.IllegalState) as raised, transaction:
                present(self.em, self.Person, 1).name = "Bob"
            self.assertEqual(raised.exception.detail, "inactive")
            self.assertEqual(self.stored(), [wanted, [10, 11]])
            self.assertFalse(transaction.is_active)

    def test_it_closes_its_manager(self) -> None:
        self.on(PRE_UPDATE, lambda person: self.em.close())
        with self.assertRaises(karzhoul.IllegalState), self.em.transaction():
            self.ada.name = "Bob"
        self.assertEqual(self.stored(), [["Ada", 0], [10, 11]])
        self.assertFalse(self.em.transaction().is_active)

    def test_it_ends_the_program(self) -> None:
        self.on(PRE_UPDATE, lambda person: self.app.close())
        with self.assertRaises(karzhoul.ProgramEnded), self.em.transaction():
            self.ada.name = "Bob"
        self.assertFalse(self.em.transaction().is_active)

    def test_another_commit_meanwhile(self) -> None:
        def rename(_: Any) -> None:
            if len(self.told) == 1:
                with self.app.begin() as other:
                    present(other, self.Person, 1).name = "Eve"

        self.on(PRE_UPDATE, rename)
        with self.assertRaises(karzhoul.Rollback) as raised, self.em.transaction():
            self.ada.name = "Bob"
        self.assertEqual(str(raised.exception), "Rollback(OptimisticLock)")
        self.assertEqual(self.stored(), [["Eve", 1], [10, 11]])
        self.assertEqual(len(self.told), 2)


@needs_program
class Told(Desk):
    def test_without_such_callbacks_no_call_more_is_made(self) -> None:
        self.app.listen(lambda event: None, LifecycleEvent.POST_LOAD, POST_UPDATE)
        with counted(self.app) as sent:
            with self.em.transaction():
                self.ada.name = "Bob"
                self.em.flush()
                self.em.query("SELECT p.name FROM Person p")
        self.assertEqual([line for line in sent if b"pending" in line], [])

    def test_asked_once_where_nothing_is_due(self) -> None:
        self.on(PRE_UPDATE, lambda it: None)
        with counted(self.app) as sent, self.em.transaction():
            pass
        self.assertEqual(len([line for line in sent if b"pending" in line]), 1)

    def test_it_names_what_ran_when_that_has_run(self) -> None:
        told: List[Event] = []
        self.app.listen(told.append)
        with self.em.transaction():
            self.ada.name = "Bob"
        self.assertEqual([event.kind for event in told], [PRE_UPDATE, POST_UPDATE])
        self.assertEqual([event.ran for event in told], [(), ()])

    def test_what_a_flush_has_to_load_is_told_when_it_is_done(self) -> None:
        order = self.ada.orders[0]
        self.em.detach(order)
        self.on(PRE_REMOVE, lambda it: setattr(it, "amount", 9))
        with self.em.transaction():
            self.ada.orders.remove(order)
            with counted(self.app) as sent:
                self.em.flush()
        [(kind, gone)] = self.told
        self.assertEqual((kind, gone.number), ("PreRemove", 10))
        self.assertIsNot(gone, order)
        self.assertEqual(self.stored()[-1], [11])
        self.assertLess(
            next(at for at, line in enumerate(sent) if b'"flush"' in line),
            next(at for at, line in enumerate(sent) if b'"amount"' in line),
        )

    def test_a_flush_that_is_refused(self) -> None:
        self.on(PRE_UPDATE, lambda it: None)
        with self.app.begin() as other:
            present(other, self.Person, 1).name = "Eve"
        self.told.clear()
        self.ada.name = "Bob"
        with self.assertRaises(karzhoul.Rollback) as raised, self.em.transaction():
            pass
        self.assertEqual(self.told, [("PreUpdate", self.ada)])
        self.assertEqual(
            [(event.kind, event.object) for event in raised.exception.events],
            [(PRE_UPDATE, self.ada)],
        )

    def test_a_flush_outside_of_a_transaction(self) -> None:
        self.on(PRE_UPDATE, lambda it: None)
        with self.assertRaises(karzhoul.TransactionRequired) as raised:
            self.em.flush()
        self.assertIn('"flush"', raised.exception.line)
        with self.assertRaises(karzhoul.IllegalState):
            self.em.transaction().commit()
        self.em.close()
        with self.assertRaises(karzhoul.NoSuchManager) as closed:
            self.em.flush()
        self.assertIn('"flush"', closed.exception.line)

    def test_an_object_that_was_never_looked_at(self) -> None:
        self.em.clear()
        self.em.query("SELECT p FROM Person p")
        self.on(PRE_REMOVE, lambda it: None)
        with self.em.transaction():
            ada = present(self.em, self.Person, 1)
            self.app.send_line(
                f'{{"call":"get","object":{ada._karzhoul_number},"name":"orders"}}'
            )
            ada.orders.clear()
            kinds = [(kind, type(it), it.number) for kind, it in self.told]
            self.assertEqual(kinds, [])
        kinds = [(kind, type(it), it.number) for kind, it in self.told]
        self.assertEqual(kinds, [("PreRemove", self.Order, 10), ("PreRemove", self.Order, 11)])


@needs_program
class Interrupted(Desk):
    def test_an_interrupt_at_each_step_of_a_commit(self) -> None:
        """Nothing is stored whose callback hasn't run, wherever Ctrl-C comes."""
        self.on(PRE_UPDATE, lambda person: setattr(person, "name", person.name + "!"))
        package = str(Path(karzhoul.__file__).parent)
        left, number = 0, 0

        def profile(frame: Any, event: str, _: object) -> None:
            nonlocal left
            if event in ("call", "c_return") and frame.f_code.co_filename.startswith(package):
                left -= 1
                if left == 0:
                    sys.setprofile(None)
                    raise KeyboardInterrupt

        transaction, is_over = self.em.transaction(), False
        while not is_over:
            number += 1
            left = number
            person = present(self.em, self.Person, 1)
            transaction.begin()
            person.name = str(number)
            try:
                sys.setprofile(profile)
                transaction.commit()
                is_over = True
            except KeyboardInterrupt:
                pass
            finally:
                sys.setprofile(None)
            self.app.tell_kept()  # Where it was under way it is done.
            with contextlib.suppress(karzhoul.IllegalState):
                transaction.rollback()
            stored = self.stored()[0][0]
            self.assertTrue(stored == "Ada" or stored.endswith("!"), stored)
        self.assertGreater(number, 30)
        self.assertEqual(stored, f"{number}!")


@needs_program
class Threads(Desk):
    def test_no_other_thread_calls_between_a_callback_and_its_commit(self) -> None:
        done = threading.Event()

        def change() -> None:
            self.ada.name = "Eve"
            done.set()

        thread = threading.Thread(target=change)

        def wait(_: Any) -> None:
            thread.start()
            self.assertFalse(done.wait(0.2))

        self.on(PRE_UPDATE, wait)
        with self.em.transaction():
            self.ada.name = "Bob"
        thread.join()
        self.assertEqual(self.stored(), [["Bob", 1], [10, 11]])
        self.assertEqual(self.ada.name, "Eve")

    def test_managers_of_many_threads(self) -> None:
        self.on(PRE_UPDATE, lambda person: setattr(person, "name", person.name + "!"))

        def count(turns: int) -> None:
            for _ in range(turns):
                self.app.retry(rename, 1000)

        def rename(manager: karzhoul.EntityManager) -> None:
            person = present(manager, self.Person, 1)
            person.name = str(person.version + 1)

        threads = [threading.Thread(target=count, args=(25,)) for _ in range(4)]
        for thread in threads:
            thread.start()
        for thread in threads:
            thread.join()
        self.assertEqual(self.stored(), [["100!", 100], [10, 11]])


if __name__ == "__main__":
    unittest.main()
