"""What is done outside of a transaction: what is lost of it is said, and what a callback refused
isn't stored by the next one."""

from __future__ import annotations

import unittest
import warnings
from typing import Any, Callable, List, Optional

import karzhoul
from karzhoul import LifecycleEvent

from ..support import ORDERS, ManagerTest, counted, needs_program, present

PRE_PERSIST, PRE_REMOVE = LifecycleEvent.PRE_PERSIST, LifecycleEvent.PRE_REMOVE


class OutsideTest(ManagerTest):
    """A person with two orders, stored."""

    mapping = ORDERS

    def setUp(self) -> None:
        super().setUp()
        self.Person, self.Order = self.app.entity("Person"), self.app.entity("Order")
        with self.app.begin() as manager:
            ada = self.Person(name="Ada")
            manager.persist(ada)
            for number in (10, 11):
                manager.persist(self.Order(number=number, person=ada))

    def stored(self) -> List[Any]:
        """The names and the numbers that are stored."""
        with self.app.begin() as manager:
            names = manager.query("SELECT p.name FROM Person p ORDER BY p.name")
            return [list(names), list(manager.query("SELECT o.number FROM Order o"))]


@needs_program
class Closed(OutsideTest):
    def words_of(self, work: Callable[[karzhoul.EntityManager], object]) -> str:
        """What a manager says that does work outside of a transaction and is closed."""
        with warnings.catch_warnings(record=True) as told:
            warnings.simplefilter("always")
            with self.app.create_entity_manager() as manager:
                work(manager)
        for each in told:
            self.assertEqual((each.category, each.filename), (RuntimeWarning, __file__))
        self.assertLessEqual(len(told), 1)
        return str(told[0].message) if told else ""

    def test_what_was_set(self) -> None:
        def rename(manager: karzhoul.EntityManager) -> None:
            present(manager, self.Person, 1).name = "Bob"

        said = self.words_of(rename)
        self.assertIn("not stored: <Person id=1> was changed", said)
        self.assertEqual(self.stored(), [["Ada"], [10, 11]])

    def test_what_was_set_after_a_transaction(self) -> None:
        def rename(manager: karzhoul.EntityManager) -> None:
            with manager.transaction():
                ada = present(manager, self.Person, 1)
                ada.name = "Bob"
            ada.name = "Cy"

        self.assertIn("<Person id=1> was changed", self.words_of(rename))
        self.assertEqual(self.stored(), [["Bob"], [10, 11]])

    def test_what_was_set_of_an_object_that_was_persisted(self) -> None:
        def rename(manager: karzhoul.EntityManager) -> None:
            eve = self.Person(name="Eve")
            with manager.transaction():
                manager.persist(eve)
            eve.name = "Bob"

        self.assertIn("<Person id=2> was changed", self.words_of(rename))
        self.assertEqual(self.stored(), [["Ada", "Eve"], [10, 11]])

    def test_what_was_merged(self) -> None:
        with self.app.begin() as manager:
            ada = present(manager, self.Person, 1)
        ada.name = "Bob"
        self.assertIn("<Person id=1> was changed", self.words_of(lambda it: it.merge(ada)))
        new = self.Order(number=12)
        self.assertIn("<Order number=12> was merged", self.words_of(lambda it: it.merge(new)))
        self.assertEqual(self.stored(), [["Ada"], [10, 11]])

    def test_what_was_persisted_and_removed(self) -> None:
        def work(manager: karzhoul.EntityManager) -> None:
            manager.persist(self.Order(number=12))
            manager.remove(present(manager, self.Order, 10))

        said = self.words_of(work)
        self.assertIn("<Order number=12> was persisted, <Order number=10> was removed", said)
        self.assertEqual(self.stored(), [["Ada"], [10, 11]])

    def test_what_a_flush_refuses(self) -> None:
        def lead_to_a_new_one(manager: karzhoul.EntityManager) -> None:
            order = present(manager, self.Order, 10)
            order.amount = 7
            order.person = self.Person(name="Bob")

        said = self.words_of(lead_to_a_new_one)
        self.assertIn("what was set, since a flush of it is refused: IllegalState(reference)", said)

    def test_what_a_line_of_ones_own_sets(self) -> None:
        def rename(manager: karzhoul.EntityManager) -> None:
            number = present(manager, self.Person, 1)._karzhoul_number
            line = '{"call":"set","object":%d,"name":"name","value":"Bob"}' % number
            self.app.send_line(line)

        self.assertIn("<Person id=1> was changed", self.words_of(rename))

    def test_what_a_callback_sets_once_it_was_stored(self) -> None:
        def rename(event: karzhoul.Event) -> None:
            if isinstance(event.object, self.Person):
                event.object.name = "Cy"

        def change(manager: karzhoul.EntityManager) -> None:
            with manager.transaction():
                present(manager, self.Person, 1).name = "Bob"

        self.app.listen(rename, LifecycleEvent.POST_UPDATE)
        self.assertIn("<Person id=1> was changed", self.words_of(change))
        with self.assertWarns(RuntimeWarning) as warned, self.app.begin() as manager:
            present(manager, self.Person, 1).name = "Eve"
        self.assertIn("<Person id=1> was changed", str(warned.warning))
        self.assertEqual(self.stored(), [["Eve"], [10, 11]])

    def test_many(self) -> None:
        orders = [self.Order(number=number) for number in range(20, 30)]
        said = self.words_of(lambda manager: manager.persist_all(orders))
        self.assertEqual(said.count("persisted"), 5)
        self.assertTrue(said.endswith(", and more"), said)

    def test_nothing_is_said_where_nothing_is_lost(self) -> None:
        def set_to_what_it_was(manager: karzhoul.EntityManager) -> None:
            present(manager, self.Person, 1).name = "Ada"

        def set_once_it_was_let_go(manager: karzhoul.EntityManager) -> None:
            ada = present(manager, self.Person, 1)
            manager.clear()
            ada.name = "Bob"

        def store(manager: karzhoul.EntityManager) -> None:
            present(manager, self.Person, 1).name = "Eve"
            with manager.transaction():
                manager.merge(present(manager, self.Person, 1))

        def give_up(manager: karzhoul.EntityManager) -> None:
            present(manager, self.Person, 1).name = "Dora"
            manager.transaction().begin().rollback()

        def persist_and_detach(manager: karzhoul.EntityManager) -> None:
            order = self.Order(number=12)
            manager.persist(order)
            manager.detach(order)

        def persist_and_remove(manager: karzhoul.EntityManager) -> None:
            order = self.Order(number=12)
            manager.persist(order)
            manager.remove(order)

        def remove_and_detach(manager: karzhoul.EntityManager) -> None:
            order = present(manager, self.Order, 10)
            manager.remove(order)
            manager.detach(order)

        def merge_and_detach(manager: karzhoul.EntityManager) -> None:
            manager.detach(manager.merge(self.Order(number=12)))

        let_go = (persist_and_detach, persist_and_remove, remove_and_detach, merge_and_detach)
        for work in (set_to_what_it_was, set_once_it_was_let_go, store, give_up, *let_go):
            self.assertEqual(self.words_of(work), "", work.__name__)
        self.assertEqual(self.stored(), [["Eve"], [10, 11]])

    def test_a_block_that_ended_its_transaction_itself(self) -> None:
        with self.assertWarns(RuntimeWarning) as warned, self.app.begin() as manager:
            manager.transaction().commit()
            present(manager, self.Person, 1).name = "Bob"
        self.assertIn("<Person id=1> was changed", str(warned.warning))

    def test_no_call_more_is_made_where_other_threads_set_objects(self) -> None:
        new = self.Person()
        with counted(self.app) as sent, self.app.begin() as manager:
            present(manager, self.Person, 1).name = "Eve"
            commit = manager.transaction().commit

            def then() -> None:
                commit()
                new.name = "Bob"  # As another thread may do before the manager is closed.

            setattr(manager.transaction(), "commit", then)
        self.assertEqual(sum(b'"pending"' in line for line in sent), 0)

    def test_what_was_stored_before_and_is_removed(self) -> None:
        def work(manager: karzhoul.EntityManager) -> None:
            order = self.Order(number=12)
            with manager.transaction():
                manager.persist(order)
            manager.remove(order)
            ten = present(manager, self.Order, 10)
            manager.remove(ten)
            manager.persist(ten)
            manager.remove(ten)

        said = self.words_of(work)
        self.assertIn("<Order number=12> was removed, <Order number=10> was removed", said)
        self.assertEqual(self.stored(), [["Ada"], [10, 11, 12]])

    def test_no_call_more_is_made_where_nothing_was_done(self) -> None:
        with counted(self.app) as sent:
            with self.app.begin() as manager:
                manager.persist(self.Person(name="Bob"))
                present(manager, self.Person, 1).name = "Eve"
        self.assertEqual(sum(b'"pending"' in line for line in sent), 0)
        self.assertEqual(sum(b'"begin"' in line for line in sent), 1)


@needs_program
class Refused(OutsideTest):
    """Chapter 3.5: what a callback throws keeps what it was told before from being done."""

    def setUp(self) -> None:
        super().setUp()
        self.refuses = True

        def refuse(_: karzhoul.Event) -> None:
            if self.refuses:
                raise LookupError("no")

        self.app.listen(refuse, PRE_PERSIST, PRE_REMOVE)

    def refused(self, work: Callable[[], object]) -> None:
        """Does work that the callback refuses, and no other work then."""
        self.refuses = True
        with self.assertRaises(LookupError):
            work()
        self.refuses = False

    def test_the_next_transaction_stores_nothing_of_it(self) -> None:
        works: List[Callable[[], object]] = [
            lambda: self.em.persist(self.Order(number=12)),
            lambda: self.em.persist_all([self.Order(number=12), self.Order(number=13)]),
            lambda: self.em.merge(self.Order(number=12)),
            lambda: self.em.remove(present(self.em, self.Order, 10)),
        ]
        for work in works:
            self.refused(work)
            with self.assertRaises(karzhoul.Rollback) as raised, self.em.transaction():
                present(self.em, self.Person, 1).name = "Bob"
            self.assertEqual(raised.exception.word, "Rollback(marked)")
            self.assertIn("LookupError('no')", str(raised.exception))
            self.assertEqual(self.stored(), [["Ada"], [10, 11]])
            # It is one transaction that is marked.
            with self.em.transaction():
                present(self.em, self.Person, 1).name = "Ada"

    def test_what_is_let_go_marks_nothing(self) -> None:
        order = self.Order(number=12)
        self.refused(lambda: self.em.persist(order))
        self.em.detach(order)
        with self.em.transaction():
            present(self.em, self.Person, 1).name = "Bob"
        self.assertEqual(self.stored(), [["Bob"], [10, 11]])
        self.refused(lambda: self.em.persist(self.Order(number=13)))
        self.em.clear()
        with self.em.transaction():
            present(self.em, self.Person, 1).name = "Cy"
        self.assertEqual(self.stored(), [["Cy"], [10, 11]])

    def test_other_managers_are_not_marked(self) -> None:
        self.refused(lambda: self.em.persist(self.Order(number=12)))
        with self.app.begin() as manager:
            manager.persist(self.Order(number=13))
        self.assertEqual(self.stored(), [["Ada"], [10, 11, 13]])


@needs_program
class Events(OutsideTest):
    def test_the_manager_of_an_event(self) -> None:
        told: List[Any] = []
        self.app.listen(lambda event: told.append((event.kind.value, event.manager)))
        with self.app.begin() as first:
            first.persist(self.Order(number=12))
            present(first, self.Person, 1).name = "Bob"
            with self.app.begin() as second:
                present(second, self.Person, 1).orders[0]
        self.assertEqual({manager for kind, manager in told if kind == "PrePersist"}, {first})
        self.assertEqual({manager for kind, manager in told if kind == "PreUpdate"}, {first})
        self.assertEqual({manager for kind, manager in told if kind == "PostUpdate"}, {first})
        loads = [manager for kind, manager in told if kind == "PostLoad"]
        self.assertEqual(loads, [first, second, second, second])

    def test_a_callback_works_with_it(self) -> None:
        def log(event: karzhoul.Event) -> None:
            manager: Optional[karzhoul.EntityManager] = event.manager
            if isinstance(event.object, self.Person):
                assert manager is not None
                manager.persist(self.Order(number=99))

        self.app.listen(log, LifecycleEvent.PRE_UPDATE)
        with self.app.begin() as manager:
            present(manager, self.Person, 1).name = "Bob"
        self.assertEqual(self.stored(), [["Bob"], [10, 11, 99]])


@needs_program
class Names(OutsideTest):
    def test_a_name_that_is_set_and_is_none(self) -> None:
        ada = present(self.em, self.Person, 1)
        with self.assertRaises(AttributeError) as raised:
            ada.nmae = "Bob"
        told = "Person has no attribute 'nmae': did you mean 'name'?"
        self.assertEqual(str(raised.exception), told)
        with self.assertRaises(AttributeError) as raised:
            ada.zzz = 1
        self.assertIn("; it has id, version, name", str(raised.exception))
        ada.name = "Bob"
        self.assertEqual(ada.name, "Bob")


if __name__ == "__main__":
    unittest.main()
