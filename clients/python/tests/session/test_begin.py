"""Blocks of a manager with its transaction, work that is done again, and many objects together."""

from __future__ import annotations

import unittest
from typing import Any, Callable, List

import karzhoul
from karzhoul import EntityManager

from ..support import ORDERS, ManagerTest, ProgramTest, needs_program


@needs_program
class Begin(ProgramTest):
    def names(self) -> List[Any]:
        return self.em.query("SELECT p.name FROM Person p")

    def test_a_block_commits_and_closes(self) -> None:
        for number in range(20):  # (16 managers are the most)
            with self.app.begin() as manager:
                self.assertTrue(manager.transaction().is_active)
                manager.persist(self.Person(name=str(number)))
        self.assertEqual(len(self.names()), 20)
        self.assertFalse(manager.transaction().is_active)
        with self.assertRaises(karzhoul.NoSuchManager):
            manager.clear()

    def test_a_block_that_raises_stores_nothing(self) -> None:
        with self.assertRaises(ZeroDivisionError):
            with self.app.begin() as manager:
                manager.persist(self.Person(name="Ada"))
                raise ZeroDivisionError
        self.assertEqual(self.names(), [])
        with self.assertRaises(karzhoul.NoSuchManager):
            manager.clear()

    def test_a_commit_that_is_refused(self) -> None:
        with self.assertRaises(karzhoul.Rollback) as raised:
            with self.app.begin() as manager:
                manager.persist(self.Place(at=(1, "a", b"")))
        self.assertEqual(raised.exception.detail, "Persistence(null)")
        with self.assertRaises(karzhoul.NoSuchManager):
            manager.clear()

    def test_what_other_sessions_call_so(self) -> None:
        for name, way in (
            ("commit", r"manager\.transaction\(\) has commit"), ("rollback", "has rollback"),
            ("add", r"manager\.persist\(object\)"), ("delete", r"manager\.remove\(object\)"),
            ("get", r"manager\.find\(Class, key\)"), ("execute", r"manager\.execute_update\(text\)"),
            ("colour", "no attribute 'colour'$"),
        ):
            self.assertFalse(hasattr(self.em, name))
            with self.assertRaisesRegex(AttributeError, f"has no attribute '{name}'.*{way}" if
                                        name != "colour" else way):
                getattr(self.em, name)

    def test_a_block_that_ends_its_transaction_itself(self) -> None:
        with self.app.begin() as manager:
            manager.persist(self.Person(name="Ada"))
            manager.transaction().commit()
        self.assertEqual(self.names(), ["Ada"])


@needs_program
class Retry(ProgramTest):
    """A person whose name several managers change."""

    def setUp(self) -> None:
        super().setUp()
        self.person = self.committed(name="Ada")
        self.tries: List[EntityManager] = []

    def meets(self, others: int) -> Callable[[EntityManager], str]:
        """Work that the commits of so many others come before."""

        def work(manager: EntityManager) -> str:
            self.tries.append(manager)
            person = manager.get_reference(self.Person, 1)
            if len(self.tries) <= others:
                with self.em.transaction():
                    self.em.refresh(self.person)
                    self.person.name += "!"
            person.name += "?"
            return str(person.name)

        return work

    def test_work_is_done_again_after_a_commit_that_came_first(self) -> None:
        self.assertEqual(self.app.retry(self.meets(2)), "Ada!!?")
        self.assertEqual(len(self.tries), 3)
        self.em.refresh(self.person)
        self.assertEqual(self.person.name, "Ada!!?")

    def test_the_last_refusal_is_raised(self) -> None:
        with self.assertRaises(karzhoul.Rollback) as raised:
            self.app.retry(self.meets(9), 2)
        self.assertEqual(raised.exception.detail, "OptimisticLock")
        self.assertEqual(len(self.tries), 2)
        with self.assertRaises(ValueError):
            self.app.retry(self.meets(0), 0)

    def test_a_call_that_is_too_late(self) -> None:
        other = self.app.create_entity_manager()
        theirs = other.get_reference(self.Person, 1)
        other.clear()
        with self.em.transaction():
            self.person.name = "Eve"

        def work(manager: EntityManager) -> int:
            self.tries.append(manager)
            if len(self.tries) == 2:
                return 7
            manager.merge(theirs)
            return 1

        self.assertEqual(self.app.retry(work), 7)

    def test_anything_else_is_raised_at_once(self) -> None:
        def work(manager: EntityManager) -> None:
            self.tries.append(manager)
            manager.get_reference(self.Person, 99)

        with self.assertRaises(karzhoul.EntityNotFound):
            self.app.retry(work)
        self.assertEqual(len(self.tries), 1)


@needs_program
class Together(ManagerTest):
    """Persons and their orders: Ada has the orders 1 and 2, Bob has 3, and 4 is nobody's."""

    mapping = ORDERS

    def setUp(self) -> None:
        super().setUp()
        self.persons = self.app.new_many("Person", [{"name": name} for name in ("Ada", "Bob")])
        ada, bob = self.persons
        owners = ((1, ada), (2, ada), (3, bob), (4, None))
        rows = [{"number": number, "person": person} for number, person in owners]
        self.orders = self.app.new_many("Order", rows)
        with self.em.transaction():
            self.em.persist_all([*self.persons, *self.orders])

    def exchanges(self, work: Callable[[], Any]) -> int:
        """How often the program is waited for."""
        before = self.app.turn or 0
        work()
        return (self.app.turn or 0) - before

    def test_persist_all_is_sent_together(self) -> None:
        self.assertEqual(self.em.query("SELECT o.number FROM Order o"), [1, 2, 3, 4])
        more = self.app.new_many("Order", [{"number": number} for number in range(10, 30)])
        self.assertEqual(self.exchanges(lambda: self.em.persist_all(more)), 1)
        self.em.persist_all([])
        with self.app.pipeline():
            self.em.persist_all(self.app.new_many("Order", [{"number": 40}]))
        self.assertEqual(self.em.query_single("SELECT COUNT(o) FROM Order o"), 4)

    def test_refusals_of_persist_all(self) -> None:
        odd = self.app.new_many("Order", [{"number": 1}, {"number": 50}, {"number": 2}])
        with self.assertRaises(karzhoul.EntityExists) as raised:
            self.em.persist_all(odd)
        self.assertEqual(len(raised.exception.later), 1)
        self.assertTrue(self.em.contains(odd[1]))
        other: Any = "no object"
        with self.assertRaises(ValueError):
            self.em.persist_all([self.app.new("Order", number=60), other])
        self.assertIsNone(self.em.find("Order", 60))

    def test_fetch_reads_a_relation_of_many_objects(self) -> None:
        self.em.clear()
        persons, found = self.em.query("SELECT p FROM Person p"), []
        self.assertEqual(self.exchanges(lambda: found.extend(self.em.fetch(persons, "orders"))), 1)
        self.assertEqual([[each.number for each in orders] for orders in found], [[1, 2], [3]])
        self.em.clear()
        self.assertEqual(list(persons[0].orders), found[0])  # (else it is `unfetched`)

    def test_fetch_goes_along_a_path(self) -> None:
        self.em.clear()
        orders = self.em.query("SELECT o FROM Order o")
        self.assertEqual(self.em.fetch(orders, "person.name"), ["Ada", "Ada", "Bob", None])
        ada, bob = self.em.query("SELECT p FROM Person p ORDER BY p.name")
        self.assertEqual(self.em.fetch([ada, None, bob], "orders.number"), [[1, 2], None, [3]])
        self.assertEqual(self.em.fetch([bob], "orders.person.orders.number"), [[3]])
        self.assertEqual(self.em.fetch([], "orders"), [])
        with self.assertRaises(karzhoul.IllegalArgument):
            self.em.fetch([ada], "order")


@needs_program
class EmbeddedIds(ProgramTest):
    def test_fetch_of_a_part(self) -> None:
        places = [self.Place(at=(row, "a", b"")) for row in (1, 2)]
        self.assertEqual(self.em.fetch(places, "at.row"), [1, 2])
        self.assertEqual(self.em.fetch(places, "at"), [tuple(place.at) for place in places])
        mixed = [self.Person(name="Ada"), self.Place(label="x")]
        with self.assertRaises(karzhoul.IllegalArgument):
            self.em.fetch(mixed, "label")


if __name__ == "__main__":
    unittest.main()
