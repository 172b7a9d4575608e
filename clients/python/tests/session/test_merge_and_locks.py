"""Merge and locks over the program: tests/mappings/persons.json has persons, whose orders go along
with them and are removed as orphans."""

from __future__ import annotations

import unittest
from typing import Any, Callable, List, Type, cast

import karzhoul
from karzhoul import LifecycleEvent, LockModeType

from ..support import ORDERS, ManagerTest, needs_program, present


@needs_program
class MergeAndLocksTest(ManagerTest):
    """A test over a program of its own, with its store in memory."""

    mapping = ORDERS

    def setUp(self) -> None:
        super().setUp()
        self.Person, self.Order = map(self.app.entity, ("Person", "Order"))

    def committed(self, *numbers: int) -> Any:
        """A person with orders of these numbers, committed."""
        person = self.Person(name="Ada")
        person.orders = [self.Order(number=number, person=person) for number in numbers]
        with self.em.transaction():
            self.em.persist(person)
        return person

    def heard(self, *kinds: LifecycleEvent) -> List[Any]:
        """What is told from now on, as the objects."""
        objects: List[Any] = []
        self.app.listen(lambda event: objects.append(event.object), *kinds)
        return objects

    def refuses(
        self, kind: Type[karzhoul.Refused], detail: object, call: Callable[..., Any], *given: Any
    ) -> None:
        with self.assertRaises(kind) as raised:
            call(*given)
        self.assertEqual(raised.exception.detail, detail)


class Merge(MergeAndLocksTest):
    def test_a_detached_object_is_copied_onto_the_managed_one(self) -> None:
        person = self.committed()
        self.em.detach(person)
        person.name = "Eve"
        managed = present(self.em, self.Person, person.id)
        with self.em.transaction():
            self.assertIs(self.em.merge(person), managed)
        self.assertEqual((managed.name, managed.version, person.version), ("Eve", 1, 0))
        self.assertFalse(self.em.contains(person))

    def test_a_new_object_gets_an_image(self) -> None:
        new = self.Person(name="Bob")
        told = self.heard(LifecycleEvent.PRE_PERSIST)
        with self.em.transaction():
            image = self.em.merge(new)
        self.assertEqual((type(image), image.name, image.id, new.id), (self.Person, "Bob", 1, None))
        self.assertEqual(told, [image])
        self.assertTrue(self.em.contains(image))

    def test_what_an_object_leads_to_goes_along(self) -> None:
        person = self.committed(1, 2)
        self.em.clear()
        person.orders[1].amount = 7
        person.orders.append(self.Order(number=3, person=person))
        with self.em.transaction():
            image = self.em.merge(person)
        self.assertEqual([order.number for order in image.orders], [1, 2, 3])
        self.assertEqual(image.orders[1].amount, 7)
        self.assertTrue(all(order.person is image for order in image.orders))

    def test_what_is_missing_in_the_list_is_an_orphan(self) -> None:
        person = self.committed(1, 2)
        self.em.clear()
        removed = self.heard(LifecycleEvent.POST_REMOVE)
        person.orders.remove(person.orders[0])
        with self.em.transaction():
            self.em.merge(person)
        self.assertEqual([order.number for order in removed], [1])
        self.assertIsNone(self.em.find(self.Order, 1))

    def test_versions(self) -> None:
        self.committed()
        transaction = self.em.transaction().begin()
        self.refuses(karzhoul.OptimisticLock, None, self.em.merge, self.Person(id=1, version=1))
        self.refuses(karzhoul.Rollback, "marked", transaction.commit)
        self.refuses(karzhoul.OptimisticLock, None, self.em.merge, self.Person(version=0))

    def test_what_is_refused(self) -> None:
        person = self.committed(1)
        self.em.transaction().begin()
        self.em.remove(person)
        self.refuses(karzhoul.IllegalArgument, "state", self.em.merge, person)
        self.em.transaction().rollback()
        self.refuses(karzhoul.Persistence, "key", self.em.merge, self.Order())
        self.refuses(
            karzhoul.IllegalState, "reference", self.em.merge,
            self.Order(number=2, person=self.Person()),
        )


class Locks(MergeAndLocksTest):
    def test_a_read_lock_of_what_another_one_changed(self) -> None:
        person = self.committed()
        other = self.app.create_entity_manager()
        for mode in (LockModeType.READ, LockModeType.OPTIMISTIC):
            with other.transaction():
                present(other, self.Person, 1).name = mode.value
            self.em.transaction().begin()
            self.em.lock(person, mode)
            self.refuses(karzhoul.Rollback, "OptimisticLock", self.em.transaction().commit)
            person = self.em.find(self.Person, 1)
        with self.em.transaction():
            self.em.lock(person, LockModeType.READ)
        self.assertEqual(person.version, 2)

    def test_a_write_lock_raises_the_version_once(self) -> None:
        person = self.committed()
        for version, mode in enumerate(
            (LockModeType.WRITE, LockModeType.OPTIMISTIC_FORCE_INCREMENT, "WRITE"), 1
        ):
            with self.em.transaction():
                self.em.lock(person, cast(Any, mode))
                self.em.flush()
                self.em.flush()
            self.assertEqual(person.version, version)
        with self.em.transaction():
            pass
        self.assertEqual(person.version, 3)

    def test_what_is_refused(self) -> None:
        person = self.committed(1)
        self.refuses(karzhoul.TransactionRequired, None, self.em.lock, person, LockModeType.READ)
        transaction = self.em.transaction().begin()
        self.refuses(
            karzhoul.Persistence, "version", self.em.lock, person.orders[0], LockModeType.READ
        )
        self.refuses(
            karzhoul.IllegalArgument, "state", self.em.lock, self.Person(), LockModeType.READ
        )
        self.refuses(karzhoul.Rollback, "marked", transaction.commit)
        with self.assertRaises(ValueError):
            self.em.lock(person, cast(Any, "PESSIMISTIC_READ"))


if __name__ == "__main__":
    unittest.main()
