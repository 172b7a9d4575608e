"""A transaction that is begun again where another manager's commit came first."""

from __future__ import annotations

import unittest
from typing import Any, Callable, List

import karzhoul

from ..support import ProgramTest, needs_program


@needs_program
class Attempts(ProgramTest):
    def setUp(self) -> None:
        super().setUp()
        self.committed(name="Ada")
        self.other = self.app.create_entity_manager()
        # What each attempt found.
        self.found: List[Any] = []

    def outrun(self, name: str) -> None:
        """Has the other manager commit a change of the person."""
        with self.other.transaction():
            person: Any = self.other.find("Person", 1)
            person.name = name

    def rename(self, attempt: karzhoul.Attempt, collides: bool) -> None:
        with attempt:
            person: Any = self.em.find("Person", 1)
            self.found.append(person.name)
            if collides:
                self.outrun(f"other {len(self.found)}")
                self.other.clear()
            person.name += "!"

    def stored(self) -> Any:
        with self.app.create_entity_manager() as manager:
            person: Any = manager.find("Person", 1)
            return person.name

    def test_one_that_commits_is_the_last(self) -> None:
        for attempt in self.em.attempts(3):
            self.rename(attempt, collides=False)
        self.assertEqual((self.found, self.stored()), (["Ada"], "Ada!"))

    def test_two_managers_that_collide(self) -> None:
        for attempt in self.em.attempts(3):
            self.rename(attempt, collides=len(self.found) < 2)
        self.assertEqual((self.found, self.stored()), (["Ada", "other 1", "other 2"], "other 2!"))
        self.assertFalse(self.em.transaction().is_active)

    def test_each_of_two_managers_tries_again(self) -> None:
        def add(manager: karzhoul.EntityManager, mark: str, between: Callable[[], object]) -> None:
            for attempt in manager.attempts(2):
                with attempt:
                    person: Any = manager.find("Person", 1)
                    self.found.append(mark)
                    between()
                    person.name += mark

        def once() -> None:
            if len(self.found) == 1:
                add(self.other, "2", twice)

        def twice() -> None:
            if len(self.found) == 2:
                add(self.app.create_entity_manager(), "3", lambda: None)

        self.em.clear()
        add(self.em, "1", once)
        self.assertEqual((self.found, self.stored()), (["1", "2", "3", "2", "1"], "Ada321"))

    def test_the_last_refusal_is_raised(self) -> None:
        with self.assertRaises(karzhoul.Rollback) as raised:
            for attempt in self.em.attempts(3):
                self.rename(attempt, collides=True)
        self.assertIsInstance(raised.exception.cause, karzhoul.OptimisticLock)
        self.assertEqual((len(self.found), self.stored()), (3, "other 3"))
        self.assertFalse(self.em.transaction().is_active)

    def test_another_exception_is_raised_at_once(self) -> None:
        for fault in (ZeroDivisionError(), KeyboardInterrupt()):
            attempts = 0
            with self.assertRaises(type(fault)):
                for attempt in self.em.attempts(3):
                    with attempt:
                        attempts += 1
                        person: Any = self.em.find("Person", 1)
                        person.name = "Eve"
                        raise fault
            self.assertEqual((attempts, self.stored()), (1, "Ada"))
            self.assertFalse(self.em.transaction().is_active)

    def test_another_refusal_is_raised_at_once(self) -> None:
        attempts = 0
        with self.assertRaises(karzhoul.Rollback) as raised:
            for attempt in self.em.attempts(3):
                with attempt:
                    attempts += 1
                    self.em.persist(self.Place(at=(1, "a", b"")))
        self.assertEqual((attempts, str(raised.exception)), (1, "Rollback(Persistence(null))"))

    def test_a_commit_of_the_block_s_own(self) -> None:
        for attempt in self.em.attempts(2):
            with attempt as transaction:
                person: Any = self.em.find("Person", 1)
                self.found.append(person.name)
                if len(self.found) == 1:
                    self.outrun("Eve")
                person.name += "!"
                transaction.commit()
        self.assertEqual((self.found, self.stored()), (["Ada", "Eve"], "Eve!"))

    def test_an_attempt_that_is_left_early_commits(self) -> None:
        for attempt in self.em.attempts(3):
            with attempt:
                person: Any = self.em.find("Person", 1)
                person.name = "Bob"
                break
        self.assertEqual(self.stored(), "Bob")

    def test_how_many(self) -> None:
        for most in (0, -1):
            with self.assertRaises(ValueError):
                self.em.attempts(most)


if __name__ == "__main__":
    unittest.main()
