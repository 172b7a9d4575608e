"""A version that a new object is given (3.4.2): that of the row which `merge` compares, and none that is stored."""

from __future__ import annotations

import unittest
from typing import Any, Callable, List

import karzhoul
from karzhoul import Entity, generated, key, many_to_one, one_to_many, version
from karzhoul.classes.values import WrongValue

from ..support import PROGRAM, ProgramTest, needs_program

WORDS = r"^{}\.version is 5, and the store counts .* leave it out, or hand the object to merge"


class Wagon(Entity):
    id: int = generated()
    count: int = version()
    parts: List["Part"] = one_to_many("wagon", cascade="all")


class Part(Entity):
    number: int = key()
    version: int = version()
    wagon: Wagon = many_to_one()


@needs_program
class OfClasses(unittest.TestCase):
    def setUp(self) -> None:
        self.app = karzhoul.open([Wagon, Part], program=PROGRAM)
        self.addCleanup(self.app.close)

    def counts(self) -> List[Any]:
        with self.app.begin() as manager:
            return list(manager.query("SELECT w.count FROM Wagon w"))

    def test_what_would_be_dropped_is_refused(self) -> None:
        with self.app.begin() as manager:
            words = r"^Wagon\.count is 5, and the store counts the versions of new objects itself, from 0 on"
            ways: List[Callable[[Wagon], None]] = [manager.persist, lambda it: manager.persist_all([it])]
            for persist in ways:
                wagon = Wagon(count=5)
                with self.assertRaisesRegex(WrongValue, words):
                    persist(wagon)
                wagon.count = None  # type: ignore[assignment]
                persist(wagon)
            manager.persist(Wagon(count=0))
        self.assertEqual(self.counts(), [0, 0, 0])

    def test_along_a_cascade_and_at_the_flush(self) -> None:
        with self.assertRaisesRegex(WrongValue, WORDS.format("Part")), self.app.begin() as manager:
            wagon = Wagon()
            wagon.parts.append(Part(number=1, version=5, wagon=wagon))
            manager.persist(wagon)
        with self.assertRaisesRegex(WrongValue, WORDS.format("Part")), self.app.begin() as manager:
            wagon = Wagon()
            manager.persist(wagon)
            for part in self.app.new_many(Part, [{"number": 2, "version": 5, "wagon": wagon}]):
                wagon.parts.append(part)
        self.assertEqual(self.counts(), [])

    def test_one_that_the_program_refuses_is_none(self) -> None:
        with self.app.begin() as manager:
            wagon = Wagon()
            manager.persist(wagon)
            with self.assertRaisesRegex(karzhoul.IllegalArgument, "is not new any more"):
                wagon.count = 5
            manager.persist(wagon)
            manager.remove(wagon)
            manager.persist(wagon)
        self.assertEqual(self.counts(), [0])

    def test_merge_compares_it(self) -> None:
        with self.app.begin() as manager:
            manager.persist(Wagon())
        with self.app.begin() as manager:
            manager.lock(manager.get_reference(Wagon, 1), karzhoul.LockModeType.WRITE)
        with self.app.begin() as manager:
            manager.merge(Wagon(id=1, count=1))
        with self.assertRaises(karzhoul.OptimisticLock), self.app.begin() as manager:
            manager.merge(Wagon(id=1, count=5))


@needs_program
class OfAMapping(ProgramTest):
    def test_what_would_be_dropped_is_refused(self) -> None:
        person = self.Person(name="Ada")
        self.app.set(person, "version", 5)
        with self.em.transaction():
            for each in (person, self.Person(version=5)):
                with self.assertRaisesRegex(WrongValue, WORDS.format("Person")):
                    self.em.persist(each)


if __name__ == "__main__":
    unittest.main()
