"""What can't be handed in: words that name the attribute, and say what to do."""

from __future__ import annotations

import copy
import pickle
import unittest
from datetime import date
from typing import Any, Callable, Sequence, Type

import karzhoul
from karzhoul import Entity, generated, version

from ..support import ProgramTest, counted, needs_program

HALF = "Ada \ud800"


@needs_program
class Misfits(ProgramTest):
    def told(self, kind: Type[Exception], call: Callable[[], Any], *words: str) -> str:
        with counted(self.app) as sent, self.assertRaises(kind) as raised:
            call()
        told = str(raised.exception)
        self.assertEqual([word for word in words if word not in told], [], told)
        self.assertEqual(sent, [])  # Nothing was done.
        return told

    def test_an_attribute_that_there_is_not(self) -> None:
        told = self.told(AttributeError, lambda: self.Person(nmae="Ada"))
        self.assertEqual(told, "Person has no attribute 'nmae': did you mean 'name'?")
        told = self.told(AttributeError, lambda: self.app.new("Order", colour=1))
        self.assertEqual(told, "Order has no attribute 'colour'; it has number, amount")
        rows = [{"number": 1}, {"number": 2, "amuont": 3}]
        told = self.told(AttributeError, lambda: self.app.new_many("Order", rows))
        self.assertEqual(told, "Order has no attribute 'amuont': did you mean 'amount'?")

    def test_a_value_without_a_name(self) -> None:
        person: Any = self.Person
        told = self.told(TypeError, lambda: person("Ada"))
        self.assertEqual(told, "Person takes values by their names: write Person(name='Ada', ..)")

    def test_what_is_no_object(self) -> None:
        values: Sequence[Any] = (5, self.Person, None)
        for value in values:
            self.told(ValueError, lambda: self.em.persist(value), f"{value!r} is no object of this "
                      "factory: hand in one that a class of it makes, or that it finds")

    def test_half_a_character(self) -> None:
        person = self.Person()
        words = "half a character", "in position 4", "errors='replace'"
        self.told(
            UnicodeEncodeError, lambda: setattr(person, "name", HALF), "Person.name", *words
        )
        self.told(
            UnicodeEncodeError, lambda: self.app.set(person, "name", HALF), "Person.name", *words
        )
        key = (1, HALF, b"")
        self.told(
            UnicodeEncodeError, lambda: self.em.find("Place", key), "the key of Place", *words
        )
        text = "SELECT p FROM Person p WHERE p.name = :name"
        self.told(
            UnicodeEncodeError, lambda: self.em.query(text, name=HALF), "the parameter 'name'",
            *words,
        )
        self.told(
            UnicodeEncodeError, lambda: self.em.query(text.replace(":name", f"'{HALF}'")),
            "the query", "half a character",
        )
        self.assertIsNone(person.name)

    def test_values_of_other_types(self) -> None:
        person, order = self.Person(), self.Order()
        today = date.today()
        self.told(TypeError, lambda: setattr(person, "name", today), "Person.name", "no date")
        self.told(TypeError, lambda: setattr(order, "amount", 1.5), "Order.amount", "no float")
        self.told(OverflowError, lambda: setattr(order, "amount", 2**63), "Order.amount", "64 bits")
        self.told(TypeError, lambda: self.app.set(order, "amount", True), "Order.amount", "no bool")
        self.told(TypeError, lambda: self.em.find("Order", 1.5), "the key of Order", "no float")
        text = "SELECT o FROM Order o WHERE o.amount = :most"
        self.told(TypeError, lambda: self.em.query(text, most=1.5), "the parameter 'most'")

    def test_an_object_is_not_pickled(self) -> None:
        person = self.committed(name="Ada")
        for given in (person, [person], {"person": person}):
            told = self.told(TypeError, lambda: pickle.dumps(given))
            self.assertIn("an object of Person can't be pickled", told)
            self.assertIn("pickle its id, by which it is found again", told)
        place = self.Place(at=(1, "a", b""))
        self.told(TypeError, lambda: pickle.dumps(place.at), "an object of Place", "pickle its at")

    def test_a_copy_of_an_object_is_the_object(self) -> None:
        person = self.Person(name="Ada")
        self.assertIs(copy.copy(person), person)
        self.assertIs(copy.deepcopy({"a": [person]})["a"][0], person)
        place = self.Place(at=(1, "a", b""))
        self.assertEqual(copy.deepcopy(place.at), place.at)


class Showman(Entity):
    id: int = generated()
    version: int = version()
    name: str


class Named(Showman):
    def __init__(self, name: str) -> None:
        super().__init__(name=name)


@needs_program
class OfClasses(unittest.TestCase):
    def test_a_value_without_a_name(self) -> None:
        with karzhoul.open([Showman, Named]) as app:
            make: Any = Showman
            with counted(app) as sent, self.assertRaises(TypeError) as raised:
                make("b")
            self.assertEqual(str(raised.exception),
                             "Showman takes values by their names: write Showman(name='b', ..)")
            self.assertEqual(sent, [])
            self.assertEqual(Named("b").name, "b")


if __name__ == "__main__":
    unittest.main()
