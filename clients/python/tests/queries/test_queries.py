"""Queries over the program: tests/mappings/persons.json has persons and their orders."""

from __future__ import annotations

import unittest
from typing import Any, Callable, List, Type

import karzhoul
from karzhoul import FlushModeType, LifecycleEvent

from ..support import ORDERS, PROGRAM, ManagerTest, needs_program


@needs_program
class Queries(ManagerTest):
    """A test over a program of its own, with its store in memory: Ada has the orders 10 and 11, and
    nobody has the order 12."""

    mapping = ORDERS

    def setUp(self) -> None:
        super().setUp()
        self.Person, self.Order = map(self.app.entity, ("Person", "Order"))
        self.person = self.Person(name="Ada")
        self.orders = [
            self.Order(number=number, amount=amount)
            for number, amount in ((10, 5), (11, 7), (12, None))
        ]
        self.orders[0].person = self.orders[1].person = self.person
        with self.em.transaction():
            for entity in (self.person, *self.orders):
                self.em.persist(entity)

    def refuses(
        self, kind: Type[karzhoul.Refused], detail: object, call: Callable[..., Any], *given: Any,
        **named: Any
    ) -> None:
        with self.assertRaises(kind) as raised:
            call(*given, **named)
        self.assertEqual(raised.exception.detail, detail)

    def test_rows(self) -> None:
        self.assertEqual(
            self.em.query("SELECT o.number, o.person.name FROM Order o"), [[10, "Ada"], [11, "Ada"]]
        )
        self.assertEqual(
            self.em.query("SELECT o.number FROM Order o ORDER BY o.amount DESC"), [11, 10, 12]
        )
        self.assertEqual(self.em.query("SELECT o.number FROM Order o", first=1, max=1), [11])
        self.assertEqual(self.em.query("SELECT COUNT(o), SUM(o.amount) FROM Order o"), [[3, 12]])

    def test_objects(self) -> None:
        found = self.em.query("SELECT o, o.person FROM Order o")
        self.assertEqual(
            found,
            [[self.orders[0], self.person], [self.orders[1], self.person], [self.orders[2], None]],
        )
        self.assertIs(found[0][0], self.orders[0])
        loaded: List[Any] = []
        self.app.listen(lambda event: loaded.append(event.object), LifecycleEvent.POST_LOAD)
        other = self.app.create_entity_manager()
        theirs = other.query(
            "SELECT o FROM Order o WHERE o.person = :p", self.Order, params={"p": self.person}
        )
        self.assertEqual(loaded, theirs)
        self.assertEqual(
            [(type(order), order.number) for order in theirs], [(self.Order, 10), (self.Order, 11)]
        )

    def test_a_result_class(self) -> None:
        rows = self.em.query("SELECT o, p FROM Order o LEFT JOIN o.person p", self.Person)
        self.assertEqual(
            rows,
            [[self.orders[0], self.person], [self.orders[1], self.person], [self.orders[2], None]],
        )
        counts = self.em.query("SELECT COUNT(o), o.person FROM Order o GROUP BY o.person", "Person")
        self.assertEqual(counts, [[2, self.person], [1, None]])
        self.assertEqual(self.em.query("SELECT o FROM Order o WHERE o.number = 9", self.Person), [])
        self.assertEqual(self.em.query("SELECT o.amount FROM Order o", int), [5, 7, None])
        self.assertIs(self.em.query_single("SELECT p FROM Person p", self.Person), self.person)

    def test_a_result_class_that_does_not_fit(self) -> None:
        other = self.app.create_entity_manager()
        for text in (
            "SELECT o FROM Order o", "SELECT o, o.number FROM Order o",
            "SELECT o.number FROM Order o",
        ):
            with self.assertRaisesRegex(TypeError, "nothing is of the result class Person"):
                other.query(text, self.Person)
        with self.assertRaisesRegex(TypeError, "<Order number=11>"):
            other.query_single("SELECT o FROM Order o WHERE o.number = 11", self.Person)
        with self.assertRaises(KeyError):
            other.query("SELECT o FROM Order o", "Nobody")
        found = other.query("SELECT o FROM Order o")
        self.assertEqual([type(order) for order in found], [self.Order] * 3)

    def test_parameters(self) -> None:
        text = "SELECT o.number FROM Order o WHERE o.amount = :a OR o.number = ?1"
        self.assertEqual(self.em.query(text, params={"a": 5, "1": 12}), [10, 12])
        self.assertEqual(self.em.query(text, params={"a": None, "1": 11}), [11])
        self.refuses(karzhoul.IllegalArgument, "parameter", self.em.query, text, params={"a": 5})
        self.refuses(
            karzhoul.IllegalArgument, "typing", self.em.query, text, params={"a": "5", "1": 12}
        )
        self.refuses(
            karzhoul.IllegalArgument, "parameter", self.em.query,
            "SELECT o FROM Order o WHERE o = :o", params={"o": self.Order()},
        )

    def test_a_single_row(self) -> None:
        self.assertEqual(
            self.em.query_single("SELECT o.number FROM Order o WHERE o.amount = 7"), 11
        )
        self.assertEqual(
            self.em.query_single("SELECT o.number, o.amount FROM Order o", first=2), [12, None]
        )
        self.refuses(
            karzhoul.NoResult, None, self.em.query_single,
            "SELECT o FROM Order o WHERE o.number = 9",
        )
        self.refuses(karzhoul.NonUniqueResult, None, self.em.query_single, "SELECT o FROM Order o")

    def test_flush_modes(self) -> None:
        count = "SELECT COUNT(p) FROM Person p"
        with self.em.transaction():
            self.em.set_flush_mode(FlushModeType.COMMIT)
            self.em.persist(self.Person())
            self.assertEqual(self.em.query(count), [1])
            self.em.set_flush_mode(FlushModeType.AUTO)
            self.assertEqual(self.em.query(count), [2])

    def test_updates_and_deletes(self) -> None:
        raised = (
            "UPDATE Order o SET o.amount = o.amount + :more, o.person = NULL WHERE o.amount IS "
            "NOT NULL"
        )
        self.refuses(
            karzhoul.TransactionRequired, None, self.em.execute_update, raised, params={"more": 1}
        )
        with self.em.transaction():
            self.assertEqual(self.em.execute_update(raised, params={"more": 1}), 2)
            self.assertEqual(self.orders[0].amount, 5)
            self.em.refresh(self.orders[0])
            self.assertEqual((self.orders[0].amount, self.orders[0].person), (6, None))
            self.assertEqual(self.em.execute_update("DELETE FROM Order o WHERE o.number > 10"), 2)
        self.assertEqual(self.em.query("SELECT o.number FROM Order o"), [10])

    def test_what_is_refused(self) -> None:
        refused = {
            "SELECT o FROM": "syntax",
            "SELECT o.x FROM Order o": "typing",
            "SELECT o FROM Order o WHERE o = :o": "parameter",
        }
        for text, detail in refused.items():
            self.refuses(karzhoul.IllegalArgument, detail, self.em.query, text)
        self.refuses(
            karzhoul.IllegalArgument, "range", self.em.query, "SELECT o FROM Order o", first=-1
        )
        self.refuses(karzhoul.IllegalState, "statement", self.em.query, "DELETE FROM Order o")
        self.refuses(karzhoul.QueryLimit, "query", self.em.query, "(" * 33)
        transaction = self.em.transaction().begin()
        self.refuses(
            karzhoul.Overflow, None, self.em.query, "SELECT o.number + :m FROM Order o",
            params={"m": 2**63 - 1},
        )
        self.refuses(karzhoul.Rollback, "marked", transaction.commit)


@needs_program
class Functions(unittest.TestCase):
    """A converter by which greater values are stored as lesser ones, and a listener that counts."""

    MAPPING: Any = {
        "revision": 1,
        "entities": [
            {
                "name": "Order",
                "table": 1,
                "key": [{"name": "number", "type": "int"}],
                "attributes": [
                    {"name": "amount", "type": "int", "column": 1, "converter": "flip"},
                    {"name": "count", "type": "int", "column": 2},
                ],
                "listeners": [{"name": "count", "events": ["PrePersist"]}],
            }
        ],
        "functions": [
            {"name": "flip", "make": "flip"},
            {"name": "count", "make": "count", "attribute": "count"},
        ],
    }

    def setUp(self) -> None:
        self.app = karzhoul.open(self.MAPPING, program=PROGRAM)
        self.addCleanup(self.app.close)
        self.em = self.app.create_entity_manager()
        with self.em.transaction():
            for number, amount, count in ((10, 1, None), (11, 2, 0), (12, 3, 4)):
                self.em.persist(self.app.new("Order", number=number, amount=amount, count=count))

    def test_a_converted_attribute_has_its_own_value(self) -> None:
        ask = self.em.query
        self.assertEqual(
            ask("SELECT o.number FROM Order o WHERE o.amount < 3 ORDER BY o.amount"), [10, 11]
        )
        self.assertEqual(
            ask("SELECT o.number FROM Order o WHERE o.amount = :a", params={"a": 2}), [11]
        )
        self.assertEqual(ask("SELECT o.amount + 1 FROM Order o ORDER BY o.amount DESC"), [4, 3, 2])
        self.assertEqual(ask("SELECT MIN(o.amount), SUM(o.amount) FROM Order o"), [[1, 6]])
        with self.em.transaction():
            self.em.execute_update("UPDATE Order o SET o.amount = o.amount * 10 WHERE o.amount > 1")
        self.assertEqual(ask("SELECT o.amount FROM Order o"), [1, 20, 30])

    def test_null_counts_as_0(self) -> None:
        self.assertEqual(self.em.query("SELECT o.count FROM Order o"), [1, 1, 5])


if __name__ == "__main__":
    unittest.main()
