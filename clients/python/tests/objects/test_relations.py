"""Links and collections, over the program: tests/mappings/linked.json has persons, their orders and
badges, and items."""

from __future__ import annotations

import tempfile
import unittest
from pathlib import Path
from typing import Any, Callable, List, Tuple

import karzhoul
from karzhoul import LifecycleEvent

from ..support import PROGRAM, TOP, counted, needs_program, present

LINKED = TOP / "tests" / "mappings" / "linked.json"
ORPHANS = TOP / "tests" / "mappings" / "persons.json"


@needs_program
class RelationsTest(unittest.TestCase):
    """A test over a program of its own, with its store in memory."""

    def setUp(self) -> None:
        self.app = karzhoul.open(LINKED, program=PROGRAM)
        self.addCleanup(self.app.close)
        self.em = self.app.create_entity_manager()
        self.Person, self.Order, self.Badge, self.Item = map(
            self.app.entity, ("Person", "Order", "Badge", "Item")
        )

    def family(self, count: int = 2) -> Tuple[Any, List[Any]]:
        """A person with orders, committed."""
        person = self.Person(name="Ada")
        orders = [self.Order(number=number, person=person) for number in range(1, count + 1)]
        person.orders = orders
        with self.em.transaction():
            self.em.persist(person)
        return person, orders

    def refuses(self, kind: Any, call: Any, *given: Any) -> Any:
        with self.assertRaises(kind) as raised:
            call(*given)
        return raised.exception.detail


class Links(RelationsTest):
    def test_a_link_is_an_attribute(self) -> None:
        person, order = self.Person(), self.Order(number=1)
        self.assertIsNone(order.person)
        order.person = person
        self.assertIs(order.person, person)
        with self.assertRaises(karzhoul.IllegalArgument):
            order.person = self.Badge()
        with self.assertRaises(karzhoul.IllegalArgument):
            order.person = "Ada"
        order.person = None
        self.assertIsNone(order.person)

    def test_a_link_is_read_when_it_is_asked_for(self) -> None:
        self.family()
        loaded: List[Any] = []
        self.app.listen(lambda event: loaded.append(event.object), LifecycleEvent.POST_LOAD)
        self.em.clear()
        order = present(self.em, self.Order, 1)
        self.assertEqual(loaded, [order])
        person = order.person
        self.assertEqual(loaded, [order, person])
        self.assertEqual((type(person), person.name), (self.Person, "Ada"))
        self.assertEqual([each.number for each in person.orders], [1, 2])
        self.assertIs(person.orders[0], order)
        self.assertEqual(len(loaded), 3)

    def test_what_was_not_read_of_a_detached_object(self) -> None:
        self.family()
        self.em.clear()
        order = present(self.em, self.Order, 1)
        self.em.detach(order)
        self.assertEqual(self.refuses(karzhoul.IllegalState, lambda: order.person), "unfetched")
        self.assertEqual(self.refuses(karzhoul.IllegalState, lambda: len(order.items)), "unfetched")
        with self.assertRaises(karzhoul.IllegalState) as raised:
            list(order.items)
        self.assertEqual(
            str(raised.exception),
            "Order.items wasn't read before its object was detached: read it while it is managed, or "
            "find the object again",
        )
        other = self.Person()
        order.person = other
        self.assertIs(order.person, other)

    def test_both_sides_of_one_to_one(self) -> None:
        person, badge = self.Person(), self.Badge(code="a")
        badge.person = person
        with self.em.transaction():
            self.em.persist(badge)
        self.assertIsNone(person.badge)
        self.em.refresh(person)
        self.assertIs(person.badge, badge)
        second = self.Badge(code="b", person=person)
        with self.assertRaises(karzhoul.Rollback) as raised:
            with self.em.transaction():
                self.em.persist(second)
        self.assertEqual(str(raised.exception), "Rollback(Persistence(unique))")


class Lists(RelationsTest):
    def test_a_collection_is_a_list(self) -> None:
        person, (a, b) = self.family()
        orders = person.orders
        self.assertEqual(
            (len(orders), list(orders), orders[0], orders[-1], orders[:1]), (2, [a, b], a, b, [a])
        )
        self.assertTrue(a in orders and orders)
        orders.append(a)
        self.assertEqual(
            (orders, orders.count(a), orders.index(b), list(reversed(orders))),
            ([a, b, a], 2, 1, [a, b, a]),
        )
        orders.remove(a)
        self.assertEqual(orders, [b, a])
        person.orders += [b]
        self.assertEqual(person.orders, [b, a, b])
        self.assertIs(person.orders.pop(), b)
        self.assertEqual(person.orders, [b, a])
        c = self.Order(number=3)
        orders.insert(0, c)
        orders.insert(9, c)
        self.assertEqual(orders, [c, b, a, c])
        del orders[3]
        orders[0] = a
        self.assertEqual(orders, [a, b, a])
        orders.extend(orders)
        orders.reverse()
        self.assertEqual(orders, [a, b, a, a, b, a])
        del orders[1:]
        self.assertEqual(orders, [a])
        self.assertIs(orders.pop(0), a)
        with self.assertRaises(ValueError):
            orders.remove(a)
        with self.assertRaises(IndexError):
            orders[0]
        person.orders = [b, a]
        orders.clear()
        self.assertEqual((person.orders, list(person.orders)), ([], []))

    def test_each_reading_of_a_list_is_one_call(self) -> None:
        person, orders = self.family(50)
        readings: List[Tuple[Any, Callable[[Any], Any]]] = [
            (orders, list),
            (orders[::-1], lambda members: list(reversed(members))),
            (49, lambda members: members.index(orders[-1])),
            (1, lambda members: members.count(orders[-1])),
            ((True, False), lambda members: (orders[-1] in members, person in members)),
            (orders[10:20], lambda members: members[10:20]),
            (orders[-1], lambda members: members[-1]),
            (orders, lambda members: sorted(members, key=orders.index)),
            (orders, lambda members: [members[place] for place in range(len(members))]),
            (True, lambda members: members == orders),
        ]
        for wanted, reading in readings:
            with counted(self.app) as sent:
                self.assertEqual(reading(person.orders), wanted)
            self.assertEqual(len(sent), 1)
        self.assertEqual(person.orders.index(orders[7], 5, 9), 7)
        for start, stop in ((8, 50), (0, 7)):
            with self.assertRaises(ValueError):
                person.orders.index(orders[7], start, stop)

    def test_a_list_that_is_held_sees_each_change(self) -> None:
        person, (a, b) = self.family()
        orders = person.orders
        self.assertEqual(orders, [a, b])
        self.app.add(person, "orders", a)
        self.assertEqual((len(orders), orders), (3, [a, b, a]))
        with self.app.pipeline():
            self.app.add(person, "orders", b)
            self.assertEqual(len(orders), 4)
        person.orders.clear()
        self.assertEqual(len(orders), 0)
        orders.append(a)
        self.em.refresh(person)
        self.assertEqual(orders, [a, b])
        self.app.close()
        with self.assertRaises(karzhoul.ProgramEnded):
            len(orders)

    def test_an_order_is_turned_round_by_one_change(self) -> None:
        person, orders = self.family(20)
        with counted(self.app) as sent:
            person.orders.reverse()
        self.assertEqual(person.orders, orders[::-1])
        # It is read twice, each member is added once, and taken out once.
        self.assertLessEqual(len(sent), 2 + 2 * 20)

    def test_a_member_of_another_class(self) -> None:
        person, orders = self.family()
        self.assertEqual(
            self.refuses(karzhoul.IllegalArgument, person.orders.append, person), "type"
        )
        self.assertEqual(
            self.refuses(karzhoul.IllegalArgument, person.orders.extend, [orders[0], person]),
            "type",
        )
        self.assertEqual(person.orders, [*orders, orders[0]])
        with self.assertRaises(ValueError):
            person.orders = ["Ada"]
        self.assertEqual(person.orders, [*orders, orders[0]])

    def test_an_inverse_list_raises_no_version_of_its_owner(self) -> None:
        with karzhoul.open(ORPHANS, program=PROGRAM) as app, app.create_entity_manager() as manager:
            person: Any = app.new("Person", name="Ada")
            with manager.transaction():
                manager.persist(person)
            with manager.transaction():
                person.orders.append(app.new("Order", number=1, person=person))
            self.assertEqual((person.version, len(person.orders)), (0, 1))
            with manager.transaction():
                person.orders.append(app.new("Order", number=2, person=person))
                manager.lock(person, karzhoul.LockModeType.OPTIMISTIC_FORCE_INCREMENT)
            self.assertEqual(person.version, 1)

    def test_the_set_of_the_members_is_stored(self) -> None:
        with tempfile.TemporaryDirectory() as place:
            db = Path(place, "app.db")
            with karzhoul.open(LINKED, db, program=PROGRAM) as app:
                em = app.create_entity_manager()
                order = app.new("Order", number=1)
                items = [
                    app.new("Item", at=(shelf, tag))
                    for shelf, tag in ((2, "a"), (1, "b"), (1, "a"))
                ]
                order.items = [*items, items[0]]
                with em.transaction():
                    em.persist(order)
                self.assertEqual(order.items, [*items, items[0]])
            with karzhoul.open(LINKED, db, program=PROGRAM) as app:
                order = present(app.create_entity_manager(), "Order", 1)
                self.assertEqual(
                    [tuple(item.at) for item in order.items], [(1, "a"), (1, "b"), (2, "a")]
                )
                self.assertEqual([item.orders for item in order.items], [[order]] * 3)

    def test_many_at_a_time(self) -> None:
        person, orders = self.family(100)
        self.assertEqual(self.app.get_many(orders, "person"), [person] * 100)
        self.em.clear()
        found = present(self.em, self.Person, person.id)
        self.assertEqual([order.number for order in found.orders], list(range(1, 101)))
        with self.app.pipeline():
            for order in found.orders[:50]:
                order.person = None
        with self.em.transaction():
            pass
        self.em.refresh(found)
        self.assertEqual([order.number for order in found.orders], list(range(51, 101)))


class Cascades(RelationsTest):
    def test_a_persist_reaches_the_members(self) -> None:
        told: List[Any] = []
        self.app.listen(lambda event: told.append((event.kind.value, event.object)))
        person, orders = self.family()
        order = self.Order(number=9, person=person)
        person.orders.append(order)
        self.assertFalse(self.em.contains(order))
        with self.em.transaction():
            self.em.flush()
            self.assertTrue(self.em.contains(order))
        kinds = [("PrePersist", each) for each in (person, *orders)] + [
            ("PostPersist", each) for each in (person, *orders)
        ]
        self.assertEqual(told, kinds + [("PrePersist", order), ("PostPersist", order)])

    def test_a_removal_reaches_what_was_not_read(self) -> None:
        self.family()
        self.em.clear()
        person = present(self.em, self.Person, 1)
        with self.em.transaction():
            self.em.remove(person)
        self.assertEqual(self.em.find_many(self.Order, (1, 2)), [None, None])

    def test_a_flush_refuses_links_to_what_is_not_stored(self) -> None:
        person, (order, _) = self.family()
        item = self.Item(at=(1, "a"), parts=[self.Item(at=(1, "b"))])
        transaction = self.em.transaction().begin()
        self.em.persist(item)
        self.assertEqual(self.refuses(karzhoul.IllegalState, self.em.flush), "reference")
        transaction.rollback()
        order = self.em.find(self.Order, 1)
        with self.assertRaises(karzhoul.Rollback) as raised:
            with self.em.transaction():
                self.em.remove(order.person)
                self.em.persist(order)
        self.assertEqual(str(raised.exception), "Rollback(IllegalState(reference))")

    def test_a_required_link(self) -> None:
        with self.assertRaises(karzhoul.Rollback) as raised:
            with self.em.transaction():
                self.em.persist(self.Badge(code="a"))
        self.assertEqual(str(raised.exception), "Rollback(Persistence(null))")


@needs_program
class Orphans(unittest.TestCase):
    """Persons whose orders are removed when they leave."""

    def test_what_leaves_is_removed(self) -> None:
        with karzhoul.open(ORPHANS, program=PROGRAM) as app:
            em = app.create_entity_manager()
            Person, Order = app.entity("Person"), app.entity("Order")
            person = Person()
            first, second, third = person.orders = [
                Order(number=number, person=person) for number in (1, 2, 3)
            ]
            with em.transaction():
                em.persist(person)
            person.orders.remove(first)
            with em.transaction():
                em.flush()
                self.assertFalse(em.contains(first))
            self.assertIsNone(em.find(Order, 1))
            person.orders = [third]
            with em.transaction():
                pass
            self.assertEqual(em.find_many(Order, (1, 2, 3)), [None, None, third])
            em.clear()
            person = present(em, Person, 1)
            person.orders.clear()
            with em.transaction():
                pass
            self.assertIsNone(em.find(Order, 3))


if __name__ == "__main__":
    unittest.main()
