"""The class of each object that the client hands out: a desk with a hierarchy of customers, their
orders and the orders' lines."""

from __future__ import annotations

import json
import tempfile
import unittest
from pathlib import Path
from typing import Any, Dict, List

import karzhoul
from karzhoul import Collection, LifecycleEvent
from karzhoul.cli.shell import Shell

from ..support import HERE, PROGRAM, TOP, counted, needs_program, played, present

DESK: Dict[str, Any] = {
    "revision": 1,
    "entities": [
        {
            "name": "Company",
            "extends": "Customer",
            "attributes": [{"name": "vat", "type": "text", "column": 3}],
        },
        {
            "name": "Customer", "table": 1, "key": [{"name": "id", "type": "int"}],
            "generated": True,
            "attributes": [{"name": "name", "type": "text", "column": 1}],
            "relations": [
                {
                    "name": "orders", "kind": "oneToMany", "target": "Order",
                    "mappedBy": "customer", "cascade": ["ALL"],
                }
            ],
            "callbacks": [{"name": "called", "events": ["PostLoad", "PrePersist"]}],
        },
        # A class without a member of its own.
        {
            "name": "Friend",
            "extends": "Customer",
            "listeners": [{"name": "named", "events": ["PostLoad"]}],
            "excludeSuper": True,
        },
        {
            "name": "Order",
            "table": 2,
            "key": [{"name": "number", "type": "int"}],
            "attributes": [{"name": "note", "type": "text", "column": 2}],
            "relations": [
                {
                    "name": "customer", "kind": "manyToOne", "target": "Customer", "column": 1,
                    "cascade": ["MERGE"],
                },
                {
                    "name": "lines", "kind": "oneToMany", "target": "Line", "mappedBy": "order",
                    "cascade": ["ALL"], "orphanRemoval": True,
                },
            ],
        },
        {
            "name": "Line", "table": 3, "embedded": "at",
            "key": [{"name": "order", "type": "int"}, {"name": "place", "type": "int"}],
            "relations": [{"name": "order", "kind": "manyToOne", "target": "Order", "column": 1}],
        },
        {"name": "Gift", "extends": "Line"},
    ],
    "functions": [
        {"name": "called", "make": "note"},
        {"name": "named", "make": "require", "attribute": "name"},
    ],
}


@needs_program
class DeskTest(unittest.TestCase):
    """A test over a program of its own, with its store in memory."""

    def setUp(self) -> None:
        self.app = karzhoul.open(DESK, program=PROGRAM)
        self.addCleanup(self.app.close)
        self.em = self.app.create_entity_manager()
        self.Customer, self.Company, self.Friend = map(
            self.app.entity, ("Customer", "Company", "Friend")
        )
        self.Order, self.Line, self.Gift = map(self.app.entity, ("Order", "Line", "Gift"))

    def stored(self) -> None:
        """A company with the orders 10, which has a line and a gift, and 11; a friend with order
        12; and a customer without any."""
        customers = [
            self.Company(name="Ada & Co", vat="AT1"), self.Friend(name="Bob"),
            self.Customer(name="Cy"),
        ]
        company, friend, _ = customers
        order = self.Order(number=10, customer=company)
        order.lines = [self.Line(at=(10, 1), order=order), self.Gift(at=(10, 2), order=order)]
        company.orders = [order, self.Order(number=11, customer=company)]
        friend.orders = [self.Order(number=12, customer=friend)]
        with self.em.transaction():
            for customer in customers:
                self.em.persist(customer)
        self.em.clear()

    def types(self, objects: Any) -> List[str]:
        return [type(each).__name__ for each in objects]


class Found(DeskTest):
    def test_a_list_of_an_object_of_a_query_takes_changes(self) -> None:
        self.stored()
        with self.em.transaction():
            [order] = self.em.query("SELECT o FROM Order o WHERE o.number = 10")
            self.assertIsInstance(order.lines, Collection)
            order.lines.append(self.Line(at=(10, 3), order=order))
            [other] = self.em.query("SELECT o FROM Order o WHERE o.number = 11")
            other.lines = [self.Line(at=(11, 1), order=other)]
        again = self.app.create_entity_manager()
        self.assertEqual(
            [tuple(line.at) for line in present(again, self.Order, 10).lines],
            [(10, 1), (10, 2), (10, 3)],
        )
        with again.transaction():
            [order] = again.query("SELECT o FROM Order o WHERE o.number = 10")
            order.lines.clear()
        self.assertEqual(again.query("SELECT l.at.order FROM Line l"), [11])

    def test_an_object_of_a_subclass_is_one(self) -> None:
        self.assertTrue(
            issubclass(self.Company, self.Customer) and issubclass(self.Friend, self.Customer)
        )
        self.assertFalse(
            issubclass(self.Company, self.Friend) or issubclass(self.Customer, self.Company)
        )
        self.stored()
        with counted(self.app) as sent:
            found: List[Any] = self.em.find_many(self.Customer, (1, 2, 3))
        company, friend, customer = found
        self.assertEqual(len(sent), 4)  # The classes of all three are asked for by one.
        self.assertEqual(self.types((company, friend, customer)), ["Company", "Friend", "Customer"])
        self.assertIsInstance(company, self.Customer)
        self.assertEqual(
            [repr(each) for each in (company, friend, customer)],
            ["<Company id=1>", "<Friend id=2>", "<Customer id=3>"],
        )
        with self.em.transaction():
            company.vat = "AT2"
        self.assertEqual(
            self.app.create_entity_manager().get_reference(self.Customer, 1).vat, "AT2"
        )
        with self.assertRaises(AttributeError):
            friend.vat = "AT3"
        self.assertIsNone(self.em.find(self.Company, 2))

    def test_items_of_a_row(self) -> None:
        self.stored()
        rows = self.em.query(
            "SELECT c, o, l, 'FROM Line x', :p FROM Customer c, Line l JOIN c.orders o WHERE o = "
            "l.order",
            params={"p": 1},
        )
        self.assertEqual(
            [self.types(row[:3]) for row in rows],
            [["Company", "Order", "Line"], ["Company", "Order", "Gift"]],
        )
        self.em.clear()
        self.assertEqual(
            self.types(
                self.em.query("select L.ORDER.customer from Line as L".replace("ORDER", "order"))
            ),
            ["Company", "Company"],
        )
        self.em.clear()
        self.assertEqual(
            self.types(
                [self.em.query_single("SELECT o.customer FROM Order o WHERE o.number = 12")]
            ),
            ["Friend"],
        )

    def test_what_relations_lead_to(self) -> None:
        self.stored()
        order = present(self.em, self.Order, 10)
        self.assertEqual(
            self.types([order.customer, *order.lines, *order.customer.orders]),
            ["Company", "Line", "Gift", "Order", "Order"],
        )
        friend = present(self.em, self.Order, 12).customer
        self.em.detach(friend)
        self.assertEqual((type(friend), friend.name), (self.Friend, "Bob"))

    def test_an_object_that_no_one_holds_keeps_its_class(self) -> None:
        self.stored()
        self.em.query("SELECT c, l FROM Customer c, Line l")
        with counted(self.app) as sent:
            found = self.em.find_many(self.Customer, (1, 2, 3)) + [self.em.find(self.Line, (10, 2))]
        self.assertEqual(
            (self.types(found), len(sent)), (["Company", "Friend", "Customer", "Gift"], 4)
        )
        self.assertIs(self.em.find(self.Customer, 1), found[0])
        self.assertEqual(len({*found, *self.em.find_many(self.Customer, (1, 2, 3))}), 4)

    def test_members_that_are_set_send_a_line_each(self) -> None:
        self.stored()
        company = present(self.em, self.Customer, 1)
        with counted(self.app) as sent:
            company.name, company.vat
            self.assertFalse(hasattr(company, "nmae"))
            company.vat = "AT2"
        self.assertEqual(len(sent), 1)


class States(DeskTest):
    def heard(self, *kinds: LifecycleEvent) -> List[karzhoul.Event]:
        told: List[karzhoul.Event] = []
        self.app.listen(told.append, *kinds)
        return told

    def test_what_an_event_tells_first(self) -> None:
        self.stored()
        told = self.heard(LifecycleEvent.POST_LOAD)
        company = present(self.em, self.Customer, 1)
        self.em.find(self.Customer, 2)
        with self.em.transaction():
            self.em.remove(company)
        self.assertEqual(
            self.types(event.object for event in told),
            ["Company", "Friend", "Order", "Order", "Line", "Gift"],
        )
        self.assertEqual([event.ran for event in told[:3]], [("called",), ("named", "called"), ()])

    def test_a_removed_object_keeps_its_class(self) -> None:
        self.stored()
        told = self.heard(LifecycleEvent.PRE_REMOVE)
        order = present(self.em, self.Order, 10)
        self.em.transaction().begin()
        self.em.remove(order)
        line, gift = order.lines
        self.assertEqual((type(order), type(line), type(gift)), (self.Order, self.Line, self.Gift))
        self.assertEqual([event.object for event in told], [order, line, gift])
        self.em.flush()
        self.em.transaction().rollback()
        self.assertEqual(repr(gift), "<Gift at=(10, 2)>")

    def test_what_a_removal_loads_is_known_without_a_callback_too(self) -> None:
        self.stored()
        order = present(self.em, self.Order, 10)
        with self.em.transaction():
            self.em.remove(order)
            self.assertEqual(self.types(order.lines), ["Line", "Gift"])

    def test_images_of_a_merge(self) -> None:
        self.stored()
        told = self.heard(LifecycleEvent.PRE_PERSIST, LifecycleEvent.POST_LOAD)
        friend = self.Friend(name="Dan")
        order = self.Order(
            number=13, customer=friend, lines=[self.Line(at=(13, 1)), self.Gift(at=(13, 2))]
        )
        for line in order.lines:
            line.order = order
        with self.em.transaction():
            image = self.em.merge(order)
        self.assertEqual(
            self.types([image, image.customer, *image.lines]), ["Order", "Friend", "Line", "Gift"]
        )
        self.assertEqual(
            sorted(self.types(event.object for event in told)), ["Friend", "Gift", "Line", "Order"]
        )
        self.em.clear()
        company = self.Company(id=1, name="Ada", vat="AT9")
        with self.em.transaction():
            self.assertEqual(type(self.em.merge(company)), self.Company)

    def test_after_a_rollback_and_a_clear(self) -> None:
        self.stored()
        transaction = self.em.transaction().begin()
        first = present(self.em, self.Customer, 1)
        new = self.Friend(name="Eve")
        self.em.persist(new)
        self.em.flush()
        transaction.rollback()
        self.assertEqual(
            (type(first), first.vat, type(new), new.name), (self.Company, "AT1", self.Friend, "Eve")
        )
        second = self.em.find(self.Customer, 1)
        self.assertIsNot(second, first)
        self.assertIs(type(second), self.Company)
        self.assertEqual((first == second, first == first, len({first, second})), (False, True, 2))

    def test_objects_that_a_refused_call_gave_up(self) -> None:
        self.stored()
        friend = present(self.em, self.Friend, 2)
        friend.name = None
        with self.em.transaction():
            pass
        self.em.clear()
        told = self.heard(LifecycleEvent.POST_LOAD)
        with self.assertRaises(karzhoul.Listener) as raised:
            self.em.query("SELECT c FROM Customer c")
        self.assertEqual(
            [event.ran for event in raised.exception.events], [("called",), ("named",)]
        )
        self.assertEqual(len(told), 2)
        for event in [*raised.exception.events, *told]:
            with self.assertRaisesRegex(LookupError, "refused"):
                event.object
        # Their numbers are given again.
        order = self.Order(number=99)
        self.assertEqual((type(order), order.number), (self.Order, 99))

    def test_the_prompt_shows_what_a_refused_call_gave_up(self) -> None:
        told: List[str] = []
        prompt = Shell(self.app, told.append)
        for said in ("new Friend", "begin", "persist #1", "commit", "clear", "find Friend 1"):
            prompt.do(said)
        self.assertEqual(
            told[-2:],
            [
                "  PostLoad #2, which ran named",
                "refused: Listener(require name)\n  " + str(karzhoul.Listener.__doc__),
            ],
        )

    def test_a_line_of_one_s_own_makes_an_object_of_its_class(self) -> None:
        made = self.app.send_line('{ "entity":"Customer", "call" : "new" }')
        self.assertIs(type(made), self.Customer)
        self.assertIs(type(self.app.ask("new", "Line", entity='"Line"')), self.Line)


class Mappings(unittest.TestCase):
    @needs_program
    def test_the_image_of_an_object_is_of_its_class(self) -> None:
        with karzhoul.open(TOP / "tests" / "mappings" / "sub.json", program=PROGRAM) as app:
            told: List[karzhoul.Event] = []
            em = app.create_entity_manager()
            app.listen(told.append)
            order, note = app.new("Order", at=(1, "a")), app.new("Note", at=(1, "b"))
            images = [em.merge(order), em.merge(note)]
            self.assertEqual(
                [type(each) for each in images], [app.entity("Order"), app.entity("Note")]
            )
            self.assertEqual(
                [(event.object, event.ran) for event in told],
                [(each, ("seen",)) for each in images],
            )

    @needs_program
    def test_the_program_refuses_the_mapping_that_was_given(self) -> None:
        person = {"name": "Person", "table": 1, "key": [{"name": "id", "type": "int"}]}
        refused: Dict[str, Any] = {
            "function": {
                "revision": 1,
                "entities": [{**person, "listeners": [{"name": "class0", "events": ["PostLoad"]}]}],
            },
            "shape": {"revision": 1, "entities": [{**person, "listeners": {}}]},
            "model": {"revision": 1, "entities": []},
        }
        for detail, mapping in refused.items():
            with self.subTest(detail), self.assertRaises(karzhoul.Mapping) as raised:
                karzhoul.open(mapping, program=PROGRAM)
            self.assertEqual(raised.exception.detail, detail)
            self.assertTrue(raised.exception.faults)
        with tempfile.TemporaryDirectory() as place:
            path = Path(place, "mapping.json")
            with self.assertRaises(karzhoul.Mapping) as raised:
                karzhoul.open(path, program=PROGRAM)
            self.assertEqual(raised.exception.detail, "json")
            self.assertIn("mapping.json can't be read: No such file", raised.exception.faults[0])
            path.write_text(
                "\ufeff" + json.dumps({"revision": 1, "entities": [person]}), encoding="utf-8"
            )
            with self.assertRaises(karzhoul.Mapping) as raised:
                karzhoul.open(path, program=PROGRAM)
            self.assertEqual(raised.exception.detail, "json")
            self.assertIn("1:1: $: a byte order mark stands in front", raised.exception.faults[0])


class Asked(unittest.TestCase):
    MANAGER = '> {"call":"createEntityManager"}\n< {"events":[],"ok":1}\n'
    FIND = (
        '> {"call":"find","em":1,"entity":"Customer","key":[1]}\n'
        '< {"events":[],"ok":{"object":7}}\n'
    )
    COMPANY = (
        '> {"call":"values","objects":[7]}\n< {"events":[],"ok":[{"entity":"Company","relations":'
        '[{"unread":true}],"values":[1,"Ada","AT1"]}]}\n'
    )

    def test_a_class_that_is_not_known_is_asked_for_once(self) -> None:
        with played(self.MANAGER + self.FIND + self.COMPANY + self.FIND, DESK) as app:
            em = app.create_entity_manager()
            company: Any = em.find("Customer", 1)
            self.assertIs(type(company), app.entity("Company"))
            self.assertEqual((company.id, company.name, company.vat), (1, "Ada", "AT1"))
            self.assertIs(em.find("Customer", 1), company)

    def test_a_class_that_is_refused(self) -> None:
        memory = (
            '> {"call":"values","objects":[7]}\n'
            '< {"error":{"name":"OutOfMemory","no":1},"events":[]}\n'
        )
        loaded = self.FIND.replace('"events":[]', '"events":[["PostLoad",7]]')
        with played(self.MANAGER + loaded + memory + self.FIND + self.COMPANY, DESK) as app:
            told: List[karzhoul.Event] = []
            app.listen(told.append)
            em = app.create_entity_manager()
            with self.assertRaises(karzhoul.OutOfMemory):
                em.find("Customer", 1)
            self.assertEqual([event.of for event in told], [7])
            self.assertIs(type(em.find("Customer", 1)), app.entity("Company"))

    def test_a_program_that_is_older_than_the_client(self) -> None:
        older = HERE / "older.py"
        with self.assertRaises(karzhoul.ProgramNotFound) as raised:
            karzhoul.open(DESK, program=older)
        self.assertRegex(
            str(raised.exception),
            "older.py' is older than this client: it doesn't serve the calls values and pending. "
            "The client needs the program of version 0.1.0 of 2026-11-29, or a later one",
        )
        with self.assertRaisesRegex(karzhoul.ProgramNotFound, "is no program that answers calls"):
            karzhoul.open(DESK, program=HERE / "objects" / "echo.py")


if __name__ == "__main__":
    unittest.main()
