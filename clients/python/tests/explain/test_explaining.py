"""What a refusal is explained by."""

from __future__ import annotations

import traceback
import unittest
from contextlib import contextmanager
from typing import Any, Callable, Iterator, List

import karzhoul
from karzhoul.explain.line_check import faults_of_line
from karzhoul.cli.shell import Shell

from ..support import PROGRAM, ProgramTest, needs_program

UNIT = {
    "revision": 1,
    "entities": [
        {
            "name": "Person", "table": 1, "key": [{"name": "id", "type": "int"}],
            "generated": True, "version": {"name": "version", "column": 9},
            "attributes": [{"name": "name", "type": "text", "column": 1, "required": True}],
            "relations": [
                {"name": "desk", "kind": "oneToOne", "target": "Desk", "column": 2},
                {
                    "name": "orders", "kind": "oneToMany", "target": "Order",
                    "mappedBy": "person", "cascade": ["PERSIST"],
                },
            ],
        },
        {
            "name": "Order", "table": 2, "key": [{"name": "number", "type": "int"}],
            "relations": [
                {
                    "name": "person", "kind": "manyToOne", "target": "Person", "column": 1,
                    "required": True,
                },
                {"name": "items", "kind": "manyToMany", "target": "Item", "joinTable": 10},
            ],
        },
        {
            "name": "Item", "table": 3,
            "key": [{"name": "row", "type": "int"}, {"name": "code", "type": "text"}],
            "embedded": "at",
        },
        {"name": "Desk", "table": 4, "key": [{"name": "number", "type": "int"}]},
    ],
}


@needs_program
class Explained(ProgramTest):
    def explains(self, call: Callable[..., Any], *given: Any, **named: Any) -> str:
        with self.assertRaises(karzhoul.Refused) as raised:
            call(*given, **named)
        return raised.exception.explain()

    def test_queries(self) -> None:
        for text, told in (
            ("SELECT p FORM Person p", "1:10: FORM: did you mean FROM? [IllegalArgument(syntax)]"),
            (
                "SELECT p.nmae FROM Person p",
                "1:10: nmae: Person has no member nmae: did you mean 'name'?"
                " [IllegalArgument(typing)]",
            ),
        ):
            self.assertEqual(self.explains(self.em.query, text), told)
        text = "SELECT p FROM Person p WHERE p.name = :name"
        told = self.explains(self.em.query, text, nam="a")
        self.assertIn("'name' isn't given: did you mean 'nam'?", told)
        self.assertIn(":name is a whole number", self.explains(self.em.query, text, name=7))
        told = self.explains(self.em.query, text, name=self.Person())
        self.assertIn(":name is an object of Person", told)
        self.assertIn(":name is bytes", self.explains(self.em.query, text, name=b""))

    def test_names(self) -> None:
        told = self.explains(self.em.find, "Persn", 1)
        self.assertEqual(told, "there is no entity 'Persn': did you mean 'Person'?")
        told = self.explains(self.app.set, self.Person(), "nmae", "a")
        self.assertEqual(told, "Person has no member 'nmae' of that sort: did you mean 'name'?")

    def test_types(self) -> None:
        told = self.explains(self.app.set, self.Person(), "name", 7)
        self.assertEqual(told, "Person.name is a text, and not 7")
        told = self.explains(self.app.set, self.Order(), "amount", b"\x0a")
        self.assertEqual(told, "Order.amount is a whole number, and not bytes (0a)")
        told = self.explains(self.app.set, self.Order(), "amount", self.Person())
        self.assertEqual(told, "Order.amount is a whole number, and not a Person")

    def test_members_of_another_sort(self) -> None:
        told = self.explains(self.app.ask, "set", object="1", name='"name"', value="7")
        self.assertEqual(told, "No object has this number.")
        number = self.Place()._karzhoul_number
        told = self.explains(self.app.ask, "add", object=str(number), name='"label"', member="1")
        self.assertEqual(told, "Place.label is no collection")

    def test_keys(self) -> None:
        for key, told in (
            ("1", "Person.id is a whole number, and not '1'"),
            ((1, 2), "the key of Person is id: 2 values were given"),
        ):
            self.assertEqual(self.explains(self.em.find, "Person", key), told)
        told = self.explains(self.em.find, "Place", (1, 2, b""))
        self.assertEqual(told, "Place.at.shelf is a text, and not 2")
        person = self.committed(name="Ada")
        told = self.explains(self.app.set, person, "id", 7)
        self.assertEqual(told, "Person.id can't be set: the object is not new any more")

    def test_states(self) -> None:
        told = self.explains(self.em.transaction().commit)
        self.assertIn("is not open: begin one first", told)
        with self.em.transaction():
            told = self.explains(self.em.transaction().begin)
            self.assertIn("is open already", told)
        told = self.explains(self.em.query, "DELETE FROM Person p")
        self.assertIn("done by execute_update", told)
        self.assertIn("another mapping's", karzhoul.Damaged("1:07").explain())
        self.assertIn("rows together", karzhoul.Damaged("0:").explain())
        self.assertIn("another revision", karzhoul.Damaged("0:018000000000000000").explain())
        self.assertIn("65,535", karzhoul.Limit(line='{"call":"set"}').explain())

    @unittest.skipUnless(hasattr(Exception, "add_note"), "a Python that tells no notes")
    def test_a_traceback_tells_that_more_is_known(self) -> None:
        for _ in range(2):
            with self.assertRaises(karzhoul.Refused) as raised, self.em.transaction():
                self.em.persist(self.Place(at=(1, "a", b"")))
            told = traceback.format_exception_only(type(raised.exception), raised.exception)
            self.assertEqual(told[1:], ["its explain() says more\n"])
        with self.assertRaises(karzhoul.Refused) as raised:
            self.em.find("Persn", 1)
        told = traceback.format_exception_only(type(raised.exception), raised.exception)
        self.assertEqual(len(told), 1)
        self.assertIn("there is no entity 'Persn': did you mean 'Person'?", told[0])

    def test_what_else_is_refused(self) -> None:
        told = self.explains(self.em.get_reference, "Person", 1)
        self.assertEqual(told, "No stored object has this identity.")
        self.assertEqual(karzhoul.NoResult().explain(), "A query for a single result found none.")


class Lines(unittest.TestCase):
    def test_what_is_no_call(self) -> None:
        for line, told in (
            ("", "the line is empty"),
            ('{"call":"begin",}', "column 17: a member's name is missing"),
            ("[]", 'a call is an object of JSON, as {"call":"begin","em":1}'),
            ('{"cal":"begin","em":1}', "the member \"call\" is missing (is it 'cal'?)"),
            ('{"call":"beginn"}', "column 9: there is no call 'beginn': did you mean 'begin'?"),
            ('{"call":7}', "column 9: there is no call 7"),
            ('{"call":"begin"}', "begin takes the member 'em', which is missing"),
            (
                '{"call":"begin","em":1,"x":2}',
                "column 28: 'x' is no member of begin; it takes em",
            ),
            ('{"call":"begin","em":"1"}', "column 22: 'em' is to be a whole number"),
            (
                '{"call":"lock","em":1,"object":1,"mode":"R"}',
                "column 41: 'mode' is to be one of READ, OPTIMISTIC, WRITE, "
                "OPTIMISTIC_FORCE_INCREMENT",
            ),
            ('{"call":"new","entity":7}', "column 24: 'entity' is to be a text"),
            (
                '{"call":"find","em":1,"entity":"E","key":1}',
                "column 42: 'key' is to be a list of the key's parts, each of them null, a whole "
                'number, a text, {"hex":"0aff"} or {"object":1}',
            ),
        ):
            with self.subTest(line):
                self.assertEqual(list(faults_of_line(line)), [told])

    def test_what_is_a_call(self) -> None:
        for line in (
            '{"call":"createEntityManager"}',
            '{"em":1,"call":"query","text":"x"}',
            '{"call":"query","em":1,"text":"x","params":{"a":{"hex":"0A"}},"first":0,"max":1}',
            '{"call":"set","object":1,"name":"a","value":{"object":2}}',
        ):
            self.assertEqual(list(faults_of_line(line)), [], line)

    @needs_program
    def test_the_program_agrees(self) -> None:
        with karzhoul.open(UNIT, program=PROGRAM) as app:
            for line in ('{"call":"begin","em":1.5}', '{"call":"begin"}', '{"call":"clos","em":1}'):
                with self.assertRaises(karzhoul.BadLine) as raised:
                    app.send_line(line)
                self.assertNotEqual(raised.exception.explain(), "The line is no call.")


@needs_program
class Flushed(unittest.TestCase):
    """What refused commits tell of the objects that were in the way."""

    def setUp(self) -> None:
        self.app = karzhoul.open(UNIT, program=PROGRAM)
        self.addCleanup(self.app.close)
        names = ("Person", "Order", "Item", "Desk")
        self.Person, self.Order, self.Item, self.Desk = map(self.app.entity, names)
        with self.app.begin() as em:
            desks = [self.Desk(number=number) for number in (1, 2, 3)]
            ada = self.Person(name="Ada", desk=desks[0])
            em.persist_all([*desks, ada, self.Person(name="Bob", desk=desks[1])])
            item = self.Item(at=(1, "a"))
            em.persist_all([item, self.Order(number=1, person=ada, items=[item])])

    @contextmanager
    def told(self, refusal: str, *wanted: str) -> Iterator[karzhoul.EntityManager]:
        """A manager whose commit is refused with this, and explained so."""
        with self.assertRaises(karzhoul.Refused) as raised:
            with self.app.begin() as em:
                yield em
        self.assertIn(str(raised.exception), (refusal, f"Rollback({refusal})"))
        self.assertEqual(raised.exception.explain().splitlines(), list(wanted))

    def test_what_is_null(self) -> None:
        with self.told(
            "Persistence(null)", "the new Person 3: name is null, and is required"
        ) as em:
            em.persist(self.Person())
        with self.told("Persistence(null)", "Person 2: name is null, and is required") as em:
            em.get_reference("Person", 1).name = "Eve"
            em.get_reference("Person", 2).name = None
        with self.told(
            "Persistence(null)", "the new Order 2: person is null, and is required"
        ) as em:
            em.get_reference("Person", 1).orders.append(self.Order(number=2))

    def test_null_in_a_flush(self) -> None:
        em = self.app.create_entity_manager()
        em.transaction().begin()
        em.persist(self.Person())
        wanted = "the new Person 3: name is null, and is required"
        calls: List[Callable[[], object]] = [
            em.flush, lambda: em.query("SELECT p FROM Person p"),
        ]
        for call in calls:
            with self.assertRaises(karzhoul.Persistence) as raised:
                call()
            self.assertEqual(raised.exception.explain(), wanted)

    def test_what_leads_to_what_is_not_stored(self) -> None:
        for entity, key, told in (
            ("Person", 1, "Order 1 leads to Person 1 by person, which is removed"),
            ("Item", (1, "a"), "Order 1 leads to Item 1, a by items, which is removed"),
            ("Desk", 2, "Person 2 leads to Desk 2 by desk, which is removed"),
        ):
            with self.told("Persistence(reference)", told) as em:
                em.remove(em.get_reference(entity, key))
        with self.told(
            "Persistence(reference)", "Person 1 leads by desk to Desk 3, which isn't stored"
        ) as em:
            desk = em.get_reference("Desk", 3)
            with self.app.begin() as other:
                other.remove(other.get_reference("Desk", 3))
            em.get_reference("Person", 1).desk = desk

    def test_what_leads_to_what_is_not_persisted(self) -> None:
        hint = "which isn't persisted: persist it too, or have desk cascade PERSIST"
        with self.told(
            "IllegalState(reference)", f"Person 1 leads by desk to the new Desk 4, {hint}"
        ) as em:
            em.get_reference("Person", 1).desk = self.Desk(number=4)
        with self.told(
            "IllegalState(reference)", "Person 1 leads by desk to Desk 3, which is removed"
        ) as em:
            desk = em.get_reference("Desk", 3)
            em.get_reference("Person", 1).desk = desk
            em.remove(desk)

    def test_what_two_own(self) -> None:
        with self.told(
            "Persistence(unique)",
            "Person 2 and Person 1 lead to Desk 1 by desk, and only one may",
        ) as em:
            em.get_reference("Person", 2).desk = em.get_reference("Desk", 1)
        with self.told(
            "Persistence(unique)",
            "Person 3 and Person 4 lead to Desk 3 by desk, and only one may",
        ) as em:
            desk = em.get_reference("Desk", 3)
            em.persist_all([self.Person(name=name, desk=desk) for name in "ab"])

    def test_what_is_stored_already(self) -> None:
        told = "Order 1 is stored already: find and change it, or give the new one another key"
        with self.told("EntityExists", told) as em:
            person = em.get_reference("Person", 1)
            em.persist_all([self.Order(number=number, person=person) for number in (5, 1)])
        with self.told("EntityExists", told) as em:
            person = em.get_reference("Person", 1)
            person.orders.append(self.Order(number=1, person=person))

    def test_what_the_manager_has_already(self) -> None:
        hint = "change that one, or give the new one another key"
        with self.told("EntityExists", f"the manager has Order 1 already: {hint}") as em:
            held = em.get_reference("Order", 1)
            em.persist(self.Order(number=1, person=held.person))
        hint = "is no new object, and this manager doesn't have it: merge it"
        with self.told("EntityExists", f"Order 1 {hint}") as em:
            held = em.get_reference("Order", 1)
            em.detach(held)
            em.persist(held)

    def test_what_was_persisted_before_and_is_detached(self) -> None:
        """Of a key of its own and of a generated one; what is said of a merge is so."""
        told = "was persisted before, and this manager doesn't have it: it is detached"
        with self.app.create_entity_manager() as em:
            for is_flushed in (False, True):
                for lets_go in (em.transaction().rollback, em.clear):
                    em.transaction().begin()
                    person = em.get_reference("Person", 1)
                    order, eve = self.Order(number=50, person=person), self.Person(name="Eve")
                    em.persist_all([order, eve])
                    if is_flushed:
                        em.flush()
                    lets_go()
                    for each in (order, eve):
                        with self.assertRaises(karzhoul.EntityExists) as raised:
                            em.persist(each)
                        said = raised.exception.explain()
                        self.assertIn(told, said)
                        self.judge_way(each, said)
                    if em.transaction().is_active:
                        em.transaction().rollback()

    def judge_way(self, each: Any, said: str) -> None:
        takes = said.endswith("; merge takes it")
        self.assertTrue(takes or said.endswith("isn't stored, make a new one with its values"))
        with self.app.create_entity_manager() as em:
            try:
                em.merge(each)
                em.clear()
                self.assertTrue(takes, said)
            except karzhoul.OptimisticLock:
                self.assertFalse(takes, said)

    def test_what_is_merged_and_was_changed(self) -> None:
        with self.app.begin() as em:
            ada = em.get_reference("Person", 1)
            self.assertEqual(ada.name, "Ada")
        with self.app.begin() as em:
            new = self.Person(name="Eve")
            em.persist(new)
        for each in (ada, new):
            self.rename(each.id, "Zoe")
            self.judge_merge(each, f"Person {each.id} was changed by another commit: version 1 is "
                             "stored, and the merged one has 0")
        with self.app.begin() as em:
            em.remove(em.get_reference("Person", new.id))
        self.judge_merge(new, f"Person {new.id} isn't stored: another commit removed it, or "
                         "its own was rolled back")

    def judge_merge(self, each: Any, told: str) -> None:
        with self.assertRaises(karzhoul.OptimisticLock) as raised, self.app.begin() as em:
            em.merge(each)
        self.assertEqual(raised.exception.explain(), told)

    def test_what_another_commit_changed(self) -> None:
        for step in ("begun", "read"):
            version = 0 if step == "begun" else 1
            told = f"version {version + 1} is stored, and {version} was read"
            with self.told(
                "OptimisticLock", f"Person 1 was changed by another commit: {told}"
            ) as em:
                em.get_reference("Person", 2).name = "Bo"
                em.get_reference("Person", 1).name = "Eve"
                self.rename(1, step)
        with self.told("OptimisticLock", "Order 1 was removed by another commit") as em:
            order = em.get_reference("Order", 1)
            order.person = em.get_reference("Person", 2)
            with self.app.begin() as other:
                other.remove(other.get_reference("Order", 1))

    def test_what_another_commit_may_have_changed(self) -> None:
        with self.app.begin() as em:
            person = em.get_reference("Person", 1)
            em.persist_all([self.Order(number=number, person=person) for number in (2, 3)])
        with self.told("OptimisticLock", "Order 2 was changed by another commit") as em:
            em.get_reference("Order", 2).person = em.get_reference("Person", 2)
            self.give_to_bob(2)
        told = "one of these was changed by another commit: Order 1, Order 3"
        with self.told("OptimisticLock", told) as em:
            for number in (1, 3):
                order = em.get_reference("Order", number)
                order.items = [] if order.items else [em.get_reference("Item", (1, "a"))]
            self.give_to_bob(3)

    def rename(self, key: int, name: str) -> None:
        with self.app.begin() as em:
            em.get_reference("Person", key).name = name

    def give_to_bob(self, number: int) -> None:
        with self.app.begin() as em:
            em.get_reference("Order", number).person = em.get_reference("Person", 2)

    def test_what_two_stored(self) -> None:
        with self.told(
            "OptimisticLock", "the new Order 7 was stored by another commit too"
        ) as em:
            em.persist(self.Order(number=7, person=em.get_reference("Person", 1)))
            with self.app.begin() as other:
                other.persist(self.Order(number=7, person=other.get_reference("Person", 2)))

    def test_where_nothing_can_be_asked(self) -> None:
        with self.assertRaises(karzhoul.Rollback) as raised:
            with self.app.begin() as em:
                em.persist(self.Person())
        with self.app.pipeline():
            em = self.app.create_entity_manager()
            self.app.set(self.Person(), "name", "Ada")
            meaning = "A required member is null."
            self.assertEqual(raised.exception.explain(), meaning)
        self.app.close()
        self.assertEqual(raised.exception.explain(), meaning)

    def test_many_are_not_all_told(self) -> None:
        with self.assertRaises(karzhoul.Rollback) as raised:
            with self.app.begin() as em:
                em.persist_all([self.Person() for _ in range(30)])
        told = raised.exception.explain().splitlines()
        self.assertEqual((len(told), told[-1]), (11, "and so on"))

    def test_what_marked_a_transaction(self) -> None:
        em = self.app.create_entity_manager()
        with self.assertRaises(karzhoul.Rollback) as raised, em.transaction():
            with self.assertRaises(karzhoul.IllegalArgument):
                em.find("Persn", 1)
        told = "the transaction could only roll back, since this was refused: IllegalArgument"
        line = f'{{"call":"find","em":{em.number},"entity":"Persn","key":[1]}}'
        self.assertEqual(raised.exception.explain(), f"{told}(entity) of {line}")

    def test_what_marked_it_and_was_no_refusal(self) -> None:
        em = self.app.create_entity_manager()
        with self.assertRaises(karzhoul.IllegalArgument):
            em.find("Persn", 1)
        with self.assertRaises(karzhoul.Rollback) as raised, em.transaction():
            em.transaction().set_rollback_only()
        self.assertIn("its transaction is rolled back: `marked`", raised.exception.explain())

    def test_at_the_prompt(self) -> None:
        written: List[str] = []
        shell = Shell(self.app, written.append)
        for line in ("new Person", "begin", "persist #8", "commit"):
            shell.do(line)
        self.assertEqual(
            written[-1],
            "refused: Rollback(Persistence(null))\n  the new Person 3: name is null, and is "
            "required",
        )


if __name__ == "__main__":
    unittest.main()
