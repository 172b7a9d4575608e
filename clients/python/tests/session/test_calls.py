"""The calls that every program serves, over the program itself."""

from __future__ import annotations

import copy
import tempfile
import unittest
from pathlib import Path
from typing import Any, List

import karzhoul
from karzhoul import LifecycleEvent

from ..support import FLAT, PERSONS, PROGRAM, ProgramTest, counted, needs_program, present


@needs_program
class Objects(ProgramTest):
    def test_the_first_run(self) -> None:
        person = self.Person(name="Ada")
        self.assertEqual((person.id, person.version, person.name), (None, None, "Ada"))
        with self.em.transaction():
            self.em.persist(person)
        self.assertEqual((person.id, person.version), (1, 0))
        self.assertIs(self.em.find(self.Person, 1), person)
        self.assertIs(self.em.find("Person", 1), person)
        self.assertIsNone(self.em.find(self.Person, 2))

    def test_a_store_is_found_again(self) -> None:
        with tempfile.TemporaryDirectory() as place:
            db = Path(place, "app.db")
            with karzhoul.open(FLAT, db, program=PROGRAM) as app:
                em = app.create_entity_manager()
                with em.transaction():
                    em.persist(app.new("Order", number=10, amount=-5))
            with karzhoul.open(FLAT, db, program=PROGRAM) as app:
                order = present(app.create_entity_manager(), "Order", 10)
                self.assertEqual((order.number, order.amount), (10, -5))

    def test_values_of_each_type(self) -> None:
        place = self.Place(
            at={"row": -1, "shelf": 'é"\0\u2028', "tag": b"\0\xff"},
            label="", scan=bytearray(b"\x0a"), mood="glad",
        )
        with self.em.transaction():
            self.em.persist(place)
        self.assertEqual(tuple(place.at), (-1, 'é"\0\u2028', b"\0\xff"))
        self.assertEqual((place.label, place.scan, place.mood), ("", b"\x0a", "glad"))
        self.assertIs(self.em.find(self.Place, place.at), place)
        self.assertIs(self.em.find(self.Place, (-1, 'é"\0\u2028', b"\0\xff")), place)
        place.scan = None
        self.assertIsNone(place.scan)

    def test_the_ends_of_integers(self) -> None:
        for number in (2**63 - 1, -(2**63)):
            order = self.Order(number=number, amount=number)
            self.assertEqual((order.number, order.amount), (number, number))

    def test_values_that_are_none_send_no_line(self) -> None:
        order = self.Order(number=1)
        for value in (True, 1.5, [1], {"hex": "00"}, object()):
            with self.assertRaises(TypeError):
                order.amount = value
        for number in (2**63, -(2**63) - 1):
            with self.assertRaises(OverflowError):
                order.amount = number
        with self.assertRaises(UnicodeEncodeError):
            self.Person(name="\ud800")
        self.assertIsNone(order.amount)

    def test_an_embedded_id_is_read_and_set_by_its_parts(self) -> None:
        place: Any = self.Place()
        place.at = (1, "a", b"")
        at: Any = place.at
        at.row = 2
        self.assertEqual(place.at, (2, "a", b""))
        with self.assertRaises(AttributeError):
            at.colour

    def test_an_embedded_id_takes_exactly_its_parts(self) -> None:
        place = self.Place(at=(1, "a", b""))
        wrong: List[Any] = [
            (7, "b", b"", 9), (7,), (), {"row": 7, "shelf": "b"},
            {"row": 7, "shelf": "b", "tag": b"", "x": 1},
            "abc", b"abc", 7, None,
        ]
        for given in wrong:
            with self.subTest(given), self.assertRaisesRegex(
                ValueError, "at takes row, shelf, tag, and not"
            ):
                place.at = given
        with self.assertRaises(TypeError):
            place.at = (7, "b", 1.5)
        with self.assertRaises(ValueError):
            self.Place(at=(7,))
        self.assertEqual(tuple(place.at), (1, "a", b""))
        with self.assertRaises(AttributeError):
            place.at.colour = 1
        place.at = {"tag": b"c", "shelf": "b", "row": 7}
        self.assertEqual(tuple(place.at), (7, "b", b"c"))
        other = self.Place(at=place.at)
        self.assertEqual(tuple(other.at), (7, "b", b"c"))

    def test_an_embedded_id_is_set_whole_or_not_at_all(self) -> None:
        long = "x" * 65_536
        wrong: List[Any] = [
            (7, "b", "c"), (7, 8, b"c"), ("7", "b", b"c"), (7, "b", self.Place()), (7, "b", 1),
        ]
        wrong += [(7, long, b"c"), (7, "b", long.encode()), (7, "\u00e4" * 32_768, b"c")]
        place = self.Place(at=(1, "a", b""))
        for given in wrong:
            refused = (
                karzhoul.Limit
                if any(len(str(part)) > 32_767 for part in given)
                else karzhoul.IllegalArgument
            )
            with self.subTest(str(given)[:40]):
                with self.assertRaises(refused):
                    place.at = given
                self.assertEqual(place.at, (1, "a", b""))
                with self.assertRaises(refused):
                    with self.app.pipeline():
                        place.at = given
                self.assertEqual(place.at, (1, "a", b""))
        place.at = (7, "x" * 65_535, None)
        self.assertEqual(place.at, (7, "x" * 65_535, None))
        with self.em.transaction():
            place.at = (1, "a", b"")
            place.label = "here"
            self.em.persist(place)
        with self.assertRaises(karzhoul.IllegalArgument) as raised, self.app.pipeline():
            place.at = (7, "b", b"c")
        self.assertEqual(raised.exception.detail, "key")
        self.assertEqual(place.at, (1, "a", b""))

    def test_an_embedded_id_as_a_value(self) -> None:
        first, second, third = (self.Place(at=(row, "a", b"")) for row in (1, 1, 2))
        self.assertTrue(
            first.at == second.at == (1, "a", b"") and first.at != third.at and first.at != (1, "a")
        )
        self.assertEqual({first.at: 1}[(1, "a", b"")], 1)
        self.assertEqual(len({first.at, second.at, third.at}), 2)
        self.assertEqual(repr(first.at), "<at row=1 shelf='a' tag=b''>")
        self.assertEqual(repr(first), "<Place at=(1, 'a', b'')>")
        self.assertEqual(copy.copy(first.at), first.at)
        with counted(self.app) as sent:
            tuple(first.at)
        self.assertEqual(len(sent), 0)

    def test_how_objects_are_shown(self) -> None:
        person = self.Person(name="Ada")
        self.assertEqual(repr(person), "<Person id=None>")
        with self.em.transaction():
            self.em.persist(person)
        self.assertEqual((repr(person), str(person)), ("<Person id=1>", "<Person id=1>"))
        order = self.Order()
        with self.app.pipeline():
            order.number = 7
            with counted(self.app) as sent:
                self.assertEqual(repr(order), "<Order #2>")
            self.assertEqual(sent, [])
        self.assertEqual(repr(order), "<Order number=7>")
        self.app.close()
        self.assertEqual(repr(order), "<Order #2>")

    def test_a_name_that_is_no_member(self) -> None:
        person = self.Person()
        self.assertFalse(hasattr(person, "nmae"))
        with self.assertRaises(AttributeError):
            person.nmae = "Ada"
        with self.assertRaises(karzhoul.IllegalArgument) as raised:
            self.app.set(person, "nmae", "Ada")
        self.assertEqual(raised.exception.detail, "name")

    def test_an_object_of_another_factory(self) -> None:
        with karzhoul.open(PERSONS, program=PROGRAM) as other:
            with self.assertRaises(ValueError):
                self.em.persist(other.new("Person"))

    def test_a_copy_of_an_object_is_the_object(self) -> None:
        order = self.Order(number=1)
        self.assertIs(copy.copy(order), order)
        self.assertEqual(copy.deepcopy([order]), [order])

    def test_many_at_a_time(self) -> None:
        made = self.app.new_many("Order", ({"number": n, "amount": n * n} for n in range(1, 101)))
        with self.em.transaction():
            with self.app.pipeline():
                for order in made:
                    self.em.persist(order)
        self.assertEqual(self.app.get_many(made, "amount"), [n * n for n in range(1, 101)])
        found = self.em.find_many(self.Order, range(0, 102))
        self.assertEqual(found, [None, *made, None])


@needs_program
class Transactions(ProgramTest):
    def test_a_block_that_raises_rolls_back(self) -> None:
        person = self.Person(name="Ada")
        with self.assertRaises(ZeroDivisionError):
            with self.em.transaction():
                self.em.persist(person)
                person.name = str(1 // 0)
        self.assertFalse(self.em.transaction().is_active)
        self.assertIsNone(self.em.find(self.Person, 1))
        self.assertEqual(person.name, "Ada")

    def test_a_block_may_end_its_transaction_itself(self) -> None:
        with self.em.transaction() as transaction:
            self.em.persist(self.Person())
            transaction.rollback()
        with self.em.transaction() as transaction:
            self.em.persist(self.Person(name="Bob"))
            transaction.commit()
        self.assertEqual(present(self.em, self.Person, 2).name, "Bob")

    def test_a_transaction_that_can_only_roll_back(self) -> None:
        with self.assertRaises(karzhoul.Rollback) as raised:
            with self.em.transaction() as transaction:
                transaction.set_rollback_only()
        self.assertEqual((raised.exception.detail, raised.exception.cause), ("marked", None))
        self.assertFalse(self.em.transaction().is_active)

    def test_a_stale_commit_and_its_retry(self) -> None:
        first = self.committed(name="Ada")
        other = self.app.create_entity_manager()
        second = present(other, self.Person, 1)
        self.assertIsNot(second, first)
        second.name = "Bob"
        with other.transaction():
            pass
        first.name = "Cy"
        with self.assertRaises(karzhoul.Rollback) as raised:
            with self.em.transaction():
                pass
        refused = raised.exception
        self.assertIsInstance(refused.cause, karzhoul.OptimisticLock)
        self.assertEqual(
            [(event.kind, event.object) for event in refused.events],
            [(LifecycleEvent.PRE_UPDATE, first)],
        )
        self.assertEqual(str(refused), "Rollback(OptimisticLock)")
        again = present(self.em, self.Person, 1)
        self.assertIsNot(again, first)
        self.assertEqual((again.name, first.name), ("Bob", "Cy"))
        again.name = first.name
        with self.em.transaction():
            pass
        self.assertEqual((again.name, again.version), ("Cy", 2))


@needs_program
class Removal(ProgramTest):
    def test_a_removed_object_is_dropped_by_the_flush(self) -> None:
        person = self.committed(name="Ada")
        other = self.app.create_entity_manager()
        with self.em.transaction():
            self.em.remove(person)
            self.assertFalse(self.em.contains(person))
            self.em.flush()
            self.assertIsNone(self.em.find(self.Person, 1))
            self.assertEqual(present(other, self.Person, 1).name, "Ada")
        self.assertIsNone(self.app.create_entity_manager().find(self.Person, 1))
        with self.assertRaises(karzhoul.IllegalArgument) as raised:
            self.em.remove(person)
        self.assertEqual(raised.exception.detail, "state")

    def test_a_dropped_object_is_persisted_again(self) -> None:
        person = self.committed(name="Ada")
        with self.em.transaction():
            person.name = "Bob"
            self.em.flush()
            self.em.remove(person)
            self.em.flush()
            self.em.persist(person)
        self.assertEqual((person.id, person.version, person.name), (1, 0, "Bob"))
        self.assertIs(self.em.find(self.Person, 1), person)

    def test_a_flush_is_rolled_back(self) -> None:
        person = self.committed(name="Ada")
        transaction = self.em.transaction().begin()
        person.name = "Bob"
        self.em.flush()
        transaction.rollback()
        self.assertEqual((person.name, person.version), ("Bob", 1))
        self.assertEqual(present(self.em, self.Person, 1).name, "Ada")
        with self.assertRaises(karzhoul.TransactionRequired):
            self.em.flush()

    def test_an_object_is_refreshed_and_let_go(self) -> None:
        person = self.committed(name="Ada")
        person.name = "Bob"
        self.em.refresh(person)
        self.assertEqual(person.name, "Ada")
        self.em.detach(person)
        self.assertFalse(self.em.contains(person))
        self.assertIsNot(self.em.find(self.Person, 1), person)

    def test_a_closed_manager(self) -> None:
        person = self.committed(name="Ada")
        with self.app.create_entity_manager() as other:
            found = present(other, self.Person, 1)
        self.assertIsNot(found, person)
        self.assertEqual(found.name, "Ada")
        with self.assertRaises(karzhoul.NoSuchManager):
            other.find(self.Person, 1)
        self.em.transaction().begin()
        with self.assertRaises(karzhoul.IllegalState):
            self.em.close()


@needs_program
class Events(ProgramTest):
    def test_events_come_in_the_order_told(self) -> None:
        told = []
        self.app.listen(lambda event: told.append((event.kind.value, event.object)))
        person = self.committed(name="Ada")
        person.name = "Bob"
        with self.em.transaction():
            pass
        other = self.app.create_entity_manager().find(self.Person, 1)
        kinds = ["PrePersist", "PostPersist", "PreUpdate", "PostUpdate"]
        self.assertEqual(told, [(kind, person) for kind in kinds] + [("PostLoad", other)])

    def test_a_callback_hears_what_it_asked_for_and_may_call(self) -> None:
        told = []
        self.app.listen(
            lambda event: told.append((type(event.object), event.object.name)),
            LifecycleEvent.POST_LOAD,
        )
        self.committed(name="Ada")
        self.app.create_entity_manager().find(self.Person, 1)
        self.assertEqual(told, [(self.Person, "Ada")])

    def test_events_of_a_callback_s_own_calls_come_after(self) -> None:
        told = []
        others = [self.app.create_entity_manager() for _ in range(2)]

        def heard(event: karzhoul.Event) -> None:
            told.append(event.kind.value)
            if event.kind is LifecycleEvent.PRE_UPDATE:
                others[0].find(self.Person, 1)
            elif event.kind is LifecycleEvent.POST_UPDATE:
                others[1].find(self.Person, 1)
                told.append("found")

        person = self.committed(name="Ada")
        self.app.listen(heard)
        person.name = "Bob"
        with self.em.transaction():
            pass
        self.assertEqual(told, ["PreUpdate", "PostLoad", "PostUpdate", "found", "PostLoad"])

    def test_what_a_callback_raises_is_raised_by_the_call(self) -> None:
        def heard(event: karzhoul.Event) -> None:
            raise LookupError(event.kind.value)

        self.app.listen(heard, LifecycleEvent.PRE_PERSIST)
        person = self.Person(name="Ada")
        transaction = self.em.transaction().begin()
        with self.assertRaises(LookupError):
            self.em.persist(person)
        self.assertEqual(person.id, 1)  # The call was done, and marks (chapter 3.5).
        with self.assertRaises(karzhoul.Rollback) as raised:
            transaction.commit()
        self.assertEqual(raised.exception.detail, "marked")


@needs_program
class Pipelines(ProgramTest):
    def test_ten_thousand_calls(self) -> None:
        order = self.Order(number=1)
        with self.app.pipeline():
            for amount in range(10_000):
                order.amount = amount
        self.assertEqual(order.amount, 9_999)

    def test_long_lines_fill_no_pipe(self) -> None:
        place = self.Place()
        long = b"\xab" * 65_535
        with self.app.pipeline():
            for _ in range(100):
                place.scan = long
        answers = self.app.get_many([place] * 100, "scan")
        self.assertTrue(all(answer == long for answer in answers))

    def test_the_first_refusal_is_raised_with_the_later_ones(self) -> None:
        order = self.Order(number=1)
        with self.assertRaises(karzhoul.IllegalArgument) as raised:
            with self.app.pipeline():
                order.amount = "five"
                order.amount = 5
                self.app.set(order, "nothing", 1)
        self.assertEqual(raised.exception.detail, "type")
        self.assertEqual(
            [later.word for later in raised.exception.later], ["IllegalArgument(name)"]
        )
        self.assertIn('"five"', raised.exception.line)
        self.assertEqual(order.amount, 5)

    def test_an_answer_waits_for_what_was_sent_before(self) -> None:
        order = self.Order(number=1)
        with self.assertRaises(karzhoul.IllegalArgument):
            with self.app.pipeline():
                order.amount = "five"
                order.number  # raises before it asks
                self.fail("the refusal was not raised")

    def test_what_the_block_raises_is_raised(self) -> None:
        order = self.Order(number=1)
        with self.assertRaises(ZeroDivisionError):
            with self.app.pipeline():
                order.amount = "five"
                raise ZeroDivisionError
        self.assertIsNone(order.amount)


if __name__ == "__main__":
    unittest.main()
