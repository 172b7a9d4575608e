"""Which limit a refused call has met."""

from __future__ import annotations

import pickle
import unittest
from typing import Any, Callable, Type
from unittest import mock

import karzhoul
from karzhoul.explain.limits import kind_of
from karzhoul.refusals import refusal_of

from ..support import PERSONS, ProgramTest, needs_program, played

LONG = "x" * 70_000
MOST = "x" * 65_535


@needs_program
class OfTheProgram(ProgramTest):
    def meets(self, kind: Type[karzhoul.Limit], call: Callable[..., Any], *given: Any) -> Any:
        with self.assertRaises(karzhoul.Limit) as raised:
            call(*given)
        self.assertIs(type(raised.exception), kind)
        self.assertEqual((raised.exception.name, raised.exception.number), ("Limit", 19))
        return raised.exception

    def test_a_text_that_is_too_long(self) -> None:
        person = self.Person(name=MOST)
        refused = self.meets(karzhoul.TextLimit, self.app.set, person, "name", LONG)
        self.assertEqual(refused.detail, "text")
        self.assertIn("at most 65,535 bytes", str(refused))
        self.assertNotIn("restart", str(refused))
        self.assertEqual(person.name, MOST)
        self.meets(karzhoul.TextLimit, lambda: self.Place(scan=b"x" * 65_536))
        self.meets(karzhoul.TextLimit, self.em.find, "Place", (1, LONG, b""))
        asked = "SELECT p FROM Person p WHERE p.name = :name"
        self.meets(karzhoul.TextLimit, lambda: self.em.query(asked, name=LONG))
        # In bytes, of which each of these characters has three.
        self.meets(karzhoul.TextLimit, self.app.set, person, "name", "\u20ac" * 21_846)

    def test_a_form_with_a_text_that_is_too_long_restarts_nothing(self) -> None:
        def work(manager: karzhoul.EntityManager) -> None:
            self.tries += 1
            manager.persist(self.Person(name=LONG))

        self.tries = 0
        with mock.patch.object(self.app, "restart") as restarts:
            self.meets(karzhoul.TextLimit, self.app.retry, work)
        self.assertEqual((self.tries, restarts.called), (1, False))

    def test_a_line_that_is_too_long(self) -> None:
        refused = self.meets(karzhoul.LineLimit, self.app.send_line, " " * 1_048_577)
        self.assertEqual(refused.detail, "line")
        self.assertIn("at most 1,048,576 bytes", str(refused))
        self.meets(karzhoul.LineLimit, self.app.set, self.Person(), "name", "x" * 1_048_576)

    def test_a_query_that_is_too_long(self) -> None:
        part = "SELECT p FROM Person p WHERE p.id = 1"
        nested = f"{part} AND {'(' * 33}p.id = 1{')' * 33}"
        ranges = ", ".join(f"Person p{number}" for number in range(9))
        for text in (f"{part}{' ' * 16_384}", nested, f"SELECT p0 FROM {ranges}"):
            refused = self.meets(karzhoul.QueryLimit, self.em.query, text)
            self.assertEqual(refused.detail, "query")
            self.assertNotIn("restart", str(refused))

    def test_managers(self) -> None:
        others = [self.app.create_entity_manager() for _ in range(15)]
        refused = self.meets(karzhoul.ManagerLimit, self.app.create_entity_manager)
        self.assertEqual(refused.detail, "managers")
        self.assertIn("16 managers are open at a time: close one", str(refused))
        self.assertNotIn("restart", str(refused))
        others[0].close()
        self.app.create_entity_manager()

    def test_what_an_update_puts_together(self) -> None:
        self.committed(name=MOST)
        text = "UPDATE Person p SET p.name = CONCAT(p.name, 'x')"
        with self.assertRaises(karzhoul.Limit) as raised, self.em.transaction():
            self.em.execute_update(text)
        # Since the flush before it may load as well.
        self.assertIs(type(raised.exception), karzhoul.Limit)
        self.assertIsNone(raised.exception.detail)


class ByTheLine(unittest.TestCase):
    def test_calls_that_make_objects(self) -> None:
        for line in (
            '{"call":"new","entity":"Person"}', '{"call":"find","em":1,"entity":"E","key":[1]}',
            '{"call":"query","em":1,"text":"SELECT p FROM Person p"}', '{"call":"merge","em":1}',
            '{"call":"get","object":1,"name":"orders"}', '{"call":"commit","em":1}',
            '{"call":"executeUpdate","em":1,"text":"DELETE FROM Person p"}',
        ):
            self.assertIs(kind_of(line), karzhoul.ObjectLimit, line)

    def test_what_cannot_be_told_apart(self) -> None:
        for line in (
            "", "[]", '{"call":"close","em":1}', '{"call":"set","object":1,"name":"a","value":1}',
            '{"call":"query","em":1,"text":7}', '{"call":"unheard"}',
        ):
            self.assertIs(kind_of(line), karzhoul.Limit, line)

    def test_a_refused_commit(self) -> None:
        refused = refusal_of("Rollback(Limit)", line='{"call":"commit","em":1}')
        assert isinstance(refused, karzhoul.Rollback)
        self.assertIs(type(refused.cause), karzhoul.ObjectLimit)

    def test_a_run_that_has_made_its_objects_or_managers(self) -> None:
        reply = '{"error":{"name":"Limit","no":19},"events":[]}'
        with played(f'> {{"call":"new","entity":"Order"}}\n< {reply}\n', PERSONS) as app:
            with self.assertRaises(karzhoul.ObjectLimit) as raised:
                app.new("Order")
            self.assertEqual(raised.exception.detail, "objects")
            self.assertIn("restart", str(raised.exception))
        call = '{"call":"createEntityManager"}'
        last = '{"events":[],"ok":1000000}'
        script = f"> {call}\n< {last}\n> {call}\n< {reply}\n"
        with played(script, PERSONS) as app:
            app.create_entity_manager()
            with self.assertRaises(karzhoul.ManagerLimit) as refused:
                app.create_entity_manager()
            self.assertIn("a run makes at most 1,000,000 managers", str(refused.exception))

    def test_a_word_of_the_program_s_own_stays(self) -> None:
        error = '{"error":{"name":"Limit","no":19,"why":"a word"},"events":[]}'
        with played(f'> {{"call":"new","entity":"Order"}}\n< {error}\n', PERSONS) as app:
            with self.assertRaises(karzhoul.Limit) as raised:
                app.new("Order")
            self.assertEqual(
                (type(raised.exception), raised.exception.detail), (karzhoul.Limit, "a word")
            )

    def test_a_copy_is_of_its_class(self) -> None:
        limit = karzhoul.TextLimit(line='{"call":"set"}')
        copied = pickle.loads(pickle.dumps(limit))
        self.assertEqual((type(copied), copied.detail), (karzhoul.TextLimit, "text"))
        self.assertEqual(str(copied), str(limit))


if __name__ == "__main__":
    unittest.main()
