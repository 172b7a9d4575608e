"""Every refusal is an exception of its own: those of the program, and by a stub those that it gives
only later or rarely."""

from __future__ import annotations

import json
import re
import sqlite3
import sys
import tempfile
import unittest
from pathlib import Path
from typing import Any, Callable, Type, TypeVar

import karzhoul
from karzhoul import refusals
from karzhoul.refusals import REFUSALS, refusal_of

from .support import FLAT, PERSONS, PROGRAM, TOP, ProgramTest, needs_program, played, present

R = TypeVar("R", bound=karzhoul.Refused)


class Table(unittest.TestCase):
    def test_each_refusal_has_its_number(self) -> None:
        numbers = [kind.number for kind in REFUSALS.values()]
        self.assertEqual(numbers, list(range(1, 22)))
        source = (TOP / "crates" / "jpa_value" / "src" / "texts.rt").read_text(encoding="utf-8")
        told = {
            name: int(number)
            for name, number in re.findall(r"Cause::(\w+)(?:\([_, ]*\))? => (\d+),", source)
        }
        told["Rollback"] = 14
        self.assertEqual({name: kind.number for name, kind in REFUSALS.items()}, told)

    def test_one_hierarchy(self) -> None:
        for kind in REFUSALS.values():
            self.assertTrue(issubclass(kind, karzhoul.Refused))
            self.assertIs(getattr(karzhoul, kind.__name__), kind)
        for kind in (
            karzhoul.Refused, karzhoul.NotServed, karzhoul.ProgramEnded, karzhoul.ProgramNotFound,
        ):
            self.assertTrue(issubclass(kind, karzhoul.KarzhoulError))

    def test_each_exception_that_the_papers_name_is_of_the_package(self) -> None:
        root = Path(__file__).parents[3]
        papers = "".join(
            file.read_text()
            for file in (root / "README.md", root / "clients/python/README.md",
                         root / "docs/OPERATING.md")
        )
        words = set(re.findall(r"`(?:karzhoul\.)?([A-Z]\w+)[`(]", papers))
        kinds = [
            kind for name, module in list(sys.modules.items()) if name.startswith("karzhoul")
            for kind in vars(module).values()
            if isinstance(kind, type) and issubclass(kind, Exception)
            and kind.__module__.startswith("karzhoul") and kind.__name__ in words
        ]
        self.assertIn(karzhoul.Misused, kinds)
        for kind in kinds:
            self.assertIs(getattr(karzhoul, kind.__name__, None), kind)

    def test_a_long_value_that_is_not_unique_is_cut(self) -> None:
        it: Any = object()
        told = str(karzhoul.NotUnique("Member", ["email"], ["a" * 60_000], it, it))
        self.assertIn(" .. (60,000 characters) .. ", told)
        self.assertLess(len(told), 500)

    def test_texts(self) -> None:
        for text in (
            "Busy", "Persistence(key)", "Rollback(Persistence(version))",
            "Rollback(Listener(a (b) \n c))", "Damaged(0:)",
        ):
            self.assertEqual(str(refusal_of(text)), text)
        rollback = refusal_of("Rollback(Listener(a (b)))")
        assert isinstance(rollback, karzhoul.Rollback)
        self.assertEqual(str(rollback.cause), "Listener(a (b))")
        damaged = refusal_of("Damaged(7:0a0b)")
        assert isinstance(damaged, karzhoul.Damaged)
        self.assertEqual((damaged.table, damaged.row), (7, b"\x0a\x0b"))
        self.assertIs(type(refusal_of("Unheard(of)")), karzhoul.Refused)

    def test_each_refusal_of_a_reply(self) -> None:
        details = {"Rollback": "OptimisticLock", "Damaged": "0:"}
        for name, kind in REFUSALS.items():
            detail = details.get(name, "a detail")
            error = {"name": name, "no": kind.number, "why": detail}
            reply = json.dumps({"error": error, "events": [["PrePersist", 1, "bump"]]})
            with self.subTest(name), played(f'> {{"call":"new"}}\n< {reply}\n', PERSONS) as app:
                with self.assertRaises(karzhoul.Refused) as raised:
                    app.send_line('{"call":"new"}')
                refused = raised.exception
                self.assertIs(type(refused), kind)
                self.assertEqual(
                    (refused.number, refused.name, refused.detail), (kind.number, name, detail)
                )
                self.assertEqual(refused.line, '{"call":"new"}')
                (event,) = refused.events
                self.assertEqual(
                    (event.kind, event.ran), (karzhoul.LifecycleEvent.PRE_PERSIST, ("bump",))
                )

    def test_a_limit_says_what_to_do(self) -> None:
        objects, restart = "1,000,000 objects, loads counted", "app.restart()"
        told = {
            '{"call":"new","entity":"Order"}': (objects, restart),
            '{"call":"find","em":1,"entity":"Order","key":[1]}': (objects, restart, "65,535 bytes"),
            '{"call":"query","em":1,"text":"SELECT o FROM Order o"}': (
                objects, restart, "docs/QUERIES.md",
            ),
            '{"call":"set","object":1,"name":"name","value":"a"}': ("65,535 bytes",),
            '{"call":"createEntityManager"}': ("16 managers", "close one", restart),
            " " * 1_048_577: ("1,048,576 bytes",),
        }
        for line, words in told.items():
            with self.subTest(line[:40]):
                said = str(refusal_of("Limit", line=line))
                self.assertEqual(
                    [word in said for word in (*words, "Limit: ")], [True] * (len(words) + 1), said
                )

    def test_what_is_not_served_is_told_with_its_line(self) -> None:
        reply = '{"error":{"name":"BadLine","no":3},"events":[]}'
        with played(f'> {{"call":"close","em":1}}\n< {reply}\n', PERSONS) as app:
            with self.assertRaises(karzhoul.NotServed) as raised:
                app.ask("close", em="1")
            self.assertEqual(raised.exception.line, '{"call":"close","em":1}')


@needs_program
class OfTheProgram(ProgramTest):
    def refuses(
        self, kind: Type[R], detail: object, call: Callable[..., object], *given: object
    ) -> R:
        with self.assertRaises(kind) as raised:
            call(*given)
        self.assertEqual(raised.exception.detail, detail)
        return raised.exception

    def test_lines_that_are_no_calls(self) -> None:
        for line in (
            "", " ", "[]", '{"call":"find"', '{"call":"x"}', '{"call":"begin","em":1,"x":1}',
            '{"call":"begin","em":-0}',
        ):
            self.refuses(refusals.BadLine, None, self.app.send_line, line)

    def test_numbers_that_name_nothing(self) -> None:
        self.refuses(refusals.NoSuchManager, None, self.app.send_line, '{"call":"begin","em":99}')
        self.refuses(
            refusals.NoSuchObject, None, self.app.send_line,
            '{"call":"get","object":99,"name":"name"}',
        )

    def test_arguments(self) -> None:
        person = self.committed(name="Ada")
        self.refuses(refusals.IllegalArgument, "entity", self.em.find, "Nobody", 1)
        self.refuses(refusals.IllegalArgument, "name", self.app.get, person, "nothing")
        self.refuses(refusals.IllegalArgument, "type", self.app.set, person, "name", 7)
        self.refuses(refusals.IllegalArgument, "key", self.em.find, "Person", "Ada")
        self.refuses(refusals.IllegalArgument, "key", self.app.set, person, "id", 7)
        self.refuses(refusals.IllegalArgument, "version", self.app.set, person, "version", 7)

    def test_states(self) -> None:
        transaction = self.em.transaction()
        self.refuses(refusals.IllegalState, "inactive", transaction.commit)
        transaction.begin()
        self.refuses(refusals.IllegalState, "active", transaction.begin)
        other = self.app.create_entity_manager().transaction()
        other.begin()  # Each manager has a transaction of its own.
        other.rollback()

    def test_the_first_that_commits_wins(self) -> None:
        person, second = self.committed(name="Ada"), self.app.create_entity_manager()
        ours, theirs = self.em.transaction(), second.transaction()
        ours.begin()
        theirs.begin()
        person.name = "A1"
        ours.commit()
        found = present(second, "Person", person.id)
        self.assertEqual(found.name, "Ada")  # As it was at the begin.
        found.name = "B"
        refused = self.refuses(refusals.Rollback, "OptimisticLock", theirs.commit)
        self.assertIsInstance(refused.cause, refusals.OptimisticLock)
        self.assertEqual(present(second, "Person", person.id).name, "A1")

    def test_objects(self) -> None:
        order = self.Order(number=1)
        with self.em.transaction():
            self.em.persist(order)
        self.em.transaction().begin()
        self.refuses(refusals.EntityExists, None, self.em.persist, self.Order(number=1))
        refused = self.refuses(refusals.Rollback, "marked", self.em.transaction().commit)
        self.assertIsNone(refused.cause)
        self.em.transaction().begin()
        self.refuses(refusals.Persistence, "key", self.em.persist, self.Order())
        self.em.transaction().rollback()

    def test_commits(self) -> None:
        place = self.Place(at=(1, "a", b""))
        self.em.transaction().begin()
        self.em.persist(place)
        refused = self.refuses(refusals.Rollback, "Persistence(null)", self.em.transaction().commit)
        self.assertIsInstance(refused.cause, karzhoul.Persistence)
        assert refused.cause is not None
        self.assertEqual(refused.cause.detail, "null")
        self.em.transaction().begin()
        self.em.persist(self.Place(at=(2, "a", b""), label="x", mood="angry"))
        self.refuses(refusals.Rollback, "Persistence(converter)", self.em.transaction().commit)

    def test_limits(self) -> None:
        person = self.Person(name="a" * 65_535)
        self.refuses(refusals.TextLimit, "text", self.app.set, person, "name", "a" * 65_536)
        self.refuses(refusals.LineLimit, "line", self.app.send_line, " " * 1_048_577)
        for _ in range(15):
            self.app.create_entity_manager()
        self.refuses(refusals.ManagerLimit, "managers", self.app.create_entity_manager)


@needs_program
class AtTheOpening(unittest.TestCase):
    def test_a_mapping_that_is_refused_says_where(self) -> None:
        mapping = json.loads(json.dumps(PERSONS))
        mapping["entities"][2]["attributes"][0]["column"] = 0
        with self.assertRaises(karzhoul.Mapping) as raised:
            karzhoul.open(mapping, program=PROGRAM)
        self.assertEqual(raised.exception.detail, "model")
        self.assertIn("$.entities[2].attributes[0].column", str(raised.exception))

    def test_a_mapping_that_is_not_there(self) -> None:
        with self.assertRaises(karzhoul.Mapping) as raised:
            karzhoul.open("/nowhere/mapping.json", program=PROGRAM)
        self.assertEqual(raised.exception.detail, "json")

    def test_stores_that_are_refused(self) -> None:
        with tempfile.TemporaryDirectory() as place:
            with self.assertRaises(karzhoul.StoreFault):
                karzhoul.open(FLAT, place, program=PROGRAM)
            text = Path(place, "text.db")
            text.write_text("no database " * 1000, encoding="utf-8")
            with self.assertRaises(karzhoul.StoreFault):
                karzhoul.open(FLAT, text, program=PROGRAM)

    def test_a_damaged_store(self) -> None:
        with tempfile.TemporaryDirectory() as place:
            db = Path(place, "app.db")
            karzhoul.open(FLAT, db, program=PROGRAM).close()
            connection = sqlite3.connect(db)
            with connection:
                connection.execute("INSERT INTO cell VALUES (1, x'018000000000000001', 2, x'02ff')")
            connection.close()
            with self.assertRaises(karzhoul.Damaged) as raised:
                karzhoul.open(FLAT, db, program=PROGRAM)
            self.assertEqual(
                (raised.exception.table, raised.exception.row.hex()), (1, "018000000000000001")
            )

    def test_a_store_that_another_program_has_open(self) -> None:
        with tempfile.TemporaryDirectory() as place:
            db = Path(place, "app.db")
            with karzhoul.open(FLAT, db, program=PROGRAM):
                with self.assertRaises(karzhoul.StoreFault):
                    karzhoul.open(FLAT, db, program=PROGRAM)


if __name__ == "__main__":
    unittest.main()
