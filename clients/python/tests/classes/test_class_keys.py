"""Keys of several parts: several attributes, or an embedded id."""

from __future__ import annotations

import json
from typing import Any, Dict, List, Tuple

import karzhoul
from karzhoul import DeclarationError, NotUnique, WrongValue
from karzhoul.classes.changes import make

from ..classed import ClassesTest
from ..support import needs_program

MODULE = """
class Copy(Entity):
    isbn: str = key()
    number: int = key()
    bought: date | None = None
    loans: list["Loan"] = one_to_many("copy")

class Rare(Copy):
    price: Decimal = money(2)

class Place(Embedded):
    day: date
    shelf: str = "a"

class Item(Entity):
    at: Place = key()
    version: int = version()
    label: str = ""
    copies: list[Copy] = many_to_many()

class Loan(Entity, unique=("copy", "turn")):
    id: int = generated()
    copy: Copy = many_to_one()
    item: Item | None = one_to_one(default=None)
    turn: int = 0
"""


@needs_program
class Keys(ClassesTest):
    def setUp(self) -> None:
        super().setUp()
        self.it = self.module(MODULE)
        self.app = self.open(self.it)
        self.day = self.it.date(2026, 1, 5)
        with self.app.begin() as manager:
            copies = [self.it.Copy(isbn=isbn, number=number) for isbn, number in
                      (("b", 1), ("a", 2), ("a", 10))]
            rare = self.it.Rare(isbn="r", number=1, price=self.it.Decimal(5))
            item = self.it.Item(at=self.it.Place(day=self.day), label="x")
            item.copies = copies[:2]
            manager.persist_all([*copies, rare, item,
                                 self.it.Loan(copy=copies[1], item=item),
                                 self.it.Loan(copy=rare)])

    def ask(self, text: str, **params: Any) -> List[Any]:
        with self.app.begin() as manager:
            return list(manager.query(text, **params))

    def test_a_value_of_another_class_is_no_key(self) -> None:
        text = MODULE + """
class Other(Embedded):
    day: date
    shelf: str
"""
        self.app.close()
        it = self.module(text)
        other = it.Other(day=self.day, shelf="a")
        with self.open(it) as app, app.begin() as manager:
            for kind, words in ((it.Item, "Place"), (it.Copy, "isbn, number"), (it.Loan, "id")):
                told = rf"the key of {kind.__name__} is {words}, and Other\(.*\) is none"
                with self.assertRaisesRegex(WrongValue, told):
                    manager.find(kind, other)
                with self.assertRaisesRegex(WrongValue, told):
                    manager.get_reference(kind, other)

    def test_objects_are_found_by_them(self) -> None:
        place = self.it.Place(day=self.day)
        with self.app.begin() as manager:
            copy = manager.get_reference("Copy", ("a", 10))
            self.assertEqual((copy.isbn, copy.number), ("a", 10))
            self.assertEqual(repr(copy), "<Copy isbn='a' number=10>")
            self.assertIsNone(manager.find(self.it.Copy, ("a", 3)))
            self.assertIsInstance(manager.find(self.it.Copy, ["r", 1]), self.it.Rare)
            for key in (place, (self.day, "a"), [self.day, "a"]):
                item = manager.get_reference("Item", key)
                self.assertEqual((item.at, item.at.day, item.label), (place, self.day, "x"))
            self.assertEqual(self.app.get(item, "at"), place)
            self.assertEqual(manager.fetch([item], "at"), [place])
            self.assertEqual(repr(item), "<Item at=('2026-01-05', 'a')>")
            found = manager.find_many("Copy", [("b", 1), ("c", 1)])
            self.assertEqual([it and it.isbn for it in found], ["b", None])

    def test_wrong_keys_are_told(self) -> None:
        with self.app.begin() as manager:
            for kind, key, words in (
                ("Copy", "a", r"the key of Copy is isbn, number in a tuple, and not 'a'"),
                ("Copy", ("a",), "isbn, number in a tuple"),
                ("Copy", ("a", "b"), "number in the key of Copy is a whole number, and 'b'"),
                ("Item", ("2026-01-05", "a"), "is a date, and '2026-01-05' is no date"),
            ):
                with self.subTest(key=key), self.assertRaisesRegex(WrongValue, words):
                    manager.find(kind, key)
            with self.assertRaises(AttributeError):
                manager.get_reference("Item", (self.day, "a")).at.shelf = "b"
            with self.assertRaises(TypeError):
                self.it.Copy(isbn="a")
        with self.assertRaises(karzhoul.EntityExists), self.app.begin() as manager:
            manager.persist(self.it.Copy(isbn="a", number=10))
            manager.flush()

    def test_refusals_name_objects_by_them(self) -> None:
        place = self.it.Place(day=self.day)
        told: List[Tuple[str, Dict[str, Any], str]] = [
            ("Item", {"at": place}, "Item 2026-01-05, a is stored already"),
            ("Copy", {"isbn": "a", "number": 10}, "Copy a, 10 is stored already"),
        ]
        for name, values, words in told:
            with self.assertRaises(karzhoul.EntityExists) as raised, self.app.begin() as manager:
                manager.persist(self.app.new(name, **values))
                manager.flush()
            self.assertIn(words, raised.exception.explain())
        with self.assertRaises(karzhoul.Rollback) as late, self.app.begin() as manager:
            manager.get_reference("Item", place).label = "y"
            with self.app.begin() as other:
                other.get_reference("Item", place).label = "z"
        self.assertIn("Item 2026-01-05, a was changed by another commit", late.exception.explain())

    def test_parts_are_read_and_set_by_name(self) -> None:
        with self.app.begin() as manager:
            copies = manager.query("SELECT c FROM Copy c WHERE c.isbn = 'a' ORDER BY c.number")
            self.assertEqual(self.app.get_many(copies, "number"), [2, 10])
            self.assertEqual(manager.fetch(copies, "isbn"), ["a", "a"])
            item = manager.get_reference("Item", (self.day, "a"))
            self.assertEqual(self.app.get(item, "at.day"), self.day)
            made = self.app.new("Copy", isbn="x", number=1)
            self.app.set(made, "number", 2)
            self.assertEqual((made.isbn, made.number), ("x", 2))

    def test_a_key_stays_as_it_is(self) -> None:
        with self.app.begin() as manager:
            copy = manager.get_reference("Copy", ("a", 10))
            with self.assertRaisesRegex(karzhoul.IllegalArgument, "can't be set"):
                copy.isbn = "b"
            manager.transaction().set_rollback_only()
            manager.transaction().rollback()

    def test_queries_by_parts(self) -> None:
        asked: List[Tuple[str, Dict[str, Any], List[Any]]] = [
            ("SELECT c.number FROM Copy c WHERE c.isbn = 'a' ORDER BY c.number DESC", {}, [10, 2]),
            ("SELECT c.isbn, COUNT(c) FROM Copy c GROUP BY c.isbn ORDER BY c.isbn", {},
             [["a", 2], ["b", 1], ["r", 1]]),
            ("SELECT l.copy.isbn, l.item.at.day FROM Loan l WHERE l.copy.number = :n", {"n": 2},
             [["a", self.day]]),
            ("SELECT i.label FROM Item i WHERE i.at.day > '2026-01-01'", {}, ["x"]),
            ("SELECT i.at FROM Item i WHERE i.at.day = :day", {"day": self.day},
             [self.it.Place(day=self.day)]),
            ("SELECT MAX(i.at.day) FROM Item i", {}, [self.day]),
            ("SELECT c.number FROM Item i JOIN i.copies c WHERE c.isbn IN :it", {"it": ["a"]}, [2]),
            ("SELECT r.number FROM Rare r WHERE r.isbn = 'r'", {}, [1]),
        ]
        for text, params, rows in asked:
            with self.subTest(text=text):
                self.assertEqual([list(it) if isinstance(it, list) else it
                                  for it in self.ask(text, **params)], rows)

    def test_they_are_walked_through_part_by_part(self) -> None:
        with self.app.begin() as manager:
            rows = list(manager.iterate("SELECT c.isbn, c.number FROM Copy c", 1))
            self.assertEqual([list(row) for row in rows],
                             [["a", 2], ["a", 10], ["b", 1], ["r", 1]])
            self.assertEqual(list(manager.iterate("SELECT i.label FROM Item i", 1)), ["x"])

    def test_updates_and_removals(self) -> None:
        with self.app.begin() as manager:
            self.assertEqual(manager.execute_update(
                "UPDATE Copy c SET c.bought = :day WHERE c.isbn = 'a'", day=self.day), 2)
            self.assertEqual(manager.execute_update("DELETE FROM Copy c WHERE c.number = 10"), 1)
        text = "SELECT c.number FROM Copy c WHERE c.bought = :d"
        self.assertEqual(self.ask(text, d=self.day), [2])

    def test_relations(self) -> None:
        with self.app.begin() as manager:
            loan = manager.get_reference("Loan", 1)
            self.assertEqual((loan.copy.number, loan.item.label), (2, "x"))
            self.assertEqual([it.id for it in loan.copy.loans], [1])
            self.assertEqual(sorted(it.isbn for it in loan.item.copies), ["a", "b"])
            loan.copy = manager.get_reference("Copy", ("b", 1))
        self.assertEqual(self.ask("SELECT l.copy.isbn FROM Loan l ORDER BY l.id"), ["b", "r"])
        with self.assertRaisesRegex(NotUnique, r"<Copy isbn='b' number=1> and 0"):
            with self.app.begin() as manager:
                manager.persist(self.it.Loan(copy=manager.get_reference("Copy", ("b", 1))))

    def test_a_merge(self) -> None:
        with self.app.begin() as manager:
            copy = manager.get_reference("Copy", ("a", 10))
        copy.bought = self.day
        with self.app.begin() as manager:
            manager.merge(copy)
            manager.merge(self.it.Copy(isbn="n", number=1, bought=self.day))
        self.assertEqual(self.ask("SELECT c.isbn FROM Copy c WHERE c.bought = :d ORDER BY c.isbn",
                                  d=self.day), ["a", "n"])

    def test_over_another_opening(self) -> None:
        self.app.close()
        lock = json.loads(self.lock.read_text())
        renamed = MODULE.replace("isbn: str = key()", "code: str = key(was='isbn')")
        self.app = self.open(renamed.replace('"isbn"', '"code"'))
        with self.app.begin() as manager:
            self.assertEqual(manager.get_reference("Copy", ("a", 10)).code, "a")
        lock["entities"]["Copy"]["key"]["parts"][0] = {
            "name": "code", "was": ["isbn"], "says": "isbn"}
        self.assertEqual(json.loads(self.lock.read_text()), lock)
        self.app.close()
        words = "Copy.isbn is a key of text, text, and was one of text, int: a key stays as it is"
        with self.assertRaisesRegex(DeclarationError, words):
            self.open(MODULE.replace("number: int = key()", "number: str = key()"))


@needs_program
class Declared(ClassesTest):
    def test_the_mapping(self) -> None:
        made = make(self.module(MODULE), self.lock)
        copy, _, item, *_ = made.mapping["entities"]
        self.assertEqual((copy["embedded"], copy["key"]), ("_key", [
            {"name": "isbn", "type": "text"}, {"name": "number", "type": "int"}]))
        self.assertEqual((item["embedded"], item["key"]), ("at", [
            {"name": "day", "type": "text"}, {"name": "shelf", "type": "text"}]))

    def test_wrong_ones_are_told(self) -> None:
        part = "class Part(Embedded):\n    a: int\n    b: int | None = None\n"
        for text, words in (
            ("    a: int = key()\n    b: int = generated()\n", "It.b is generated, and so the"),
            ("    a: int = key()\n    b: int | None = key()\n", "which is never None"),
            ("    a: Part = key()\n", "whose parts are values that are never None: Part.b isn't"),
            ("    a: Part | None = key()\n", "is a key, whose parts are values"),
            ("".join(f"    a{it}: int = key()\n" for it in range(5)), "a key of 5 parts, and 4"),
        ):
            with self.subTest(text=text):
                with self.assertRaises(DeclarationError) as raised:
                    self.open(f"{part}class It(Entity):\n{text}")
                self.assertIn(words, str(raised.exception))

    def test_what_a_class_was_stays_where_links_lead_to_it(self) -> None:
        with self.open(MODULE) as app, app.begin() as manager:
            copy = app.new("Copy", isbn="a", number=1)
            manager.persist_all([copy, app.new("Loan", copy=copy)])
        text = "class Loan(Entity):\n    id: int = generated()\n    turn: int = 0\n"
        with self.open(text) as app, app.begin() as manager:
            self.assertEqual(manager.query("SELECT l.turn FROM Loan l"), [0])
        with self.open(MODULE) as app, app.begin() as manager:
            self.assertEqual(manager.query("SELECT l.copy.isbn FROM Loan l"), ["a"])
