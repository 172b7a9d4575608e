"""What a refused commit was about: converters, the disk, and objects that a manager has held since
before its transaction, or that a query's flush has written."""

from __future__ import annotations

import resource
import shlex
import unittest
from typing import Any, Callable, Dict, List, Tuple

import karzhoul

from ..support import ORDERS, PERSONS, PROGRAM, FolderTest, ManagerTest, ProgramTest, needs_program

TAKES = "which its converter mood doesn't take: it takes 'glad', 'sad'"


def explained(call: Callable[[], Any]) -> str:
    """What the refusal of a call is explained by."""
    try:
        call()
    except karzhoul.Refused as refused:
        return refused.explain()
    raise AssertionError("nothing was refused")


@needs_program
class Converters(ProgramTest):
    def place(self, row: int, **values: Any) -> Any:
        return self.Place(at=(row, "a", b"\x0a"), label="x", **values)

    def test_a_value_that_a_converter_refuses(self) -> None:
        def store() -> None:
            with self.app.begin() as manager:
                places = [self.place(1, mood="sad"), self.place(2, mood="angry"), self.place(3)]
                manager.persist_all(places)

        self.assertEqual(
            explained(store), f"the new Place 2, a, x'0a': mood is 'angry', {TAKES}"
        )

    def test_a_value_of_a_stored_object(self) -> None:
        with self.app.begin() as manager:
            manager.persist_all([self.place(row, mood="glad") for row in (1, 2)])

        def change() -> None:
            with self.app.begin() as manager:
                places = manager.query("SELECT p FROM Place p")
                places[0].mood, places[1].mood = "sad", "furious"

        self.assertEqual(explained(change), f"Place 2, a, x'0a': mood is 'furious', {TAKES}")

    def test_in_a_flush(self) -> None:
        self.em.transaction().begin()
        self.em.persist(self.place(1, mood=""))
        self.assertIn("mood is '', which its converter", explained(self.em.flush))

    def test_tables_of_many_values(self) -> None:
        pairs = [[f"m{number}", number] for number in range(12)]
        function = {"name": "mood", "make": "table", "pairs": pairs}
        with karzhoul.open({**PERSONS, "functions": [function]}, program=PROGRAM) as app:
            def store() -> None:
                with app.begin() as manager:
                    place = app.new("Place", at=(1, "a", b""), label="x", mood="glad")
                    manager.persist(place)

            self.assertTrue(explained(store).endswith("'m8', 'm9' and 2 more"))


@needs_program
class Held(ManagerTest):
    """Of objects that the manager persisted itself, in a transaction before."""

    mapping = ORDERS

    def setUp(self) -> None:
        super().setUp()
        self.person = self.app.new("Person", name="Ada")
        with self.em.transaction():
            self.em.persist(self.person)

    def rename(self, name: str) -> None:
        with self.em.transaction():
            self.person.name = name

    def test_what_another_commit_changed(self) -> None:
        with self.app.begin() as manager:
            manager.find("Person", 1).name = "Bob"  # type: ignore[union-attr]
        self.assertEqual(
            explained(lambda: self.rename("Eve")),
            "Person 1 was changed by another commit: version 1 is stored, and 0 was read",
        )

    def test_what_an_update_changed_with_its_version(self) -> None:
        with self.app.begin() as manager:
            manager.execute_update("UPDATE Person p SET p.version = p.version + 3")
        self.assertIn("version 3 is stored, and 0 was read", explained(lambda: self.rename("Eve")))

    def test_what_another_commit_removed(self) -> None:
        with self.app.begin() as manager:
            manager.remove(manager.get_reference("Person", 1))
        told = explained(lambda: self.rename("Eve"))
        self.assertEqual(told, "Person 1 was removed by another commit")

    def test_what_a_query_s_flush_has_written(self) -> None:
        def change() -> None:
            with self.em.transaction():
                self.person.name = "Eve"
                self.em.persist(self.app.new("Order", number=7))
                with self.app.begin() as manager:
                    manager.find("Person", 1).name = "Bob"  # type: ignore[union-attr]
                self.em.query("SELECT o FROM Order o")

        self.assertEqual(
            explained(change),
            "Person 1 was changed by another commit: version 1 is stored, and an older one was "
            "read",
        )

    def test_what_leads_to_a_new_object(self) -> None:
        def change() -> None:
            with self.em.transaction():
                order = self.app.new("Order", number=8, person=self.app.new("Person"))
                self.em.persist(order)

        self.assertIn("leads by person to the new Person", explained(change))


def _attribute(name: str, column: int) -> Dict[str, Any]:
    return {"name": name, "type": "int", "column": column, "required": True}


@needs_program
class Removed(ManagerTest):
    """Persons whose orders go along with them, and desks that don't."""

    mapping = {
        "revision": 1,
        "entities": [
            {"name": "Person", "table": 1, "key": [{"name": "id", "type": "int"}],
             "attributes": [_attribute("age", 1), _attribute("rank", 2)],
             "relations": [{"name": "orders", "kind": "oneToMany", "target": "Order",
                            "mappedBy": "person", "cascade": ["ALL"]}]},
            {"name": "Clerk", "extends": "Person"},
            {"name": "Order", "table": 2, "key": [{"name": "number", "type": "int"}],
             "relations": [{"name": "person", "kind": "manyToOne", "target": "Person", "column": 1,
                            "required": True}]},
            {"name": "Desk", "table": 3, "key": [{"name": "number", "type": "int"}],
             "relations": [{"name": "clerk", "kind": "manyToOne", "target": "Clerk", "column": 1}]},
        ],
    }

    def setUp(self) -> None:
        super().setUp()
        clerk = self.app.new("Clerk", id=1, age=30, rank=2)
        with self.app.begin() as manager:
            manager.persist_all([
                clerk, self.app.new("Order", number=7, person=clerk),
                self.app.new("Desk", number=8, clerk=clerk),
            ])

    def done(self, text: str, **given: Any) -> str:
        """What the refusal of a statement is explained by."""

        def call() -> None:
            with self.app.begin() as manager:
                manager.execute_update(text, **given)

        return explained(call)

    def test_what_goes_along_is_not_in_the_way(self) -> None:
        def remove() -> None:
            with self.app.begin() as manager:
                manager.remove(manager.get_reference("Person", 1))

        told = "Desk 8 leads to Clerk 1 by clerk, which is removed"
        self.assertEqual(explained(remove), told)

    def test_what_a_delete_would_remove(self) -> None:
        for name in ("Person", "Clerk"):
            self.assertEqual(
                self.done(f"DELETE FROM {name} p"),
                f"what stays leads to a {name} that would be removed, by Order.person or Desk.clerk: "
                "let that lead elsewhere first, or remove it too",
            )

    def test_what_an_update_sets_to_null(self) -> None:
        cases: List[Tuple[str, Dict[str, Any], str]] = [
            ("SET p.age = NULL", {}, "Person.age is set to null, and is required"),
            ("SET p.rank = 1, p.age = :n", {"n": None}, "Person.age is set to null, and is required"),
            ("SET p.age = NULLIF(p.age, 30)", {},
             "Person.age is required, and what it is set to is null of an object"),
            ("SET p.age = NULLIF(p.age, 30), p.rank = p.rank + 1", {},
             "Person.age and Person.rank are required, and what one of them is set to is null of an "
             "object"),
        ]
        for text, given, told in cases:
            with self.subTest(text):
                self.assertEqual(self.done(f"UPDATE Person p {text}", **given), told)

    def test_what_an_update_links_to(self) -> None:
        self.assertEqual(
            self.done("UPDATE Order o SET o.person = :new", new=self.app.new("Clerk", id=9)),
            "Order.person is set to a Person that isn't stored",
        )

    def test_a_list_of_others(self) -> None:
        clerk, desk = self.app.new("Clerk", id=2), self.app.new("Desk", number=9)
        told = "Clerk.orders is a list of Order, and takes no Desk"
        self.assertEqual(explained(lambda: clerk.orders.append(desk)), told)
        order = self.app.new("Order", number=9)
        told = "Desk.clerk is a Clerk, and not an Order"
        self.assertEqual(explained(lambda: setattr(desk, "clerk", order)), told)


@needs_program
class FullDisk(FolderTest):
    def test_a_commit_that_finds_no_room(self) -> None:
        # A limit of a file's size stands for a full disk; its signal would end the program.
        deaf, db = self.place / "deaf", self.place / "app.db"
        program = shlex.quote(str(PROGRAM))
        deaf.write_text(f"#!/bin/sh\ntrap '' XFSZ\nexec {program} \"$@\"\n", encoding="utf-8")
        deaf.chmod(0o755)
        with karzhoul.open(PERSONS, db, program=deaf) as app:
            def fill() -> None:
                with app.begin() as manager:
                    rows = [{"name": "z" * 4000} for _ in range(100)]
                    manager.persist_all(app.new_many("Person", rows))

            pid = app.program.pid
            _, most = resource.prlimit(pid, resource.RLIMIT_FSIZE)
            resource.prlimit(pid, resource.RLIMIT_FSIZE, (100_000, most))
            with self.assertRaises(karzhoul.StoreFault) as raised:
                fill()
            told = raised.exception.explain()
            self.assertIn(f"{db} can't be written: app.db-wal may have at most 100,000 bytes", told)
            self.assertIn("nothing of the commit is stored", told)
            self.assertEqual(str(raised.exception), f"StoreFault: {told}")
            resource.prlimit(pid, resource.RLIMIT_FSIZE, (most, most))
            fill()

    def test_the_words_of_a_disk(self) -> None:
        from karzhoul.store.opening import why_unwritten

        told = why_unwritten(self.place / "app.db", 1)
        self.assertIn("MB of room left", told)
        self.assertIn("is gone", why_unwritten(self.place / "nowhere" / "app.db", 1))


if __name__ == "__main__":
    unittest.main()
