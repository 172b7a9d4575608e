"""`karzhoul export --tables`: the tables that annotated classes of Java say, of a store as the Java
door writes it. tests/other-providers.sh has another provider take what is written."""

from __future__ import annotations

import json
import struct
import unittest
from datetime import timedelta, timezone
from typing import Any, Dict, List, Optional, Tuple

import karzhoul
from karzhoul.classes.types import Unfit
from karzhoul.exporting.javaforms import POSTGRESQL, SQLITE, Times, form_of

from .exports import Exporting, rows_of
from ..support import PROGRAM, needs_program

DESCRIPTION = "the table people\tnumber 1\n"
GIVEN = timezone(timedelta(hours=2))


def attribute(name: str, kind: str, column: int) -> Dict[str, Any]:
    return {"name": name, "type": kind, "column": column}


MAPPING: Dict[str, Any] = {"revision": 1, "entities": [
    {"name": "Person", "table": 1, "key": [{"name": "id", "type": "int"}], "generated": True,
     "attributes": [attribute("name", "text", 1), attribute("born", "int", 2),
                    attribute("debt", "int", 3), attribute("seen", "text", 4),
                    attribute("lost", "int", 5)],
     "relations": [{"name": "words", "kind": "manyToMany", "target": "Person_words", "joinTable": 3},
                   {"name": "pets", "kind": "manyToMany", "target": "Animal", "joinTable": 4}]},
    {"name": "Person_words", "table": 5, "key": [{"name": "row_", "type": "int"}],
     "generated": True, "attributes": [attribute("element_", "text", 1)]},
    {"name": "Animal", "table": 2, "key": [{"name": "name", "type": "text"}]},
    {"name": "Cat", "extends": "Animal", "attributes": [attribute("weight", "int", 1)]},
    {"name": "Dog", "extends": "Animal", "attributes": [attribute("weight_2", "int", 2)]},
    {"name": "order_pets", "table": 6, "embedded": "id",
     "key": [{"name": "owner", "type": "text"}, {"name": "part", "type": "int"}],
     "attributes": [attribute("members", "text", 1)]},
    {"name": "karzhoul_description", "table": 1000000, "key": [{"name": "part", "type": "int"}],
     "attributes": [attribute("text", "bytes", 1)]},
]}


def column(
    name: str, sort: str, kind: str, of: Optional[List[List[str]]] = None, **more: Any
) -> Dict[str, Any]:
    said = {"name": name, "is": sort, "type": kind, "required": False, **more}
    return said if of is None else {**said, "of": of}


def table(name: str, entity: str, columns: List[Any], **more: Any) -> Dict[str, Any]:
    return {"name": name, "entity": entity, "columns": columns, "leads": [], "unique": [], **more}


TABLES: Dict[str, Any] = {"mapping": MAPPING, "description": DESCRIPTION, "zone": "UTC", "tables": [
    table("People", "Person", [
        column("id", "key", "integer 64", part=0), column("full_name", "value", "text", [["Person", "name"]]),
        column("born", "value", "day", [["Person", "born"]]),
        column("debt", "value", "decimal of 2", [["Person", "debt"]]),
        column("seen", "value", "instant", [["Person", "seen"]]),
        column("lost", "value", "truth", [["Person", "lost"]])]),
    table('"Animal"', "Animal", [
        column("name", "key", "text", part=0), column("DTYPE", "class", "text"),
        column("weight", "value", "integer 32", [["Cat", "weight"], ["Dog", "weight_2"]]),
        column("owner_id", "held", "integer 64", [["Person", "pets"]], part=0),
        column("pets_ORDER", "place", "integer 32", [["Person", "pets"]], order="order_pets")],
        classes={"Animal": "Animal", "Cat": "C", "Dog": "D"},
        leads=[{"columns": ["owner_id"], "table": "People", "targets": ["id"]}]),
    table("Person_words", "Person", [
        column("Person_id", "owner", "integer 64", part=0),
        column("words", "value", "text", [["Person_words", "element_"]])],
        list="words", rows="Person_words",
        leads=[{"columns": ["Person_id"], "table": "People", "targets": ["id"]}]),
], "generators": [{"is": "row", "table": "SEQUENCE", "key": "SEQ_NAME", "value": "SEQ_COUNT",
                   "row": "SEQ_GEN", "of": [{"entity": "Person"}]}]}


@needs_program
class OfAnnotations(Exporting):
    def setUp(self) -> None:
        super().setUp()
        self.tables = self.folder / "tables.json"
        self.tables.write_text(json.dumps(TABLES))
        self.stored()

    def stored(self, **more: Any) -> None:
        """A store of a person with three pets in their order, two words, and a description."""
        with karzhoul.open(MAPPING, str(self.db), program=str(PROGRAM)) as app, app.begin() as manager:
            ada = app.new("Person", **{"name": "A\td\\", "born": 20458, "debt": -5, "lost": 1,
                                       "seen": "2026-01-05T09:30:00.120000000Z", **more})
            pets = [app.new("Dog", name="b\\", weight_2=9), app.new("Cat", name="a\n", weight=None),
                    app.new("Animal", name="c")]
            words = [app.new("Person_words", element_=each) for each in ("x", "x")]
            for each in (ada, *pets, *words):
                manager.persist(each)
            manager.flush()
            ada.pets, ada.words = pets, words
            owner = str(ada.id)
            manager.persist(app.new("order_pets", id={"owner": owner, "part": 0},
                                    members="c\nb\\\\\n"))
            manager.persist(app.new("karzhoul_description", part=1, text=DESCRIPTION.encode()))

    def test_rows_of_sqlite(self) -> None:
        said = self.done("export", self.db, "--tables", self.tables, "--sqlite", self.out)
        self.assertEqual(said, "out.db: 4 objects in 4 tables\n")
        self.assertEqual(rows_of(self.out, "SELECT * FROM People"), [
            (1, "A\td\\", "2026-01-05 00:00:00.000", -0.05, "2026-01-05 09:30:00.120", 1)])
        self.assertEqual(rows_of(self.out, "SELECT * FROM Animal ORDER BY name"), [
            ("a\n", "C", None, 1, 2), ("b\\", "D", 9, 1, 1), ("c", "Animal", None, 1, 0)])
        self.assertEqual(rows_of(self.out, "SELECT * FROM Person_words"), [(1, "x"), (1, "x")])
        self.assertEqual(rows_of(self.out, "SELECT * FROM SEQUENCE"), [("SEQ_GEN", 1)])

    def test_names_of_postgresql(self) -> None:
        self.done("export", self.db, "--tables", self.tables, "--sql", self.sql, "--dialect",
                  "postgresql", "--zone", "Europe/Berlin")
        text = self.sql.read_text()
        for each in ('CREATE TABLE "people" (', '"debt" numeric(19,2)', '"seen" timestamptz',
                     '"lost" boolean', 'CREATE TABLE "Animal" (', '"dtype" text', "\nSEQ_GEN\t1\n",
                     '\n1\tA\\td\\\\\t2026-01-05\t-0.05\t2026-01-05 09:30:00.120000+00\tt\n',
                     'REFERENCES "people" ("id")'):
            self.assertIn(each, text)

    def test_keys_go_on(self) -> None:
        cases: List[Tuple[Dict[str, Any], str]] = [
            ({"is": "sequence", "name": "Numbers", "size": 50, "of": [{"entity": "Person"}]},
             'CREATE SEQUENCE "numbers" START WITH 51 INCREMENT BY 50;'),
            ({"is": "identity", "entity": "Person", "of": [{"entity": "Person"}]},
             'ALTER TABLE "people" ALTER COLUMN "id" RESTART WITH 2;'),
            ({**TABLES["generators"][0], "of": [{"entity": "Animal", "blocks": {
                "entity": "Person_words", "first": 101, "size": 10}}]}, "\nSEQ_GEN\t120\n"),
        ]
        for said, wanted in cases:
            self.tables.write_text(json.dumps({**TABLES, "generators": [said]}))
            self.done("export", self.db, "--tables", self.tables, "--sql", self.sql,
                      "--dialect", "postgresql")
            self.assertIn(wanted, self.sql.read_text())
            self.sql.unlink()
            words = ("export", self.db, "--tables", self.tables, "--sqlite", self.out)
            if said["is"] == "sequence":
                self.assertIn("Numbers is a sequence, and SQLite has none", self.stopped(*words))

    def test_another_store_and_other_words_are_refused(self) -> None:
        out = ("--sqlite", self.out)
        other = {**TABLES, "description": "the table persons\tnumber 1\n"}
        wrong = {**TABLES, "tables": [table("t", "Person", [column("id", "key", "roman")])]}
        for said, words in ((other, "was written by other classes"), (wrong, "what is stored as 'roman'"),
                            ({}, "has no tables of Java's classes")):
            path = self.folder / "other.json"
            path.write_text(json.dumps(said))
            self.assertIn(words, self.stopped("export", self.db, "--tables", path, *out))
        tables = ("--tables", self.tables)
        self.assertIn("don't go with --tables",
                      self.stopped("export", self.db, *tables, *out, "--names", "snake"))
        self.assertIn("no time zone Nowhere",
                      self.stopped("export", self.db, *tables, *out, "--zone", "Nowhere"))
        self.assertIn("go with --tables alone", self.stopped("export", self.db, *out, "--round"))

    def test_what_has_no_room_is_refused_unless_it_is_rounded(self) -> None:
        self.db.unlink()
        self.stored(seen="2026-01-05T09:30:00.123456789Z")
        words = ("export", self.db, "--tables", self.tables, "--sqlite", self.out)
        self.assertIn("Person 1: People.seen has 123456789 billionths", self.stopped(*words))
        self.done(*words, "--round")
        self.assertEqual(rows_of(self.out, "SELECT seen FROM People"), [("2026-01-05 09:30:00.123",)])


class OfForms(unittest.TestCase):
    """What a database has of each form of docs/JAVA.md."""

    CASES: List[Tuple[str, Any, Any, Any]] = [
        ("decimal of 3", -12345, "-12.345", "-12.345"),
        ("truth", 1, 1, "t"),
        ("day", -1, "1969-12-31 00:00:00.000", "1969-12-31"),
        ("nanosecond of day", 21_600_000_000_000, "1970-01-01 06:00:00.000", "06:00:00.000000"),
        ("local time", "2026-02-01T23:59:58.120000000", "2026-02-01 23:59:58.120",
         "2026-02-01 23:59:58.120000"),
        ("instant", "2026-02-01T23:00:00.000000000Z", "2026-02-02 01:00:00.000",
         "2026-02-01 23:00:00.000000+00"),
        ("millisecond", -1, "1970-01-01 01:59:59.999", "1969-12-31 23:59:59.999000+00"),
        ("bytes", b"\0\1", b"\0\1", "\\x0001"),
        ("text", "é", "é", "é"),
    ]

    def test_forms(self) -> None:
        for form, stored, sqlite, postgresql in self.CASES:
            for database, wanted in ((SQLITE, sqlite), (POSTGRESQL, postgresql)):
                made = form_of(form, Times(database, GIVEN, False))
                assert made is not None
                self.assertEqual(made.made(stored), wanted, (form, database))

    def test_floating_numbers(self) -> None:
        double = form_of("double", Times(SQLITE, GIVEN, False))
        assert double is not None
        for number in (0.0, -0.0, 1.5, -0.1, -5e-324, float("inf"), float("-inf")):
            (bits,) = struct.unpack(">q", struct.pack(">d", number))
            # As the door has it: the bits of negative numbers turned, but for the sign.
            stored = bits ^ (2**63 - 1) if bits < 0 else bits
            self.assertEqual(struct.pack(">d", double.made(stored)), struct.pack(">d", number))
        with self.assertRaises(Unfit):
            double.made(0x7FF8000000000000)

    def test_what_no_column_can_have(self) -> None:
        times = Times(SQLITE, GIVEN, False)
        self.assertIsNone(form_of("offset time of day", times))
        for form, stored in (("day", 10**9), ("truth", 2), ("local time", "Y0000010000-01-01T00:00:00.000000000"),
                             ("millisecond", 10**18)):
            made = form_of(form, times)
            assert made is not None
            with self.assertRaises(Unfit):
                made.made(stored)


if __name__ == "__main__":
    unittest.main()
