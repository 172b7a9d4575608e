"""The command that tells what an opening changes: over stores of cells, against values that were
worked by hand."""

from __future__ import annotations

import json
import sqlite3
import unittest
from pathlib import Path
from typing import Any, Dict, Iterator, List, Optional, Tuple
from unittest import mock

import karzhoul
from karzhoul.store.migration import outlook

from ..support import PERSONS, PROGRAM, TOP, FolderTest, needs_program, needs_revision_2
from ..cli.test_command import alone

RUNS = TOP / "tests" / "runs"
TABLE = (
    "CREATE TABLE cell (t INTEGER NOT NULL, r BLOB NOT NULL, c INTEGER NOT NULL,\n"
    "  v BLOB NOT NULL, PRIMARY KEY (t, r, c)) STRICT"
)
Cells = List[Tuple[int, bytes, int, bytes]]


def cells_of(text: str) -> Cells:
    """Cells as the runs have them: table, row, column, value."""
    parts = [[part.strip() for part in line.split(",")] for line in text.splitlines()]
    return [
        (int(table), bytes.fromhex(row), int(column), bytes.fromhex(value))
        for table, row, column, value in parts
    ]


class WithStore(FolderTest):
    """A test over a store's file."""

    def setUp(self) -> None:
        super().setUp()
        self.db, self.mapping = self.place / "app.db", self.place / "mapping.json"

    def fill(self, cells: Cells) -> None:
        connection = sqlite3.connect(self.db)
        connection.execute(TABLE)
        connection.executemany("INSERT INTO cell VALUES (?, ?, ?, ?)", cells)
        connection.commit()
        connection.close()

    def cells(self, path: Optional[Path] = None) -> Cells:
        connection = sqlite3.connect(path or self.db)
        found = sorted(connection.execute("SELECT t, r, c, v FROM cell"))
        connection.close()
        return found

    def laid(self, name: str) -> Any:
        """The store and the mapping of a run."""
        self.fill(cells_of((RUNS / name / "cells-before.txt").read_text(encoding="utf-8")))
        self.mapping.write_text(
            (RUNS / name / "mapping.json").read_text(encoding="utf-8"), encoding="utf-8"
        )
        return json.loads(self.mapping.read_text(encoding="utf-8"))

    def told(self, *words: str) -> Tuple[int, List[str], str]:
        status, out, err = alone("migrate", str(self.db), "--mapping", str(self.mapping), *words)
        return status, out.splitlines(), err


ONE_AND_ONE = "the store is of revision 1, and the mapping of revision 1"
PERSON_STORE = [
    "the store is of revision 1, and the mapping of revision 2",
    "Person: 1 row, 1 written again",
    "  name moves from column 2 to column 4, in 1 row",
    "  hits is new, with 0 in column 3, in 1 row",
    "Order: 0 rows",
    "  column 1 goes, from 0 rows",
    "an opening would write this in one commit, of 7 statements, which can't be undone",
]


class Told(WithStore):
    def test_a_store_of_persons(self) -> None:
        self.laid("migrate-person-store")
        before = self.db.read_bytes()
        with mock.patch("karzhoul.session.opening.open", side_effect=AssertionError):
            self.assertEqual(self.told("--dry-run"), (0, PERSON_STORE, ""))
        self.assertEqual(self.db.read_bytes(), before)

    def test_classes_of_a_hierarchy(self) -> None:
        self.laid("migrate-along-a-class-chain")
        status, told, _ = self.told("--dry-run")
        self.assertEqual(status, 0)
        self.assertEqual(
            told[1:],
            [
                "Person: 1 row, 1 written again",
                '  note is new, with "new" in column 5, in 1 row',
                "  column 3 goes, from 1 row", "  column 9 goes, from 0 rows",
                "Clerk: 1 row, 1 written again",
                "  room moves from column 2 to column 6, in 1 row",
                '  note is new, with "new" in column 5, in 1 row',
                "  shift is new, with 1 in column 7, in 1 row",
                "  column 3 goes, from 0 rows", "  column 9 goes, from 0 rows",
                "Head: 1 row, 1 written again",
                "  room moves from column 2 to column 6, in 1 row",
                '  note is new, with "new" in column 5, in 1 row',
                "  shift is new, with 1 in column 7, in 1 row",
                "  column 3 goes, from 0 rows", "  column 9 goes, from 1 row",
                "Customer: 1 row, 1 written again",
                '  note is new, with "new" in column 5, in 1 row',
                "  mood is new in column 8, and null", "  column 3 goes, from 0 rows",
                "  column 9 goes, from 1 row",
                # 2 for the revision, 1 for each row, and 3, 5, 2 and 4 cells
                "an opening would write this in one commit, of 20 statements, which can't be "
                "undone",
            ],
        )

    def test_defaults_through_converters(self) -> None:
        self.laid("migrate-defaults-through-converters")
        _, told, _ = self.told("--dry-run")
        self.assertEqual(
            told[2:6],
            [
                '  mood is new, with "glad" in column 1 (stored as 1), in 1 row',
                "  turn is new, with 0 in column 2 (stored as -1), in 1 row",
                "  scan is new, with x'0aff' in column 3 (stored as \"0aff\"), in 1 row",
                "  plain is new, with x'00' in column 4, in 1 row",
            ],
        )

    def test_rows_that_stay_are_not_written(self) -> None:
        mapping = self.laid("migrate-dropped-cell-that-spells-nothing")
        self.fill_more([(2, b"\x01\x80" + bytes(6) + b"\x0c", 0, b"\x02Order")])
        (person, order) = outlook(mapping, self.db).entities
        self.assertEqual((person.rows, order.rows, order.written), (0, 3, 2))
        self.assertEqual(outlook(mapping, self.db).statements, 6)

    def fill_more(self, cells: Cells) -> None:
        connection = sqlite3.connect(self.db)
        connection.executemany("INSERT INTO cell VALUES (?, ?, ?, ?)", cells)
        connection.commit()
        connection.close()

    def test_a_log_is_read_too(self) -> None:
        mapping = self.laid("migrate-person-store")
        writer = sqlite3.connect(self.db)
        self.addCleanup(writer.close)
        writer.execute("PRAGMA journal_mode=WAL")
        row = b"\x01\x80" + bytes(6) + b"\x0a"
        writer.executemany(
            "INSERT INTO cell VALUES (2, ?, ?, ?)", [(row, 0, b"\x02Order"), (row, 1, b"\xff")]
        )
        writer.commit()
        self.assertGreater((self.place / "app.db-wal").stat().st_size, 0)
        self.assertEqual([entity.rows for entity in outlook(mapping, self.db).entities], [1, 1])

    def test_an_empty_store(self) -> None:
        self.mapping.write_text(
            (RUNS / "migrate-person-store" / "mapping.json").read_text(encoding="utf-8"),
            encoding="utf-8",
        )
        self.db.touch()
        status, told, _ = self.told("--dry-run")
        self.assertEqual(
            (status, told[1], told[-1].split(",")[1]), (0, "Person: 0 rows", " of 2 statements")
        )
        self.assertEqual(self.db.read_bytes(), b"")

    def test_nothing_is_due(self) -> None:
        mapping = self.laid("store-of-revision-2")
        nothing = [
            "the store is of revision 2, and the mapping of revision 2",
            "an opening would write nothing",
        ]
        self.assertEqual(self.told("--dry-run"), (0, nothing, ""))
        self.assertFalse(outlook(mapping, self.db).is_due)
        copy = self.place / "copy.db"
        nothing.append(f"{copy} was not made, since nothing is to be brought over")
        self.assertEqual(self.told("--copy", str(copy)), (0, nothing, ""))
        self.assertFalse(copy.exists())

    def test_a_mapping_of_revision_1(self) -> None:
        self.laid("migrate-person-store")
        self.mapping.write_text(json.dumps(PERSONS), encoding="utf-8")
        nothing = [
            "the store is of revision 1, and the mapping of revision 1",
            "an opening would write nothing",
        ]
        self.assertEqual(self.told("--dry-run"), (0, nothing, ""))

    def test_a_mapping_that_is_not_the_store_s(self) -> None:
        self.laid("migrate-person-store")
        row, ada = "row 018000000000000001 of table 1", "Person.name"
        for changes, why in (
            ({"name": "Human"}, "is a row of no entity of the mapping"),
            ({"attributes": []}, "has a cell in column 2, which no member of Person has"),
            (
                {"attributes": [{"name": "name", "type": "int", "column": 2}]},
                f"has a text in column 2, and {ada} is a whole number",
            ),
            (
                {
                    "attributes": [
                        {"name": "name", "type": "text", "column": 2},
                        {"name": "nick", "type": "text", "column": 3, "required": True},
                    ]
                },
                "has nothing in column 3, and Person.nick is needed",
            ),
            (
                {"version": {"name": "version", "column": 5}},
                "has a cell in column 1, which no member of Person has",
            ),
        ):
            mapping = json.loads(json.dumps(PERSONS))
            mapping["entities"][0].update(changes)
            self.mapping.write_text(json.dumps(mapping), encoding="utf-8")
            told = f"an opening would be refused: {row} {why}"
            self.assertEqual(self.told("--dry-run")[:2], (3, [ONE_AND_ONE, told]), changes)


class Refused(WithStore):
    def why(self, name: str) -> str:
        self.laid(name)
        status, told, err = self.told("--dry-run")
        self.assertEqual(
            (status, err, told[-1].partition(": ")[0]), (3, "", "an opening would be refused")
        )
        return told[-1].partition(": ")[2]

    def test_a_column_that_is_new_has_a_cell(self) -> None:
        self.assertEqual(
            self.why("new-column-that-has-a-cell"),
            "row 018000000000000001 of table 1 has a cell in column 3 already, which 'hits' is to "
            "have",
        )

    def test_a_column_that_another_one_moves_to_has_a_cell(self) -> None:
        self.assertEqual(
            self.why("moved-column-that-has-a-cell"),
            "row 018000000000000001 of table 1 has a cell in column 4 already, which 'name' is to "
            "have",
        )

    def test_a_new_column_of_another_class_has_a_cell(self) -> None:
        self.assertEqual(
            self.why("new-column-of-another-class-that-has-a-cell"),
            "row 018000000000000003 of table 1 has a cell in column 7 already, which 'shift' is "
            "to have",
        )

    def test_a_row_of_no_entity(self) -> None:
        self.assertEqual(
            self.why("row-of-a-dropped-cell-alone"),
            "row 01800000000000000a of table 2 is a row of no entity of the mapping",
        )

    def test_a_wrong_revision(self) -> None:
        for name in (
            "revision-that-there-is-not", "revision-with-a-second-cell",
            "revision-in-another-column",
        ):
            with self.subTest(name):
                self.db.unlink(missing_ok=True)
                self.assertEqual(
                    self.why(name),
                    "row 018000000000000000 of table 0 says no revision that there is",
                )

    def test_a_store_of_revision_2_by_revision_1(self) -> None:
        self.laid("store-of-revision-2")
        self.mapping.write_text(json.dumps(PERSONS), encoding="utf-8")
        status, told, _ = self.told("--dry-run")
        why = (
            "an opening would be refused: row 018000000000000000 of table 0 says that the store "
            "is of revision 2"
        )
        self.assertEqual(
            (status, told), (3, ["the store is of revision 2, and the mapping of revision 1", why])
        )

    def test_a_wrong_mapping(self) -> None:
        mapping = self.laid("migrate-person-store")
        mapping["entities"][0]["attributes"][1]["since"] = 3
        self.mapping.write_text(json.dumps(mapping), encoding="utf-8")
        status, told, _ = self.told("--dry-run")
        self.assertEqual((status, len(told)), (1, 1))
        self.assertIn("$.entities[0].attributes[1].since: ", told[0])

    def test_what_is_no_store(self) -> None:
        self.mapping.write_text(json.dumps(PERSONS), encoding="utf-8")
        self.assertEqual(self.told("--dry-run"), (4, [], f"karzhoul: there is no file {self.db}\n"))
        self.db.write_text("no store " * 1000, encoding="utf-8")
        status, told, err = self.told("--dry-run")
        self.assertEqual((status, told), (4, []))
        self.assertTrue(err.endswith(": it is no database of SQLite\n"), err)

    def test_one_way_must_be_said(self) -> None:
        status, told, err = self.told()
        self.assertEqual((status, told), (2, []))
        self.assertIn("one of --dry-run and --copy FILE is needed", err)
        with self.assertRaises(SystemExit):
            self.told("--dry-run", "--copy", "copy.db")


class Asked(WithStore):
    """The program is asked over a copy, or over the store itself once that is copied."""

    def opening(self, refused: Optional[Exception] = None) -> Any:
        """A stand-in for the opening, which notes what it is handed."""

        def opened(mapping: Dict[str, Any], db: Path, program: Optional[str] = None) -> mock.Mock:
            self.opened.append((db == self.db, self.cells(db)))
            if refused is not None:
                raise refused
            return mock.Mock()

        self.opened: List[Tuple[bool, Cells]] = []
        return mock.patch("karzhoul.session.opening.open", side_effect=opened)

    def test_a_dry_run_over_a_copy(self) -> None:
        self.laid("migrate-person-store")
        before = self.db.read_bytes()
        with self.opening():
            self.assertEqual(
                self.told("--dry-run", "--with-program"),
                (0, [*PERSON_STORE, "the program opens a copy of it so"], ""),
            )
        self.assertEqual(self.opened, [(False, self.cells())])
        with self.opening(karzhoul.Damaged("0:")):
            status, told, _ = self.told("--dry-run", "--with-program")
        self.assertEqual(
            (status, told[-1]), (3, "the program refuses that, tried on a copy: Damaged(0:)")
        )
        self.assertEqual(self.db.read_bytes(), before)

    def test_a_copy_is_made_first(self) -> None:
        self.laid("migrate-person-store")
        before, copy = self.cells(), self.place / "copy.db"
        with self.opening():
            status, told, _ = self.told("--copy", str(copy))
        self.assertEqual(
            (status, told[-2:]), (0, [f"{copy} is a copy of it as it is", "it is written"])
        )
        self.assertEqual((self.opened, self.cells(copy)), ([(True, before)], before))
        with self.opening():
            self.assertEqual(
                self.told("--copy", str(copy)),
                (4, [], f"karzhoul: there is a file {copy} already\n"),
            )
        self.assertEqual(self.opened, [])

    def test_an_opening_that_is_refused(self) -> None:
        self.laid("migrate-person-store")
        with self.opening(karzhoul.Damaged("0:")):
            status, told, _ = self.told("--copy", str(self.place / "copy.db"))
        self.assertEqual(
            (status, told[-1]), (3, "the program refused that, and left it as it was: Damaged(0:)")
        )


@needs_program
class Locked(WithStore):
    def test_another_program_has_it_open(self) -> None:
        self.mapping.write_text(json.dumps(PERSONS), encoding="utf-8")
        with karzhoul.open(PERSONS, self.db, program=PROGRAM):
            status, told, err = self.told("--dry-run")
        self.assertEqual((status, told), (4, []))
        self.assertIn("another program has it open", err)
        self.assertEqual(self.told("--dry-run")[0], 0)


@needs_program
@needs_revision_2
class Migrated(WithStore):
    def runs(self) -> Iterator[Path]:
        for path in sorted(RUNS.iterdir()):
            if (
                (path / "stage").exists()
                and (path / "cells-before.txt").exists()
                and not (path / "status").exists()
            ):
                yield path

    def test_the_program_writes_what_is_told(self) -> None:
        for path in self.runs():
            with self.subTest(path.name):
                self.db.unlink(missing_ok=True)
                mapping = self.laid(path.name)
                before, found = self.cells(), outlook(mapping, self.db)
                with karzhoul.open(mapping, self.db, program=PROGRAM) as app:
                    em = app.create_entity_manager()
                    for entity in found.entities:
                        rows = em.query_single(
                            f"SELECT COUNT(e) FROM {entity.name} e WHERE TYPE(e) = {entity.name}"
                        )
                        self.assertEqual(rows, entity.rows)
                self.assertEqual(before != self.cells(), found.is_due)
                self.assertFalse(outlook(mapping, self.db).is_due)

    def test_a_copy_and_then_the_opening(self) -> None:
        self.laid("migrate-person-store")
        before, copy = self.cells(), self.place / "copy.db"
        status, told, _ = self.told("--copy", str(copy), "--program", str(PROGRAM))
        self.assertEqual((status, told[-1], self.cells(copy)), (0, "it is written", before))
        self.assertEqual(
            self.cells(),
            cells_of((RUNS / "migrate-person-store" / "cells.txt").read_text(encoding="utf-8")),
        )


if __name__ == "__main__":
    unittest.main()
