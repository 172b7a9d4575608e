"""`karzhoul export` to SQLite and `karzhoul import`: the tables, the way back, and what is
refused."""

from __future__ import annotations

import contextlib
import json
import os
import random
import signal
import sqlite3
import subprocess
import unittest
from functools import partial
from typing import Any, List, Sequence
from unittest import mock

from karzhoul.records import dumping
from karzhoul.session import opening
from karzhoul.store import starting
from karzhoul.cli.command import main
from karzhoul.exporting.naming import snake
from karzhoul.exporting.rows import Row, Rows
from karzhoul.store.program import Program
from karzhoul.records.records import Record

from ..carried import CARRIED, Carrying, cells
from .exports import Exporting, files_of_at_most, rows_of
from .random_stores import Store
from ..support import needs_program

TRIALS = 24
WAYS: Sequence[Sequence[str]] = ((), ("--names", "snake", "--as", "column"))


class Naming(unittest.TestCase):
    def test_names_in_small_letters(self) -> None:
        said = {"Order": "order", "OrderLine": "order_line", "isLost": "is_lost", "a": "a",
                "HTTPServer": "http_server", "line2Of": "line2_of", "at_row": "at_row"}
        for name, wanted in said.items():
            self.assertEqual(snake(name), wanted)


@needs_program
class WrittenTables(Exporting):
    def test_a_column_has_the_value_of_its_type(self) -> None:
        self.library()
        told = self.done("export", self.db, "--mapping", self.models, "--sqlite", self.out)
        self.assertEqual(told, "out.db: 11 objects in 4 tables\n")
        found = rows_of(self.out, 'SELECT id, DTYPE, version, name, email, home_street, home_city,'
                        ' joined, seen, local, hour, took, fee, state, level, ident, extra, isLost,'
                        ' photo, vat, "order" FROM Member ORDER BY id')
        self.assertEqual(found[0], (
            1, "Member", 1, "Ada", "a@x", None, "Ghent", "2026-01-05",
            "2026-01-05T09:30:00.000000Z", "0001-01-01T00:00:00.000000", "09:30:00.000000",
            -259_200_000_000, 225, "OPEN", 1, "00000000-0000-0000-0000-000000000007",
            '{"b":[1,2,"é\\\\t\\t\\n"],"a":null}', 1, b"\0\1\\", None, None,
        ))
        self.assertEqual(found[1][1:4] + found[1][12:13] + found[1][19:],
                         ("Company", 0, "Bo\tb\\\n\r'\"é", -5, "V1", -(2**63)))
        loans = rows_of(self.out, "SELECT * FROM Loan ORDER BY number")
        self.assertEqual(loans, [(-2, 2, "é", -1, None), (1, 1, "a", 10, 2**63 - 1),
                                 (3, 1, None, None, 1), (2**63 - 1, 3, None, None, 2**63 - 1)])
        self.assertEqual(len(rows_of(self.out, "SELECT * FROM Loan_more")), 6)

    def test_the_constraints_hold_and_keys_go_on(self) -> None:
        self.library()
        self.done("export", self.db, "--mapping", self.models, "--sqlite", self.out)
        with contextlib.closing(sqlite3.connect(self.out)) as store:
            store.execute("PRAGMA foreign_keys = ON")
            self.assertEqual(list(store.execute("PRAGMA foreign_key_check")), [])
            for wrong in (
                "UPDATE Member SET email = 'a@x' WHERE id = 3",
                "UPDATE Loan SET book_isbn = 'a', book_number = 10 WHERE number = 3",
                "INSERT INTO Book VALUES ('z', 10, 'Emma')",
                "INSERT INTO Loan (number) VALUES (7)",
            ):
                with self.assertRaises(sqlite3.IntegrityError, msg=wrong):
                    store.execute(wrong)
            for wrong in ("DELETE FROM Member WHERE id = 1", "DELETE FROM Book WHERE isbn = 'é'",
                          "UPDATE Loan SET before_number = 77"):
                with self.assertRaises(sqlite3.IntegrityError, msg=wrong):
                    store.execute(wrong)
                    store.commit()
                store.rollback()
            # A vat is unique among companies alone, as their class says.
            store.execute("INSERT INTO Member (DTYPE, version, name, fee, state, level, isLost, vat)"
                          " VALUES ('Member', 0, 'x', 0, 'OPEN', 1, 0, 'V1')")
            self.assertEqual(list(store.execute("SELECT max(id) FROM Member")), [(5,)])
        names = rows_of(self.out, "SELECT tbl_name FROM sqlite_master WHERE name LIKE 'ix_%'")
        self.assertEqual(sorted(names), [("Loan",), ("Loan",), ("Loan_more",)])

    def test_the_text_of_sql_makes_the_same_file(self) -> None:
        self.library()
        for name, words in (("a.db", ()), ("b.db", ("--names", "snake"))):
            self.done("export", self.db, "--mapping", self.models, "--sqlite",
                      self.folder / name, *words)
            self.done("export", self.db, "--mapping", self.models, "--sql", self.sql,
                      "--dialect", "sqlite", *words)
            with self.sql.open() as said:
                subprocess.run(["sqlite3", self.out], stdin=said, check=True, timeout=300)
            with contextlib.closing(sqlite3.connect(self.out)) as one, contextlib.closing(
                sqlite3.connect(self.folder / name)
            ) as other:
                self.assertEqual(list(one.iterdump()), list(other.iterdump()))
            printed = self.done("export", self.db, "--mapping", self.models, "--sql", "-",
                                "--dialect", "sqlite", *words)
            self.assertEqual(printed, self.sql.read_bytes().decode())
            self.sql.unlink()
            self.out.unlink()

    def test_a_mapping_of_classes_has_their_types(self) -> None:
        self.library()
        mapping, by_mapping = self.folder / "mapping.json", self.folder / "by_mapping.db"
        main(["mapping", str(self.models), "-o", str(mapping)])
        self.done("export", self.db, "--mapping", self.models, "--sqlite", self.out)
        self.done("export", self.db, "--mapping", mapping, "--sqlite", by_mapping)
        for table in ("Member", "Book", "Loan", "Loan_more"):
            for text in (f"PRAGMA table_info({table})", f"SELECT * FROM {table}"):
                self.assertEqual(rows_of(by_mapping, text), rows_of(self.out, text))

    def test_what_comes_back_is_the_same_store(self) -> None:
        self.library()
        back = self.folder / "back.db"
        named = ("--name", "Member=people", "--name", "Loan.book.isbn=of")
        ways: Sequence[Sequence[str]] = ((), ("--names", "snake"), ("--as", "column"), named)
        for words in ways:
            self.done("export", self.db, "--mapping", self.models, "--sqlite", self.out, *words)
            told = self.done("import", "--sqlite", self.out, back, "--mapping", self.models, *words)
            self.assertEqual(told, "back.db: 11 objects\n")
            self.assertEqual(cells(back), cells(self.db), words)
            for each in (self.out, back):
                each.unlink()
            self.assertEqual(list(self.folder.glob("*.importing")), [])
        self.assertEqual(json.loads(self.lock.read_text())["entities"].keys(),
                         {"Member", "Company", "Book", "Loan"})

    def test_a_mapping_by_hand_and_small_pages(self) -> None:
        made = Carried("run")
        made.setUp()
        self.addCleanup(made.doCleanups)
        made.stored()
        before, out, back = cells(made.db), made.place / "out.db", made.place / "back.db"
        for what in ("attribute", "column"):
            with mock.patch.object(dumping, "_LEAST_PAGE", 1), \
                    mock.patch.object(dumping, "_VALUES", 2), \
                    mock.patch.object(dumping, "_MOST_PAGE", 2):
                self.assertEqual(made.ran("export", made.db, "--sqlite", out, "--as", what)[0], 0)
            found = rows_of(out, 'SELECT status, weight, seal FROM "Order" ORDER BY id')
            self.assertEqual(found, [
                ("shipped", -7, b""), ("placed", None, None), ("placed", None, None)
            ] if what == "attribute" else [(2, 6, ""), (1, None, None), (1, None, None)])
            self.assertEqual(
                made.ran("import", "--sqlite", out, back, "--as", what)[::2], (0, ""))
            self.assertEqual(cells(back), before)
            out.unlink()
            back.unlink()

    def test_lists_whose_members_come_before_and_behind_their_owners(self) -> None:
        module = self.module("""
class Node(Entity):
    id: int = key()
    after: Optional["Node"] = many_to_one()
    more: List["Node"] = many_to_many()
""")
        with self.open(module) as app, app.begin() as manager:
            nodes = [module.Node(id=number) for number in range(9)]
            for number, node in enumerate(nodes):
                node.more, node.after = nodes[number - 1 : number + 3 : 2], nodes[(number + 4) % 9]
                manager.persist(node)
        file, back = module.__file__, self.folder / "back.db"
        self.done("export", self.db, "--mapping", file, "--sqlite", self.out)
        self.done("import", "--sqlite", self.out, back, "--mapping", file)
        self.assertEqual(cells(back), cells(self.db))

    def test_random_stores_come_back(self) -> None:
        for seed in range(TRIALS):
            with self.subTest(seed=seed):
                store = Store(random.Random(seed), self.folder / str(seed), self.ran)
                store.load()
                for words in WAYS:
                    store.export(*words)
                    if not words:
                        store.compare_rows(self)
                    store.bring_back(*words)
                    self.assertEqual(cells(store.back), cells(store.db))


class Carried(Carrying):
    """The mapping by hand of the tests of `dump`."""

    mapping: Any = json.loads(CARRIED.read_text(encoding="utf-8"))


@needs_program
class WrongExports(Exporting):
    def setUp(self) -> None:
        super().setUp()
        self.library()
        self.common = ["export", self.db, "--mapping", self.models]

    def test_a_target_that_is_there(self) -> None:
        self.out.write_text("mine")
        for words in (("--sqlite", self.out), ("--sql", self.out, "--dialect", "postgresql")):
            self.assertIn("there is a file out.db already", self.stopped(*self.common, *words))
        lost = self.folder / "none" / "out.db"
        self.assertIn("there is no folder none", self.stopped(*self.common, "--sqlite", lost))

    def test_a_log_without_its_file(self) -> None:
        for name in ("out.db-wal", "out.db-journal"):
            log = self.folder / name
            log.write_text("of before")
            self.assertIn(f"there is a file {name} without its out.db",
                          self.stopped(*self.common, "--sqlite", self.out))
            log.unlink()

    def test_a_place_where_nothing_can_be_written(self) -> None:
        for words in (("--sqlite", "/proc/out.db"), ("--sql", "/proc/out", "--dialect", "sqlite")):
            self.assertIn("can't be written, and was not", self.stopped(*self.common, *words))

    def test_a_disk_that_is_full(self) -> None:
        module = self.classes
        with self.open(module) as app, app.begin() as manager:
            for number in range(9):
                manager.persist(module.Book(isbn="f", number=number, title=str(number) * 60_000))
        for words in (("--sqlite", self.out), ("--sql", self.sql, "--dialect", "postgresql")):
            with files_of_at_most(100_000):
                told = self.stopped(*self.common, *words)
            self.assertIn("can't be written, and was not", told)

    def test_a_mapping_of_another_store(self) -> None:
        other = self.folder / "other.json"
        other.write_text(CARRIED.read_text(encoding="utf-8"))
        told = self.stopped("export", self.db, "--mapping", other, "--sqlite", self.out)
        self.assertIn("Damaged", told)
        self.assertIn("there is no file none", self.stopped(
            "export", self.folder / "none", "--mapping", other, "--sqlite", self.out))

    def test_names_that_are_one(self) -> None:
        told = self.stopped(*self.common, "--sqlite", self.out, "--name", "Member.name=EMAIL")
        self.assertIn("Member.name and Member.email would both be the column of Member email: give "
                      "one of them another name, as --name Member.email=ANOTHER", told)
        told = self.stopped(*self.common, "--sqlite", self.out, "--name", "Book=member")
        self.assertIn("Member and Book would both be the table member", told)

    def test_names_that_a_database_keeps_or_cuts(self) -> None:
        words = ("--sql", self.sql, "--dialect", "postgresql")
        told = self.stopped(*self.common, *words, "--name", "Member.name=xmin")
        self.assertIn("Member.name would be the column xmin, a name that PostgreSQL keeps", told)
        told = self.stopped(*self.common, *words, "--name", f"Member={'é' * 32}")
        self.assertIn("a name of 64 bytes, and PostgreSQL cuts those of more than 63", told)
        told = self.stopped(*self.common, "--sqlite", self.out, "--name", "Book=sqlite_book")
        self.assertIn("a name that SQLite keeps for itself", told)

    def test_words_that_are_wrong(self) -> None:
        for words, told in (
            (("--sql", self.sql), "--sql goes with --dialect, one of sqlite, postgresql"),
            (("--sqlite", self.out, "--dialect", "sqlite"), "--dialect goes with --sql alone"),
            (("--sqlite", self.out, "--name", "x"), "write it as Entity=NAME"),
            (("--sqlite", self.out, "--name", "Membr=x"), "did you mean 'Member'"),
        ):
            self.assertIn(told, self.stopped(*self.common, *words))

    def test_a_text_that_postgresql_cannot_hold(self) -> None:
        module = self.classes
        with self.open(module) as app, app.begin() as manager:
            manager.persist(module.Member(name="a\0b"))
        told = self.stopped(*self.common, "--sql", self.sql, "--dialect", "postgresql")
        self.assertIn("Member 5: name has U+0000, which PostgreSQL can't hold in a text\n"
                      "karzhoul: out.sql was not written", told)
        self.done(*self.common, "--sqlite", self.out)
        self.assertEqual(rows_of(self.out, "SELECT name FROM Member WHERE id = 5"), [("a\0b",)])

    def test_values_that_are_not_of_their_class(self) -> None:
        module = self.classes
        with self.raw(module) as app, app.begin() as manager:
            manager.query("SELECT m FROM Member m WHERE m.id = 1")[0].joined = "soon"
        told = self.stopped(*self.common, "--sqlite", self.out)
        self.assertIn("Member 1: joined is no date", told)

    def test_two_that_are_to_be_unique(self) -> None:
        module = self.classes
        with self.raw(module) as app, app.begin() as manager:
            manager.query("SELECT m FROM Member m WHERE m.id = 3")[0].email = "a@x"
        told = self.stopped(*self.common, "--sqlite", self.out)
        self.assertIn("UNIQUE constraint failed: Member.email", told)


    def test_a_program_that_ends_in_the_middle(self) -> None:
        row = Rows.row

        def killed(rows: Rows, record: Record) -> Row:
            while started:
                os.kill(started.pop().pid, signal.SIGKILL)
            return row(rows, record)

        started: List[Program] = []
        start = starting.started

        def kept(*words: Any, **more: Any) -> Program:
            started.append(start(*words, **more))
            return started[-1]

        with mock.patch.object(opening, "started", kept), mock.patch.object(Rows, "row", killed):
            for words in (("--sqlite", self.out), ("--sql", self.sql, "--dialect", "sqlite")):
                self.assertIn("the program was ended by signal 9",
                              self.stopped(*self.common, *words))


@needs_program
class WrongImports(Exporting):
    def setUp(self) -> None:
        super().setUp()
        self.library()
        self.done("export", self.db, "--mapping", self.models, "--sqlite", self.out)
        self.common = ["import", "--sqlite", self.out, self.folder / "back.db",
                       "--mapping", self.models]

    def test_what_is_there(self) -> None:
        (self.folder / "back.db").write_text("mine")
        self.assertIn("there is a file back.db already", self.stopped(*self.common))
        (self.folder / "back.db").unlink()
        self.out.write_text("no database at all, and long enough to be looked at")
        self.assertIn("out.db can't be read (file is not a database)", self.stopped(*self.common))

    def test_a_place_where_nothing_can_be_written(self) -> None:
        words = ("import", "--sqlite", self.out, "/proc/back.db", "--mapping", self.models)
        self.assertIn("/proc/back.db can't be written, and was not made", self.stopped(*words))
        lost = self.folder / "none" / "back.db"
        self.assertIn("there is no folder none", self.stopped(
            "import", "--sqlite", self.out, lost, "--mapping", self.models))

    def test_a_source_that_is_lacking_or_locked(self) -> None:
        with contextlib.closing(sqlite3.connect(self.out, isolation_level=None)) as store:
            store.execute("BEGIN EXCLUSIVE")
            with mock.patch.object(sqlite3, "connect", partial(sqlite3.connect, timeout=0.1)):
                self.assertIn("out.db can't be read (database is locked), and back.db was not made",
                              self.stopped(*self.common))
        self.out.unlink()
        self.assertIn("there is no file out.db", self.stopped(*self.common))

    def test_a_disk_that_is_full(self) -> None:
        with contextlib.closing(sqlite3.connect(self.out)) as store:
            store.executemany("INSERT INTO Book VALUES ('f', ?, ?)",
                              [(number, str(number) * 60_000) for number in range(9)])
            store.commit()
        with files_of_at_most(100_000):  # By which the program is ended.
            self.assertIn("back.db was not made: ", self.stopped(*self.common))

    def test_a_mapping_of_another_store(self) -> None:
        other = self.folder / "other.json"
        other.write_text(CARRIED.read_text(encoding="utf-8"))
        told = self.stopped("import", "--sqlite", self.out, self.folder / "back.db", "--mapping",
                            other)
        self.assertIn("there is no table Order", told)
        self.assertIn("back.db was not made: name the mapping, --names, --name and --as", told)

    def test_words_that_are_wrong(self) -> None:
        self.assertIn("did you mean 'Member'", self.stopped(*self.common, "--name", "Membr=x"))
        self.assertIn("write it as Entity=NAME", self.stopped(*self.common, "--name", "x"))

    def test_two_that_are_to_be_unique(self) -> None:
        with contextlib.closing(sqlite3.connect(self.out)) as store:
            # The same rows without the constraint, and with the number that comes next.
            store.executescript(
                "CREATE TABLE copied AS SELECT * FROM Member; DROP TABLE Member;"
                "ALTER TABLE copied RENAME TO Member;"
                "INSERT INTO sqlite_sequence VALUES ('Member', 4);"
                "UPDATE Member SET email = 'a@x' WHERE id = 3")
        self.assertIn("unique", self.stopped(*self.common))

    def test_tables_of_other_names(self) -> None:
        told = self.stopped(*self.common, "--name", "Member.name=called")
        self.assertIn("Member has no column called", told)
        self.assertIn("Member has a column name, of which the mapping knows nothing", told)
        self.assertIn("there is no table People",
                      self.stopped(*self.common, "--name", "Member=People"))

    def test_rows_that_are_no_objects(self) -> None:
        for change, told in (
            ("UPDATE Member SET joined = 'soon' WHERE id = 1", "Member 1: joined is 'soon', which"),
            ("UPDATE Member SET fee = 1.5 WHERE id = 1", "Member 1: fee is to be a whole number"),
            ("UPDATE Member SET DTYPE = 'Cat' WHERE id = 1", "Member 1: DTYPE is 'Cat', which is"),
            ("UPDATE Member SET vat = 'x' WHERE id = 1", "Member 1: vat has a value, and Member"),
            ("UPDATE Member SET home_city = NULL, home_street = 'x' WHERE id = 1", "home"),
            ("UPDATE Loan SET book_number = NULL WHERE number = 1", "Loan 1: a part of book is"),
            ("UPDATE Loan SET member_id = 9 WHERE number = 1", "leads to Member 9, which isn't"),
            ("INSERT INTO Loan_more VALUES (9, 'a', 2)", "Loan_more: Loan 9 isn't there"),
            ("UPDATE Member SET id = 0 WHERE id = 1", "its key 0 can't be given"),
        ):
            with self.subTest(change=change):
                kept = self.out.read_bytes()
                with contextlib.closing(sqlite3.connect(self.out)) as store:
                    store.execute(change)
                    store.commit()
                self.assertIn(told, self.stopped(*self.common))
                self.out.write_bytes(kept)
