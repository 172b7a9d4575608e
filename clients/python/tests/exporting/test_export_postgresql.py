"""What `karzhoul export` writes for PostgreSQL, in a PostgreSQL that the test starts."""

from __future__ import annotations

import json
import os
import random
import shutil
import subprocess
import tempfile
import unittest
from glob import glob
from pathlib import Path
from types import ModuleType
from typing import Any, List, Optional, Sequence, Tuple
from unittest import mock

from karzhoul.cli.command import main

from . import random_stores
from ..carried import cells
from .exports import Exporting, files_of_at_most, rows_of
from ..support import PERSONS, needs_program


def _folder_of_programs() -> Optional[Path]:
    """Where Debian has the programs of PostgreSQL, else where the PATH has them."""
    found = sorted(glob("/usr/lib/postgresql/*/bin/initdb"))
    named = shutil.which("initdb")
    return Path(found[-1]).parent if found else Path(named).parent if named else None


PROGRAMS = _folder_of_programs()
SECONDS = 300
TRIALS = 12
WAYS: Sequence[Sequence[str]] = ((), ("--names", "snake", "--as", "column"))

# A query of ours, and what finds the same in the tables.
QUERIES: Sequence[Tuple[str, str]] = (
    ("SELECT COUNT(m) FROM Member m", "SELECT count(*) FROM member"),
    ("SELECT COUNT(c) FROM Company c", "SELECT count(*) FROM member WHERE dtype = 'Company'"),
    ("SELECT COUNT(b) FROM Book b", "SELECT count(*) FROM book"),
    ("SELECT COUNT(l) FROM Loan l", "SELECT count(*) FROM loan"),
    ("SELECT SUM(b.number) FROM Book b", "SELECT sum(number) FROM book"),
    ("SELECT SUM(m.fee) FROM Member m WHERE m.fee < 1000",
     "SELECT sum(fee) FROM member WHERE fee < 1000"),
    ("SELECT MAX(m.fee) FROM Member m", "SELECT max(fee) FROM member"),
    ("SELECT MIN(m.joined) FROM Member m", "SELECT min(joined) FROM member"),
    ("SELECT MAX(b.isbn) FROM Book b", "SELECT max(isbn) FROM book"),
    ("SELECT COUNT(m) FROM Member m WHERE m.isLost = TRUE",
     "SELECT count(*) FROM member WHERE is_lost"),
    ("SELECT COUNT(m) FROM Member m WHERE m.seen < '2026-06-01T00:00:00Z'",
     "SELECT count(*) FROM member WHERE seen < '2026-06-01T00:00:00Z'"),
    ("SELECT m.home.city FROM Member m WHERE m.home.city IS NOT NULL",
     "SELECT home_city FROM member WHERE home_city IS NOT NULL"),
    ("SELECT COUNT(l) FROM Loan l JOIN l.more b", "SELECT count(*) FROM loan_more"),
    ("SELECT SUM(b.number) FROM Loan l JOIN l.more b",
     "SELECT sum(b.number) FROM loan_more m JOIN book b ON b.isbn = m.more_isbn "
     "AND b.number = m.more_number"),
    ("SELECT SUM(l.member.version) FROM Loan l",
     "SELECT sum(m.version) FROM loan l JOIN member m ON m.id = l.member_id"),
    ("SELECT l.number FROM Loan l WHERE l.member.name = 'Ada' ORDER BY l.number",
     "SELECT l.number FROM loan l JOIN member m ON m.id = l.member_id WHERE m.name = 'Ada' "
     "ORDER BY l.number"),
    ("SELECT b.title FROM Loan l JOIN l.book b ORDER BY l.number",
     "SELECT b.title FROM loan l JOIN book b ON b.isbn = l.book_isbn AND b.number = l.book_number "
     "ORDER BY l.number"),
    ("SELECT b.isbn FROM Book b ORDER BY b.isbn, b.number",
     "SELECT isbn FROM book ORDER BY isbn, number"),
    ("SELECT c.order FROM Company c", 'SELECT "order" FROM member WHERE dtype = \'Company\''),
    ("SELECT l.before.number FROM Loan l WHERE l.before IS NOT NULL ORDER BY l.number",
     "SELECT before_number FROM loan WHERE before_number IS NOT NULL ORDER BY number"),
)


@unittest.skipUnless(PROGRAMS, "there is no PostgreSQL on this machine: apt-get install postgresql")
@needs_program
class InPostgreSQL(Exporting):
    place: Path

    @classmethod
    def setUpClass(cls) -> None:
        # PostgreSQL runs as no root, and its user can't enter folders of root.
        cls.place = Path(tempfile.mkdtemp(prefix="kz-", dir="/tmp"))
        cls.addClassCleanup(shutil.rmtree, cls.place, True)
        if os.getuid() == 0:
            shutil.chown(cls.place, "postgres", "postgres")
        cls._as_owner("initdb", "-D", cls.place / "data", "-U", "postgres", "--auth=trust",
                      "--no-sync", "-E", "UTF8", "--locale=C.UTF-8")
        cls.addClassCleanup(cls._as_owner, "pg_ctl", "-D", cls.place / "data", "-m", "immediate",
                            "stop")
        # Over a socket in its folder alone.
        own = f"-c listen_addresses= -c fsync=off -k {cls.place}"
        cls._as_owner("pg_ctl", "-D", cls.place / "data", "-l", cls.place / "log", "-w",
                      "-t", SECONDS, "-o", own, "start")

    @classmethod
    def _as_owner(cls, name: str, *words: Any) -> None:
        assert PROGRAMS is not None
        line = [str(PROGRAMS / name), *map(str, words)]
        if os.getuid() == 0:
            line = ["runuser", "-u", "postgres", "--", *line]
        with (cls.place.parent / f"{cls.place.name}.out").open("w") as out:
            try:
                subprocess.run(line, check=True, stdin=subprocess.DEVNULL, stdout=out,
                               stderr=out, timeout=SECONDS, cwd="/")
            finally:
                os.unlink(out.name)

    def psql(self, *words: Any, database: str = "postgres") -> "subprocess.CompletedProcess[str]":
        """What psql says."""
        assert PROGRAMS is not None
        line = [PROGRAMS / "psql", "-X", "-q", "-h", self.place, "-U", "postgres", "-d", database]
        return subprocess.run([*map(str, line), *map(str, words)], stdin=subprocess.DEVNULL,
                              capture_output=True, text=True, timeout=SECONDS,
                              env={**os.environ, "PGTZ": "UTC"})

    def found(self, text: str, database: str) -> List[str]:
        """The rows that a query finds."""
        ran = self.psql("-At", "-c", text, database=database)
        self.assertEqual((ran.returncode, ran.stderr), (0, ""))
        return ran.stdout.splitlines()

    def database(self, name: str) -> str:
        """A new database."""
        self.psql("-c", f"CREATE DATABASE {name}").check_returncode()
        return name

    def exported(self, *words: str) -> ModuleType:
        """The classes, whose store is exported."""
        module = self.library()
        self.done("export", self.db, "--mapping", self.models, "--sql", self.sql,
                  "--dialect", "postgresql", *words)
        return module

    def test_twenty_queries_find_the_same(self) -> None:
        module = self.exported("--names", "snake")
        database = self.database("queries")
        ran = self.psql("-f", self.sql, database=database)
        self.assertEqual((ran.returncode, ran.stdout, ran.stderr), (0, "", ""))
        self.assertEqual(len(QUERIES), 20)
        with self.open(module) as app, app.begin() as manager:
            for ours, theirs in QUERIES:
                wanted = [str(it) for it in manager.query(ours)]
                self.assertEqual(self.found(theirs, database), wanted, ours)
        self.assertEqual(
            self.found("SELECT count(*), bool_and(convalidated) FROM pg_constraint "
                       "WHERE contype = 'f'", database), ["5|t"])

    def test_values_have_types_of_their_own(self) -> None:
        self.exported()
        database = self.database("typed")
        self.psql("-f", self.sql, database=database).check_returncode()
        types = self.found("SELECT column_name || ' ' || data_type FROM information_schema.columns "
                           "WHERE table_name = 'Member'", database)
        for wanted in ("joined date", "seen timestamp with time zone", "isLost boolean",
                       "local timestamp without time zone", "hour time without time zone",
                       "fee numeric", "ident uuid", "extra json", "photo bytea", "took bigint"):
            self.assertIn(wanted, types)
        values = self.found(
            'SELECT joined, seen, local, hour, took, fee, level, ident, extra ->> \'b\', "isLost", '
            'encode(photo, \'hex\'), "home_city" FROM "Member" WHERE id = 1', database)
        self.assertEqual(values, [
            "2026-01-05|2026-01-05 09:30:00+00|0001-01-01 00:00:00|09:30:00|-259200000000|2.25|1|"
            "00000000-0000-0000-0000-000000000007|[1,2,\"é\\\\t\\t\\n\"]|t|00015c|Ghent"])
        self.assertEqual(
            self.found("SELECT encode(convert_to(name, 'UTF8'), 'hex') FROM \"Member\" "
                       "WHERE id = 2", database), ["Bo\tb\\\n\r'\"é".encode().hex()])

    def test_the_constraints_hold_and_keys_go_on(self) -> None:
        self.exported("--names", "snake")
        database = self.database("held")
        self.psql("-f", self.sql, database=database).check_returncode()
        new = "INSERT INTO member (dtype, version, name, fee, state, level, is_lost{}) VALUES " \
              "('Member', 0, 'x', 0, 'OPEN', 1, false{}) RETURNING id"
        self.assertEqual(self.found(new.format("", ""), database), ["5"])
        self.assertEqual(self.found(new.format(", vat", ", 'V1'"), database), ["6"])
        for wrong in (
            "UPDATE member SET email = 'a@x' WHERE id = 3",
            "UPDATE member SET dtype = 'Company' WHERE id = 6",
            "UPDATE loan SET book_isbn = 'a', book_number = 10 WHERE number = 3",
            "INSERT INTO book VALUES ('z', 10, 'Emma')",
            "DELETE FROM member WHERE id = 1",
            "UPDATE loan SET before_number = 77",
        ):
            self.assertIn("violates", self.psql("-c", wrong, database=database).stderr, wrong)

    def brought_back(self, database: str, *words: Any) -> List[Tuple[Any, ...]]:
        """The cells of the store that an import of a database makes."""
        back = self.folder / "back.db"
        back.unlink(missing_ok=True)
        self.done("import", "--postgresql", self.way(database), back, *words)
        return cells(back)

    def way(self, database: str) -> str:
        """A database as psql names it."""
        return f"host={self.place} user=postgres dbname={database}"

    def test_what_comes_back_is_the_same_store(self) -> None:
        named = ("--name", "Member=people", "--name", "Loan.book.isbn=of")
        ways: Sequence[Sequence[str]] = ((), ("--names", "snake"), ("--as", "column"), named)
        self.library()
        for number, words in enumerate(ways):
            words = ("--mapping", str(self.models), *words)
            self.done("export", self.db, "--sql", self.sql, "--dialect", "postgresql", *words)
            database = self.database(f"back{number}")
            self.psql("-f", self.sql, database=database).check_returncode()
            self.assertEqual(self.brought_back(database, *words), cells(self.db))
            self.sql.unlink()
        # What was changed there comes along, and so does the number that comes next.
        self.found("INSERT INTO people (\"DTYPE\", version, name, fee, state, level, \"isLost\") "
                   "VALUES ('Member', 0, E'a\\tb\\n\\\\', 1.5, 'OPEN', 1, true)", database)
        back = self.folder / "back.db"
        self.brought_back(database, *words)
        self.done("export", back, "--sqlite", self.out, "--mapping", self.models)
        self.assertEqual(rows_of(self.out, "SELECT name, fee, isLost FROM Member WHERE id = 5"),
                         [("a\tb\n\\", 150, 1)])
        self.assertEqual(rows_of(self.out, "SELECT seq FROM sqlite_sequence"), [(5,)])

    def test_by_a_mapping_of_classes_values_are_read_by_their_types_there(self) -> None:
        self.library()
        mapping, database = self.folder / "mapping.json", self.database("mapped")
        main(["mapping", str(self.models), "-o", str(mapping)])
        words = ("--mapping", str(mapping))
        self.done("export", self.db, "--sql", self.sql, "--dialect", "postgresql", *words)
        self.psql("-f", self.sql, database=database).check_returncode()
        self.brought_back(database, *words)
        found = []
        for number, store in enumerate((self.db, self.folder / "back.db")):
            out = self.folder / f"{number}.db"
            self.done("export", store, "--sqlite", out, "--as", "column", *words)
            found.append([rows_of(out, f"SELECT * FROM {it} ORDER BY 1, 2, 3")
                          for it in ("Member", "Book", "Loan", "Loan_more")])
        self.assertEqual(found[0], found[1])

    def test_random_stores_come_back(self) -> None:
        texts = [it for it in random_stores.TEXTS if "\0" not in it]
        with mock.patch.object(random_stores, "TEXTS", texts):
            for seed in range(TRIALS):
                with self.subTest(seed=seed):
                    store = random_stores.Store(
                        random.Random(seed), self.folder / str(seed), self.ran)
                    store.load()
                    words = ("--mapping", store.mapping, *WAYS[seed % len(WAYS)])
                    self.sql.unlink(missing_ok=True)
                    self.done("export", store.db, "--sql", self.sql, "--dialect", "postgresql",
                              *words)
                    self.psql("-c", "DROP SCHEMA public CASCADE", "-c", "CREATE SCHEMA public",
                              "-f", self.sql).check_returncode()
                    self.assertEqual(self.brought_back("postgres", *words), cells(store.db))

    # ---- what is refused, and leaves nothing

    def refused(self, database: str, *words: Any) -> str:
        """What an import tells that must be stopped."""
        self.assertFalse((self.folder / "back.db").exists())
        return self.stopped("import", "--postgresql", self.way(database), self.folder / "back.db",
                            "--mapping", self.models, *words)

    def test_imports_that_are_refused(self) -> None:
        self.exported()
        database = self.database("refused")
        self.psql("-f", self.sql, database=database).check_returncode()
        self.assertIn('database "none" does not exist', self.refused("none"))
        self.assertIn("No such file or directory", self.stopped(
            "import", "--postgresql", f"host={self.folder}", self.folder / "back.db", "--mapping",
            self.models))
        told = self.refused(database, "--name", "Member.name=called")
        self.assertIn("Member has no column called", told)
        self.assertIn("Member has a column name, of which the mapping knows nothing", told)
        self.assertIn("there is no table People", self.refused(database, "--name", "Member=People"))
        self.assertIn("there is no table member", self.refused(database, "--names", "snake"))
        self.psql("-c", "CREATE ROLE guest LOGIN", database=database)
        self.assertIn("permission denied for table Member", self.stopped(
            "import", "--postgresql", f"host={self.place} user=guest dbname={database}",
            self.folder / "back.db", "--mapping", self.models))
        other = self.folder / "other.json"
        other.write_text(json.dumps(PERSONS))
        self.assertIn("there is no table Person", self.refused(database, "--mapping", other))

    def test_rows_that_are_no_objects(self) -> None:
        self.exported()
        database = self.database("rows")
        self.psql("-f", self.sql, database=database).check_returncode()
        for change, told in (
            ("UPDATE \"Member\" SET joined = 'infinity' WHERE id = 1",
             "Member 1: joined is 'infinity', which"),
            ("UPDATE \"Member\" SET seen = '0044-03-15 10:00:00+00 BC' WHERE id = 1",
             "Member 1: seen is '0044-03-15 10:00:00+00 BC', which"),
            ("UPDATE \"Member\" SET hour = '24:00:00' WHERE id = 1", "Member 1: hour is '24:00:00"),
            ("UPDATE \"Member\" SET \"DTYPE\" = 'Cat' WHERE id = 1", "Member 1: DTYPE is 'Cat'"),
            ("ALTER TABLE \"Member\" ALTER fee TYPE numeric; UPDATE \"Member\" SET fee = 0.001 "
             "WHERE id = 1", "Member 1: fee is to be a whole number, and is '0.001'"),
            ("ALTER TABLE \"Loan\" DROP CONSTRAINT \"fk_Loan_member_id\"; UPDATE \"Loan\" "
             "SET member_id = 9 WHERE number = 1", "leads to Member 9, which isn't"),
        ):
            with self.subTest(change=change):
                copy = self.database("changed")
                self.psql("-f", self.sql, "-c", change, database=copy).check_returncode()
                self.assertIn(told, self.refused(copy))
                self.psql("-c", f"DROP DATABASE {copy}").check_returncode()

    def test_an_import_that_ends_in_the_middle(self) -> None:
        self.exported()
        database = self.database("middle")
        self.psql("-f", self.sql, database=database).check_returncode()
        # The connection is lost within the rows of a table that is read last.
        self.found('ALTER TABLE "Loan_more" RENAME TO more; CREATE VIEW "Loan_more" AS SELECT m.* '
                   'FROM more m WHERE pg_terminate_backend(pg_backend_pid())', database)
        self.assertIn("terminating connection due to administrator command",
                      self.refused(database))
        with files_of_at_most(8_000):
            self.assertIn("and back.db was not made", self.refused(self.whole()))
        with mock.patch.dict(os.environ, {"PATH": "/nowhere"}), mock.patch(
            "karzhoul.exporting.postgresql.glob", lambda _: []
        ):
            self.assertIn("there is no psql on the PATH", self.refused(database))

    def whole(self) -> str:
        """A database with all rows."""
        database = self.database("whole")
        self.psql("-f", self.sql, database=database).check_returncode()
        return database

    def test_what_is_there_stays_as_it_was(self) -> None:
        self.exported()
        database = self.database("twice")
        self.psql("-c", 'CREATE TABLE "Loan" (mine text)', database=database).check_returncode()
        self.psql("-c", "INSERT INTO \"Loan\" VALUES ('x')", database=database).check_returncode()
        ran = self.psql("-f", self.sql, database=database)
        self.assertEqual(ran.returncode, 3)
        self.assertIn('relation "Loan" already exists', ran.stderr)
        self.assertEqual(self.found("SELECT tablename FROM pg_tables WHERE schemaname = 'public'",
                                    database), ["Loan"])
        self.assertEqual(self.found('SELECT mine FROM "Loan"', database), ["x"])

    def test_a_connection_that_is_lost_in_the_middle(self) -> None:
        self.exported()
        database = self.database("lost")
        # The server ends it behind the last row, and before the commit.
        text = self.sql.read_text().replace(
            "COMMIT;", "SELECT pg_terminate_backend(pg_backend_pid());\nCOMMIT;")
        self.sql.write_text(text)
        ran = self.psql("-f", self.sql, database=database)
        self.assertEqual(ran.returncode, 2)
        self.assertIn("terminating connection", ran.stderr)
        self.assertEqual(self.found("SELECT tablename FROM pg_tables WHERE schemaname = 'public'",
                                    database), [])
