"""`karzhoul migrate .. --from`: each change of classes opens, is brought over, or is refused in
words, and the old store stands wherever a run is stopped."""

from __future__ import annotations

import contextlib
import importlib
import io
import json
import random
import shlex
import shutil
import subprocess
import sys
import time
import unittest
from pathlib import Path
from types import ModuleType
from typing import Any, List, NamedTuple, Optional, Sequence, Tuple
from unittest import mock

import karzhoul
from karzhoul import DeclarationError, NotBroughtOver
from karzhoul.store import starting
from karzhoul.cli.command import main
from karzhoul.migrating.feeding import Feed

from ..carried import cells
from ..classed import HEAD, ClassesTest
from ..support import HERE, PROGRAM, needs_program, present

BEFORE = """
class State(Enum):
    OPEN = "open"
    SHUT = "shut"

class Member(Entity):
    id: int = generated()
    version: int = version()
    name: str
    fax: str | None = None
    age: int = 0
    joined: date | None = None
    fee: Decimal = money(2, default=Decimal("1.50"))
    state: State = State.OPEN

class Company(Member):
    vat: str | None = None

class Book(Entity):
    number: int = key()
    title: str
    shelf: str | None = None

class Loan(Entity):
    number: int = key()
    member: Member = many_to_one()
    book: Book | None = many_to_one()
    note: str | None = None
    more: list[Book] = many_to_many()
"""
OPENS, BROUGHT, AS_WELL, REFUSED = "opens", "is brought over", "can be too", "is refused"


class Change(NamedTuple):
    """A change of the classes above: pairs of texts of which the second stands for the first, what
    becomes of a store, and the rows that a query finds then, or the words of the refusal."""

    title: str
    change: Sequence[str]
    outcome: str
    asked: str
    found: Any
    functions: str = ""
    words: Sequence[str] = ()


def opens(title: str, change: Sequence[str], asked: str, found: Any) -> Change:
    """A change over which a store opens."""
    return Change(title, change, OPENS, asked, found)


def brought(
    title: str, change: Sequence[str], asked: str, found: Any, functions: str = "", *words: str
) -> Change:
    """One that an opening refuses, and that is brought over."""
    return Change(title, change, BROUGHT, asked, found, functions, words)


def as_well(
    title: str, change: Sequence[str], asked: str, found: Any, functions: str, *words: str
) -> Change:
    """One over which a store opens, without the values that only this brings over."""
    return Change(title, change, AS_WELL, asked, found, functions, words)


def refused(title: str, change: Sequence[str], told: str, functions: str = "") -> Change:
    """One that is refused, in these words."""
    return Change(title, change, REFUSED, told, None, functions)


FAX, NOTE = "    fax: str | None = None\n", "    note: str | None = None\n"
LIST = "    more: list[Book] = many_to_many()\n"
VERSION = "    version: int = version()\n"
LOAN = BEFORE[BEFORE.index("class Loan"):]
COMPANY = BEFORE[BEFORE.index("class Company"):BEFORE.index("class Book")]
CODE = ("    number: int = key()\n    title", "    code: str = key()\n    title")
ADDRESS = "class Address(Entity):\n    id: int = generated()\n    line: str\n\nclass Member"
CHANGES = [
    opens("another name", (FAX, '    phone: str | None = field(default=None, was="fax")\n'),
          "SELECT m.phone FROM Member m", ["12", None, None]),
    opens("a new attribute", (FAX, FAX + "    mail: str | None = None\n"),
          "SELECT m.mail FROM Member m", [None, None, None]),
    opens("a new one that is required, with a default", (FAX, FAX + "    level: int = 3\n"),
          "SELECT m.level FROM Member m", [3, 3, 3]),
    refused("a new one that is required", (FAX, FAX + "    level: int\n"),
            "Member.level is new, and required: bring_over_Member(old)"),
    brought("the same, with a function", (FAX, FAX + "    level: int\n"),
            "SELECT m.level FROM Member m", [36, 0, 7],
            "def bring_over_Member(old): return {'level': old.age}\n"
            "def bring_over_Company(old): return {'level': 7}\n"),
    opens("an attribute taken out", (FAX, ""), "SELECT m.name FROM Member m",
          ["Ada", "Bob", "Firm"]),
    opens("an attribute that may be None now", ("name: str\n", "name: str | None\n"),
          "SELECT m.name FROM Member m", ["Ada", "Bob", "Firm"]),
    refused("one that may not be None any more", (NOTE, "    note: str\n"),
            "Loan 2: note is required, and null"),
    brought("the same, with a function", (NOTE, "    note: str\n"),
            "SELECT l.note FROM Loan l", ["late", "none"],
            "def bring_over_Loan(old): return {'note': old.note or 'none'}\n"),
    opens("one of a class above", ("    vat: str | None = None\n", "    pass\n", FAX,
                                   FAX + "    vat: str | None = None\n"),
          "SELECT m.vat FROM Member m", [None, None, "BE1"]),
    brought("one of another class",
            ("    shelf: str | None = None\n", "", NOTE, NOTE + "    shelf: str\n"),
            "SELECT l.shelf FROM Loan l", ["A", "-"],
            "def bring_over_Loan(old):\n"
            "    found = old.book and old.query('SELECT b.shelf FROM Book b WHERE b.number = :n', "
            "n=old.book.key)\n"
            "    return {'shelf': found[0] if found else '-'}\n", "--drop", "Book.shelf"),
    opens("more digits", ("money(2,", "money(4,"), "SELECT m.fee FROM Member m WHERE m.id = 1",
          ["1.5500"]),
    refused("fewer digits", ("money(2,", "money(1,"), "Member 1: fee has more digits"),
    brought("fewer digits, with a function", ("money(2,", "money(1,"),
            "SELECT m.fee FROM Member m WHERE m.id = 1", ["1.6"],
            "def bring_over_Member(old): return {'fee': round(old.fee, 1)}\n"
            "bring_over_Company = bring_over_Member\n"),
    refused("another stored type", ("age: int = 0", 'age: str = ""'),
            "Member.age was a whole number, and is a text: bring_over_Member(old)"),
    brought("the same, with a function", ("age: int = 0", 'age: str = ""'),
            "SELECT m.age FROM Member m", ["36 years", "0 years", "0 years"],
            "def bring_over_Member(old): return {'age': f'{old.age} years'}\n"
            "bring_over_Company = bring_over_Member\n"),
    opens("a date that is a text now", ("joined: date | None", "joined: str | None"),
          "SELECT m.joined FROM Member m WHERE m.id = 1", ["2026-01-05"]),
    refused("a text that is no date", (NOTE, "    note: date | None = None\n"),
            "Loan 1: note is no date"),
    refused("an enum's member taken out", ('    SHUT = "shut"\n', ""),
            "Company 3: state is none of"),
    brought("the same, with a function", ('    SHUT = "shut"\n', ""),
            "SELECT m.state FROM Member m", ["State.OPEN"] * 3,
            "from karzhoul_after import State\n"
            "def bring_over_Company(old): return {'state': State.OPEN}\n"),
    as_well("a class that is split",
            ("class Member", ADDRESS, FAX, "    address: Address | None = many_to_one()\n"),
            "SELECT m.address.line FROM Member m JOIN m.address a", ["12"],
            "def bring_over_Member(old):\n"
            "    if old.fax is None: return {}\n"
            "    return [{'address': old.id}, ('Address', {'id': old.id, 'line': old.fax})]\n"
            "def bring_over_Company(old): return {}\n"),
    brought("two attributes that are one", (FAX, "", "name: str\n", "name: bytes\n"),
            "SELECT m.name FROM Member m", [b"Ada 12", b"Bob None", b"Firm None"],
            "def bring_over_Member(old): return {'name': f'{old.name} {old.fax}'.encode()}\n"
            "bring_over_Company = bring_over_Member\n"),
    opens("a key by another name", ("    number: int = key()\n    title",
                                    "    no: int = key()\n    title"),
          "SELECT b.no FROM Book b", [5, 8]),
    refused("a key of another type", CODE,
            "Book: its key was number, a whole number, and is code, a text: bring_over_Book(old)"),
    brought("the same, with a function", CODE,
            "SELECT l.number, l.book.code, b.code FROM Loan l JOIN l.more b",
            [[1, "B5", "B5"], [1, "B5", "B8"]],
            "def bring_over_Book(old): return {'code': f'B{old.number}'}\n"),
    brought("a key that is generated now", (
        "    number: int = key()\n    title", "    number: int = generated()\n    title"),
        "SELECT b.number, b.title FROM Book b", [[5, "Emma"], [8, "Walden"]]),
    brought("a key that isn't any more", ("id: int = generated()", "id: int = key()"),
            "SELECT m.id, m.version FROM Member m", [[1, 2], [2, 0], [3, 0]]),
    brought("a version", ("    number: int = key()\n    title",
                          "    number: int = key()\n    version: int = version()\n    title"),
            "SELECT b.version FROM Book b", [0, 0]),
    brought("no version", (VERSION, ""), "SELECT m.id, m.name FROM Member m WHERE m.id = 1",
            [[1, "Ada"]]),
    brought("a link that is a list", ("book: Book | None = many_to_one()",
                                      "book: list[Book] = many_to_many()"),
            "SELECT l.number, b.number FROM Loan l JOIN l.book b", [[1, 5]]),
    refused("a list that is a link", (LIST, "    more: Book | None = many_to_one()\n"),
            "Loan 1: more has 2 of before, and leads to one"),
    brought("the same, with a function", (LIST, "    more: Book | None = many_to_one()\n"),
            "SELECT l.number, b.number FROM Loan l JOIN l.more b", [[1, 8]],
            "def bring_over_Loan(old): return {'more': old.more[-1] if old.more else None}\n"),
    as_well("a relation that the other side owns", (
        "    book: Book | None = many_to_one()\n", "", "    shelf: str | None = None\n",
        "    shelf: str | None = None\n    loans: list[\"Loan\"] = many_to_many()\n"),
        "SELECT b.number, l.number FROM Book b JOIN b.loans l", [[5, 1]],
        "def bring_over_Book(old):\n"
        "    return {'loans': old.query('SELECT l.number FROM Loan l WHERE l.book.number = :n', "
        "n=old.number)}\n", "--drop", "Loan.book"),
    brought("a link that is a number", ("book: Book | None = many_to_one()",
                                        "book: int | None = None"),
            "SELECT l.book FROM Loan l", [5, None]),
    opens("a class by another name", ("class Loan(Entity)", 'class Lending(Entity, was="Loan")'),
          "SELECT l.note FROM Lending l", ["late", None]),
    opens("a class taken out", (LOAN, ""), "SELECT b.title FROM Book b", ["Emma", "Walden"]),
    refused("another base", ("class Company(Member):\n", "class Company(Entity):\n"
                             "    id: int = generated()\n"),
            "Company.name goes, with 1 object: --drop Company.name"),
    brought("the same, where no link leads there", (
        "class Company(Member):\n", "class Company(Entity):\n    id: int = key()\n"
        "    name: str\n    fax: str | None = None\n"),
        "SELECT c.id, c.name, c.vat FROM Company c", [[3, "Firm", "BE1"]], "",
        "--drop", "Company.fee", "--drop", "Company.state", "--drop", "Company.age"),
    brought("a class that is its base now", (COMPANY, "", NOTE, NOTE.replace("str", "bytes")),
            "SELECT m.id, m.name, m.fax FROM Member m",
            [[1, "Ada", "12"], [2, "Bob", None], [3, "Firm", "BE1"]],
            "def bring_over_Company(old): return ('Member', {'fax': old.vat})\n"
            "def bring_over_Loan(old): return {'note': old.note and old.note.encode()}\n"),
]


class Migrated(ClassesTest):
    """A store of the classes above, and the command over it."""

    def setUp(self) -> None:
        super().setUp()
        self.old = self.folder / "karzhoul_before.py"
        self.old.write_text(HEAD + BEFORE)
        module = self.module(BEFORE)
        with self.open(module) as app, app.begin() as manager:
            ada = module.Member(name="Ada", fax="12", age=36, joined=module.date(2026, 1, 5),
                                fee=module.Decimal("1.55"))
            bob = module.Member(name="Bob")
            firm = module.Company(name="Firm", vat="BE1", state=module.State.SHUT)
            emma = module.Book(number=5, title="Emma", shelf="A")
            walden = module.Book(number=8, title="Walden")
            loan = module.Loan(number=1, member=ada, book=emma, note="late", more=[emma, walden])
            other = module.Loan(number=2, member=bob)
            for each in (ada, bob, firm, emma, walden, loan, other):
                manager.persist(each)
        with self.open(module) as app:
            for age in (35, 36):
                with app.begin() as manager:
                    present(manager, "Member", 1).age = age
        forget()
        self.mapping = self.folder / "before.json"
        self.assertEqual(self.ran("mapping", self.old, "-o", self.mapping)[0], 0)
        self.before, self.before_lock = cells(self.db), self.lock.read_text()

    def ran(self, *words: Any) -> Tuple[int, str, str]:
        """A command's status and what it prints."""
        out, err = io.StringIO(), io.StringIO()
        with contextlib.redirect_stdout(out), contextlib.redirect_stderr(err):
            status = main(list(map(str, words)))
        return status, out.getvalue(), err.getvalue()

    def migrated(
        self, after: Path, *words: Any, functions: str = "", before: Optional[Path] = None
    ) -> Tuple[int, str, str]:
        """The command, to the classes of this module."""
        if functions:
            file = self.folder / "functions.py"
            file.write_text(functions)
            words = (*words, "--with", file)
        return self.ran("migrate", self.db, "--from", before or self.mapping, "--mapping", after,
                        "--program", PROGRAM, *words)

    def after(self, *changes: str) -> Path:
        """The module of changed classes."""
        text = BEFORE
        for old, new in zip(changes[::2], changes[1::2]):
            self.assertIn(old, text)
            text = text.replace(old, new)
        file = self.folder / "karzhoul_after.py"
        file.write_text(HEAD + text)
        forget()
        return file

    def is_as_before(self) -> None:
        """The store, its lock and its folder are as they were."""
        self.assertEqual(cells(self.db), self.before)
        self.assertEqual(self.lock.read_text(), self.before_lock)
        self.assertEqual([it.name for it in self.folder.glob("app.db*")
                          if it.name not in ("app.db", "app.db-wal", "app.db-shm")], [])


def imported(file: Path) -> ModuleType:
    """The module of a file as it stands now."""
    forget()
    sys.path.insert(0, str(file.parent))
    return importlib.import_module(file.stem)


def forget() -> None:
    """Has modules of a folder of before be imported anew."""
    importlib.invalidate_caches()
    for name in ("karzhoul_after", "karzhoul_before"):
        sys.modules.pop(name, None)
    sys.path[:] = [each for each in sys.path if "karzhoul-classes-" not in each]


@needs_program
class Changes(Migrated):
    """Each change of the table."""

    def setUp(self) -> None:
        super().setUp()
        self.kept = self.folder.with_name(f"{self.folder.name}.kept")
        shutil.copytree(self.folder, self.kept)
        self.addCleanup(shutil.rmtree, self.kept)

    def test_each_change_opens_is_brought_over_or_is_refused(self) -> None:
        for each in CHANGES:
            with self.subTest(each.title):
                shutil.rmtree(self.folder)
                shutil.copytree(self.kept, self.folder)
                self.try_change(each)

    def try_change(self, each: Change) -> None:
        after = self.after(*each.change)
        if each.outcome == OPENS:
            self.assertEqual(self.found(after, each.asked), each.found)
            return
        if each.outcome != AS_WELL:
            with self.assertRaises((DeclarationError, NotBroughtOver)):
                self.open(imported(after))
        status, out, err = self.migrated(after, *each.words, functions=each.functions)
        if each.outcome == REFUSED:
            self.assertEqual(status, 1, out)
            self.assertIn(each.asked, err)
            self.is_as_before()
            return
        self.assertEqual((status, err), (0, ""), out)
        self.assertEqual(self.found(after, each.asked), each.found)
        self.assertEqual(cells(self.folder / "app.db.before"), self.before)
        self.assertEqual(list(self.folder.glob("*.migrating")), [])

    def found(self, after: Path, asked: str) -> Any:
        """What a query finds, with values that JSON hasn't as their texts."""
        with self.open(imported(after)) as app, app.begin() as manager:
            rows = list(manager.query(asked))
        return [row if isinstance(row, (list, int, str, bytes)) or row is None else str(row)
                for row in rows]


@needs_program
class Told(Migrated):
    """What is told before anything is done, and what is refused."""

    NUMBERS = ("age: int = 0", "age: int = 0\n    level: int = 3", FAX, "")

    def test_a_plan_tells_class_by_class_and_writes_nothing(self) -> None:
        after = self.after(*self.NUMBERS, *CODE)
        status, out, err = self.migrated(
            after, "--plan", "--drop", "Member.fax",
            functions="def bring_over_Book(old): return {'code': str(old.number)}\n",
        )
        self.assertEqual((status, err), (0, ""))
        self.assertEqual(out.splitlines(), [
            "Member: 2 objects", "  level is new, with 3", "  fax goes, from 1 object",
            "Company: 1 object", "  level is new, with 3", "  fax goes, from 0 objects",
            "Book: 2 objects",
            "  Book: its key was number, a whole number, and is code, a text",
            "  bring_over_Book gives what is said there", "Loan: 2 objects",
        ])
        self.is_as_before()

    def test_a_plan_tells_that_a_key_has_another_name(self) -> None:
        after = self.after("    number: int = key()\n    title", "    no: int = key()\n    title")
        status, out, err = self.migrated(after, "--plan")
        self.assertEqual((status, err), (0, ""))
        self.assertIn("Book: 2 objects\n  number is no now\n", out)

    def test_a_plan_tries_all_objects(self) -> None:
        after = self.after(NOTE, "    note: str\n", LIST, "    more: Book | None = many_to_one()\n")
        status, _, err = self.migrated(after, "--plan")
        self.assertEqual(status, 1)
        self.assertIn("Loan 1: more has 2 of before", err)
        self.assertIn("Loan 2: note is required, and null", err)
        self.is_as_before()

    def test_what_would_be_lost_is_to_be_said(self) -> None:
        status, _, err = self.migrated(self.after(*self.NUMBERS))
        self.assertEqual(status, 1)
        self.assertIn("Member.fax goes, with 1 object: --drop Member.fax says", err)
        self.is_as_before()

    def test_the_classes_of_before_may_be_named_too(self) -> None:
        after = self.after("money(2,", "money(1,")
        status, _, err = self.migrated(
            after, before=self.old, functions="def bring_over_Member(old):\n"
            "    assert old.joined is None or old.joined.year == 2026, old.joined\n"
            "    return {'fee': round(old.fee, 1)}\nbring_over_Company = bring_over_Member\n",
        )
        self.assertEqual((status, err), (0, ""))

    def test_functions_that_are_wrong(self) -> None:
        after = self.after(*CODE)
        for functions, words, status in (
            ("def bring_over_Bok(old): return {}", "there is no class Bok of before: did you mean "
             "'Book'?", 2),
            ("x = 1", "has no function of the name bring_over_CLASS", 2),
            ("def bring_over_Book(old): return 7", "Book 5: bring_over_Book gives 7", 1),
            ("def bring_over_Book(old): return {'cod': 'x'}", "did you mean 'code'?", 1),
            ("def bring_over_Book(old): return {'code': 7}", "Book 5: code is to be 7, which is no "
             "str", 1),
            ("def bring_over_Book(old): return {'code': 'one'}", "Book one: this key is another "
             "object's already", 1),
            ("def bring_over_Book(old): return {'code': old.nam}", "of before has no 'nam'", 1),
            ("def bring_over_Book(old): return 1 / 0", "raises ZeroDivisionError", 1),
            ("def bring_over_Book(old): return None", None, 0),
        ):
            with self.subTest(functions):
                told = self.migrated(after, functions=functions)
                self.assertEqual(told[0], status, told)
                if words is not None:
                    self.assertIn(words, told[2])
                    self.is_as_before()

    def test_words_that_do_not_go_together(self) -> None:
        several: List[List[str]] = [["--plan"], ["--drop", "X"], ["--with", "x"], []]
        for words in several:
            self.assertEqual(self.ran("migrate", self.db, *words)[0], 2)
        self.assertEqual(self.migrated(self.after(), "--dry-run")[0], 2)
        told = self.ran("migrate", self.db, "--mapping", self.after(), "--dry-run")
        self.assertEqual(told[0], 2)
        self.assertIn("is for mappings by hand, and not for classes", told[2])
        self.assertEqual(self.migrated(self.folder / "none.py")[0], 4)

    def test_an_old_store_is_not_written_over(self) -> None:
        after = self.after(*CODE)
        functions = "def bring_over_Book(old): return {'code': str(old.number)}\n"
        kept = self.folder / "app.db.before"
        kept.write_text("mine")
        status, _, err = self.migrated(after, functions=functions)
        self.assertEqual((status, kept.read_text()), (4, "mine"))
        self.assertIn("there is a file", err)
        kept.unlink()
        self.is_as_before()
        other = self.folder / "kept.db"
        self.assertEqual(self.migrated(after, "--copy", other, functions=functions)[0], 0)
        self.assertEqual(cells(other), self.before)
        self.assertFalse(kept.exists())

    def test_while_another_program_has_it_open(self) -> None:
        with self.open(imported(self.old)):
            status, _, err = self.migrated(self.after(*CODE), functions="def bring_over_Book(old): "
                                           "return {'code': str(old.number)}\n")
        self.assertEqual(status, 4)
        self.assertIn("another program has it open", err)
        self.is_as_before()

    def test_a_log_of_a_program_that_was_killed(self) -> None:
        module = imported(self.old)
        app = self.open(module)
        with app.begin() as manager:
            manager.persist(module.Book(number=9, title="Late"))
        app.program.kill()
        status, _, err = self.migrated(self.after(*CODE), functions="def bring_over_Book(old): "
                                       "return {'code': str(old.number)}\n")
        self.assertEqual((status, err), (0, ""))
        with self.open(imported(self.folder / "karzhoul_after.py")) as app, app.begin() as manager:
            self.assertEqual(manager.query("SELECT b.code FROM Book b"), ["5", "8", "9"])


ENTITIES: List[Any] = [
    {"name": "Person", "table": 1, "key": [{"name": "id", "type": "int"}], "generated": True,
     "version": {"name": "version", "column": 1},
     "attributes": [{"name": "name", "type": "text", "column": 2},
                    {"name": "desk", "type": "int", "column": 3}],
     "relations": [{"name": "boss", "kind": "manyToOne", "target": "Person", "column": 4}]},
    {"name": "Desk", "table": 2, "key": [{"name": "row", "type": "int"},
                                         {"name": "shelf", "type": "text"}], "embedded": "at",
     "relations": [{"name": "of", "kind": "oneToOne", "target": "Person", "column": 1}]},
    {"name": "Seat", "table": 3, "key": [{"name": "id", "type": "int"}]},
]


@needs_program
class ByHand(Migrated):
    """Mappings that are written by hand."""

    def setUp(self) -> None:
        super().setUp()
        self.db = self.folder / "hand.db"
        self.mapping = self.written("hand.json", ENTITIES)
        with karzhoul.open(self.mapping, self.db, program=PROGRAM) as app, app.begin() as manager:
            people = [app.new("Person", name=f"P{n}", desk=n % 3) for n in range(9)]
            for number, each in enumerate(people):
                each.boss = people[(number + 5) % 9]
                manager.persist(each)
            manager.detach(people[3])
            people[8].boss = people[7].boss = people[0]
            for number in range(3):
                manager.persist(app.new("Seat", id=number))
            manager.persist(app.new("Desk", at=(1, "a"), of=people[1]))
        self.before = cells(self.db)

    def written(self, name: str, entities: Any, revision: int = 1) -> Path:
        file = self.folder / name
        file.write_text(json.dumps({"revision": revision, "entities": entities}))
        return file

    def changed(self, **changes: Any) -> Path:
        """The mapping with another version of an entity."""
        return self.written("after.json", [
            {**each, **changes.get(each["name"], {})} for each in ENTITIES
        ])

    def rows(self, mapping: Path, asked: str) -> Any:
        with karzhoul.open(mapping, self.db, program=PROGRAM) as app, app.begin() as manager:
            return manager.query(asked)

    def test_nothing_is_changed_and_the_cells_are_the_same(self) -> None:
        self.assertEqual(self.migrated(self.mapping)[::2], (0, ""))
        self.assertEqual(cells(self.db), self.before)

    def test_a_number_that_is_a_link_and_a_name_of_the_same_column(self) -> None:
        person: Any = {
            "attributes": [{"name": "called", "type": "text", "column": 2, "required": True}],
            "relations": [*ENTITIES[0]["relations"], {
                "name": "desk", "kind": "manyToOne", "target": "Seat", "column": 9,
                "required": True}],
        }
        after = self.changed(Person=person)
        status, out, err = self.migrated(after)
        self.assertEqual((status, err), (0, ""))
        self.assertIn("  name is called now", out)
        self.assertIn("  desk leads to the Seat of the key that it was", out)
        asked = "SELECT p.called, p.desk.id, p.boss.id, p.version FROM Person p WHERE p.id > 7"
        self.assertEqual(self.rows(after, asked), [["P7", 1, 1, 0], ["P8", 2, 1, 0]])

    def test_two_that_lead_to_what_only_one_may(self) -> None:
        person: Any = {"attributes": ENTITIES[0]["attributes"][:1], "relations": [{
            "name": "desk", "kind": "oneToOne", "target": "Seat", "column": 9}]}
        status, _, err = self.migrated(self.changed(Person=person, Seat={"table": 8}),
                                       "--drop", "Person.boss")
        self.assertEqual(status, 1)
        self.assertIn("Person 5 and Person 2 lead to Seat 1 by desk, and only one may", err)
        self.assertEqual(cells(self.db), self.before)

    def test_the_next_generated_key_is_that_of_before(self) -> None:
        with karzhoul.open(self.mapping, self.db, program=PROGRAM) as app, app.begin() as manager:
            manager.remove(manager.get_reference("Person", 9))
        self.assertEqual(self.migrated(self.changed(Seat={"table": 9}))[::2], (0, ""))
        after = self.folder / "after.json"
        with karzhoul.open(after, self.db, program=PROGRAM) as app, app.begin() as manager:
            person = app.new("Person")
            manager.persist(person)
            self.assertEqual(person.id, 10)

    def test_a_program_that_is_limited_begins_new_runs(self) -> None:
        with mock.patch("karzhoul.migrating.writing.MOST_OBJECTS", 60_008):
            with mock.patch("karzhoul.migrating.writing._TOGETHER", 3):
                with mock.patch.object(Feed, "tell", autospec=True, side_effect=Feed.tell) as told:
                    self.assertEqual(self.migrated(self.mapping)[::2], (0, ""))
        lines = [line for call in told.call_args_list for line in call.args[1]]
        self.assertGreater(lines.count('{"call":"restart"}'), 0)
        self.assertTrue(any('"call":"find"' in line for line in lines))
        self.assertEqual(cells(self.db), self.before)

    def test_defaults_of_revision_2(self) -> None:
        seat = {**ENTITIES[2], "attributes": [{"name": "rank", "type": "int", "column": 5,
                                               "required": True, "since": 2, "default": 4}]}
        after = self.written("after.json", [*ENTITIES[:2], seat], 2)
        self.assertEqual(self.migrated(after)[::2], (0, ""))
        self.assertEqual(self.rows(after, "SELECT s.rank FROM Seat s"), [4, 4, 4])


# Ends this process by itself at the operation of files of this number, if there are so many.
STOPPED = """
import os, sys
left = [int(sys.argv[1])]
def ending(name):
    real = getattr(os, name)
    def call(*words, **more):
        left[0] -= 1
        if not left[0]:
            os.kill(os.getpid(), 9)
        return real(*words, **more)
    setattr(os, name, call)
for name in ("link", "replace", "unlink", "mkdir", "rmdir", "fsync"):
    ending(name)
from karzhoul.cli.command import main
sys.exit(main(sys.argv[2:]))
"""


@needs_program
class Stopped(Migrated):
    """Runs that are stopped anywhere: the old store stands, or the new one, and the next run does
    what is left."""

    def words(self) -> List[str]:
        file = self.folder / "functions.py"
        file.write_text("def bring_over_Book(old): return {'code': f'B{old.number}'}\n")
        return ["migrate", str(self.db), "--from", str(self.mapping), "--mapping",
                str(self.after(*CODE)), "--with", str(file), "--program", str(PROGRAM)]

    def judge(self, what: str) -> bool:
        """Whether the new store is there, and else the old one, whole."""
        kept = self.folder / "app.db.before"
        is_new = cells(self.db) != self.before
        left = self.folder / "app.db.migrating"
        if is_new:
            self.assertEqual(cells(kept if kept.exists() else left / "old"), self.before, what)
        if not is_new or left.exists():
            self.assertEqual(self.done(), (0, ""), what)
        with self.open(imported(self.folder / "karzhoul_after.py")) as app:
            with app.begin() as manager:
                asked = "SELECT b.code, b.title FROM Book b"
                self.assertEqual(manager.query(asked), [["B5", "Emma"], ["B8", "Walden"]], what)
        self.assertEqual(cells(kept), self.before)
        self.assertEqual(list(self.folder.glob("*.migrating")), [])
        return is_new

    def done(self) -> Tuple[int, str]:
        """The status of a run and its words, right behind one that was killed, whose program may
        still end."""
        with mock.patch.object(starting, "PATIENCE", 60):
            status, _, err = self.ran(*self.words())
        return status, err

    def restored(self, before: Path) -> None:
        forget()
        shutil.rmtree(self.folder)
        shutil.copytree(before, self.folder)

    def run_apart(self, words: Sequence[str]) -> subprocess.Popen[bytes]:
        return subprocess.Popen(
            [sys.executable, "-B", *words], cwd=HERE.parent, stdout=subprocess.DEVNULL,
            stderr=subprocess.DEVNULL,
        )

    def test_at_each_operation_of_files(self) -> None:
        before = Path(shutil.copytree(self.folder, f"{self.folder}.kept"))
        self.addCleanup(shutil.rmtree, before)
        told, at, status = [], 0, -9
        while status != 0:
            at += 1
            status = self.run_apart(["-c", STOPPED, str(at), *self.words()]).wait()
            if status != 0:
                self.assertEqual(status, -9)
                told.append(self.judge(f"operation {at}"))
            self.restored(before)
        self.assertIn(False, told)
        self.assertIn(True, told)

    def test_at_any_moment(self) -> None:
        before = Path(shutil.copytree(self.folder, f"{self.folder}.kept"))
        self.addCleanup(shutil.rmtree, before)
        begun = time.monotonic()
        self.assertEqual(self.run_apart(["-m", "karzhoul", *self.words()]).wait(), 0)
        whole = time.monotonic() - begun
        for _ in range(6):
            self.restored(before)
            process = self.run_apart(["-m", "karzhoul", *self.words()])
            moment = random.uniform(0, whole)
            time.sleep(moment)
            process.kill()
            process.wait()
            self.judge(f"{moment} of {whole} s")

    def test_a_disk_without_room(self) -> None:
        with self.open(imported(self.old)) as app, app.begin() as manager:
            for number in range(100, 120):
                manager.persist(app.new("Book", number=number, title="x" * 50_000))
        self.before = cells(self.db)
        deaf = self.folder / "deaf"
        program = shlex.quote(str(PROGRAM))
        new = shlex.quote(f"{self.db}.migrating")
        deaf.write_text(
            f"#!/bin/sh\ntrap '' XFSZ\ncase \"$*\" in *{new}*) ulimit -f 700;; esac\n"
            f"exec {program} \"$@\"\n")
        deaf.chmod(0o755)
        words = self.words()
        status, _, err = self.ran(*words[:-1], deaf)
        self.assertEqual(status, 4)
        self.assertIn("can't be written", err)
        self.is_as_before()
        self.assertEqual(self.ran(*words)[0], 0)
        status, _, err = self.ran(*words)
        self.assertEqual(status, 3)
        self.assertIn("app.db.before is there, so a run before may have brought it over", err)


if __name__ == "__main__":
    unittest.main()
