"""`karzhoul migrate .. --from` between classes that have unique values, embedded values, and keys
of several parts."""

from __future__ import annotations

from pathlib import Path
from typing import Any, List

import karzhoul
from karzhoul import NotBroughtOver, NotUnique

from ..carried import cells
from ..classed import HEAD, ClassesTest
from ..support import PROGRAM, needs_program
from .test_migrate import Migrated, forget, imported

BEFORE = """
class Address(Embedded):
    street: str | None = None
    city: str

class Place(Embedded):
    row: int
    day: date

class Member(Entity):
    id: int = generated()
    version: int = version()
    email: str = field(unique=True)
    nick: str | None = None
    street: str | None = None
    city: str | None = None
    home: Address = embedded()
    work: Address | None = None

class Book(Entity):
    isbn: str = key()
    number: int = key()
    title: str

class Item(Entity):
    at: Place = key()
    what: str

class Copy(Entity, unique=("book", "label")):
    id: int = key()
    book: Book = many_to_one()
    label: str
    item: Item | None = many_to_one()
    items: list[Item] = many_to_many()
"""
# A change that the lock refuses: the lock begins anew, and all numbers are other ones.
ANEW = ("    label: str\n", "    label: bytes\n")
LABEL = "def bring_over_Copy(old): return {'label': old.label.encode()}\n"
PLAIN = "    street: str | None = None\n    city: str | None = None\n    home"


@needs_program
class Classes(Migrated):
    """A store of the classes above."""

    def setUp(self) -> None:
        ClassesTest.setUp(self)
        self.old = self.folder / "karzhoul_before.py"
        self.old.write_text(HEAD + BEFORE)
        module = self.module(BEFORE)
        with self.open(module) as app, app.begin() as manager:
            self.fill(module, manager)
        with self.open(module) as app, app.begin() as manager:
            manager.get_reference("Member", 1).nick = "same"
        forget()
        self.mapping = self.folder / "before.json"
        self.assertEqual(self.ran("mapping", self.old, "-o", self.mapping)[0], 0)
        self.before, self.before_lock = cells(self.db), self.lock.read_text()

    def fill(self, module: Any, manager: karzhoul.EntityManager) -> None:
        home = module.Address(city="Ghent")
        ada = module.Member(email="ada", nick="a", street="High 1", city="Rome", home=home,
                            work=module.Address(street="Low 2", city="Bath"))
        bob = module.Member(email="bob", nick="same", home=home.replace(street="x"))
        books = [module.Book(isbn="a", number=n, title=f"T{n}") for n in (1, 2)]
        items = [module.Item(at=module.Place(row=n, day=module.date(2026, 1, n)), what=f"I{n}")
                 for n in (1, 2)]
        copies = [module.Copy(id=1, book=books[0], label="x", item=items[0], items=items),
                  module.Copy(id=2, book=books[1], label="x", items=items[1:])]
        manager.persist_all([ada, bob, *books, *items, *copies])

    def changed(self, *changes: str) -> Path:
        text = BEFORE
        for old, new in zip(changes[::2], changes[1::2]):
            self.assertIn(old, text)
            text = text.replace(old, new)
        file = self.folder / "karzhoul_after.py"
        file.write_text(HEAD + text)
        forget()
        return file

    def done(self, after: Path, functions: str = "", *words: Any, **more: Any) -> str:
        """What a run that is done tells."""
        status, out, err = self.migrated(after, *words, functions=functions, **more)
        self.assertEqual((status, err), (0, ""), out)
        self.assertNotIn("Karzhoul", out)
        self.assertNotIn("_unique", out)
        return out

    def stopped(self, after: Path, told: str, functions: str = "") -> None:
        """A plan and a run are refused in these words, and nothing has changed."""
        for is_plan in (True, False):
            words = ["--plan"] if is_plan else []
            status, out, err = self.migrated(after, *words, functions=functions)
            self.assertEqual(status, 1, out)
            self.assertIn(told, err)
            self.is_as_before()

    def found(self, after: Path, asked: str) -> List[Any]:
        with self.open(imported(after)) as app, app.begin() as manager:
            return [str(row) if isinstance(row, karzhoul.Embedded) else row
                    for row in manager.query(asked)]

    def is_refused(self, after: Path, entity: str, **values: Any) -> None:
        """Another object of these values is `NotUnique`."""
        module = imported(after)
        with self.open(module) as app:
            with self.assertRaises(NotUnique), app.begin() as manager:
                for name, value in values.items():
                    values[name] = value(module, manager) if callable(value) else value
                manager.persist(getattr(module, entity)(**values))


def address(module: Any, _: Any) -> Any:
    return module.Address(city="Y")


@needs_program
class Unique(Classes):
    """What is unique."""

    def test_all_is_kept_and_stays_unique(self) -> None:
        after = self.changed(*ANEW)
        told = self.done(after, LABEL, "--plan")
        self.is_as_before()
        self.assertEqual(self.done(after, LABEL), told + "8 objects are brought over; the old "
                         f"store is {self.db}.before\n")
        asked = "SELECT m.id, m.version, m.email, m.home, m.work FROM Member m"
        with self.open(imported(after)) as app, app.begin() as manager:
            rows = [list(map(str, row)) for row in manager.query(asked)]
            self.assertEqual(manager.one("SELECT COUNT(k) FROM KarzhoulUnique k"), 4)
        self.assertEqual(rows, [
            ["1", "1", "ada", "Address(street=None, city='Ghent')",
             "Address(street='Low 2', city='Bath')"],
            ["2", "0", "bob", "Address(street='x', city='Ghent')", "None"],
        ])
        self.assertEqual(self.found(after, "SELECT c.id, c.book.number, c.label, i.at.row "
                                    "FROM Copy c JOIN c.items i"),
                         [[1, 1, b"x", 1], [1, 1, b"x", 2], [2, 2, b"x", 2]])
        self.is_refused(after, "Member", email="bob", home=address)
        self.is_refused(after, "Copy", id=3, label=b"x",
                        book=lambda _, it: it.get_reference("Book", ("a", 2)))

    def test_more_that_is_unique_over_two_that_have_one_value(self) -> None:
        nick = ("    nick: str | None = None", "    nick: str | None = field(default=None, "
                "unique=True)")
        self.stopped(self.changed(*ANEW, *nick), "Member.nick is to be unique, and Member 2 and "
                     "Member 1 have 'same'", LABEL)
        self.stopped(self.changed(*ANEW, 'unique=("book", "label")', 'unique=("items_of",)',
                                  "    label: bytes\n", "    label: bytes\n    items_of: Item | "
                                  "None = many_to_one()\n"),
                     "Copy.items_of is to be unique, and Copy 2 and Copy 1 have ",
                     "def bring_over_Copy(old):\n"
                     "    return {'label': b'', 'items_of': old.items[-1]}\n")
        after = self.changed(*ANEW, *nick)
        self.done(after, LABEL + "def bring_over_Member(old): return {'nick': f'{old.id}'}\n")
        self.is_refused(after, "Member", email="new", nick="2", home=address)

    def test_less_that_is_unique_and_another_name(self) -> None:
        after = self.changed(*ANEW, "    email: str = field(unique=True)",
                             '    mail: str = field(unique=True, was="email")',
                             ', unique=("book", "label")', "")
        self.done(after, LABEL)
        self.is_refused(after, "Member", mail="bob", home=address)
        with self.open(imported(after)) as app, app.begin() as manager:
            self.assertEqual(manager.one("SELECT COUNT(k) FROM KarzhoulUnique k"), 2)
            manager.persist(app.new("Copy", id=3, label=b"x", book=manager.get_reference(
                "Book", ("a", 2))))

    def test_a_class_that_is_split_in_two(self) -> None:
        after = self.changed(
            *ANEW, "    email: str = field(unique=True)\n", '    mail: "Mail" = one_to_one()\n',
            "class Member", "class Mail(Entity):\n    id: int = generated()\n"
            "    email: str = field(unique=True)\n\nclass Member")
        self.done(after, LABEL + "def bring_over_Member(old):\n"
                  "    return [{'mail': old.id}, ('Mail', {'id': old.id, 'email': old.email})]\n")
        self.assertEqual(self.found(after, "SELECT m.id, m.mail.email FROM Member m"),
                         [[1, "ada"], [2, "bob"]])
        self.is_refused(after, "Mail", email="ada")

    def test_what_a_class_has_no_more(self) -> None:
        out = self.done(self.changed("    nick: str | None = None\n", ""), "", "--plan", "--drop",
                        "Member.nick")
        self.assertEqual(out.splitlines()[:2], ["Member: 2 objects", "  nick goes, from 2 objects"])
        without = self.changed("    nick: str | None = None\n", "")
        self.open(imported(without)).close()
        before = Path(without.rename(self.old))
        status, _, err = self.migrated(self.changed(*ANEW, "    nick: str | None = None\n", ""),
                                       functions=LABEL, before=before)
        self.assertEqual(status, 1)
        self.assertIn("Member.nick goes, with 2 objects: --drop Member.nick says", err)

    def test_what_other_commands_show(self) -> None:
        self.done(after := self.changed(*ANEW), LABEL)
        _, out, _ = self.ran("show", self.db, "--mapping", after, "--program", PROGRAM)
        self.assertIn("bob", out)
        self.assertNotIn("Karzhoul", out)
        self.assertNotIn("_unique", out)
        lines, other = self.folder / "dump", self.folder / "other.db"
        for words in (["dump", self.db, "-o", lines], ["load", other, lines]):
            self.assertEqual(self.ran(*words, "--mapping", after, "--program", PROGRAM)[0], 0)
        self.assertEqual(cells(other), cells(self.db))

    def test_new_keys_of_what_is_unique_by_a_link(self) -> None:
        after = self.changed("    isbn: str = key()\n    number: int = key()",
                             "    id: int = generated()")
        self.done(after, "def bring_over_Book(old): return {'id': old.number + 3}\n")
        lines, told = self.folder / "dump", ["--mapping", after, "--program", PROGRAM]
        self.assertEqual(self.ran("dump", self.db, "-o", lines, *told)[0], 0)
        self.db = self.folder / "other.db"
        self.assertEqual(self.ran("load", self.db, lines, "--new-keys", *told)[0], 0)
        self.assertEqual(self.found(after, "SELECT c.book.id FROM Copy c"), [1, 2])
        self.is_refused(after, "Copy", id=3, label="x",
                        book=lambda _, it: it.get_reference("Book", 2))

    def test_a_csv_whose_rows_get_their_keys_at_the_next_opening(self) -> None:
        table, told = self.folder / "member.csv", ["--mapping", self.old, "--program", PROGRAM]
        self.assertEqual(self.ran("dump", self.db, "--csv", "Member", "-o", table, *told)[0], 0)
        head = "id,version,email,nick,street,city,home__street,home__city,work__street,work__city"
        self.assertEqual(table.read_text().splitlines()[0], head)
        table.write_text("email,home__city\ncid,Y\n")
        self.assertEqual(self.ran("load", self.db, table, "--csv", "Member", *told)[0], 0)
        self.is_refused(self.old, "Member", email="cid", home=address)
        self.is_refused(self.old, "Member", email="bob", home=address)
        self.assertEqual(self.ran("load", self.db, table, "--csv", "Member", *told)[0], 0)
        with self.assertRaisesRegex(NotBroughtOver, "2 objects have 'cid': Member id=3 and"):
            self.open(imported(self.old))


@needs_program
class Parts(Classes):
    """Keys of several parts, and embedded values."""

    def test_a_key_of_one_part_and_back(self) -> None:
        single = self.changed("    isbn: str = key()\n    number: int = key()",
                              "    code: str = key()", "    at: Place = key()",
                              "    at: int = key()")
        self.stopped(single, "Book: its key was isbn, a text and number, a whole number, and is "
                     "code, a text: bring_over_Book(old)")
        self.done(single, "def bring_over_Book(old): return {'code': f'{old.isbn}-{old.number}'}\n"
                  "def bring_over_Item(old): return {'at': old['at.row']}\n")
        asked = "SELECT c.book.code, i.at FROM Copy c JOIN c.items i"
        rows = [["a-1", 1], ["a-1", 2], ["a-2", 2]]
        self.assertEqual(self.found(single, asked), rows)
        self.is_refused(single, "Copy", id=3, label="x",
                        book=lambda _, it: it.get_reference("Book", "a-2"))
        (self.folder / "app.db.before").unlink()
        single = Path(single.rename(self.folder / "karzhoul_before.py"))
        after = self.changed()
        self.done(after, "from karzhoul_after import Place, date\ndef bring_over_Book(old):\n"
                  "    isbn, number = old.code.split('-')\n"
                  "    return {'isbn': isbn, 'number': int(number)}\n"
                  "def bring_over_Item(old): return {'at': Place(row=old.at, day=date(2026, 1, "
                  "old.at))}\ndef bring_over_Copy(old):\n"
                  "    found = old.query('SELECT c.book.code FROM Copy c WHERE c.id = :n', "
                  "n=old.id)\n"
                  "    return {'book': (found[0][0], old.id), 'items': [Place(row=1, "
                  "day=date(2026, 1, 1))]}\n", before=single)
        asked = "SELECT c.book.isbn, c.book.number, i.at FROM Copy c JOIN c.items i"
        day = "Place(row=1, day=datetime.date(2026, 1, 1))"
        with self.open(imported(after)) as app, app.begin() as manager:
            self.assertEqual([list(map(str, row)) for row in manager.query(asked)],
                             [["a", "1", day], ["a", "2", day]])

    def test_plain_attributes_that_are_embedded_and_back(self) -> None:
        after = self.changed(*ANEW, PLAIN, "    spare: Address | None = None\n    home",
                             "    work: Address | None = None\n",
                             "    where: str | None = None\n    town: str | None = None\n")
        self.done(after, LABEL + "from karzhoul_after import Address\ndef bring_over_Member(old):\n"
                  "    spare = old.city and Address(street=old.street, city=old.city)\n"
                  "    work = old.work\n"
                  "    return {'spare': spare, 'home.city': 'Lund', 'where': work and work.street, "
                  "'town': old['work.city']}\n", before=self.old)
        asked = "SELECT m.spare, m.home.street, m.home.city, m.where, m.town FROM Member m"
        with self.open(imported(after)) as app, app.begin() as manager:
            self.assertEqual([list(map(str, row)) for row in manager.query(asked)], [
                ["Address(street='High 1', city='Rome')", "None", "Lund", "Low 2", "Bath"],
                ["None", "x", "Lund", "None", "None"],
            ])

    def test_only_a_part_of_an_embedded_value(self) -> None:
        after = self.changed(*ANEW)
        for gives, told in (
            ("{'work.street': 's', 'work.city': None}", "only a part of one is stored"),
            ("{'work': 7}", "work is of Address, and 7 is none"),
            ("{'hom': 7}", "Member has no 'hom' that is stored: did you mean"),
            ("{'home': None}", "Member 1: home.city is required, and null"),
        ):
            with self.subTest(gives):
                self.stopped(after, told, LABEL + f"def bring_over_Member(old): return {gives}\n")
