"""Locks and stores that don't belong together: an older lock, one of other classes, one that another
opening writes meanwhile. Nothing is read under another name, and no number is given twice."""

from __future__ import annotations

import json
import signal
import sqlite3
import subprocess
import sys
import threading
from contextlib import closing
from typing import Any, List, Type
from unittest import mock

import karzhoul
from karzhoul import DeclarationError, NotBroughtOver
from karzhoul.classes import changes, columns, lock as locks
from karzhoul.store import starting

from ..classed import ClassesTest
from ..support import HERE, PROGRAM, needs_program
from .test_refused_openings import CHILD

PERSON = "\nclass Person(Entity):\n    id: int = generated()\n    name: str\n"
FAX, MAIL = "    fax: str | None = None\n", "    mail: str | None = None\n"
TAG = "\nclass Tag(Entity):\n    id: int = generated()\n    text: str\n"


class Locks(ClassesTest):
    def store(self, text: str, kind: str = "Person", /, **values: Any) -> None:
        """Stores an object of a class."""
        module = self.module(text)
        with self.open(module) as app, app.begin() as manager:
            manager.persist(getattr(module, kind)(**values))

    def ask(self, text: str, asked: str) -> List[Any]:
        """The rows of a query, by an opening with these classes."""
        with self.open(text) as app, app.begin() as manager:
            return list(manager.query(asked))

    def as_it_stands(self) -> List[Any]:
        """The lock, and all that the store has."""
        with closing(sqlite3.connect(self.db)) as store:
            cells = store.execute("SELECT t, r, c, v FROM cell ORDER BY t, r, c").fetchall()
        return [self.lock.read_bytes(), cells]

    def refuse(
        self, text: str, *words: str, kind: Type[Exception] = NotBroughtOver
    ) -> None:
        """The opening is refused in these words, and store and lock are as they were."""
        before = self.as_it_stands()
        with self.assertRaises(kind) as raised:
            self.open(text)
        for each in words:
            self.assertIn(each, str(raised.exception))
        self.assertTrue(raised.exception.__suppress_context__ or not raised.exception.__context__)
        self.assertEqual(self.as_it_stands(), before)


@needs_program
class Older(Locks):
    """A lock of before what the store was last opened with."""

    def setUp(self) -> None:
        super().setUp()
        self.store(PERSON, name="Ada")
        self.older = self.lock.read_bytes()
        self.store(PERSON + FAX, name="Bob", fax="12")
        self.newest = self.lock.read_bytes()

    def test_another_attribute_has_the_number(self) -> None:
        self.lock.write_bytes(self.older)
        self.refuse(PERSON + MAIL, f"Person.mail is number 1.2 in {self.lock}, and {self.db} has fax "
                    "there: the lock isn't the one that the store was last opened with. Take that one")
        found = self.ask(PERSON + FAX, "SELECT p.fax FROM Person p")
        self.assertEqual(found, [None, "12"])

    def test_another_attribute_has_the_values_where_it_says_so(self) -> None:
        self.lock.write_bytes(self.older)
        mail = MAIL.replace("= None", '= field(default=None, was="fax")')
        for text in (PERSON + mail, PERSON + MAIL):
            self.assertEqual(self.ask(text, "SELECT p.mail FROM Person p"), [None, "12"])

    def test_a_renaming_that_is_taken_back_with_its_lock(self) -> None:
        for text in (FAX.replace("fax", "phone").replace("= None", '= field(default=None, was="fax")'),
                     FAX.replace("fax", "phone")):
            self.open(PERSON + text).close()
        self.lock.write_bytes(self.newest)
        self.refuse(PERSON + FAX, f"Person.fax is number 1.2 in {self.lock}, and {self.db} has phone "
                    "there", 'give it was="phone"')
        again = FAX.replace("= None", '= field(default=None, was="phone")')
        for text in (PERSON + again, PERSON + FAX):
            self.assertEqual(self.ask(text, "SELECT p.fax FROM Person p"), [None, "12"])

    def test_what_is_let_go_is_not_what_another_lock_has_there(self) -> None:
        self.lock.write_bytes(self.older)
        self.db, kept = self.folder / "other.db", self.db
        self.store(PERSON + MAIL, name="Eve", mail="e@x")
        self.db = kept
        self.refuse(PERSON.replace("(Entity)", '(Entity, dropped=("mail",))'), "has fax there")

    def test_one_that_lacks_what_is_stored(self) -> None:
        self.lock.write_bytes(self.older)
        self.refuse(PERSON, f"{self.db} has what {self.lock} doesn't know (fax)", "Take that, as from "
                    "the version control, and open again; nothing is lost")
        self.lock.write_bytes(self.newest)
        self.assertEqual(self.ask(PERSON, "SELECT p.name FROM Person p"), ["Ada", "Bob"])

    def test_a_store_that_is_damaged_is_so(self) -> None:
        with closing(sqlite3.connect(self.db)) as store, store:
            store.execute("UPDATE cell SET v = ? WHERE t = 1 AND c = 1", (b"\x01\x80",))
        with self.assertRaises(karzhoul.Damaged):
            self.open(PERSON + FAX)

    def test_a_class_that_has_the_number_of_another_one(self) -> None:
        lock = self.lock.read_bytes()
        self.store(PERSON + FAX + TAG, "Tag", text="x")
        self.lock.write_bytes(lock)
        film = TAG.replace("Tag", "Film")
        self.refuse(PERSON + FAX + film, f"Film is number 2 in {self.lock}, and {self.db} has Tag there")
        self.assertEqual(self.ask(PERSON + FAX + TAG, "SELECT t.text FROM Tag t"), ["x"])

    def test_a_class_that_has_the_number_of_one_without_objects(self) -> None:
        lock = self.lock.read_bytes()
        self.open(PERSON + FAX + TAG).close()
        self.lock.write_bytes(lock)
        film = TAG.replace("Tag", "Film")
        self.refuse(PERSON + FAX + film, f"{self.db} has Tag there")
        film = film.replace("(Entity)", '(Entity, was="Tag")')
        self.assertEqual(self.ask(PERSON + FAX + film, "SELECT f.text FROM Film f"), [])


@needs_program
class OfBefore(Locks):
    """A store, and its lock, of a client that knew no names in stores."""

    CLASSES = """
class Reader(Entity):
    id: int = generated()
    name: str
    fax: str | None = None
    mail: str | None = field(default=None, unique=True)

class Firm(Reader):
    vat: str | None = None

class Loan(Entity):
    number: int = generated()
    note: str
    reader: Reader | None = many_to_one(default=None)

class Tag(Entity):
    id: int = generated()
    text: str
"""

    def setUp(self) -> None:
        super().setUp()
        with closing(sqlite3.connect(self.db)) as store:
            store.executescript((HERE / "data" / "store_of_before.sql").read_text())
        self.lock.write_text((HERE / "data" / "store_of_before.lock.json").read_text())

    def names(self) -> List[str]:
        asked = "SELECT f.at, f.form FROM KarzhoulForm f WHERE f.at LIKE 'name %' ORDER BY f.at"
        return [f"{at.partition(' ')[2]} {name}" for at, name in self.ask(self.CLASSES, asked)]

    def test_names_are_filled_in(self) -> None:
        lock = self.lock.read_bytes()
        self.assertEqual(self.names(), [
            "1 Reader", "1.1 name", "1.2 fax", "1.3 mail", "1.4 vat", "2 Loan", "2.1 note", "2.2 reader",
            "3 Tag", "3.1 text",
        ])
        self.assertEqual(self.lock.read_bytes(), lock)
        found = self.ask(self.CLASSES, "SELECT l.note, l.reader.fax, l.reader.mail FROM Loan l")
        self.assertEqual(found, [["late", "12", "a@x"]])

    def test_names_are_filled_in_after_a_kill(self) -> None:
        """Right before the commit that has them, and a column that is new."""
        module = self.module(self.CLASSES + "    more: str = 'm'\n")
        words = map(str, (HERE.parent, self.folder, module.__name__, self.db, self.lock, PROGRAM, 1))
        status = subprocess.run([sys.executable, "-B", "-c", CHILD, *words]).returncode
        self.assertEqual(status, -signal.SIGKILL)
        with mock.patch.object(starting, "PATIENCE", 60):
            self.assertIn("3.1 text", self.names())
        found = self.ask(self.CLASSES + "    more: str = 'm'\n", "SELECT t.text, t.more FROM Tag t")
        self.assertEqual(found, [["x", "m"]])

    def test_a_renaming_is_its_first_opening(self) -> None:
        text = self.CLASSES.replace("fax: str | None = None", "phone: str | None = field(default=None, was='fax')")
        for _ in range(2):
            self.assertEqual(self.ask(text, "SELECT r.phone FROM Reader r WHERE r.id = 1"), ["12"])

    def test_a_lock_that_lacks_what_is_stored(self) -> None:
        lock = json.loads(self.lock.read_text())
        del lock["entities"]["Reader"]["members"]["fax"]
        self.lock.write_text(json.dumps(lock))
        text = self.CLASSES.replace("    fax: str | None = None\n", "")
        self.refuse(text, f"{self.db} has what {self.lock} doesn't know (number 1.2)")

    def test_a_class_with_a_generated_key_that_was_taken_out(self) -> None:
        text = self.CLASSES[: self.CLASSES.index("class Tag")]
        self.assertEqual(self.ask(text, "SELECT l.note FROM Loan l"), ["late"])
        self.store(self.CLASSES, "Tag", text="y")
        self.assertEqual(self.ask(self.CLASSES, "SELECT t.id, t.text FROM Tag t ORDER BY t.id"),
                         [[1, "x"], [2, "y"]])


@needs_program
class TakenOut(Locks):
    def test_a_class_with_a_generated_key_comes_back_and_goes_on(self) -> None:
        for text in ("a", "b", "c"):
            self.store(PERSON + TAG, "Tag", text=text)
        with self.open(PERSON + TAG) as app, app.begin() as manager:
            manager.remove(manager.get_reference("Tag", 3))
        for name in ("Ada", "Bob"):
            self.store(PERSON, name=name)
        self.store(PERSON + TAG, "Tag", text="d")
        found = self.ask(PERSON + TAG, "SELECT t.id, t.text FROM Tag t ORDER BY t.id")
        self.assertEqual(found, [[1, "a"], [2, "b"], [4, "d"]])

    def test_a_subclass_and_what_it_extends(self) -> None:
        text = PERSON + TAG + "\nclass Label(Tag):\n    more: str\n"
        self.store(text, "Label", text="a", more="b")
        self.assertEqual(self.ask(PERSON, "SELECT p.name FROM Person p"), [])
        self.assertEqual(self.ask(text, "SELECT l.more FROM Label l"), ["b"])

    def test_a_list_that_is_new_has_no_number_of_one_that_goes(self) -> None:
        led = "\nclass Other(Entity):\n    id: int = generated()\n"
        tags = '    tags: list["Tag"] = many_to_many()\n'
        module = self.module(PERSON + tags + TAG + led)
        with self.open(module) as app, app.begin() as manager:
            manager.persist_all([module.Person(name="Ada", tags=[tag := module.Tag(text="x")]), tag])
        others = '    others: list["Other"] = many_to_many()\n'
        asked = "SELECT COUNT(o) FROM Person p JOIN p.others o"
        self.assertEqual(self.ask(PERSON + others + TAG + led, asked), [0])
        self.assertEqual(self.ask(PERSON + tags + others + TAG + led,
                                  "SELECT t.text FROM Person p JOIN p.tags t"), ["x"])

    def test_a_list_that_is_of_the_other_side_now(self) -> None:
        tags = '    tags: list["Tag"] = many_to_many()\n'
        module = self.module(PERSON + tags + TAG)
        with self.open(module) as app, app.begin() as manager:
            manager.persist_all([module.Person(name="Ada", tags=[tag := module.Tag(text="x")]), tag])
        other = PERSON + tags.replace("many()", 'many("of")') + TAG + '    of: list["Person"] = many_to_many()\n'
        self.assertEqual(self.ask(other, "SELECT COUNT(t) FROM Person p JOIN p.tags t"), [0])
        self.assertEqual(self.ask(PERSON + tags + TAG, "SELECT t.text FROM Person p JOIN p.tags t"), ["x"])


@needs_program
class AtOneTime(Locks):
    def overtaken(self, meanwhile: str, text: str) -> None:
        """An opening of a store, while another one by the same lock is under way."""
        judge, other = columns.other_names, self.folder / "other.db"

        def told(*given: Any) -> Any:
            with mock.patch.object(changes, "other_names", judge):
                karzhoul.open(self.module(meanwhile), other, program=PROGRAM, lock=self.lock).close()
            return judge(*given)

        with mock.patch.object(changes, "other_names", told):
            self.open(text).close()

    def test_two_stores_get_no_number_twice(self) -> None:
        self.store(PERSON, name="Ada")
        with self.assertRaisesRegex(NotBroughtOver, "was written by another opening meanwhile"):
            self.overtaken(PERSON + MAIL, PERSON + FAX)
        both = PERSON + FAX + MAIL
        self.store(both, name="Bob", fax="12")
        self.assertEqual(self.ask(both, "SELECT p.fax, p.mail FROM Person p"), [[None, None], ["12", None]])
        members = json.loads(self.lock.read_text())["entities"]["Person"]["members"]
        self.assertEqual({name: it["column"] for name, it in members.items()},
                         {"name": 1, "mail": 2, "fax": 3})

    def test_two_stores_of_the_same_classes_are_opened(self) -> None:
        self.store(PERSON, name="Ada")
        self.overtaken(PERSON + FAX, PERSON + FAX)
        self.assertEqual(self.ask(PERSON + FAX, "SELECT p.fax FROM Person p"), [None])

    def test_one_that_changes_nothing_leaves_what_the_other_wrote(self) -> None:
        self.store(PERSON, name="Ada")
        self.overtaken(PERSON + FAX, PERSON)
        self.assertIn("fax", json.loads(self.lock.read_text())["entities"]["Person"]["members"])

    def test_one_store_is_opened_by_one(self) -> None:
        with self.open(PERSON):
            before = self.lock.read_bytes()
            with self.assertRaisesRegex(karzhoul.StoreFault, "another program has it open"):
                self.open(PERSON + FAX)
            self.assertEqual(self.lock.read_bytes(), before)

    def test_threads_that_write_a_lock(self) -> None:
        done: List[str] = []

        def write(name: str) -> None:
            lock = {**locks.empty(), "by": name}
            try:
                locks.write(self.lock, lock, None)
                done.append(name)
            except NotBroughtOver:
                pass

        threads = [threading.Thread(target=write, args=(str(it),)) for it in range(8)]
        for each in threads:
            each.start()
        for each in threads:
            each.join()
        self.assertEqual(done, [json.loads(self.lock.read_text())["by"]])


@needs_program
class OfOtherClasses(Locks):
    """Two sets of classes, each with a lock of its own or with one of both."""

    OTHER = "\nclass Film(Entity):\n    id: int = generated()\n    title: str\n"

    def test_a_store_of_others(self) -> None:
        self.store(PERSON, name="Ada")
        own, self.lock = self.lock, self.folder / "other.json"
        self.open(self.OTHER, in_memory=True).close()
        with self.assertRaisesRegex(NotBroughtOver, f"Film is number 1 in .*other.json, and {self.db} "
                                    "has Person there"):
            self.open(self.OTHER)
        self.assertFalse(self.lock.exists())
        self.lock = own
        self.assertEqual(self.ask(PERSON, "SELECT p.name FROM Person p"), ["Ada"])

    def test_one_lock_of_two_sets_and_two_stores(self) -> None:
        first, second = self.db, self.folder / "second.db"
        other = PERSON.replace("name: str", "name: int = 1") + self.OTHER
        self.store(PERSON, name="Ada")
        self.db = second
        with self.assertRaisesRegex(DeclarationError, "Person.name is stored as int, and was stored as text"):
            self.open(other)
        self.store(self.OTHER, "Film", title="It")
        self.db = first
        self.assertEqual(self.ask(PERSON, "SELECT p.name FROM Person p"), ["Ada"])
        self.db = second
        self.assertEqual(self.ask(self.OTHER, "SELECT f.title FROM Film f"), ["It"])
