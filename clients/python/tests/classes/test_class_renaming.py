"""Names that change: what was= says is carried out, is known to be done, or is refused before
anything is touched, so that no value comes to stand under another name."""

from __future__ import annotations

import signal
import sqlite3
import subprocess
import sys
from contextlib import closing
from typing import Any, Dict, List, Type
from unittest import mock

from karzhoul import DeclarationError, NotBroughtOver
from karzhoul.store import starting

from ..classed import ClassesTest
from ..support import HERE, PROGRAM, needs_program
from .test_refused_openings import CHILD

TEXT = "str | None = None"


def was(name: str) -> str:
    """An attribute that had another name."""
    return f"str | None = field(default=None, was={name!r})"


def person(behind: str = "", /, **members: str) -> str:
    """A class with these attributes."""
    lines = "".join(f"    {name}: {said}\n" for name, said in members.items())
    return f"\nclass Person(Entity{behind}):\n    id: int = generated()\n{lines}"


class Renamings(ClassesTest):
    """A store of a person, whose attributes have values of their own names."""

    def store(self, text: str, **values: Any) -> None:
        """Stores a person."""
        module = self.module(text)
        with self.open(module) as app, app.begin() as manager:
            manager.persist(module.Person(**values))

    def told(self, text: str, *names: str) -> Dict[str, Any]:
        """The values of the person, by an opening with other classes."""
        asked = ", ".join(f"p.{name}" for name in names)
        with self.open(text) as app, app.begin() as manager:
            return dict(zip(names, manager.one(f"SELECT {asked} FROM Person p")))

    def as_it_stands(self) -> List[Any]:
        """The lock, and all that the store has."""
        with closing(sqlite3.connect(self.db)) as store:
            cells = store.execute("SELECT t, r, c, v FROM cell ORDER BY t, r, c").fetchall()
        return [self.lock.read_bytes(), cells]

    def refuse(self, text: str, *words: str, kind: Type[Exception] = DeclarationError) -> None:
        """The opening is refused in these words, and store and lock are as they were."""
        before = self.as_it_stands()
        with self.assertRaises(kind) as raised:
            self.open(text)
        for each in words:
            self.assertIn(each, str(raised.exception))
        self.assertEqual(self.as_it_stands(), before)


@needs_program
class OfAttributes(Renamings):
    OLD = person(name=TEXT, alias=TEXT, code=TEXT)
    VALUES = {"name": "N", "alias": "A", "code": "C"}

    def setUp(self) -> None:
        super().setUp()
        self.store(self.OLD, **self.VALUES)

    def test_two_that_change_their_names_with_each_other(self) -> None:
        turned = person(name=was("alias"), alias=was("name"), code=TEXT)
        for text in (turned, turned, self.OLD, self.OLD):
            found = self.told(text, "name", "alias", "code")
            self.assertEqual(found, {"name": "A", "alias": "N", "code": "C"})

    def test_three_that_turn(self) -> None:
        turned = person(name=was("alias"), alias=was("code"), code=was("name"))
        for text in (turned, turned, self.OLD):
            found = self.told(text, "name", "alias", "code")
            self.assertEqual(found, {"name": "A", "alias": "C", "code": "N"})

    def test_one_that_takes_the_name_of_another_which_takes_a_new_one(self) -> None:
        moved = person(title=was("name"), name=was("alias"), code=TEXT)
        for _ in range(2):
            found = self.told(moved, "title", "name", "code")
            self.assertEqual(found, {"title": "N", "name": "A", "code": "C"})

    def test_one_that_is_written_goes_to_its_own_column(self) -> None:
        turned = person(name=was("alias"), alias=was("name"), code=TEXT)
        with self.open(turned) as app, app.begin() as manager:
            manager.one("SELECT p FROM Person p").name = "new"
        found = self.told(person(alias=was("name"), name=was("alias"), code=TEXT), "name", "alias")
        self.assertEqual(found, {"name": "new", "alias": "N"})

    def test_one_whose_values_would_have_no_name(self) -> None:
        words = ('Person.code has was="name", and what is stored as code itself would have no name',
                 'was="code" there in the same opening', 'dropped=("code",)')
        self.refuse(person(code=was("name"), name=was("alias")), *words)
        self.refuse(person(code=TEXT, name=was("alias")), 'Person.name has was="alias"')
        kept = person(code=was("name"), name=was("alias"), old=was("code"))
        self.assertEqual(self.told(kept, "code", "name", "old"), {"code": "N", "name": "A", "old": "C"})

    def test_one_whose_values_are_let_go_before(self) -> None:
        self.told(person(', dropped=("code",)', name=TEXT, alias=TEXT), "name")
        found = self.told(person(code=was("name"), alias=TEXT), "code", "alias")
        self.assertEqual(found, {"code": "N", "alias": "A"})

    def test_one_that_was_taken_out_before_and_not_let_go(self) -> None:
        self.told(person(name=TEXT, alias=TEXT), "name")
        self.refuse(person(code=was("name"), alias=TEXT), "what is stored as code itself would have no name then")

    def test_one_that_is_still_there(self) -> None:
        self.refuse(person(name=was("alias"), alias=TEXT, code=TEXT),
                    'Person.name has was="alias", and alias is still there, with its values',
                    "else take alias out, open the store, and write alias anew then")
        self.refuse(person(title=was("alias"), alias=TEXT, name=TEXT, code=TEXT), "alias is still there")
        self.told(person(title=was("alias"), name=TEXT, code=TEXT), "title")
        found = self.told(person(title=was("alias"), alias=TEXT, name=TEXT, code=TEXT),
                          "title", "alias", "name")
        self.assertEqual(found, {"title": "A", "alias": None, "name": "N"})

    def test_two_that_were_one(self) -> None:
        self.refuse(person(one=was("name"), two=was("name"), alias=TEXT, code=TEXT),
                    'Person.one has was="name", and so has two: take it away from one of them')

    def test_a_name_that_is_none(self) -> None:
        self.refuse(person(title=was("nmae"), alias=TEXT, code=TEXT),
                    "Person.title is new (the lock has no nmae), and name is gone",
                    'write was="name"')

    def test_a_name_that_is_none_of_another_type(self) -> None:
        self.refuse(person(title="int | None = field(default=None, was='nmae')", alias=TEXT, code=TEXT),
                    "Person.title is new (the lock has no nmae), and name is gone")

    def test_one_that_has_no_column(self) -> None:
        text = person(name=TEXT, alias=TEXT, many='list["Led"] = one_to_many("to", was="code")')
        self.refuse(f"{text}\nclass Led(Entity):\n    id: int = generated()\n"
                    "    to: Person = many_to_one()\n",
                    'Person.many has was="code", and isn\'t stored as that was')

    def test_another_turn_by_the_same_words(self) -> None:
        turned = person(name=was("alias"), alias=was("name"), code=TEXT)
        self.told(turned, "name")
        self.told(self.OLD, "name")
        self.refuse(turned, 'Person.name has was="alias" again', "by a third name, in three openings",
                    kind=NotBroughtOver)
        self.told(person(third=was("name"), alias=TEXT, code=TEXT), "third")
        self.told(person(third=TEXT, name=was("alias"), code=TEXT), "third")
        found = self.told(person(alias=was("third"), name=TEXT, code=TEXT), "name", "alias")
        self.assertEqual(found, {"name": "N", "alias": "A"})

    def test_one_turn_whose_one_half_was_carried_out_before(self) -> None:
        self.told(person(title=was("name"), alias=TEXT, code=TEXT), "title")
        self.told(person(title=was("name"), name=TEXT, alias=TEXT, code=TEXT), "title")
        self.refuse(person(title=was("name"), name=was("title"), alias=TEXT, code=TEXT),
                    'Person.name has was="title", and title stays where it is',
                    "rename title to a third name, name to title, and the third to name")

    def test_an_opening_that_changes_nothing_leaves_the_lock(self) -> None:
        turned = person(name=was("alias"), alias=was("name"), code=TEXT)
        self.told(turned, "name")
        lock = self.lock.read_bytes()
        self.told(turned, "name")
        self.assertEqual(self.lock.read_bytes(), lock)

    def test_what_an_older_client_has_renamed(self) -> None:
        """Its lock doesn't know of it; nothing has the name of before."""
        text = person(name=was("gone"), alias=TEXT, code=TEXT)
        for _ in range(2):
            self.assertEqual(self.told(text, "name"), {"name": "N"})


@needs_program
class OfParts(Renamings):
    PLACE = "\nclass Place(Embedded):\n    town: str\n    zip: str | None = None\n"
    OLD = PLACE + person(home="Place", work="Place")

    def setUp(self) -> None:
        super().setUp()
        module = self.module(self.OLD)
        with self.open(module) as app, app.begin() as manager:
            manager.persist(module.Person(home=module.Place(town="H"), work=module.Place(town="W")))

    def test_two_values_that_change_their_names(self) -> None:
        text = self.PLACE + person(home='Place = embedded(was="work")', work='Place = embedded(was="home")')
        self.assertEqual(self.told(text, "home.town", "work.town"), {"home.town": "W", "work.town": "H"})

    def test_parts_that_change_their_names(self) -> None:
        place = ("\nclass Place(Embedded):\n    zip: str | None = field(default=None, was='town')\n"
                 "    town: str = field(default='-', was='zip')\n")
        text = place + person(home="Place", work="Place")
        self.assertEqual(self.told(text, "home.zip", "work.zip", "home.town"),
                         {"home.zip": "H", "work.zip": "W", "home.town": "-"})

    def test_a_part_that_is_still_there(self) -> None:
        text = self.PLACE + person(home='Place = embedded(was="work")', work="Place")
        self.refuse(text, 'Person.home.town has was="work", and work.town is still there')

    def test_a_value_and_a_part_that_have_other_names(self) -> None:
        text = self.PLACE.replace("town: str", "city: str") + person(
            home="Place", place='Place = embedded(was="work")')
        self.refuse(text, "Person.place.city is new (the lock has no work.city), and work.town is gone")


@needs_program
class OfClasses(Renamings):
    OLD = """
class Cat(Entity):
    id: int = generated()
    name: str

class Dog(Entity):
    id: int = generated()
    name: str
    friend: Cat | None = many_to_one(default=None)
"""

    def setUp(self) -> None:
        super().setUp()
        module = self.module(self.OLD)
        with self.open(module) as app, app.begin() as manager:
            tom = module.Cat(name="Tom")
            manager.persist_all([tom, module.Dog(name="Rex", friend=tom), module.Dog(name="Max")])

    def names(self, text: str, kind: str) -> List[Any]:
        with self.open(text) as app, app.begin() as manager:
            return list(manager.query(f"SELECT e.name FROM {kind} e ORDER BY e.id"))

    def test_two_that_change_their_names_with_each_other(self) -> None:
        plain = (self.OLD.replace("class Cat(", "class It(").replace("class Dog(", "class Cat(")
                 .replace("friend: Cat", "friend: Dog").replace("class It(", "class Dog("))
        turned = plain.replace("class Dog(Entity", "class Dog(Entity, was='Cat'").replace(
            "class Cat(Entity", "class Cat(Entity, was='Dog'")
        for text in (turned, turned, plain):
            self.assertEqual(self.names(text, "Dog"), ["Tom"])
            self.assertEqual(self.names(text, "Cat"), ["Rex", "Max"])
        with self.open(plain) as app, app.begin() as manager:
            self.assertEqual(manager.query("SELECT c.friend.name FROM Cat c"), ["Tom"])
            manager.persist(app.new("Dog", name="Eve"))
        self.assertEqual(self.names(plain, "Dog"), ["Tom", "Eve"])
        self.refuse(turned, "Dog has was=\"Cat\" again", kind=NotBroughtOver)
        with self.open(turned, in_memory=True) as app, app.begin() as manager:
            self.assertIsNone(manager.find("Dog", 1))

    def test_a_class_and_the_one_that_it_extends(self) -> None:
        old = "\nclass Big(Entity):\n    id: int = generated()\n    a: str\nclass Small(Big):\n    b: str\n"
        self.db, self.lock = self.folder / "2.db", self.folder / "2.json"
        module = self.module(old)
        with self.open(module) as app, app.begin() as manager:
            manager.persist_all([module.Big(a="1"), module.Small(a="2", b="3")])
        text = ("\nclass Small(Entity, was='Big'):\n    id: int = generated()\n    a: str\n"
                "class Big(Small, was='Small'):\n    b: str\n")
        for _ in range(2):
            with self.open(text) as app, app.begin() as manager:
                self.assertEqual(manager.query("SELECT s.a FROM Small s ORDER BY s.id"), ["1", "2"])
                self.assertEqual(manager.query("SELECT s.b FROM Big s"), ["3"])

    def test_one_that_is_still_there(self) -> None:
        text = self.OLD.replace("class Dog(Entity", "class Dog(Entity, was='Cat'")
        self.refuse(text, 'Dog has was="Cat", and Cat is still there')

    def test_one_whose_objects_would_have_no_name(self) -> None:
        text = self.OLD[self.OLD.index("class Dog") :].replace("Cat", "Dog").replace(
            "class Dog(Entity", "class Dog(Entity, was='Cat'")
        self.refuse(text, 'Dog has was="Cat", and what is stored as Dog itself would have no name then')

    def test_a_name_that_is_none(self) -> None:
        text = self.OLD.replace("Cat", "Lion").replace("class Lion(Entity", "class Lion(Entity, was='Cta'")
        self.refuse(text, "Lion is new (the lock has no Cta) and has the attributes of Cat, which is gone")


@needs_program
class OfAnotherStore(Renamings):
    """A second store, for which the lock comes with the classes."""

    OLD = person(name=TEXT, alias=TEXT)

    def setUp(self) -> None:
        super().setUp()
        self.store(self.OLD, name="N", alias="A")
        first, self.db = self.db, self.folder / "second.db"
        self.store(self.OLD, name="N2", alias="A2")
        self.first, self.second = first, self.db

    def changed(self, *texts: str) -> None:
        """The first store goes along with changes."""
        self.db = self.first
        for text in texts:
            self.open(text).close()
        self.db = self.second

    def test_a_renaming_that_is_not_written_any_more(self) -> None:
        after = person(title=TEXT, alias=TEXT)
        self.changed(person(title=was("name"), alias=TEXT), after)
        self.assertEqual(self.told(after, "title", "alias"), {"title": "N2", "alias": "A2"})

    def test_a_turn_that_is_not_written_any_more(self) -> None:
        turned = person(name=was("alias"), alias=was("name"))
        self.changed(turned, self.OLD)
        self.refuse(self.OLD, "Person.name is number 1.2 in ", "second.db has alias there",
                    'give it was="alias"', kind=NotBroughtOver)
        self.assertEqual(self.told(turned, "name", "alias"), {"name": "A2", "alias": "N2"})
        self.assertEqual(self.told(self.OLD, "name", "alias"), {"name": "A2", "alias": "N2"})
        self.changed(self.OLD)


@needs_program
class Killed(Renamings):
    OLD = person(name=TEXT, alias=TEXT)
    NEW = person(name=was("alias"), alias=was("name"), more="str = 'm'")

    def test_a_turn_that_is_killed_right_before_its_commit(self) -> None:
        """The lock is written by then, and the store as before."""
        self.store(self.OLD, name="N", alias="A")
        lock = self.lock.read_bytes()
        module = self.module(self.NEW)
        words = map(str, (HERE.parent, self.folder, module.__name__, self.db, self.lock, PROGRAM, 1))
        status = subprocess.run([sys.executable, "-B", "-c", CHILD, *words]).returncode
        self.assertEqual(status, -signal.SIGKILL)
        self.assertNotEqual(self.lock.read_bytes(), lock)
        with mock.patch.object(starting, "PATIENCE", 60):
            # Those of before would read each name as the other's.
            self.refuse(self.OLD, "has alias there", "has name there", kind=NotBroughtOver)
            found = self.told(self.NEW, "name", "alias", "more")
        self.assertEqual(found, {"name": "A", "alias": "N", "more": "m"})

    def test_those_of_before_go_on_with_their_lock(self) -> None:
        self.store(self.OLD, name="N", alias="A")
        lock = self.lock.read_bytes()
        module = self.module(self.NEW)
        words = map(str, (HERE.parent, self.folder, module.__name__, self.db, self.lock, PROGRAM, 1))
        subprocess.run([sys.executable, "-B", "-c", CHILD, *words])
        self.lock.write_bytes(lock)
        with mock.patch.object(starting, "PATIENCE", 60):
            self.assertEqual(self.told(self.OLD, "name", "alias"), {"name": "N", "alias": "A"})
