"""Names of classes where a query or an index is named beside an application: in the command `query`,
in a console, at a server; and what is looked up of classes there."""

from __future__ import annotations

import argparse
import contextlib
import io
import json
from pathlib import Path
from types import ModuleType
from typing import Any, List, Optional, Tuple
from unittest import mock

import karzhoul
from karzhoul.cli.command import main
from karzhoul.console.actions import Actions
from karzhoul.console.opening import naming_for, opened_for
from karzhoul.console.store import Store
from karzhoul.queries.rewriting import Edits
from karzhoul.server.settings import Served

from ..classed import ClassesTest
from ..served import Here, Talk
from ..support import PROGRAM, needs_program

SHOPS = """
class Place(Embedded):
    city: str
    street: str | None = field(default=None, index=True)

class Shop(Entity):
    id: int = generated()
    name: str = field(index=True)
    email: str | None = field(default=None, unique=True)
    home: Place = embedded()
    fee: Decimal = money(2, default=Decimal(0))

class Copy(Entity):
    isbn: str = key()
    number: int = key()
    shop: Shop | None = many_to_one()
"""
CITY = "SELECT s.home.city, s.fee FROM Shop s WHERE s.home.city = :c"


class Shops(ClassesTest):
    """A store of two shops and a copy, whose classes have a module and a lock beside it."""

    def setUp(self) -> None:
        super().setUp()
        self.shops: ModuleType = self.module(SHOPS)
        self.file = str(self.shops.__file__)
        self.way = f"unix:{self.folder / 's'}"

    def fill(self) -> karzhoul.EntityManagerFactory:
        """The store, open."""
        it = self.shops
        app = karzhoul.open(it, self.db, program=PROGRAM)
        self.addCleanup(app.close)
        with app.begin() as manager:
            for city in "ab":
                manager.persist(it.Shop(name=city, email=f"{city}@x", home=it.Place(city=city)))
            manager.persist(it.Copy(isbn="x", number=7))
        return app


@needs_program
class Query(Shops):
    def ran(self, text: str, *words: str) -> Tuple[int, str, str]:
        """What the command tells of a query over the classes' file."""
        out, err = io.StringIO(), io.StringIO()
        with contextlib.redirect_stdout(out), contextlib.redirect_stderr(err):
            status = main(["query", "--program", str(PROGRAM), "--mapping", self.file, str(self.db),
                           text, *words])
        return status, out.getvalue(), err.getvalue()

    def test_names_are_those_of_the_classes_or_of_what_is_stored(self) -> None:
        self.fill().close()
        for text, wanted in (
            (CITY, "city,fee\na,0\n"),
            (CITY.replace("home.city =", "home__city ="), "city,fee\na,0\n"),
            ("SELECT s.home__city FROM Shop s WHERE s.home.city = :c", "home__city\na\n"),
            ("SELECT s.home, s.id FROM Shop s WHERE s.name = :c",
             "home.city,home.street,id\na,,1\n"),
            ("SELECT s.home.city AS at, COUNT(s) FROM Shop s WHERE s.name = :c GROUP BY s.home.city",
             "at,COUNT(s)\na,1\n"),
            ("SELECT c.number FROM Copy c WHERE c.isbn = 'x' AND 'a' = :c", "number\n7\n"),
            ("SELECT c._key.number FROM Copy c WHERE 'a' = :c", "number\n7\n"),
        ):
            with self.subTest(text=text):
                self.assertEqual(self.ran(text, "--param", "c=a", "--csv"), (0, wanted, ""))
        table = self.ran("SELECT s.home FROM Shop s WHERE s.id = 1")[1].splitlines()
        self.assertEqual(table, ["home.city | home.street", "----------+------------",
                                 "a         |        null", "1 row"])

    def test_a_fault_has_its_place_and_its_name(self) -> None:
        self.fill().close()
        for text, told in (
            ("SELECT s.home.city\nFROM Shop s WHERE s.home.city = 1",
             "2:33: 1: s.home.city is a text, and 1 is a whole number [IllegalArgument(typing)]"),
            ("SELECT s FROM Shop s WHERE s.home = 1", "1:28: s.home: Shop.home is an embedded value: "
             "name its parts, as s.home.city [IllegalArgument(typing)]"),
            ("SELECT s.x FROM Shop s", "1:10: x: Shop has no member x; it has id, name, email, "
             "home.city, home.street, fee [IllegalArgument(typing)]"),
            ("SELECT s.home.city FORM Shop s",
             "1:20: FORM: did you mean FROM? [IllegalArgument(syntax)]"),
        ):
            status, out, err = self.ran(text)
            self.assertEqual((status, out, err.splitlines()[1].strip()), (3, "", told), text)

    def test_a_plan_of_a_manager_has_the_indexes_of_the_classes(self) -> None:
        self.fill().close()
        plan = ("--explain", "--manager")
        for condition, words, line in (
            ("s.name = 'a'", (), "looks up Shop by the index of name"),
            ("s.email = 'a'", (), "looks up Shop by the index of email"),
            ("s.home.street = 'a'", (), "looks up Shop by the index of home.street"),
            ("s.home.city = 'a'", (), "looks at all of Shop"),
            ("s.home.city = 'a'", ("--index", "Shop.home.city"),
             "looks up Shop by the index of home.city"),
        ):
            found = self.ran(f"SELECT s FROM Shop s WHERE {condition}", *plan, *words)
            self.assertEqual(found, (0, f"{line}\n", ""), condition)
        found = self.ran("SELECT s FROM Shop s", *plan, "--index", "Shop.home__city")
        self.assertEqual(found, (3, "", "karzhoul: IllegalArgument(name)\n  indexes: Shop has no "
                                 "member 'home__city': did you mean 'home.city'?\n"))

    def test_the_mapping_of_the_classes_has_their_stored_names(self) -> None:
        app = self.fill()
        with self.assertRaises(karzhoul.Misused) as raised:
            karzhoul.open(app.mapping, program=PROGRAM, indexes={"Shop": ["home.city"]})
        self.assertIn("Shop has no member 'home.city': did you mean 'home__city'?",
                      str(raised.exception))


    def test_a_refusal_of_a_manager_has_their_names(self) -> None:
        manager = self.fill().create_entity_manager()
        with self.assertRaises(karzhoul.IllegalArgument) as raised:
            manager.query("SELECT s.x FROM Shop s")
        self.assertEqual(str(raised.exception), "1:10: x: Shop has no member x; it has id, name, "
                         "email, home.city, home.street, fee [IllegalArgument(typing)]")


@needs_program
class Unique(Shops):
    def test_what_is_unique_is_looked_up(self) -> None:
        app = self.fill()
        told = [json.loads(line) for line in app.index_lines]
        self.assertEqual(
            [f"{it['entity']}.{it['name']}" for it in told],
            ["Shop.name", "Shop.home__street", "Shop.email"],
        )
        with app.begin() as manager:
            found = manager.explain("SELECT s FROM Shop s WHERE s.email = :e", e="a@x")
            self.assertEqual(found, ["looks up Shop by the index of email"])
            self.assertEqual(
                manager.query("SELECT s.name FROM Shop s WHERE s.email = :e", e="a@x"), ["a"]
            )

    def test_what_is_unique_together_and_links_are_not(self) -> None:
        it = self.module("""
class Named(Entity, unique=[("name",), ("name", "other")]):
    id: int = generated()
    name: str
    other: str | None = None

class Own(Named, unique=("more", )):
    more: list[str] = json_text()

class Led(Entity, unique=("to",)):
    id: int = generated()
    to: Named = many_to_one()
""")
        with karzhoul.open(it, program=PROGRAM) as app:
            told = [json.loads(line) for line in app.index_lines]
        self.assertEqual([(it["entity"], it["name"]) for it in told], [("Named", "name")])


@needs_program
class Console(Shops):
    def asked(self, write: bool, name: str, /, index: Tuple[str, ...] = (), **said: Any) -> Any:
        """What a console of the command answers."""
        words = argparse.Namespace(
            connect=None, db=str(self.db), mapping=self.file, write=write, program=str(PROGRAM),
            language=None, index=list(index),
        )
        with opened_for(words) as app:
            store = Store(app, "app.db", write, None, naming_for(words))
            return Actions(store).answer(name, said)

    def test_names_are_those_of_the_classes(self) -> None:
        self.fill().close()
        for write in (False, True):
            said: Any = {"text": CITY, "params": {"c": ["text", "a"]}}
            self.assertEqual(self.asked(write, "check", **said)["mistakes"], [])
            told = self.asked(write, "query", **said, first=0, max=9)
            self.assertEqual((told["titles"], told["rows"]),
                             (["city", "fee"], [[["text", "a"], ["int", "0"]]]))
            told = self.asked(write, "csv", text="SELECT s.home FROM Shop s")
            self.assertEqual(told["csv"], "home.city,home.street\r\na,\r\nb,\r\n")
            told = self.asked(write, "query", text="SELECT s FROM Shop s", first=0, max=1)
            self.assertEqual(told["titles"][1:], ["id", "name", "email", "home.city", "home.street",
                                                  "fee"])
            texts = {it["name"]: it["text"] for it in self.asked(write, "overview")["entities"]}
            self.assertEqual(texts["Copy"], "SELECT e FROM Copy e ORDER BY e.isbn, e.number")

    def test_a_fault_has_its_place(self) -> None:
        self.fill().close()
        text = "SELECT s.home.city FROM Shop s WHERE\n s.home.city = 1"
        for refused in (
            self.asked(False, "check", text=text), self.asked(False, "query", text=text, first=0,
                                                              max=9)["refused"],
        ):
            [found] = refused["mistakes"]
            self.assertEqual((found["line"], found["column"], found["word"]), (2, 16, "1"))
            self.assertEqual(found["message"], "s.home.city is a text, and 1 is a whole number")
        whole = "SELECT s FROM Shop s WHERE s.home = 1"
        refused = self.asked(False, "query", text=whole, first=0, max=9)["refused"]
        self.assertEqual(refused["word"], "IllegalArgument(typing)")
        [found] = refused["mistakes"]
        self.assertEqual((found["column"], found["word"]), (28, "s.home"))

    def test_lists_are_looked_up_also_where_it_only_reads(self) -> None:
        self.fill().close()
        for write in (False, True):
            for name, index in (("name", ()), ("email", ()), ("home.city", ("Shop.home.city",))):
                text = f"SELECT s FROM Shop s WHERE s.{name} = 'a'"
                told = self.asked(write, "explain", index, text=text)["lookups"]
                self.assertEqual(told, [f"looks up Shop by the index of {name}"])

    def test_an_index_that_there_is_not(self) -> None:
        self.fill().close()
        for mapping, word, why in (
            (self.file, "Shop.home__city", "did you mean 'home.city'?"),
            (self.file, "Shop", "is no entity with its member, as Title.name"),
        ):
            wrong = io.StringIO()
            with contextlib.redirect_stderr(wrong):
                status = main(["console", str(self.db), "--mapping", mapping, "--index", word,
                               "--no-browser", "--program", str(PROGRAM)])
            self.assertEqual(status, 2)
            self.assertIn(why, wrong.getvalue())


@needs_program
class OfAServer(Shops):
    def serve(self, mapping: Any, index_lines: Tuple[bytes, ...] = ()) -> Here:
        """A server, whose program was told these indexes."""
        server = Here(mapping, self.db, language="wide", listen=self.folder / "s")
        server.service.served = Served(
            server.service.served.mapping, "wide", index_lines
        )
        self.addCleanup(server.close)
        return server

    def explained(self, classes: Optional[ModuleType], name: str, text: str) -> List[str]:
        """By what a manager of a connection finds objects."""
        lock = self.folder / "karzhoul.lock.json"
        with karzhoul.connect(self.way, classes, lock=lock if classes else None) as app:
            with app.begin() as manager:
                return manager.explain(text, x=name)

    def test_the_server_tells_its_indexes(self) -> None:
        app = self.fill()
        mapping = app.mapping
        app.close()
        self.serve(mapping, (b'{"call":"index","entity":"Shop","name":"home__city"}',))
        city = "SELECT s FROM Shop s WHERE s.home__city = :x"
        street = "SELECT s FROM Shop s WHERE s.home__street = :x"
        looks = "looks up Shop by the index of"
        self.assertEqual(self.explained(None, "a", city), [f"{looks} home__city"])
        self.assertEqual(self.explained(None, "a", street), ["looks at all of Shop"])
        # Who comes with classes asks for theirs, which others have then too.
        own = city.replace("__", ".")
        self.assertEqual(self.explained(self.shops, "a", own), [f"{looks} home.city"])
        self.assertEqual(self.explained(None, "a", street), [f"{looks} home__street"])

    def test_what_the_program_refused_is_no_index_of_a_server(self) -> None:
        app = self.fill()
        mapping = app.mapping
        app.close()
        server = self.serve(mapping)
        talk = Talk(server.connected())
        self.addCleanup(talk.close)
        found = talk.ask(
            '{"call":"index","entity":"Shop","name":"nmae"}',
            '{"call":"index","entity":"Shop","name":"fee"}',
            '{"serve":"indexes"}',
        )
        self.assertEqual(found[2]["ok"], [["Shop", "fee"]])

    def test_an_older_server_tells_none(self) -> None:
        app = self.fill()
        mapping = app.mapping
        app.close()
        server = self.serve(mapping)
        before, own = server.service.own.serve, server.service.own

        def older(connection: Any, line: bytes) -> None:
            before(connection, b'{"serve":"none"}' if b"indexes" in line else line)

        street = "SELECT s FROM Shop s WHERE s.home.street = :x"
        with mock.patch.object(own, "serve", older):
            found = self.explained(self.shops, "a", street)
        self.assertEqual(found, ["looks up Shop by the index of home.street"])


class Places(ClassesTest):
    def test_a_place_of_a_changed_text_is_one_of_the_text_before(self) -> None:
        edits = Edits("0123456789")
        edits.replace(2, 4, "abcdef")
        edits.replace(7, 8, "")
        self.assertEqual(edits.text(), "01abcdef45689")
        for at, end, wanted in ((0, 2, "01"), (2, 8, "23"), (3, 5, "23"), (8, 9, "4"), (1, 3, "123"),
                                (7, 10, "2345"), (11, 13, "89"), (13, 13, "")):
            start, until = edits.before(at, end)
            self.assertEqual("0123456789"[start:until], wanted, (at, end))
