"""What the program is told to look up, by the names that an opening or a server is handed."""

from __future__ import annotations

import io
import json
import os
import random
import signal
from contextlib import redirect_stderr
from pathlib import Path
from typing import Any, Callable, Dict, List, Optional, Sequence, Tuple
from unittest import mock

import karzhoul
from karzhoul.cli.command import main
from karzhoul.store.program import Exchange, Program

from ..classed import ClassesTest
from ..served import Here
from ..support import PROGRAM, FolderTest, needs_program

BOOKS: Dict[str, Any] = {
    "revision": 1,
    "entities": [
        {
            "name": "Title", "table": 1, "key": [{"name": "id", "type": "int"}], "generated": True,
            "version": {"name": "version", "column": 1},
            "attributes": [
                {"name": "name", "type": "text", "column": 2},
                {"name": "year", "type": "int", "column": 3},
            ],
            "relations": [
                {"name": "copies", "kind": "oneToMany", "target": "Copy", "mappedBy": "title"}
            ],
        },
        {
            "name": "Volume", "extends": "Title",
            "attributes": [{"name": "number", "type": "int", "column": 4}],
        },
        {
            "name": "Copy", "table": 2,
            "key": [{"name": "row", "type": "int"}, {"name": "shelf", "type": "text"}],
            "embedded": "at",
            "relations": [{"name": "title", "kind": "manyToOne", "target": "Title", "column": 1}],
        },
    ],
}
INDEXES = {"Title": ["name", "year"], "Volume": ["number", "id"], "Copy": ["at.shelf"]}
WHOLE = ["Title.name", "Title.year", "Volume.number", "Volume.id", "Copy.at.shelf"]


def told(lines: Sequence[bytes]) -> List[str]:
    """What of lines is to be looked up."""
    said = [json.loads(line) for line in lines]
    return [f"{it['entity']}.{it['name']}" for it in said if it["call"] == "index"]


def told_by(case: Any, work: Callable[[], object]) -> List[str]:
    """What the program is told to look up, and takes."""
    with case.assertLogs("karzhoul", "DEBUG") as logs:
        work()
    found = [
        (line, reply) for line, _, reply in
        (record.getMessage().partition(" -> ") for record in logs.records) if '"index"' in line
    ]
    for line, reply in found:
        case.assertTrue(reply.startswith('{"events":[],"ok":null}'), line)
    return told([line.encode() for line, _ in found])


@needs_program
class ByHand(FolderTest):
    def open(self, indexes: Any, mapping: Any = BOOKS) -> karzhoul.EntityManagerFactory:
        """A factory over the test's file."""
        app = karzhoul.open(mapping, self.place / "app.db", program=PROGRAM, indexes=indexes)
        self.addCleanup(app.close)
        return app

    def test_they_are_told_whenever_a_program_is_started(self) -> None:
        self.assertEqual(told_by(self, lambda: self.open(INDEXES).close()), WHOLE)
        app = self.open(INDEXES)
        # A new run of the program keeps them; but one with a transaction open needs another one.
        self.assertEqual(told_by(self, app.restart), [])
        app.create_entity_manager().transaction().begin()
        self.assertEqual(told_by(self, app.restart), WHOLE)
        os.kill(app.program.pid, signal.SIGKILL)
        with self.assertRaises(karzhoul.ProgramEnded):
            app.create_entity_manager()
        self.assertEqual(told_by(self, app.reopen), WHOLE)
        os.kill(app.program.pid, signal.SIGKILL)
        with self.assertRaises(karzhoul.ProgramEnded):
            app.create_entity_manager()
        self.assertEqual(told_by(self, lambda: app.retry(lambda manager: None)), WHOLE)

    def test_a_program_that_was_given_up_is_told_again(self) -> None:
        app = self.open(INDEXES)
        with app.begin() as manager:
            manager.persist_all([app.new("Title", name=str(n)) for n in range(200)])
        long = "SELECT COUNT(a) FROM Title a, Title b, Title c WHERE a.id + b.id = c.id - 700"
        with self.assertRaises(karzhoul.GivenUp):
            app.create_entity_manager().query(long, end_program_after=0.001)
        self.assertEqual(told_by(self, app.reopen), WHOLE)

    def test_nothing_is_told_where_none_is_named(self) -> None:
        nothing: List[Any] = [None, {}, {"Title": []}]
        for none in nothing:
            with karzhoul.open(BOOKS, program=PROGRAM, indexes=none) as app:
                self.assertEqual(told_by(self, app.restart), [])
                os.kill(app.program.pid, signal.SIGKILL)
                self.assertEqual(told_by(self, app.restart), [])

    def test_one_that_is_named_twice_is_told_once(self) -> None:
        twice = {"Title": ("year", "year")}
        self.assertEqual(told_by(self, lambda: self.open(twice).close()), ["Title.year"])

    def test_an_entity_may_be_named_by_a_class(self) -> None:
        with karzhoul.open(BOOKS, program=PROGRAM) as app:
            title = app.entity("Title")
        self.assertEqual(told_by(self, lambda: self.open({title: ["year"]}).close()), ["Title.year"])

    def test_a_manager_tells_by_what_a_query_finds_objects(self) -> None:
        app = self.open(INDEXES)
        manager = app.create_entity_manager()
        asked: List[Tuple[str, Dict[str, Any], List[str]]] = [
            ("SELECT t FROM Title t WHERE t.name = :name", {"name": "Ä 'b'"},
             ["looks up Title by the index of name"]),
            ("SELECT v FROM Volume v WHERE v.year > :year", {"year": 3},
             ["looks up Volume by the index of year"]),
            ("SELECT c FROM Copy c WHERE c.at.shelf IN :shelves", {"shelves": ["a", "b"]},
             ["looks up Copy by the index of shelf"]),
            ("SELECT t.name FROM Title t JOIN t.copies c", {},
             ["looks at all of Title", "goes along Title.copies"]),
        ]
        for text, given, lines in asked:
            self.assertEqual(manager.explain(text, **given), lines, text)
        with app.begin() as writing:
            title = app.new("Title", name="a")
            writing.persist(title)
            found = writing.explain("SELECT c FROM Copy c WHERE c.title = :title", title=title)
        self.assertEqual(found, ["looks up Copy by title"])
        with self.assertRaisesRegex(karzhoul.Refused, "syntax"):
            manager.explain("SELECT")

    def test_a_mapping_may_be_a_file_or_a_pipe(self) -> None:
        file = self.place / "mapping.json"
        file.write_text(json.dumps(BOOKS))
        self.assertEqual(told_by(self, lambda: self.open(INDEXES, file).close()), WHOLE)
        out, into = os.pipe()
        os.write(into, file.read_bytes())
        os.close(into)
        self.addCleanup(os.close, out)
        pipe = Path(f"/dev/fd/{out}")
        self.assertEqual(told_by(self, lambda: self.open(INDEXES, pipe).close()), WHOLE)

    def test_what_can_have_none_is_refused_before_anything_is_opened(self) -> None:
        for indexes, words in (
            ({"Titel": ["name"]}, "there is no entity 'Titel': did you mean 'Title'?"),
            ({"X": ["name"]}, "there is no entity 'X'; there are Title, Volume, Copy"),
            ({"Title": ["nmae"]}, "Title has no member 'nmae': did you mean 'name'?"),
            ({"Title": ["price"]}, "Title has no member 'price'; there can be one of id, name, "
             "year"),
            ({"Copy": ["row"]}, "Copy has no member 'row': did you mean 'at.row'?"),
            ({"Title": ["year", "version"]}, "Title.version is the version, which has no index"),
            ({"Copy": ["title"]}, "Copy.title is a relation"),
            ({"Volume": ["copies"]}, "Volume.copies is a relation"),
        ):
            with self.subTest(indexes=indexes), self.assertRaises(ValueError) as raised:
                self.open(indexes)
            self.assertIn(words, str(raised.exception))
        for wrong in ([("Title", "name")], {"Title": "name"}, {"Title": 1}, {1: ["name"]},
                      {"Title": [1]}, "Title.name"):
            with self.subTest(wrong=wrong), self.assertRaisesRegex(TypeError, "'Title': .'name'"):
                self.open(wrong)
        self.assertEqual(list(self.place.iterdir()), [])

    def test_a_mapping_that_is_wrong_is_refused_as_one(self) -> None:
        for wrong in ({}, {"revision": 1, "entities": [{"name": "Title"}]}, self.place / "none"):
            with self.subTest(wrong=wrong), self.assertRaises(karzhoul.Mapping):
                self.open(INDEXES, wrong)


Row = Tuple[str, Optional[int]]
CONDITIONS: Sequence[Tuple[str, Callable[[str, Optional[int]], bool]]] = (
    ("t.year = 7", lambda name, year: year == 7),
    ("t.name = 'c'", lambda name, year: name == "c"),
    ("t.year > 5 AND t.year <= 8", lambda name, year: year in (6, 7, 8)),
    ("t.year < 2", lambda name, year: year in (0, 1)),
    ("t.year BETWEEN 2 AND 3", lambda name, year: year in (2, 3)),
    ("t.name IN ('a', 'zz', 'd')", lambda name, year: name in "ad"),
    ("t.year IS NULL", lambda name, year: year is None),
    ("t.name >= 'd' AND t.year = 3", lambda name, year: name >= "d" and year == 3),
)


@needs_program
class SameRows(FolderTest):
    """The rows of queries with indexes and without, and as Python finds them."""

    def test_rows_are_the_same(self) -> None:
        apps = [
            karzhoul.open(BOOKS, self.place / f"{n}.db", program=PROGRAM, indexes=named)
            for n, named in enumerate((None, INDEXES))
        ]
        for app in apps:
            self.addCleanup(app.close)
        chance = random.Random(5)
        rows: Dict[Any, Row] = {}
        for turn in range(6):
            new: List[Row] = [
                (chance.choice("abcdef"), chance.choice([None, *range(10)])) for _ in range(40)
            ]
            years = {key: chance.randrange(10) for key in rows if chance.random() < 0.2}
            gone = [key for key in rows if key not in years and chance.random() < 0.2]
            for app in apps:
                with app.begin() as manager:
                    for key, year in years.items():
                        manager.get_reference("Title", key).year = year
                    for key in gone:
                        manager.remove(manager.get_reference("Title", key))
                    made = [app.new("Title", name=name, year=year) for name, year in new]
                    manager.persist_all(made)
                    keys = [it.id for it in made]
                    now = {key: row for key, row in rows.items() if key not in gone}
                    now.update({key: (now[key][0], year) for key, year in years.items()})
                    now.update(zip(keys, new))
                    self.check(manager, now)
                with app.begin() as manager:
                    self.check(manager, now)
            rows = now
            if turn == 3:
                os.kill(apps[1].program.pid, signal.SIGKILL)
                with self.assertRaises(karzhoul.ProgramEnded):
                    apps[1].create_entity_manager()
                apps[1].reopen()
        for app in apps:
            with app.begin() as manager:
                count = sum(row[1] == 7 for row in rows.values())
                changed = manager.execute_update("UPDATE Title t SET t.year = 8 WHERE t.year = 7")
                self.assertEqual(changed, count)
                gone = [key for key, row in rows.items() if row[0] == "b"]
                deleted = manager.execute_update("DELETE FROM Title t WHERE t.name = 'b'")
                self.assertEqual(deleted, len(gone))
            left = {
                key: (name, 8 if year == 7 else year)
                for key, (name, year) in rows.items() if name != "b"
            }
            with app.begin() as manager:
                self.check(manager, left)

    def check(self, manager: karzhoul.EntityManager, rows: Dict[Any, Row]) -> None:
        """Asks each condition, whose rows are those of its meaning."""
        for condition, holds in CONDITIONS:
            found = manager.query(f"SELECT t.id FROM Title t WHERE {condition}")
            wanted = [key for key in sorted(rows) if holds(*rows[key])]
            self.assertEqual(sorted(found), wanted, condition)


def _held_at_most(app: karzhoul.EntityManagerFactory) -> int:
    """The kilobytes that the program has held at most."""
    program = app.program
    assert isinstance(program, Program)
    with open(f"/proc/{program._process.pid}/status", encoding="ascii") as told:
        [line] = [line for line in told if line.startswith("VmHWM")]
    return int(line.split()[1])


@needs_program
class Combinations(FolderTest):
    """Of objects that nothing equates no more are held together than WHERE leaves."""

    def test_four_million_of_them(self) -> None:
        with karzhoul.open(BOOKS, self.place / "app.db", program=PROGRAM) as app:
            with app.begin() as manager:
                rows = [{"name": "a", "year": n} for n in range(2000)]
                manager.persist_all(app.new_many("Title", rows))
            before = _held_at_most(app)
            asked = app.create_entity_manager().query
            self.assertEqual(list(asked("SELECT COUNT(a) FROM Title a, Title b")), [4_000_000])
            found = asked(
                "SELECT a.year, b.year FROM Title a, Title b"
                " WHERE a.year > b.year AND b.year > 1996"
            )
            self.assertEqual(
                [list(row) for row in found], [[1998, 1997], [1999, 1997], [1999, 1998]]
            )
            # (together they would be some 240 MB)
            self.assertLess(_held_at_most(app) - before, 60_000)


LIBRARY = """
class Place(Embedded):
    city: str
    street: str | None = field(default=None, index=True)

class Named(Entity):
    id: int = generated()
    version: int = version()
    name: str = field(index=True)

class Shop(Named):
    home: Place = embedded()
    more: list[str] = json_text()
    fee: Decimal = money(2, default=Decimal(0))
    copies: list["Copy"] = one_to_many("shop")

class Copy(Entity):
    isbn: str = key()
    number: int = key()
    shop: Shop | None = many_to_one()
"""


@needs_program
class OverClasses(ClassesTest):
    def opened(self, it: Any, indexes: Any) -> karzhoul.EntityManagerFactory:
        """A factory of a module."""
        app = karzhoul.open(it, self.db, program=PROGRAM, lock=self.lock, indexes=indexes)
        self.addCleanup(app.close)
        return app

    def test_they_stand_beside_those_of_the_classes(self) -> None:
        it = self.module(LIBRARY)
        own = ["Named.name", "Shop.home__street"]
        self.assertEqual(told_by(self, lambda: self.opened(it, None).close()), own)
        named = {
            it.Shop: ["fee", "home.city", "home.street"], "Named": ["name"], "Copy": ["number"]
        }
        whole = [*own, "Shop.fee", "Shop.home__city", "Copy._key.number"]
        self.assertEqual(told_by(self, lambda: self.opened(it, named).close()), whole)
        app = self.opened(it, named)
        with app.begin() as manager:
            for city in "ab":
                shop = it.Shop(name=city, home=it.Place(city=city), more=[])
                manager.persist(shop)
                manager.persist(it.Copy(isbn=city, number=ord(city), shop=shop))
        os.kill(app.program.pid, signal.SIGKILL)
        with self.assertRaises(karzhoul.ProgramEnded):
            app.create_entity_manager()
        self.assertEqual(told_by(self, app.reopen), whole)
        with app.begin() as manager:
            for text, found in (
                ("SELECT s.name FROM Shop s WHERE s.home.city = 'b'", ["b"]),
                ("SELECT s.name FROM Shop s WHERE s.home.street IS NULL AND s.name < 'b'", ["a"]),
                ("SELECT c.isbn FROM Copy c WHERE c.number > 97", ["b"]),
            ):
                self.assertEqual(manager.query(text), found)

    def test_what_can_have_none_is_refused_before_anything_is_opened(self) -> None:
        it = self.module(LIBRARY)
        for indexes, words in (
            ({"Shops": ["name"]}, "there is no entity 'Shops': did you mean 'Shop'?"),
            ({"KarzhoulForm": ["id"]}, "there are Named, Shop, Copy"),
            ({"Shop": ["home"]}, "Shop.home is an embedded value: name its parts, as home.city"),
            ({"Shop": ["home.zip"]}, "Shop has no member 'home.zip': did you mean 'home."),
            ({"Shop": ["home__city"]}, "Shop has no member 'home__city'"),
            ({"Shop": ["more"]}, "Shop.more is JSON, which has no order"),
            ({"Shop": ["version"]}, "Shop.version is the version"),
            ({"Shop": ["copies"]}, "Shop.copies is a relation"),
            ({"Copy": ["shop"]}, "Copy.shop is a relation"),
        ):
            with self.subTest(indexes=indexes), self.assertRaises(ValueError) as raised:
                self.opened(it, indexes)
            self.assertIn(words, str(raised.exception))
        self.assertFalse(self.db.exists() or self.lock.exists())


@needs_program
class Served(ClassesTest):
    """The indexes of a server, which are told its program whenever that is started."""

    def started_by(self, *words: str) -> List[str]:
        """What the programs are told that a server starts: its first, and one behind its end."""
        sent: List[bytes] = []
        replies = Program.replies

        def noted(program: Program, exchange: Exchange, *more: Any) -> List[bytes]:
            sent.extend(exchange.lines)
            return replies(program, exchange, *more)

        def serve(settings: Any, listening: Any, start: Any, served: Any) -> int:
            sent.clear()
            for _ in range(2):
                with mock.patch.object(Program, "replies", noted):
                    start().close()
            return 0

        with mock.patch("karzhoul.server.running.serve", serve):
            status = main(["serve", str(self.db), "--listen", f"unix:{self.folder / 's'}",
                           "--program", str(PROGRAM), *words])
        self.assertEqual(status, 0)
        return told(sent)

    def by_hand(self) -> str:
        """The file of a mapping."""
        file = self.folder / "mapping.json"
        file.write_text(json.dumps(BOOKS))
        return str(file)

    def test_those_of_its_command(self) -> None:
        found = self.started_by(
            "--mapping", self.by_hand(), "--index", "Title.year", "--index", "Copy.at.shelf"
        )
        self.assertEqual(found, ["Title.year", "Copy.at.shelf"] * 2)
        self.assertEqual(self.started_by("--mapping", self.by_hand()), [])

    def test_those_of_its_classes(self) -> None:
        file = str(self.module(LIBRARY).__file__)
        found = self.started_by("--mapping", file, "--index", "Shop.home.city")
        self.assertEqual(found, ["Named.name", "Shop.home__street", "Shop.home__city"] * 2)

    def test_words_that_do_not_go(self) -> None:
        for word, words in (
            ("Title", "--index Title is no entity with its member, as Title.name"),
            (".name", "is no entity with its member"),
            ("Title.nmae", "did you mean 'name'?"),
            ("Titel.name", "did you mean 'Title'?"),
            ("Title.copies", "is a relation"),
        ):
            wrong = io.StringIO()
            with self.subTest(word=word), redirect_stderr(wrong):
                status = main(["serve", str(self.db), "--listen", f"unix:{self.folder / 's'}",
                               "--mapping", self.by_hand(), "--index", word])
            self.assertEqual(status, 2)
            self.assertIn(words, wrong.getvalue())
        self.assertFalse(self.db.exists())

    def test_a_connection_asks_for_those_of_its_classes(self) -> None:
        it = self.module(LIBRARY)
        with self.opened(it) as app:
            mapping = app.mapping
        server = Here(mapping, self.db, language="wide", listen=self.folder / "s")
        self.addCleanup(server.close)

        def connect() -> None:
            karzhoul.connect(f"unix:{self.folder / 's'}", it, lock=self.lock).close()

        self.assertEqual(told_by(self, connect), ["Named.name", "Shop.home__street"])

    def opened(self, it: Any) -> karzhoul.EntityManagerFactory:
        """A factory of a module."""
        return karzhoul.open(it, self.db, program=PROGRAM, lock=self.lock)
