"""The command: check, show with its page, and the shell."""

from __future__ import annotations

import contextlib
import copy
import importlib.util
import io
import json
import os
import shutil
import subprocess
import sys
import tempfile
import unittest
from html.parser import HTMLParser
from pathlib import Path
from typing import Any, Dict, List, Tuple
from unittest import mock
from xml.etree import ElementTree

import karzhoul
from karzhoul.showing import tables as show
from karzhoul.cli.command import main
from karzhoul.showing.diagram import diagram
from karzhoul.cli.shell import Shell, members_of, usage
from karzhoul.mapping.unit import entities_of

from ..support import HERE, PERSONS, PROGRAM, FolderTest, examples, needs_program, played

BROWSERS = ("chromium", "chromium-browser", "google-chrome", "firefox")


def ran(*words: str) -> Tuple[int, str, str]:
    """The command's status and what it prints, over the program."""
    return alone(words[0], "--program", str(PROGRAM), *words[1:])


def alone(*words: str) -> Tuple[int, str, str]:
    """The command's status and what it prints."""
    out, err = io.StringIO(), io.StringIO()
    with contextlib.redirect_stdout(out), contextlib.redirect_stderr(err):
        status = main(list(words))
    return status, out.getvalue(), err.getvalue()


class Page(HTMLParser):
    """Anchors, links and the nesting of a page."""

    VOID = {"meta", "link", "br"}

    def __init__(self, text: str) -> None:
        super().__init__()
        self.ids: List[str] = []
        self.links: List[str] = []
        self.open: List[str] = []
        self.feed(text)
        self.close()

    def handle_starttag(self, tag: str, attrs: List[Tuple[str, Any]]) -> None:
        given = dict(attrs)
        self.ids += [given["id"]] if "id" in given else []
        self.links += [given["href"]] if "href" in given else []
        if tag not in self.VOID:
            self.open.append(tag)

    def handle_endtag(self, tag: str) -> None:
        assert self.open.pop() == tag, tag


class WithStore(FolderTest):
    """A test over a database with a few objects."""

    def setUp(self) -> None:
        super().setUp()
        self.mapping, self.db = str(self.place / "mapping.json"), str(self.place / "app.db")
        Path(self.mapping).write_text(json.dumps(PERSONS), encoding="utf-8")
        with karzhoul.open(self.mapping, self.db, program=PROGRAM) as app:
            em = app.create_entity_manager()
            with em.transaction():
                for name in ("Ada", None, "<b>&\n", "é" * 60):
                    em.persist(app.new("Person", name=name))
                em.persist(app.new("Order", number=7, amount=-3))
                em.persist(app.new("Place", at=(1, "a", b"\x0a"), label="x", scan=b"\xff"))

    def over(self, *words: str) -> Tuple[int, str, str]:
        return ran(*words, "--mapping", self.mapping)


@needs_program
class Show(WithStore):
    def test_tables(self) -> None:
        before = Path(self.db).read_bytes()
        status, out, err = self.over("show", self.db)
        self.assertEqual((status, err), (0, ""))
        wanted = [
            "Person: 4 objects (all that are stored)",
            "id | version | name",
            "---+---------+-----------------------------------------",
            " 1 |       0 | Ada",
            " 2 |       0 | null",
            " 3 |       0 | <b>&\\n",
            f" 4 |       0 | {'é' * 39}…",
            "",
            "Place: 1 object (all that are stored)",
            "at.row | at.shelf | at.tag | label | scan  | mood",
            "-------+----------+--------+-------+-------+-----",
            "     1 | a        | x'0a'  | x     | x'ff' | null",
            "",
            "Order: 1 object (all that are stored)",
            "number | amount",
            "-------+-------",
            "     7 |     -3",
        ]
        self.assertEqual(out.splitlines(), wanted)
        self.assertEqual(Path(self.db).read_bytes(), before)

    def test_all_generated_keys_are_found_also_after_gaps(self) -> None:
        with karzhoul.open(self.mapping, self.db, program=PROGRAM) as app:
            em = app.create_entity_manager()
            for is_kept in (False, True):
                transaction = em.transaction().begin()
                for _ in range(20):
                    em.persist(app.new("Person"))
                transaction.commit() if is_kept else transaction.rollback()
        with karzhoul.open(self.mapping, self.db, program=PROGRAM) as app:
            persons = show.tables(app)[0]
            self.assertEqual([row[0] for row in persons.rows], [1, 2, 3, 4, *range(25, 45)])

    def test_the_page(self) -> None:
        page = str(self.place / "page.html")
        status, out, _ = self.over("show", self.db, "--html", page)
        self.assertEqual((status, out.split(":")[0]), (0, page))
        text = Path(page).read_text(encoding="utf-8")
        parsed = Page(text)
        self.assertEqual(parsed.open, [])
        self.assertEqual(len(parsed.ids), len(set(parsed.ids)))
        for link in parsed.links:
            self.assertIn(link[1:], parsed.ids)
        self.assertIn("&lt;b&gt;&amp;\\n", text)
        self.assertNotIn("<b>&", text)

    @unittest.skipUnless(any(map(shutil.which, BROWSERS)), "no headless browser is installed")
    def test_the_page_in_a_browser(self) -> None:
        page = self.place / "page.html"
        self.over("show", self.db, "--html", str(page))
        browser = str(next(found for found in map(shutil.which, BROWSERS) if found))
        shot = self.place / "page.png"
        words = (
            ["--headless", "--screenshot", str(shot)]
            if "firefox" in browser
            else ["--headless", "--no-sandbox", f"--screenshot={shot}"]
        )
        subprocess.run(
            [browser, *words, page.as_uri()], check=True, capture_output=True, timeout=60
        )
        self.assertTrue(shot.read_bytes().startswith(b"\x89PNG"))

    def test_a_file_that_another_program_has_open(self) -> None:
        with karzhoul.open(self.mapping, self.db, program=PROGRAM):
            for command in ("show", "shell"):
                status, out, err = self.over(command, self.db)
                self.assertEqual((status, out), (4, ""))
                self.assertIn(
                    f"karzhoul: StoreFault: {self.db} can't be opened: another program has it open",
                    err,
                )

    def test_files_that_are_no_database(self) -> None:
        Path(self.db).write_bytes(b"no database at all, whatever its name is")
        status, _, err = self.over("show", self.db)
        self.assertEqual((status, "it is no database of SQLite" in err), (4, True))
        status, _, err = self.over("shell", str(self.place))
        self.assertEqual((status, "it is a folder" in err), (4, True))

    def test_an_interrupt_ends_the_program_and_is_a_line(self) -> None:
        opened: List[karzhoul.EntityManagerFactory] = []

        def interrupted(app: karzhoul.EntityManagerFactory, *_: object) -> None:
            opened.append(app)
            raise KeyboardInterrupt

        with mock.patch("karzhoul.showing.tables.tables", interrupted):
            self.assertEqual(self.over("show", self.db), (130, "", "karzhoul: interrupted\n"))
        self.assertIsNotNone(opened[0].program.fault)
        self.assertEqual(self.over("show", self.db)[0], 0)

    def test_what_can_not_be_shown(self) -> None:
        self.assertEqual(self.over("show", str(self.place / "none.db"))[0], 4)
        Path(self.mapping).write_text("{}", encoding="utf-8")
        status, _, err = self.over("show", self.db)
        self.assertEqual((status, "Mapping(shape)" in err), (4, True))


class Queried(unittest.TestCase):
    def test_where_queries_are_served_they_find_what_is_shown(self) -> None:
        persons = json.loads("\n".join(next(examples("mappings")).given))
        ada = '[{"entity":"Person","relations":[{"unread":true}],"values":[1,0,"Ada"]}]'
        order = '[{"entity":"Order","relations":[{"key":[1]}],"values":[10,5]}]'
        query = '{"call":"query","em":1,"text":"SELECT e FROM %s e WHERE TYPE(e) = %s"}'
        lines = [
            ('{"call":"createEntityManager"}', "", "1"),
            (query % ("Person", "Person"), '["PostLoad",1]', '[{"object":1}]'),
            ('{"call":"values","objects":[1]}', "", ada),
            ('{"call":"get","object":1,"name":"orders"}', '["PostLoad",2]', '[{"object":2}]'),
            ('{"call":"values","objects":[2]}', "", order),
            (query % ("Order", "Order"), "", '[{"object":2}]'),
            ('{"call":"values","objects":[2]}', "", order),
            ('{"call":"get","object":2,"name":"person"}', "", '{"object":1}'),
            ('{"call":"values","objects":[1]}', "", ada),
        ]
        script = "".join(
            f'> {line}\n< {{"events":[{events}],"ok":{ok}}}\n' for line, events, ok in lines
        )
        with played(script, persons) as app:
            shown = show.tables(app)
        text = show.text_page(shown)
        self.assertIn(" 1 |       0 | Ada  | [Order 10]", text)
        self.assertIn("    10 |      5 | Person 1", text)
        page = show.html_page(shown, "a <store>")
        self.assertIn('<a href="#Order-1">Order 10</a>', page)
        self.assertIn('<a href="#Person-1">Person 1</a>', page)
        parsed = Page(page)
        for link in parsed.links:
            self.assertIn(link[1:], parsed.ids)


class Diagram(unittest.TestCase):
    def test_relations_are_arrows(self) -> None:
        entities = list(
            entities_of(
                json.loads((HERE / "data" / "relations.json").read_text(encoding="utf-8"))
            ).values()
        )
        drawn = ElementTree.fromstring(diagram(entities))
        titles = [title.text for title in drawn.iter("{http://www.w3.org/2000/svg}title")]
        self.assertEqual(titles, ["A.b to B", "A.bs to B"])

    def test_superclasses_are_arrows_and_many_entities_are_boxes(self) -> None:
        mapping = copy.deepcopy(PERSONS)
        mapping["entities"] += [{"name": f"Sub{n}", "extends": "Person"} for n in range(20)]
        drawn = ElementTree.fromstring(diagram(list(entities_of(mapping).values())))
        self.assertEqual(len(list(drawn.iter("{http://www.w3.org/2000/svg}rect"))), 23)
        self.assertEqual(len(list(drawn.iter("{http://www.w3.org/2000/svg}title"))), 20)
        ElementTree.fromstring(diagram([]))


class CheckAlone(FolderTest):
    """A check by the client alone, with no program to start."""

    def setUp(self) -> None:
        super().setUp()
        self.mapping = str(self.place / "mapping.json")
        Path(self.mapping).write_text(json.dumps(PERSONS), encoding="utf-8")
        nowhere = mock.patch.dict(os.environ, {"KARZHOUL_PROGRAM": str(self.place / "none")})
        nowhere.start()
        self.addCleanup(nowhere.stop)

    def test_it_starts_no_program(self) -> None:
        with mock.patch("karzhoul.session.opening.open", side_effect=AssertionError):
            self.assertEqual(alone("check", self.mapping), (0, f"{self.mapping}: good\n", ""))

    def test_the_program_is_asked_where_that_is_wanted(self) -> None:
        there_is_none = karzhoul.ProgramNotFound("there is none")
        with mock.patch("karzhoul.session.opening.find_program", side_effect=there_is_none):
            self.assertEqual(
                alone("check", "--with-program", self.mapping), (4, "", "karzhoul: there is none\n")
            )
        with mock.patch("karzhoul.session.opening.open", side_effect=karzhoul.Mapping("model")):
            status, out, _ = alone("check", "--with-program", self.mapping)
        self.assertEqual(
            (status, out),
            (3, f"{self.mapping}: well formed, and refused by the program: Mapping(model)\n"),
        )

    def test_a_warning_is_told_of_a_good_mapping(self) -> None:
        warned = copy.deepcopy(PERSONS)
        warned["functions"].append({"name": "fill", "make": "count", "attribute": "visits"})
        Path(self.mapping).write_text(json.dumps(warned), encoding="utf-8")
        status, out, _ = alone("check", self.mapping)
        self.assertEqual((status, out.splitlines()[1]), (0, f"{self.mapping}: good"))
        self.assertIn(
            "$.functions[1].attribute: no entity has an attribute 'visits' [warning]", out
        )

    def test_a_mapping_from_a_pipe(self) -> None:
        words = [sys.executable, "-m", "karzhoul", "check", "/dev/stdin"]
        checked = subprocess.run(
            words, input=json.dumps(PERSONS).encode(), capture_output=True, cwd=HERE.parent,
            timeout=60,
        )
        self.assertEqual(
            (checked.returncode, checked.stdout, checked.stderr), (0, b"/dev/stdin: good\n", b"")
        )

    def test_no_words_are_answered_by_the_help(self) -> None:
        status, out, err = alone()
        self.assertEqual((status, out), (2, ""))
        self.assertIn("a first mapping", err)

    def test_a_mapping_that_is_not_there(self) -> None:
        for command in ("show", "dump", "shell"):
            status, _, err = alone(command, __file__, "--mapping", "/nowhere.json")
            told = "there is no mapping /nowhere.json: --mapping names another one"
            self.assertEqual((status, err), (4, f"karzhoul: {told}\n"))

    def test_an_interrupt_is_a_line(self) -> None:
        with mock.patch("karzhoul.cli.command.lint", side_effect=KeyboardInterrupt):
            self.assertEqual(alone("check", self.mapping), (130, "", "karzhoul: interrupted\n"))

    def test_a_reader_that_has_enough_is_no_fault(self) -> None:
        reading, writing = os.pipe()
        os.close(reading)
        words = [sys.executable, "-m", "karzhoul", "check", self.mapping]
        checked = subprocess.run(
            words, stdout=writing, stderr=subprocess.PIPE, cwd=HERE.parent, timeout=60
        )
        os.close(writing)
        self.assertEqual((checked.returncode, checked.stderr), (4, b""))


@needs_program
class Check(WithStore):
    def test_a_good_mapping(self) -> None:
        self.assertEqual(ran("check", self.mapping), (0, f"{self.mapping}: good\n", ""))

    def test_a_wrong_mapping(self) -> None:
        wrong = copy.deepcopy(PERSONS)
        wrong["entities"][0]["table"] = wrong["entities"][1]["table"]
        Path(self.mapping).write_text(json.dumps(wrong), encoding="utf-8")
        status, out, _ = ran("check", self.mapping)
        self.assertEqual(status, 1)
        self.assertIn("$.entities[1].table: table 7 is taken already [Mapping(model)]", out)

    def test_mappings_with_relations(self) -> None:
        # Persons whose orders are removed as orphans.
        Path(self.mapping).write_text("\n".join(next(examples("mappings")).given), encoding="utf-8")
        for mapping in (self.mapping, str(HERE / "data" / "relations.json")):
            self.assertEqual(ran("check", mapping), (0, f"{mapping}: good\n", ""))

    def test_a_file_that_is_not_there(self) -> None:
        self.assertEqual(ran("check", "/nowhere")[0], 4)


@needs_program
class AShell(unittest.TestCase):
    def setUp(self) -> None:
        self.app = karzhoul.open(PERSONS, program=PROGRAM)
        self.addCleanup(self.app.close)
        self.told: List[str] = []
        self.shell = Shell(self.app, self.told.append)

    def says(self, *lines: str) -> List[str]:
        self.told.clear()
        for line in lines:
            self.shell.do(line)
        return list(self.told)

    def test_calls_and_their_answers(self) -> None:
        self.assertEqual(
            self.says("new Person", 'set #1 name "Ada L"', "get #1 name"),
            ["#1 Person", "done", '"Ada L"'],
        )
        self.assertEqual(
            self.says("begin", "persist #1"), ["done", "  PrePersist #1 Person", "done"]
        )
        self.assertEqual(
            self.says("commit", "find Person 1", "find Person 2"),
            ["  PostPersist #1 Person", "done", "#1 Person", "null"],
        )
        self.assertEqual(
            self.says("new Place", "set #2 at.tag x'0aff'", "get #2 at.tag")[2:], ["x'0aff'"]
        )
        self.assertEqual(
            self.says("createEntityManager", "find Person 1"),
            ["2", "  PostLoad #3 Person", "#3 Person"],
        )
        self.assertEqual(self.says("manager 1", "find Person 1"), ["#1 Person"])

    def test_refusals_are_told_and_nothing_ends(self) -> None:
        self.assertTrue(
            self.says("find Nobody 1")[0].startswith("refused: IllegalArgument(entity)")
        )
        self.assertTrue(self.says('{"call":"x"}')[0].startswith("refused: BadLine"))
        self.assertEqual(self.says("frobnicate"), ["'frobnicate' is no call: 'help' lists them"])
        self.assertEqual(self.says("set #1 name"), ["value is missing: set #N NAME VALUE"])
        self.assertEqual(self.says("begin now"), ["'now' is too much: begin"])
        self.assertEqual(self.says("persist Ada"), ["'Ada' is no number, and no object as #1"])
        self.assertEqual(self.says(""), [])
        self.assertIn(
            "Person: id: int (key), version: int (version), name: text", self.says("entities")
        )
        self.assertIn("createEntityManager", self.says("help")[0])

    def test_completion(self) -> None:
        complete = self.shell.completions
        self.assertEqual(
            complete("", "se"), ["select ", "set ", "setFlushMode ", "setRollbackOnly "]
        )
        self.assertEqual(complete("find ", "P"), ["Person ", "Place "])
        self.assertEqual(complete("get #1 ", "na"), ["name "])
        self.assertEqual(complete("set #9 ", "at.t"), ["at.tag "])
        self.says("new Order")
        self.assertEqual(complete("persist ", "#"), ["#1 "])
        self.assertEqual(complete("get #1 ", ""), ["amount ", "number "])
        self.assertEqual(
            complete("lock #1 ", "OPT"), ["OPTIMISTIC ", "OPTIMISTIC_FORCE_INCREMENT "]
        )
        self.assertEqual(complete("help ", "mer"), ["merge "])
        self.assertEqual(complete("begin ", ""), [])

    def test_an_ended_program_ends_it(self) -> None:
        os.kill(self.app.program.pid, 9)
        with mock.patch("sys.stdin", io.StringIO("find Person 1\nfind Person 2\n")):
            self.shell.run()
        self.assertEqual(self.told, ["the program was ended by signal 9"])


class Words(unittest.TestCase):
    def test_members_of_calls(self) -> None:
        told: Dict[str, Tuple[str, List[str]]] = {
            '{"em":3,"entity":"Place","key":[1,"a",{"hex":"0a"}]}': (
                "find",
                ["Place", "1", "a", "x'0a'"],
            ),
            '{"object":1,"name":"person","value":{"object":2}}': ("set", ["#1", "person", "#2"]),
            '{"em":3,"text":"SELECT p","params":{"n":"A b","1":null},"first":0,"max":5}': (
                "query",
                ['"SELECT p"', "max=5", ':n="A b"', ":1=null", "first=0"],
            ),
            '{"em":3,"object":1,"mode":"READ"}': ("lock", ["1", "READ"]),
            '{"em":3}': ("begin", []),
        }
        for wanted, (call, words) in told.items():
            said = (
                "{"
                + ",".join(
                    f'"{name}":{value}' for name, value in members_of(call, words, 3).items()
                )
                + "}"
            )
            self.assertEqual(said, wanted)
        self.assertEqual(usage("query"), "query TEXT [:NAME=VALUE..] [first=N] [max=N]")


class Package(unittest.TestCase):
    @unittest.skipUnless(importlib.util.find_spec("pip"), "there is no pip")
    def test_it_is_installed_by_pip(self) -> None:
        with tempfile.TemporaryDirectory() as place:
            shutil.copytree(HERE.parent, Path(place, "source"))
            words = [
                "install", "--quiet", "--no-index", "--no-deps", "--target",
                str(Path(place, "there")), str(Path(place, "source")),
            ]
            made = subprocess.run(
                [sys.executable, "-m", "pip", *words], capture_output=True, text=True, timeout=100
            )
            self.assertEqual(made.returncode, 0, made.stderr)
            code, env = "import karzhoul; print(karzhoul.__file__)", {
                **os.environ,
                "PYTHONPATH": str(Path(place, "there")),
            }
            found = subprocess.run(
                [sys.executable, "-c", code], cwd=place, env=env, capture_output=True, text=True
            )
            self.assertEqual(
                found.stdout.strip(), str(Path(place, "there", "karzhoul", "__init__.py"))
            )
            self.assertTrue(Path(place, "there", "karzhoul", "py.typed").exists())
            self.assertTrue(Path(place, "there", "bin", "karzhoul").exists())


if __name__ == "__main__":
    unittest.main()
