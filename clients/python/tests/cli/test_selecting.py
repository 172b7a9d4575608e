"""The command `query`, over a stub that takes a query in its words, and over the program."""

from __future__ import annotations

import contextlib
import io
import json
import os
import subprocess
import sys
import tempfile
import unittest
from pathlib import Path
from typing import Any, Dict, List, Tuple
from unittest import mock

import karzhoul
from karzhoul.cli.command import main

from ..support import HERE, PERSONS, PROGRAM, needs_program

ALL = "SELECT p, p.name AS called, o.amount FROM Person p, Order o WHERE p.id < 3 ORDER BY p.id"
PLACES = "SELECT e FROM Place e"
NAMED = "SELECT p.id FROM Person p WHERE p.name = :name"
NONE = "SELECT p.name, p.id FROM Person p WHERE p.id = 9"
SCANS = "SELECT e.scan, e.label FROM Place e WHERE e.scan = ?1"
ADA = '[{"entity":"Person","key":[1]},"Ada",-3]'
PLACE = '{"entity":"Place","key":[1,"a",{"hex":"0a"}]}'
CASES: List[Dict[str, Any]] = [
    {"words": ["--query", ALL], "lines": [ADA, '[{"entity":"Person","key":[2]},null,-3]']},
    {"words": ["--query", PLACES], "lines": [PLACE]},
    {"words": ["--query", NAMED, "--param", 'name="Ada"'], "lines": ["1"]},
    {"words": ["--query", NAMED, "--param", 'name="7"'], "lines": ["3"]},
    {"words": ["--query", NONE]},
    {"words": ["--query", SCANS, "--param", '1={"hex":"ff"}'], "lines": ['[{"hex":"ff"},"x"]']},
    {
        "words": ["--query", "SELECT p FORM Person p"],
        "told": "jpa: IllegalArgument(syntax)",
        "status": 3,
    },
    {
        "words": ["--query", NAMED, "--param", "name=7"],
        "told": "jpa: IllegalArgument(typing)",
        "status": 3,
    },
    {
        "words": ["--query", NAMED],
        "told": "jpa: IllegalArgument(parameter)",
        "status": 3,
    },
    {
        "words": ["--query", "SELECT p.id * 9223372036854775807 FROM Person p"],
        "told": "jpa: Overflow",
        "lines": ["9223372036854775807"],
        "status": 3,
    },
]


class Ways(unittest.TestCase):
    """What is printed is the same by the program's own words and by its calls."""

    stub = HERE / "cli" / "query_stub.py"

    def setUp(self) -> None:
        place = tempfile.TemporaryDirectory()
        self.addCleanup(place.cleanup)
        self.place = Path(place.name)
        self.mapping, self.db = self.place / "mapping.json", self.place / "app.db"
        self.mapping.write_text(json.dumps(PERSONS), encoding="utf-8")

    def fill(self, program: object) -> None:
        with karzhoul.open(self.mapping, self.db, program=str(program)) as app, app.begin() as em:
            em.persist_all([app.new("Person", name=name) for name in ("Ada", None, "7")])
            em.persist(app.new("Order", number=7, amount=-3))
            em.persist(app.new("Place", at=(1, "a", b"\x0a"), label="x", scan=b"\xff"))

    def ran(self, program: object, *words: str) -> Tuple[int, str, str]:
        out, err = io.StringIO(), io.StringIO()
        command = ["query", "--program", str(program), str(self.mapping), str(self.db), *words]
        with contextlib.redirect_stdout(out), contextlib.redirect_stderr(err):
            status = main(command)
        return status, out.getvalue(), err.getvalue()

    def played(self, cases: List[Dict[str, Any]], *words: str) -> Tuple[int, str, str]:
        """The same over the stub, with a file that is there."""
        self.db.touch()
        path = self.place / "queries.json"
        path.write_text(json.dumps(cases), encoding="utf-8")
        with mock.patch.dict(os.environ, KARZHOUL_QUERIES=str(path)):
            return self.ran(self.stub, *words)

    def prints(self, words: List[str], *lines: str) -> None:
        wanted = (0, "".join(f"{line}\n" for line in lines), "")
        self.assertEqual(self.played(CASES, *words), wanted)
        if PROGRAM:
            if not self.db.stat().st_size:
                self.fill(PROGRAM)
            self.assertEqual(self.ran(PROGRAM, *words), wanted)

    def fails(self, words: List[str], status: int, *lines: str) -> None:
        wanted = (status, "".join(f"{line}\n" for line in lines))
        found = self.played(CASES, *words)
        self.assertEqual((found[0], found[2]), wanted)
        if PROGRAM:
            if not self.db.stat().st_size:
                self.fill(PROGRAM)
            found = self.ran(PROGRAM, *words)
            self.assertEqual((found[0], found[2]), wanted)

    def test_a_table(self) -> None:
        self.prints(
            [ALL],
            "p        | called | amount",
            "---------+--------+-------",
            "Person 1 | Ada    |     -3",
            "Person 2 | null   |     -3",
            "2 rows",
        )
        self.prints([PLACES], "e", "-----------------", "Place 1, a, x'0a'", "1 row")
        self.prints([NONE], "no rows")

    def test_json(self) -> None:
        self.prints([ALL, "--json"], ADA, '[{"entity":"Person","key":[2]},null,-3]')
        self.prints([PLACES, "--json"], PLACE)
        self.prints([NONE, "--json"])

    def test_csv(self) -> None:
        self.prints([ALL, "--csv"], "p,called,amount", "Person 1,Ada,-3", "Person 2,,-3")
        self.prints([NONE, "--csv"], "name,id")

    def test_parameters(self) -> None:
        self.prints([NAMED, "--param", "name=Ada", "--json"], "1")
        self.prints([NAMED, "--param", 'name="7"', "--json"], "3")
        self.prints([NAMED, "--param", ':name="Ada"', "--json"], "1")
        self.prints([SCANS, "--param", '?1={"hex":"ff"}', "--csv"], "scan,label", "ff,x")
        status, _, err = self.played(CASES, NAMED, "--param", "name")
        self.assertEqual((status, err), (2, "karzhoul: 'name' is no parameter: write NAME=VALUE\n"))

    def test_what_is_refused(self) -> None:
        self.fails(
            ["SELECT p FORM Person p"], 3, "karzhoul: IllegalArgument(syntax)",
            "  1:10: FORM: did you mean FROM? [IllegalArgument(syntax)]",
        )
        self.fails(
            [NAMED, "--param", "name=7"], 3, "karzhoul: IllegalArgument(typing)",
            "  1:42: :name: p.name is a text, and :name is a whole number "
            "[IllegalArgument(typing)]",
        )
        self.fails(
            [NAMED], 3, "karzhoul: IllegalArgument(parameter)",
            "  1:42: :name: the parameter 'name' isn't given [IllegalArgument(parameter)]",
        )
        self.fails(
            ["SELECT p.id * 9223372036854775807 FROM Person p", "--json"], 3, "karzhoul: Overflow",
            "  A whole number in a query lies outside 64 bits.",
        )

    def test_a_plan(self) -> None:
        cases = [{"words": ["--query", PLACES, "--explain"], "lines": ["walks over Place"]}]
        found = self.played(cases, PLACES, "--explain")
        self.assertEqual(found, (0, "walks over Place\n", ""))

    @unittest.skipUnless(PROGRAM, "no program is built here")
    def test_a_plan_of_a_manager(self) -> None:
        self.fill(PROGRAM)
        text = "SELECT p FROM Person p WHERE p.name = 'Ada'"
        found = self.ran(PROGRAM, text, "--explain", "--manager", "--index", "Person.name")
        self.assertEqual(found, (0, "looks up Person by the index of name\n", ""))
        found = self.ran(PROGRAM, text, "--explain", "--manager")
        self.assertEqual(found, (0, "looks at all of Person\n", ""))
        status, _, told = self.ran(PROGRAM, text, "--explain", "--manager", "--index", "Person.nome")
        self.assertEqual((status, "nome" in told or "name" in told), (3, True), told)
        status, _, told = self.ran(PROGRAM, text, "--manager")
        self.assertIn("--manager stands beside --explain", told)

    def test_the_wider_language(self) -> None:
        text, words = "SELECT UPPER(p.name), p.id FROM Person p", ["--language", "wide"]
        cases = [{"words": ["--query", text, *words], "lines": ['["ADA",1]', "[null,2]"]}]
        found = self.played(cases, text, *words, "--json")
        self.assertEqual(found, (0, '["ADA",1]\n[null,2]\n', ""))
        head = "UPPER(p.name) | id\n--------------+---\n"
        table = f"{head}ADA           |  1\nnull          |  2\n2 rows\n"
        self.assertEqual(self.played(cases, text, *words), (0, table, ""))
        plan = {"words": ["--query", text, *words, "--explain"], "lines": ["reads all rows"]}
        self.assertEqual(self.played([plan], text, "--explain", *words), (0, "reads all rows\n", ""))
        bare = [{"words": ["--query", text], "told": "jpa: IllegalArgument(syntax)", "status": 3}]
        profile: Tuple[List[str], ...] = ([], ["--language", "profile"])
        for said in profile:
            status, _, err = self.played(bare, text, *said)
            self.assertEqual((status, err.splitlines()[0]), (3, "karzhoul: IllegalArgument(syntax)"))

    def test_a_refusal_in_the_wider_language(self) -> None:
        text, words = "SELECT UPPER(p.id) FROM Person p", ["--language", "wide"]
        refusal = {"told": "jpa: IllegalArgument(typing)", "status": 3}
        found = self.played([{"words": ["--query", text, *words], **refusal}], text, *words)
        word = "IllegalArgument(typing)"
        why = f"  1:14: p.id: UPPER takes a text, and p.id is a whole number [{word}]"
        self.assertEqual(found, (3, "", f"karzhoul: {word}\n{why}\n"))

    def test_an_older_program_has_no_wider_language(self) -> None:
        told = f"karzhoul: {self.stub} is an older program, which has the language of the profile alone\n"
        ways: Tuple[List[str], ...] = ([], ["--explain"], ["--json"])
        for more in ways:
            with mock.patch.dict(os.environ, KARZHOUL_OLDER="1"):
                found = self.played(CASES, PLACES, "--language", "wide", *more)
            self.assertEqual((found[0] != 0, found[1:]), (True, ("", told)))

    @needs_program
    def test_the_wider_language_of_the_program(self) -> None:
        self.fill(PROGRAM)
        help_ = subprocess.run([str(PROGRAM), "--help"], capture_output=True, text=True).stdout
        text = "SELECT UPPER(p.name) FROM Person p ORDER BY p.id"
        found = self.ran(PROGRAM, text, "--language", "wide", "--json")
        wanted = (0, '"ADA"\nnull\n"7"\n') if "--language" in help_ else (4, "")
        self.assertEqual(found[:2], wanted)

    def test_what_goes_wrong(self) -> None:
        for told, status, wanted in (
            ("jpa: StoreFault", 3, "karzhoul: StoreFault: {db} can't be opened: it is empty"),
            ("jpa: Mapping(model)", 2, "karzhoul: Mapping(model)"),
            ("jpa: Damaged(1:07)", 3, "karzhoul: Damaged(1:07)"),
            ("error: no", 2, "karzhoul: the program ended with status 2: error: no"),
        ):
            cases = [{"words": ["--query", PLACES], "told": told, "status": status}]
            found = self.played(cases, PLACES)
            self.assertNotEqual(found[0], 0)
            self.assertTrue(found[2].startswith(wanted.format(db=self.db)), found[2])

    def test_how_its_words_are_taken(self) -> None:
        mapping, db = str(self.mapping), str(self.db)
        self.db.touch()
        path = self.place / "queries.json"
        path.write_text(json.dumps(CASES), encoding="utf-8")
        head = ["query", "--program", str(self.stub)]
        for words, wanted in (
            ([mapping, db, ALL], 0), (["--mapping", mapping, db, ALL], 0),
            ([db, ALL, "--mapping", mapping], 0), ([db], 2), ([mapping, db, ALL, "more"], 2),
            (["--mapping", mapping, mapping, db, ALL], 2), ([db, ALL], 4), ([mapping, db], 2),
            ([db, "--mapping", mapping, ALL], 0), ([mapping, db, "--json", ALL], 0),
            ([mapping, db, "--json", ALL, "more"], 2),
        ):
            out, err = io.StringIO(), io.StringIO()
            with mock.patch.dict(os.environ, KARZHOUL_QUERIES=str(path)):
                with contextlib.redirect_stdout(out), contextlib.redirect_stderr(err):
                    self.assertEqual(main([*head, *words]), wanted, words)

    def test_files(self) -> None:
        found = self.ran(self.stub, PLACES)
        self.assertEqual(found, (4, "", f"karzhoul: there is no file {self.db}\n"))
        self.mapping.write_text("{}", encoding="utf-8")
        status, _, err = self.ran(self.stub, PLACES)
        self.assertEqual(status, 1)
        self.assertIn("mapping.json:1:1: ", err)

    @needs_program
    def test_a_mapping_from_a_pipe_and_a_reader_that_has_enough(self) -> None:
        self.fill(PROGRAM)
        command = (
            f"cat {self.mapping} | {sys.executable} -m karzhoul query --program {PROGRAM} "
            f"/dev/stdin {self.db} '{PLACES}' --json | head -1"
        )
        env = {**os.environ, "PYTHONPATH": str(HERE.parent), "PYTHONDONTWRITEBYTECODE": "1"}
        ran = subprocess.run(["bash", "-c", command], capture_output=True, text=True, env=env)
        self.assertEqual((ran.stdout, ran.stderr), (f"{PLACE}\n", ""))


if __name__ == "__main__":
    unittest.main()
