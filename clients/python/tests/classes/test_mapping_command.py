"""`karzhoul mapping`: the mapping of a module's classes, and its lock."""

from __future__ import annotations

import contextlib
import importlib
import io
import json
import os
import sys
from typing import List, Tuple
from unittest import mock

from karzhoul.cli.command import main
from karzhoul.mapping.given import given_of
from karzhoul.mapping.linter import lint

from ..classed import HEAD, ClassesTest
from ..support import PROGRAM, needs_program

LOANS = """
class Member(Entity):
    id: int = generated()
    version: int = version()
    name: str
    loans: list["Loan"] = one_to_many("member", cascade="all", orphan_removal=True)

class Loan(Entity):
    number: int = key()
    member: Member = many_to_one()
    due: date | None = None
"""
# As docs/MAPPINGS.md says what a class gives.
MEMBER = {
    "name": "Member", "table": 1, "key": [{"name": "id", "type": "int"}], "generated": True,
    "version": {"name": "version", "column": 1},
    "attributes": [{"name": "name", "type": "text", "column": 2, "required": True}],
    "relations": [{"name": "loans", "kind": "oneToMany", "target": "Loan", "mappedBy": "member",
                   "cascade": ["ALL"], "orphanRemoval": True}],
}
LOAN = {
    "name": "Loan", "table": 2, "key": [{"name": "number", "type": "int"}],
    "attributes": [{"name": "due", "type": "text", "column": 2}],
    "relations": [{"name": "member", "kind": "manyToOne", "target": "Member", "column": 1,
                   "required": True}],
}


class Command(ClassesTest):
    def said(self, *words: str) -> Tuple[int, str, str]:
        return self.ran("mapping", *words)

    def ran(self, *words: str) -> Tuple[int, str, str]:
        """A command's status and what it prints."""
        out, err = io.StringIO(), io.StringIO()
        with contextlib.redirect_stdout(out), contextlib.redirect_stderr(err):
            status = main(list(words))
        return status, out.getvalue(), err.getvalue()

    def written(self, name: str, text: str) -> str:
        self.addCleanup(lambda: sys.modules.pop(name, None))
        file = self.folder / f"{name}.py"
        file.write_text(HEAD + text)
        return str(file)

    def setUp(self) -> None:
        super().setUp()
        patched = mock.patch.object(sys, "path", [*sys.path])
        patched.start()
        self.addCleanup(patched.stop)

    def test_it_prints_the_mapping_and_writes_the_lock_beside_the_module(self) -> None:
        file = self.written("command_loans", LOANS)
        status, out, err = self.said(file)
        self.assertEqual((status, err), (0, ""))
        self.assertEqual(json.loads(out)["entities"][:2], [MEMBER, LOAN])
        self.assertEqual(list(lint(out.encode()).findings), [])
        self.assertTrue(self.lock.exists())
        self.assertEqual(self.said(file)[1], out)

    def test_it_writes_a_file_and_takes_a_lock(self) -> None:
        file = self.written("command_files", LOANS)
        mapping, lock = self.folder / "mapping.json", self.folder / "own.json"
        self.assertEqual(self.said(file, "-o", str(mapping), "--lock", str(lock)), (0, "", ""))
        self.assertEqual(json.loads(mapping.read_text())["entities"][1], LOAN)
        self.assertEqual([lock.exists(), self.lock.exists()], [True, False])

    def test_wrong_classes_and_no_module(self) -> None:
        file = self.written("command_wrong", "class A(Entity):\n    id: float = key()\n")
        status, out, err = self.said(file)
        self.assertEqual((status, out), (1, ""))
        self.assertIn("command_wrong.py:9: A.id is a float", err)
        self.assertFalse(self.lock.exists())
        self.assertEqual(self.said("no_such_module")[0], 2)
        self.assertEqual(self.said(self.written("command_none", ""))[0], 1)
        self.assertIn(os.sep, file)

    def stored(self, name: str) -> str:
        """The file of a module, over a store that has Ada and her loan."""
        file = self.written(name, LOANS)
        given_of(file)
        module = importlib.import_module(name)
        with self.open(module) as app, app.begin() as manager:
            ada = module.Member(name="Ada")
            ada.loans.append(module.Loan(number=1, member=ada, due=module.date(2026, 1, 5)))
            manager.persist(ada)
        return file

    @needs_program
    def test_other_commands_take_a_module_in_the_place_of_a_mapping(self) -> None:
        file, db, program = self.stored("command_taken"), str(self.db), ["--program", str(PROGRAM)]
        over = [db, "--mapping", file, *program]
        status, out, err = self.ran("show", *over)
        self.assertEqual((status, err), (0, ""))
        self.assertIn("Loan: 1 object (all that are stored)\nnumber | due ", out)
        self.assertNotIn("KarzhoulForm", out)
        asked = "SELECT UPPER(l.member.name), l.due FROM Loan l"
        self.assertEqual(self.ran("query", file, db, asked, "--json", *program),
                         (0, '["ADA","2026-01-05"]\n', ""))
        status, out, err = self.ran("dump", *over)
        self.assertEqual((status, err), (0, ""))
        self.assertIn('{"entity":"Member","key":[1],"version":0,"values":{"name":"Ada"}}', out)
        with mock.patch("sys.stdin", io.StringIO("SELECT UPPER(m.name) FROM Member m\n")):
            status, out, err = self.ran("shell", *over)
        self.assertEqual((status, err), (0, ""))
        self.assertIn("ADA", out)

    @needs_program
    def test_wrong_classes_in_the_place_of_a_mapping(self) -> None:
        self.stored("command_right")
        file = self.written("command_bad", "class A(Entity):\n    id: float = key()\n")
        for command in ("show", "dump", "shell"):
            status, out, err = self.ran(command, str(self.db), "--mapping", file)
            self.assertEqual((status, out), (1, ""))
            self.assertIn("command_bad.py:9: A.id is a float", err)
        status, _, err = self.ran("show", str(self.db), "--mapping", "no.such.module")
        self.assertEqual(status, 4)
        self.assertIn("there is no mapping no.such.module: as a module", err)

    @needs_program
    def test_the_language_of_a_prompt(self) -> None:
        file = self.stored("command_spoken")
        mapping = self.folder / "mapping.json"
        self.said(file, "-o", str(mapping))
        over = [str(self.db), "--mapping", str(mapping), "--program", str(PROGRAM)]
        cases: List[Tuple[List[str], int, str]] = [
            ([], 3, "refused: IllegalArgument(syntax)"), (["--language", "wide"], 0, "ADA"),
        ]
        for words, status, told in cases:
            with mock.patch("sys.stdin", io.StringIO("SELECT UPPER(m.name) FROM Member m\n")):
                ran = self.ran("shell", *over, *words)
            self.assertEqual(ran[0], status, ran)
            self.assertIn(told, ran[1])
