"""The prompt: statements as they are typed, tables, objects with their members, and its status."""

from __future__ import annotations

import contextlib
import io
import json
import os
import subprocess
import sys
import unittest
from typing import Any, ContextManager, List, Tuple
from unittest import mock

import karzhoul
from karzhoul.showing.asked import statement_of, titles_of
from karzhoul.cli.command import main
from karzhoul.cli.shell import Shell

from ..carried import CARRIED
from ..support import HERE, PROGRAM, needs_program


@needs_program
class Statements(unittest.TestCase):
    """A prompt over orders and persons."""

    def setUp(self) -> None:
        mapping = json.loads(CARRIED.read_text(encoding="utf-8"))
        mapping["entities"][0].pop("listeners")
        self.app = karzhoul.open(mapping, program=PROGRAM)
        self.addCleanup(self.app.close)
        with self.app.create_entity_manager() as em, em.transaction():
            ada = self.app.new("Person", name="Ada")
            eve = self.app.new("Clerk", name="Eve", room=7)
            for each in (ada, eve):
                em.persist(each)
            for weight in (5, None):
                em.persist(self.app.new("Order", customer=ada, weight=weight))
        self.told: List[str] = []
        self.shell = Shell(self.app, self.told.append)

    def says(self, *lines: str) -> List[str]:
        self.told.clear()
        for line in lines:
            self.shell.do(line)
        return "\n".join(self.told).splitlines()

    def test_rows_are_a_table(self) -> None:
        text = "SELECT o.id, o.customer.name AS who, COUNT(o) n FROM Order o"
        wanted = ["id | who | n", "---+-----+--", " 1 | Ada | 1", " 2 | Ada | 1", "2 rows"]
        self.assertEqual(self.says(f"{text} GROUP BY o.id, o.customer.name;"), wanted)
        text = "select o.id from Order o where o.weight = :w :w=5"
        self.assertEqual(self.says(text)[2:], [" 1", "1 row"])
        self.assertEqual(self.says("SELECT o.id FROM Order o max=1 first=1")[2:], [" 2", "1 row"])
        self.assertEqual(self.says("SELECT o.id FROM Order o WHERE o.id = 9"), ["no rows"])

    def test_objects_are_a_table_of_their_values(self) -> None:
        self.assertEqual(self.says("SELECT p FROM Person p"), [
            "          | id | version | name | room",
            "----------+----+---------+------+-----",
            "#5 Person |  1 |       0 | Ada  |",
            "#6 Clerk  |  2 |       0 | Eve  | 7",
            "2 rows",
        ])
        self.assertEqual(self.says("SELECT o, o.customer FROM Order o WHERE o.id = 1")[2:], [
            "#7 Order 1 | #5 Person 1",
            "1 row",
        ])

    def test_another_manager_is_one_that_is_open(self) -> None:
        told = self.says("manager 99", "begin", "createEntityManager", "manager 2", "commit")
        wanted = ["refused: NoSuchManager", "  No open manager has this number."]
        self.assertEqual(told, [*wanted, "done", "3", "done"])

    def test_an_object_is_shown_with_all_its_members(self) -> None:
        shown = ["#5 Person 1", "  id       1", "  version  0", "  name     Ada"]
        shown += ["  orders   [#6 Order 1, #7 Order 2]", "  last     null"]
        self.assertEqual(self.says("show Person 1"), shown)
        self.assertEqual(self.says("show #6")[0], "#6 Order 1")
        self.assertIn("  customer  #5 Person 1", self.says("show #6"))
        self.assertEqual(self.says("show Person 9"), ["there is no Person 9"])
        self.assertEqual(self.says("show #99"), ["#99 is no object that was told here"])
        self.assertIn("refused: IllegalArgument(entity)", self.says("show Nobody 1"))
        with mock.patch("karzhoul.showing.asked._MOST_MEMBERS", 1):
            self.assertIn("  orders   [#6 Order 1, and 1 more]", self.says("show Person 1"))

    def test_a_change_is_committed_unless_a_transaction_is_open(self) -> None:
        update = "UPDATE Order o SET o.weight = 9 WHERE o.id = :id"
        self.assertEqual(self.says(f"{update} :id=1"), ["1 object, committed"])
        told = self.says("begin", "delete from Order o", "rollback")
        self.assertEqual(told, ["done", "2 objects", "done"])
        told = self.says("SELECT o.weight FROM Order o")[2:]
        self.assertEqual(told, ["     9", "  null", "2 rows"])
        self.says("find Order 1")
        line = self.says(f"{update} :id=2")[0]
        self.assertIn("1 object, committed; objects that were loaded stay", line)

    def test_a_statement_with_a_mistake(self) -> None:
        told = self.says("SELECT o.wieght FROM Order o")
        self.assertEqual(told[0], "refused: IllegalArgument(typing)")
        self.assertTrue(told[1].startswith("  1:"), told)
        self.assertIn("wieght", told[1])
        self.assertIn("'weight'", told[1])
        self.assertIn("Order", self.says("SELECT o FROM Ordr o")[1])
        self.assertIn(":w", self.says("SELECT o FROM Order o WHERE o.weight = :w")[1])

    def test_what_was_typed(self) -> None:
        self.says("entities", "  begin", "", "frob", "rollback")
        wanted = ["   1  entities", "   2  begin", "   3  frob", "   4  rollback"]
        self.assertEqual(self.says("history"), wanted)
        self.assertEqual(self.says("history 2"), ["   4  rollback", "   5  history"])
        self.assertEqual(self.says("history x"), ["'x' is no number of lines"])

    def test_completion(self) -> None:
        complete = self.shell.completions
        self.assertEqual(complete("", "SEL"), ["SELECT "])
        self.assertEqual(complete("SELECT p ", "FR"), ["FROM "])
        self.assertEqual(complete("select p from ", "Per"), ["Person "])
        self.assertEqual(complete("SELECT c FROM Clerk c WHERE ", "c.r"), ["c.room "])
        self.assertEqual(complete("show ", "Sp"), ["Spot "])

    def test_lines_that_go_on(self) -> None:
        with mock.patch("sys.stdin", io.StringIO("SELECT o.id \\\nFROM Order o\\\n")):
            self.shell.run()
        self.assertEqual(self.told[-1].splitlines()[-1], "2 rows")


class Read(unittest.TestCase):
    def test_what_stands_behind_a_statement(self) -> None:
        told = {
            'SELECT p FROM P p WHERE p.n = :n :n="a b" max=3;':
                ("SELECT p FROM P p WHERE p.n = :n", [':n="a b"', "max=3"]),
            "select p from P p where :n=5": ("select p from P p where :n=5", []),
            "SELECT p FROM P p WHERE p.n='x :n=1'": ("SELECT p FROM P p WHERE p.n='x :n=1'", []),
        }
        for line, wanted in told.items():
            self.assertEqual(statement_of(line), wanted)
        self.assertIsNone(statement_of("selected P"))

    def test_titles(self) -> None:
        told = {
            "SELECT DISTINCT p.a,  p.b  b FROM P p": ["a", "b"],
            "SELECT CONCAT(p.a, ', FROM ', p.b) AS c, SUM(DISTINCT p.a) FROM P p":
                ["c", "SUM(DISTINCT p.a)"],
            "SELECT p.id, q.id FROM P p, P q": ["p.id", "q.id"],
            "SELECT this isn't one": ["1", "2"],
        }
        for text, wanted in told.items():
            self.assertEqual(titles_of(text, 2), wanted)


@needs_program
class Status(unittest.TestCase):
    def session(self, typed: str, *words: str) -> Tuple[int, str]:
        """The status of a session in a pipe, and what it prints."""
        return self.status(mock.patch("sys.stdin", io.StringIO(typed)), *words)

    def status(self, typed: ContextManager[Any], *words: str) -> Tuple[int, str]:
        own = ["shell", "--program", str(PROGRAM), "--mapping", str(CARRIED), *words]
        out = io.StringIO()
        with typed, contextlib.redirect_stdout(out):
            return main(own), out.getvalue()

    def test_of_a_session_without_refusals(self) -> None:
        self.assertEqual(self.session("begin\nrollback\nquit\nfrob\n"), (0, "done\ndone\n"))

    def test_of_a_session_with_refusals(self) -> None:
        status, out = self.session("find Nobody 1\nbegin\n")
        self.assertEqual((status, out.splitlines()[-1]), (3, "done"))
        self.assertEqual(self.session("frob\n")[0], 3)

    def test_of_a_session_that_stops_at_the_first(self) -> None:
        status, out = self.session("frob\nbegin\n", "--stop")
        self.assertEqual((status, out), (3, "'frob' is no call: 'help' lists them\n"))

    def test_its_lines_are_told(self) -> None:
        err = io.StringIO()
        with contextlib.redirect_stderr(err):
            self.assertEqual(self.session("begin\n", "--echo"), (0, "done\n"))
        told = 'karzhoul: {"call":"begin","em":1} -> {"events":[],"ok":null} ('
        self.assertIn(told, err.getvalue())

    def test_of_a_terminal(self) -> None:
        with mock.patch.object(Shell, "_with_history"), mock.patch("sys.stdin") as stdin:
            stdin.isatty.return_value = True
            typed = mock.patch("builtins.input", side_effect=["frob", "quit"])
            self.assertEqual(self.status(typed)[0], 0)


class Version(unittest.TestCase):
    def test_of_the_client_and_of_the_program(self) -> None:
        env = {**os.environ, "KARZHOUL_PROGRAM": str(PROGRAM or "/nowhere/jpa")}
        words = [sys.executable, "-m", "karzhoul", "--version"]
        told = subprocess.run(words, cwd=HERE.parent, env=env, stdout=subprocess.PIPE, timeout=60)
        self.assertEqual(told.returncode, 0)
        first, second = told.stdout.decode().splitlines()
        self.assertEqual(first, f"karzhoul {karzhoul.__version__}")
        self.assertRegex(second, r"^(jpa \d+\.\d+\.\d+, which is /.*|no program: .*)$")


if __name__ == "__main__":
    unittest.main()
