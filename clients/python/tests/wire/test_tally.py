"""What is told of lines, replies and times, and what is counted."""

from __future__ import annotations

import contextlib
import io
import logging
import re
import unittest
from typing import List

import karzhoul
from karzhoul.wire.tally import Tally

from ..support import PERSONS, PROGRAM, ProgramTest, needs_program


@needs_program
class Echoed(ProgramTest):
    def echoed(self) -> List[str]:
        """What is told of a person that is stored and found again, without the times."""
        err = io.StringIO()
        with contextlib.redirect_stderr(err):
            with self.app.begin() as em:
                em.persist_all([self.Person(name="Ada"), self.Person()])
            self.em.find("Person", 1)
        return [re.sub(r"[0-9.]+ m?s\)$", "T)", line) for line in err.getvalue().splitlines()]

    def test_nothing_is_told_unless_it_is_wanted(self) -> None:
        self.assertEqual(self.echoed(), [])

    def test_each_line_its_reply_and_its_time(self) -> None:
        self.app.echo = True
        told = self.echoed()
        self.assertTrue(self.app.echo)
        for line in (
            'karzhoul: {"call":"set","object":1,"name":"name","value":"Ada"} -> '
            '{"events":[],"ok":null} (T)',
            'karzhoul: {"call":"persist","em":2,"object":2} -> '
            '{"events":[["PrePersist",2]],"ok":null} (2 of 2 together in T)',
            # Without the mark by which this client learns the class.
            'karzhoul: {"call":"find","em":1,"entity":"Person","key":[1]} -> '
            '{"events":[["PostLoad",3]],"ok":{"object":3}} (T)',
        ):
            self.assertIn(line, told)
        self.app.echo = False
        self.assertEqual(self.echoed(), [])

    def test_from_the_opening_on(self) -> None:
        err = io.StringIO()
        with contextlib.redirect_stderr(err):
            with karzhoul.open(PERSONS, program=PROGRAM, echo=True) as app:
                app.create_entity_manager()
        told = 'karzhoul: {"call":"createEntityManager"} -> {"events":[],"ok":1} ('
        self.assertTrue(err.getvalue().startswith(told), err.getvalue())

    def test_the_logger(self) -> None:
        with self.assertLogs("karzhoul", logging.DEBUG) as logs:
            self.em.find("Person", 7)
        self.assertRegex(
            logs.output[0],
            r'^DEBUG:karzhoul:{"call":"find","em":1,"entity":"Person","key":\[7\]} -> '
            r'{"events":\[\],"ok":null} \([0-9.]+ ms\)$',
        )

    def test_long_lines_are_cut(self) -> None:
        with self.assertLogs("karzhoul", logging.DEBUG) as logs:
            self.Person(name="a" * 10_000)
        self.assertLess(len(logs.output[1]), 2_300)
        self.assertIn("aa.. (10,050 characters) -> ", logs.output[1])

    def test_a_program_that_ends(self) -> None:
        self.app.program.kill()
        with self.assertLogs("karzhoul", logging.DEBUG) as logs:
            with self.assertRaises(karzhoul.ProgramEnded):
                self.em.find("Person", 7)
        self.assertIn("-> no reply: the program is closed", logs.output[0])


@needs_program
class Counted(ProgramTest):
    def test_statistics(self) -> None:
        with self.app.begin() as em:
            em.persist_all([self.Person(name=name) for name in "abc"])
        with self.app.begin() as em:
            em.get_reference("Person", 1).name = "d"
            em.remove(em.get_reference("Person", 2))
        for _ in range(2):
            with self.assertRaises(karzhoul.Rollback), self.app.begin() as em:
                em.persist(self.Place(at=(1, "a", b"")))
        with self.assertRaises(karzhoul.BadLine):
            self.app.send_line("no call")
        told = self.app.statistics()
        wanted = {"new": 5, "persist": 5, "commit": 4, "getReference": 2, "remove": 1, "other": 1}
        self.assertEqual({name: told.calls[name] for name in wanted}, wanted)
        self.assertEqual(told.objects, {"loaded": 2, "inserted": 3, "changed": 1, "removed": 1})
        self.assertEqual(dict(told.refusals), {"Rollback(Persistence(null))": 2, "BadLine": 1})
        self.assertEqual((told.made, told.left), (7, 999_993))
        assert told.slowest is not None
        self.assertGreater(told.seconds, told.slowest[0])
        self.assertRegex(told.slowest[1], '"call"|^no call$')
        lines = str(told).splitlines()
        self.assertRegex(lines[0], r"^\d+ calls in \d+\.\d\d s: \w+ \d+, ")
        self.assertEqual(
            lines[1],
            "objects: 7 made in this run, 999,993 left; loaded 2, inserted 3, changed 1, removed 1",
        )
        self.assertEqual(lines[2], "refused: Rollback(Persistence(null)) 2, BadLine 1")
        self.assertRegex(lines[3], "^slowest: ")

    def test_values_are_no_events(self) -> None:
        self.committed(name='["PostLoad",1]')
        self.em.query("SELECT p.name FROM Person p")
        self.assertEqual(self.app.statistics().objects["loaded"], 0)

    def test_nothing_was_asked(self) -> None:
        told = Tally(False).statistics(0)
        self.assertEqual(str(told).splitlines()[0], "0 calls in 0.00 s: none")
        self.assertIsNone(told.slowest)

    def test_many_lines_are_counted_as_each(self) -> None:
        lines = [b'{"call":"set"}', b'{"call":"x"}', b"", b'{"call":"set"}', b'{"call":"persist"}']
        each, together = Tally(False), Tally(False)
        for line in lines * 100:
            each.note([line], [b""], 0.0)
        together.note(lines * 100, [b""] * 500, 0.0)
        wanted = {"set": 200, "x": 100, "other": 100, "persist": 100}
        self.assertEqual(each.statistics(0).calls, wanted)
        self.assertEqual(together.statistics(0).calls, wanted)


if __name__ == "__main__":
    unittest.main()
