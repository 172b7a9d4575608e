"""A server: what connections know of each other, whose turn it is, and what ends."""

from __future__ import annotations

import json
import os
import random
import signal
import sys
import threading
import time
import unittest
from pathlib import Path
from typing import Any, Callable, List
from unittest import mock

from karzhoul.server import gate
from karzhoul.server.settings import Settings
from karzhoul.server.translation import LONG, Translation

from ..served import SECONDS, Here, Talk
from ..support import ORDERS, PERSONS, TOP, FolderTest, needs_program

sys.path.append(str(TOP / "tests"))
import runs  # noqa: E402
from fuzz.rounds import round_of  # noqa: E402
from model.reading import LINE, Refused, call_of  # noqa: E402

NULL: Any = {"events": [], "ok": None}
CREATE, RESTART = '{"call":"createEntityManager"}', '{"call":"restart"}'
NEW = '{"call":"new","entity":"Person"}'


def of_manager(call: str, number: int = 1) -> str:
    """The line of a manager's call."""
    return f'{{"call":"{call}","em":{number}}}'


def refused(name: str, number: int, why: str = "") -> Any:
    """A refusal without events."""
    error = {"name": name, "no": number, **({"why": why} if why else {})}
    return {"error": error, "events": []}


NO_MANAGER, NO_OBJECT = refused("NoSuchManager", 4), refused("NoSuchObject", 5)


@needs_program
class ServerTest(FolderTest):
    """A test over a server within this process."""

    settings = Settings()
    mapping: Any = PERSONS

    def setUp(self) -> None:
        super().setUp()
        self.server = Here(self.mapping, self.place / "app.db", self.settings)
        self.addCleanup(self.server.close)

    def talk(self, is_trusted: bool = True) -> Talk:
        """A new connection."""
        made = Talk(self.server.connected(is_trusted))
        self.addCleanup(made.close)
        return made

    def wait_until(self, is_so: Callable[[], bool]) -> None:
        """Waits until something is so."""
        until = time.monotonic() + SECONDS
        while not is_so():
            self.assertLess(time.monotonic(), until)
            time.sleep(0.005)

    def told(self) -> Any:
        """The status of the server."""
        return self.talk().ask('{"serve":"status"}')[0]["ok"]


class Runs(unittest.TestCase):
    """Runs of tests/runs, by a connection whose numbers aren't those of the program."""

    @needs_program
    def test_each_reply_is_the_program_s(self) -> None:
        folders = [it for it in sorted((TOP / "tests" / "runs").iterdir()) if it.is_dir()]
        made = 0
        for folder in folders[::10]:
            left_out = ("status", "words", "language", "cells-before.txt", "calls-2.jsonl")
            if any((folder / it).exists() for it in left_out) or runs.unserved(str(folder)):
                continue
            with self.subTest(folder.name):
                self.check(folder)
                made += 1
        self.assertGreater(made, 8)

    def check(self, folder: Path) -> None:
        """Makes one run."""
        own = folder / "mapping.json"
        test = ServerTest()
        test.mapping = own if own.exists() else ORDERS
        test.setUp()
        try:
            mapping = json.loads(Path(test.mapping).read_bytes())
            first = json.dumps(mapping["entities"][0]["name"])
            other, talk = test.talk(), test.talk()
            other.ask(CREATE, *[f'{{"call":"new","entity":{first}}}'] * 3)
            other.close()
            test.wait_until(lambda: len(test.server.service.connections) == 1)
            lines = (folder / "calls.jsonl").read_bytes()
            sending = threading.Thread(target=talk.socket.sendall, args=[lines])
            sending.start()
            for wanted in (folder / "replies.jsonl").read_bytes().splitlines():
                self.assertEqual(talk.reply(), wanted)
            sending.join()
        finally:
            test.doCleanups()


class Numbers(ServerTest):
    def test_no_connection_names_what_another_has(self) -> None:
        first, second = self.talk(), self.talk()
        self.assertEqual(
            first.ask(CREATE, CREATE, NEW, NEW),
            [{"events": [], "ok": it} for it in (1, 2, {"object": 1}, {"object": 2})],
        )
        self.assertEqual(
            second.ask(CREATE, NEW, of_manager("begin", 2), '{"call":"values","objects":[1,2]}'),
            [{"events": [], "ok": 1}, {"events": [], "ok": {"object": 1}}, NO_MANAGER, NO_OBJECT],
        )
        link = '{"call":"set","object":1,"name":"name","value":{"object":2}}'
        persist = '{"call":"persist","em":1,"object":2}'
        find = '{"call":"find","em":1,"entity":"Person","key":[{"object":2}]}'
        query = '{"call":"query","em":1,"text":"SELECT p FROM Person p","params":{"a":{"object":2}}}'
        self.assertEqual(second.ask(link, persist, query), [NO_OBJECT] * 3)
        self.assertEqual(second.ask(find), [refused("IllegalArgument", 6, "key")])
        self.assertEqual(first.ask('{"call":"values","objects":[2]}')[0]["ok"][0]["values"],
                         [None, None, None])

    def test_a_line_that_is_sent_ahead_may_name_what_is_not_told_yet(self) -> None:
        self.talk().ask(CREATE, NEW)
        told = self.talk().ask(
            CREATE, NEW, '{"call":"set","object":1,"name":"name","value":"Ada"}',
            of_manager("begin"), '{"call":"persist","em":1,"object":1}', of_manager("commit"),
            of_manager("clear"), '{"call":"find","em":1,"entity":"Person","key":[1]}',
            '{"call":"get","object":2,"name":"name"}',
        )
        self.assertEqual(told[-1], {"events": [], "ok": "Ada"})
        self.assertEqual(told[-2], {"events": [["PostLoad", 2]], "ok": {"object": 2}})

    def test_a_line_by_other_spellings(self) -> None:
        talk = self.talk()
        self.talk().ask(CREATE, NEW)
        talk.ask(CREATE, NEW)
        told = talk.ask(
            ' { "em" : 1 , "call" : "be\\u0067in" } ',
            '{"call":"persist","em":9,"object":1,"em":1}',
            '{"object":1,"name":"name","call":"set","value":"\\ud83d\\ude00\\n"}',
            '{"call":"get","name":"name","object":1}',
        )
        self.assertEqual([it.get("ok", it) for it in told], [None, None, None, "\U0001f600\n"])

    def test_what_is_no_call_is_a_bad_line(self) -> None:
        talk = self.talk()
        talk.ask(CREATE, NEW)
        lines = [
            "", "x", "[]", "{}", '{"call":"begin"}', '{"call":"begin","em":1,"object":1}',
            '{"call":"begin","em":1.0}', '{"call":"begin","em":-0}', '{"call":"begin","em":true}',
            '{"call":"begin","em":9223372036854775808}', '{"call":"restart","em":1}',
            '{"call":"set","object":1,"name":"name","value":"\\ud800"}',
            '{"call":"set","object":1,"name":"name","value":NaN}',
            '{"call":"set","object":1,"name":"name","value":{"hex":"0"}}',
            '{"call":"set","object":1,"name":"name","value":{"object":1,"hex":""}}',
            '{"call":"values","objects":[1,"1"]}', '{"call":"nothing","em":1}', "[" * 100_000,
        ]
        self.assertEqual(talk.ask(*lines), [refused("BadLine", 3)] * len(lines))
        talk.socket.sendall(b'{"call":"begin","em":1,"a":"\xff"}\n')
        self.assertEqual(json.loads(talk.reply()), refused("BadLine", 3))

    def test_a_line_that_is_too_long(self) -> None:
        talk = self.talk()
        line = f'{{"call":"new","entity":"{"x" * 1_048_576}"}}'
        self.assertEqual(talk.ask(CREATE, line, of_manager("begin"))[1:], [refused("Limit", 19), NULL])

    def test_a_refused_call_gives_up_its_numbers(self) -> None:
        talk = self.talk()
        talk.ask(CREATE, NEW, of_manager("begin"), '{"call":"persist","em":1,"object":1}',
                 of_manager("commit"), of_manager("clear"), NEW)
        self.assertEqual(talk.ask('{"call":"find","em":1,"entity":"Nobody","key":[1]}')[0],
                         refused("IllegalArgument", 6, "entity"))
        find = '{"call":"find","em":1,"entity":"Person","key":[1]}'
        self.assertEqual(talk.ask(find)[0]["ok"], {"object": 3})

    def test_a_connection_begins_again_by_itself(self) -> None:
        other, talk = self.talk(), self.talk()
        other.ask(CREATE, of_manager("begin"), NEW)
        talk.ask(CREATE, NEW, of_manager("begin"))
        self.assertEqual(talk.ask(RESTART), [refused("IllegalState", 7, "active")])
        told = talk.ask(of_manager("rollback"), RESTART, of_manager("begin"), CREATE, NEW)
        self.assertEqual([it.get("ok", it) for it in told], [None, None, NO_MANAGER, 1, {"object": 1}])
        self.assertEqual(other.ask('{"call":"persist","em":1,"object":1}')[0]["ok"], None)


class Hostile(ServerTest):
    """Lines at random, as tests/fuzz makes them, and worse."""

    settings = Settings(wait=0)

    def test_they_are_read_as_the_program_reads_them(self) -> None:
        translation = Translation()
        for kind in (translation.objects, translation.managers):
            patch = mock.patch.object(type(kind), "real", lambda _, number, __: max(number, 0))
            patch.start()
            self.addCleanup(patch.stop)
        read = 0
        for at in range(4):
            for line in next(round_of("server", at, 100)).lines:
                if 10_000 < len(line) <= LINE:  # Which the plain model reads in seconds.
                    continue
                told = translation.call(line or b" ", True).line if len(line) <= LINE else LONG.line
                self.assertEqual(self.word_of(told), self.word_of(line), line[:1000])
                read += 1
        self.assertGreater(read, 300)

    def word_of(self, line: bytes) -> str:
        """The name of the call that a line means, or its refusal."""
        try:
            return call_of(line)[0]
        except Refused as refused:
            return refused.name

    def test_no_line_of_another_reaches_what_one_has(self) -> None:
        mine, talk = self.talk(), self.talk()
        mine.ask(CREATE, NEW, '{"call":"set","object":1,"name":"name","value":"mine"}',
                 of_manager("begin"), '{"call":"persist","em":1,"object":1}')
        chance = random.Random(7)
        known = [
            CREATE, NEW, *map(of_manager, ("begin", "rollback", "clear", "close", "pending")),
            '{"call":"set","object":3,"name":"name","value":"theirs"}', RESTART,
            '{"call":"persist","em":1,"object":2}', '{"call":"values","objects":[1,2,3]}',
            '{"call":"find","em":2,"entity":"Person","key":[1]}', '{"serve":"begin"}',
            '{"serve":"turn","for":"x"}', '{"serve":"status"}', '{"serve":"hello","wait":0}',
        ]
        for _ in range(3000):
            line = bytearray(chance.choice(known).encode())
            for _ in range(chance.choice((0, 0, 1, 2, 8))):
                line[chance.randrange(len(line))] = chance.choice(b'0123456789"{}[],:x\\\xff\x00 ')
            talk.socket.sendall(line + b"\n")
            said = json.loads(talk.reply())
            self.assertNotEqual(said.get("error", {}).get("name"), "Closed", line)
            if "ok" in said and b'"values"' in line and said["ok"]:
                self.assertNotIn("mine", json.dumps(said))
        self.assertEqual(mine.ask('{"call":"get","object":1,"name":"name"}')[0]["ok"], "mine")
        self.assertEqual(mine.ask(of_manager("commit"))[0]["ok"], None)


class Managers(ServerTest):
    settings = Settings(wait=0.3)

    def test_who_ends_leaves_its_managers_to_others(self) -> None:
        first, second = self.talk(), self.talk()
        first.ask(*[CREATE] * 16, of_manager("begin"), NEW, '{"call":"persist","em":1,"object":1}')
        self.assertEqual(first.ask(CREATE), [refused("Limit", 19)])
        [told] = second.ask(CREATE)
        self.assertEqual(told["error"]["name"], "Limit")
        self.assertIn("none became free within 0.3 seconds", told["error"]["why"])
        self.assertIn("connection 1 ", told["error"]["why"])
        first.close()
        self.assertEqual(second.ask(CREATE)[0]["ok"], 1)
        self.wait_until(lambda: self.server.service.active == 0)
        query = '{"call":"query","em":1,"text":"SELECT COUNT(p) FROM Person p"}'
        self.assertEqual(second.ask(query)[0]["ok"], [0])
        self.assertEqual(self.server.service.gate.taken, 1)

    def test_a_half_closed_connection_is_answered(self) -> None:
        talk = self.talk()
        talk.socket.sendall(f"{CREATE}\n{NEW}\n".encode() + b'{"call":"rest')
        talk.socket.shutdown(1)
        self.assertEqual([talk.reply(), talk.reply(), talk.reply()],
                         [b'{"events":[],"ok":1}', b'{"events":[],"ok":{"object":1}}', b""])
        self.wait_until(lambda: bool(self.told()["managers"] == 0))


class Turns(ServerTest):
    settings = Settings(wait=SECONDS)

    def test_who_waits_first_comes_first(self) -> None:
        first = self.talk()
        first.ask(*[CREATE] * 16)
        order: List[int] = []
        threads = []
        for place in range(3):
            other = self.talk()

            def wait(place: int = place, other: Talk = other) -> None:
                other.ask(CREATE)
                order.append(place)

            threads.append(threading.Thread(target=wait))
            threads[-1].start()
            self.wait_until(lambda: self.server.service.gate.waiting == len(threads))
        for number in (1, 2, 3):
            first.ask(of_manager("close", number))
            self.wait_until(lambda: len(order) == number)
        self.assertEqual(order, [0, 1, 2])

    def test_a_turn_for_another_connection(self) -> None:
        first, second, gone = self.talk(), self.talk(), self.talk()
        key = first.ask('{"serve":"hello","wait":0}')[0]["ok"]["key"]
        other = gone.ask('{"serve":"hello"}')[0]["ok"]["key"]
        second.ask(*[CREATE] * 16)
        self.assertEqual(first.ask(CREATE)[0]["error"]["name"], "Limit")
        waiting, left = self.talk(), self.talk()
        left.socket.sendall(f'{{"serve":"turn","for":"{other}"}}\n'.encode())
        self.wait_until(lambda: self.server.service.gate.waiting == 1)
        waiting.socket.sendall(f'{{"serve":"turn","for":"{key}"}}\n'.encode())
        self.wait_until(lambda: self.server.service.gate.waiting == 2)
        count = len(self.server.service.connections)
        gone.close()
        self.wait_until(lambda: len(self.server.service.connections) < count)
        second.ask(of_manager("close"))
        self.assertEqual(json.loads(waiting.reply()), NULL)
        self.assertEqual(second.ask('{"serve":"hello","wait":0}', CREATE)[1]["error"]["no"], 19)
        self.assertEqual(first.ask(CREATE), [{"events": [], "ok": 1}])
        self.assertEqual(self.talk().ask('{"serve":"turn","for":"x"}')[0]["error"]["name"], "BadLine")


class Idle(ServerTest):
    settings = Settings(idle=0.2, half_line=0.2)

    def test_silence_rolls_back(self) -> None:
        quiet, talk = self.talk(), self.talk()
        quiet.ask(NEW)
        talk.ask(CREATE, of_manager("begin"), NEW)
        said = json.loads(talk.reply())["error"]
        self.assertEqual(said["name"], "Closed")
        self.assertIn("silent for 0.2 seconds", said["why"])
        self.assertEqual(talk.reply(), b"")
        self.assertEqual(self.told()["transactions"], 0)
        self.assertEqual(quiet.ask('{"call":"get","object":1,"name":"name"}'), [NULL])

    def test_half_a_line_is_not_waited_for(self) -> None:
        talk = self.talk()
        talk.socket.sendall(b'{"call"')
        self.assertEqual(json.loads(talk.reply())["error"]["name"], "Closed")


class Restarts(ServerTest):
    def setUp(self) -> None:
        for name, value in (("DUE", 20), ("LATE", 40), ("LAST", 60), ("STEP", 10)):
            for module in ("gate", "renewing"):
                if hasattr(sys.modules[f"karzhoul.server.{module}"], name):
                    patch = mock.patch(f"karzhoul.server.{module}.{name}", value)
                    patch.start()
                    self.addCleanup(patch.stop)
        super().setUp()

    def test_a_new_run_between_transactions(self) -> None:
        self.assertEqual(gate.DUE, 20)
        busy, talk = self.talk(), self.talk()
        busy.ask(CREATE, of_manager("begin"), NEW, '{"call":"persist","em":1,"object":1}')
        talk.ask(CREATE, CREATE, '{"call":"setFlushMode","em":2,"mode":"COMMIT"}', *[NEW] * 45,
                 '{"call":"persist","em":1,"object":1}')
        self.assertEqual(self.told()["restarts"], 0)
        self.assertEqual(busy.ask(of_manager("commit"))[0]["ok"], None)
        self.wait_until(lambda: self.server.service.counts.restarts == 1)
        # The manager that held nothing is there, and goes on as it was.
        self.assertEqual(talk.ask(of_manager("begin", 2), NEW)[1]["ok"], {"object": 46})
        name = "SELECT COUNT(p) FROM Person p"
        told = talk.ask(
            '{"call":"persist","em":2,"object":46}',
            f'{{"call":"query","em":2,"text":"{name}"}}', of_manager("commit", 2),
            f'{{"call":"query","em":2,"text":"{name}"}}',
        )
        self.assertEqual([it.get("ok", it) for it in told], [None, [1], None, [2]])
        for line in (of_manager("begin"), '{"call":"get","object":45,"name":"name"}'):
            [said] = talk.ask(line)
            self.assertEqual(said["error"]["name"], "Restarted")
            self.assertIn("is of before a restart", said["error"]["why"])
        self.assertEqual(talk.ask('{"call":"get","object":47,"name":"name"}'), [NO_OBJECT])
        self.assertEqual(busy.ask(of_manager("begin"))[0]["error"]["name"], "Restarted")

    def test_many_runs_while_many_work(self) -> None:
        """Each transaction makes 4 objects, 40 of them in all 4 threads more than 20 runs' worth."""
        def work() -> None:
            talk = self.talk()
            for _ in range(40):
                [said] = talk.ask(CREATE)
                em = said["ok"]
                self.assertEqual(talk.ask(of_manager("begin", em)), [NULL])
                made = [it["ok"]["object"] for it in talk.ask(*[NEW] * 3)]
                for number in made:
                    line = f'{{"call":"persist","em":{em},"object":{number}}}'
                    self.assertEqual(talk.ask(line)[0]["ok"], None)
                self.assertEqual(talk.ask(of_manager("commit", em), of_manager("close", em))[1], NULL)
            done.append(1)

        done: List[int] = []
        threads = [threading.Thread(target=work) for _ in range(4)]
        for each in threads:
            each.start()
        for each in threads:
            each.join(SECONDS)
        self.assertEqual(done, [1] * 4)
        self.assertGreater(self.server.service.counts.restarts, 2)
        count = '{"call":"query","em":1,"text":"SELECT COUNT(p) FROM Person p"}'
        self.assertEqual(self.talk().ask(CREATE, count)[1]["ok"], [480])


class Ends(ServerTest):
    def test_a_program_that_is_killed_is_started_again(self) -> None:
        clean, talk = self.talk(), self.talk()
        talk.ask(CREATE, of_manager("begin"), NEW, '{"call":"persist","em":1,"object":1}',
                 of_manager("commit"), of_manager("begin"), NEW)
        os.kill(self.server.service.engine.program.pid, signal.SIGKILL)
        said = json.loads(talk.reply())["error"]
        self.assertEqual(said["name"], "ProgramEnded")
        self.assertEqual(talk.reply(), b"")
        count = '{"call":"query","em":1,"text":"SELECT COUNT(p) FROM Person p"}'
        self.assertEqual(clean.ask(CREATE, count)[1]["ok"], [1])
        self.assertEqual(self.told()["programs"], 2)


    def test_a_line_that_is_under_way_then_is_answered_once(self) -> None:
        talk, engine = self.talk(), self.server.service.engine
        talk.ask(CREATE, of_manager("begin"))
        os.kill(engine.program.pid, signal.SIGSTOP)
        talk.socket.sendall(f"{of_manager('commit')}\n".encode())
        self.wait_until(lambda: len(engine) == 1)
        os.kill(engine.program.pid, signal.SIGKILL)
        said = json.loads(talk.reply())["error"]
        self.assertEqual(said["name"], "ProgramEnded")
        self.assertIn("it may be stored or not", said["why"])
        self.assertEqual(talk.reply(), b"")


class Bounds(ServerTest):
    settings = Settings(unread_room=1 << 22, coming_room=1 << 21, most_connections=40, half_line=60)

    def test_who_sends_without_reading_is_not_read(self) -> None:
        talk, other = self.talk(), self.talk()
        talk.ask(CREATE, NEW, f'{{"call":"set","object":1,"name":"name","value":"{"x" * 60_000}"}}')
        talk.socket.settimeout(1)
        get = b'{"call":"get","object":1,"name":"name"}\n' * 1000
        sent = 0
        try:
            while sent < 1 << 26:
                sent += talk.socket.send(get)
        except TimeoutError:
            pass
        self.assertLess(sent, 1 << 25)
        self.assertEqual(other.ask(NEW)[0]["ok"], {"object": 1})
        unread = [it.unread for it in self.server.service.connections]
        self.assertLess(max(unread), 1 << 21)

    def test_long_lines_that_do_not_come_whole(self) -> None:
        for _ in range(8):
            talk = self.talk()
            talk.socket.settimeout(0.2)
            try:
                talk.socket.sendall(b"x" * 1_000_000)
            except TimeoutError:
                pass
        self.assertEqual(self.talk().ask(NEW)[0]["ok"], {"object": 1})
        self.assertLess(self.server.service._coming, 1 << 22)

    def test_too_many_connections(self) -> None:
        talks = [self.talk() for _ in range(40)]
        self.assertEqual(json.loads(self.talk().reply())["error"]["name"], "Closed")
        self.assertEqual(talks[-1].ask(NEW)[0]["ok"], {"object": 1})


class Trust(ServerTest):
    settings = Settings(token=b"t" * 32)

    def test_a_token_is_shown_first(self) -> None:
        for line in (CREATE, '{"serve":"status"}', '{"serve":"hello"}', "x",
                     '{"serve":"hello","token":"' + "u" * 32 + '"}'):
            talk = self.talk(is_trusted=False)
            [said] = talk.ask(line)
            self.assertEqual(said["error"]["name"], "Denied")
            self.assertEqual(talk.reply(), b"")
        hello = '{"serve":"hello","token":"' + "t" * 32 + '"}'
        told = self.talk(is_trusted=False).ask(hello, CREATE)
        self.assertEqual(told[1]["ok"], 1)


if __name__ == "__main__":
    unittest.main()
