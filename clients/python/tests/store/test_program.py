"""The program as a process: how it is started, and what is told where it ends, is ended or is
interrupted."""

from __future__ import annotations

import contextlib
import gc
import io
import os
import signal
import subprocess
import sys
import tempfile
import threading
import time
import unittest
from pathlib import Path
from unittest import mock

import karzhoul
from karzhoul.store.program import Exchange, Program

from ..support import FLAT, HERE, PERSONS, PROGRAM, STUB, ProgramTest, needs_program, played

PACKAGE = HERE.parent


class Starting(unittest.TestCase):
    def test_what_is_no_program_of_this_kind(self) -> None:
        with self.assertRaises(karzhoul.KarzhoulError):
            karzhoul.open(PERSONS, program="/bin/cat")
        with self.assertRaises(karzhoul.ProgramEnded):
            karzhoul.open(PERSONS, program="/bin/true")
        with tempfile.TemporaryDirectory() as place:
            other = Path(place, "other")
            other.write_text("#!/bin/sh\nexec cat\n", encoding="utf-8")
            other.chmod(0o755)
            with self.assertRaises(karzhoul.ProgramNotFound):
                karzhoul.open(PERSONS, program=other)
            other.write_bytes(b"\0")
            with self.assertRaises(karzhoul.ProgramNotFound):
                karzhoul.open(PERSONS, program=other)


class Ends(unittest.TestCase):
    def test_an_interrupted_start_ends_what_it_started(self) -> None:
        with tempfile.TemporaryDirectory() as place:
            slow, number = Path(place, "slow"), Path(place, "number")
            slow.write_text(
                f"#!/bin/sh\nsleep 100 &\necho $! >{number}\necho building >&2\nwait\n",
                encoding="utf-8",
            )
            slow.chmod(0o755)
            interrupt(self, 3)
            with self.assertRaises(KeyboardInterrupt), contextlib.redirect_stderr(
                io.StringIO()
            ) as told:
                karzhoul.open(PERSONS, program=slow)
            self.assertEqual(told.getvalue(), f"karzhoul: waiting for {slow}: building\n")
            deadline = time.monotonic() + 10
            while lives(int(number.read_text())) and time.monotonic() < deadline:
                time.sleep(0.05)
            self.assertFalse(lives(int(number.read_text())))

    def test_an_end_in_the_middle_of_a_call(self) -> None:
        transcript = (
            '> {"call":"createEntityManager"}\n< {"events":[],"ok":1}\n> {"call":"flush","em":1}\n'
            '! kill\n'
        )
        with played(transcript, PERSONS) as app:
            em = app.create_entity_manager()
            for _ in range(2):
                with self.assertRaises(karzhoul.ProgramEnded) as raised:
                    em.flush()
                self.assertEqual(raised.exception.status, -signal.SIGKILL)

    def test_what_it_tells_at_its_end(self) -> None:
        with self.assertRaises(karzhoul.Damaged):
            with played("! jpa: Damaged(1:00)\n", PERSONS):
                self.fail("it was opened")
        with self.assertRaises(karzhoul.ProgramEnded) as raised:
            with played("! something else\n", PERSONS):
                self.fail("it was opened")
        self.assertIn("something else", str(raised.exception))

    def test_lines_that_were_answered_before_the_end_are_answered(self) -> None:
        line = '{"call":"set","object":1,"name":"n","value":1}'
        transcript = f'> {line}\n< {{"events":[],"ok":null}}\n' * 3 + f"> {line}\n! 4\n"
        with played(transcript, PERSONS) as app:
            self.assertEqual(
                app.program.replies(Exchange([line.encode()] * 3)), [b'{"events":[],"ok":null}'] * 3
            )
            with self.assertRaises(karzhoul.ProgramEnded) as raised:
                app.program.replies(Exchange([line.encode()] * 2))
            self.assertEqual(raised.exception.status, 4)

    def test_a_transaction_whose_program_ends_raises_that(self) -> None:
        transcript = (
            '> {"call":"createEntityManager"}\n< {"events":[],"ok":1}\n> {"call":"begin","em":1}\n'
            '< {"events":[],"ok":null}\n'
        )
        with played(transcript + '> {"call":"flush","em":1}\n! 4\n', PERSONS) as app:
            em = app.create_entity_manager()
            with self.assertRaises(karzhoul.ProgramEnded):
                with em.transaction():
                    em.flush()


@needs_program
class OfTheProgram(ProgramTest):
    def test_a_killed_program(self) -> None:
        os.kill(self.app.program.pid, signal.SIGKILL)
        for _ in range(2):
            with self.assertRaises(karzhoul.ProgramEnded) as raised:
                self.em.find(self.Person, 1)
            self.assertEqual(raised.exception.status, -signal.SIGKILL)
        self.app.close()

    def test_a_program_that_is_killed_while_much_is_sent(self) -> None:
        place = self.Place()
        os.kill(self.app.program.pid, signal.SIGKILL)
        with self.assertRaises(karzhoul.ProgramEnded):
            with self.app.pipeline():
                for _ in range(100):
                    place.scan = b"\0" * 60_000

    def test_what_was_committed_before_a_kill_is_there(self) -> None:
        with tempfile.TemporaryDirectory() as place:
            db = Path(place, "app.db")
            app = karzhoul.open(FLAT, db, program=PROGRAM)
            em = app.create_entity_manager()
            with em.transaction():
                em.persist(app.new("Order", number=1))
            em.transaction().begin()
            em.persist(app.new("Order", number=2))
            os.kill(app.program.pid, signal.SIGKILL)
            app.close()
            with karzhoul.open(FLAT, db, program=PROGRAM) as app:
                found = app.create_entity_manager().find_many("Order", [1, 2])
                self.assertEqual([order is not None for order in found], [True, False])

    def test_a_closed_factory(self) -> None:
        pid = self.app.program.pid
        self.app.close()
        self.app.close()
        with self.assertRaises(karzhoul.ProgramEnded):
            self.em.find(self.Person, 1)
        with self.assertRaises(OSError):
            os.kill(pid, 0)

    def test_a_factory_that_is_dropped_ends_its_program(self) -> None:
        app = karzhoul.open(PERSONS, program=PROGRAM)
        pid = app.program.pid
        del app
        gc.collect()
        with self.assertRaises(OSError):
            os.kill(pid, 0)

    def test_threads_share_a_factory(self) -> None:
        faults = []

        def work(number: int) -> None:
            try:
                order = self.app.new("Order", number=number)
                for amount in range(100):
                    order.amount = number * 1000 + amount
                    if order.amount != number * 1000 + amount:
                        raise AssertionError("another thread's answer")
                with self.app.pipeline():
                    for amount in range(100):
                        order.amount = amount
            except BaseException as fault:
                faults.append(fault)

        threads = [threading.Thread(target=work, args=(number,)) for number in range(8)]
        for thread in threads:
            thread.start()
        for thread in threads:
            thread.join()
        self.assertEqual(faults, [])

    def test_ctrl_c_at_a_terminal_ends_no_program(self) -> None:
        self.assertNotEqual(os.getpgid(self.app.program.pid), os.getpgid(0))

    def test_an_interpreter_s_exit(self) -> None:
        code = (
            "import karzhoul, sys\n"
            f"app = karzhoul.open({str(FLAT)!r}, program={PROGRAM!r})\n"
            "em = app.create_entity_manager()\n"
            "em.transaction().begin()\n"
            "print(app.program.pid, flush=True)\n"
            "sys.exit(int(sys.argv[1]))\n"
        )
        for status in (0, 3):
            ran = subprocess.run(
                [sys.executable, "-c", code, str(status)],
                cwd=PACKAGE, capture_output=True, text=True, timeout=60,
            )
            self.assertEqual((ran.returncode, ran.stderr), (status, ""))
            self.assertFalse(lives(int(ran.stdout)))

    def test_a_killed_interpreter_leaves_no_program(self) -> None:
        code = (
            "import karzhoul, os\n"
            f"app = karzhoul.open({str(FLAT)!r}, program={PROGRAM!r})\n"
            "print(app.program.pid, flush=True)\n"
            "os.kill(os.getpid(), 9)\n"
        )
        ran = subprocess.run(
            [sys.executable, "-c", code], cwd=PACKAGE, capture_output=True, text=True, timeout=60
        )
        deadline = time.monotonic() + 10
        while lives(int(ran.stdout)) and time.monotonic() < deadline:
            time.sleep(0.05)
        self.assertFalse(lives(int(ran.stdout)))

    def test_a_forked_process_ends_no_program(self) -> None:
        child = os.fork()
        if child == 0:
            self.app.program._end()
            os._exit(0)
        os.waitpid(child, 0)
        self.assertIsNone(self.em.find(self.Person, 1))

    def test_more_than_both_pipes_hold(self) -> None:
        running = Program([str(PROGRAM), "--mapping", str(FLAT)])
        running.start()
        replies = running.replies(Exchange([b'{"call":"x"}'] * 50_000))
        self.assertEqual([b"BadLine" in reply for reply in replies], [True] * 50_000)
        running.close()


def interrupt(test: unittest.TestCase, seconds: float) -> None:
    """Interrupts this process after so many seconds, as Ctrl-C does."""
    timer = threading.Timer(seconds, os.kill, (os.getpid(), signal.SIGINT))
    test.addCleanup(
        signal.signal, signal.SIGINT, signal.signal(signal.SIGINT, signal.default_int_handler)
    )
    test.addCleanup(timer.join)
    timer.start()


def lives(pid: int) -> bool:
    """Whether a process runs, and isn't only kept for its status."""
    try:
        return "\nState:\tZ" not in Path(f"/proc/{pid}/status").read_text()
    except OSError:
        return False


if __name__ == "__main__":
    unittest.main()
