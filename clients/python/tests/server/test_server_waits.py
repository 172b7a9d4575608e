"""A server: no one waits without an end, also where the program ends while others wait for it."""

from __future__ import annotations

import asyncio
import errno
import json
import os
import signal
import socket
import sys
import threading
import time
import unittest
from typing import Any, Tuple
from unittest import mock

import karzhoul
from karzhoul.server.plain import Listener
from karzhoul.server.settings import Settings

from ..served import SECONDS, Here
from ..support import PERSONS, FolderTest, needs_program
from .test_server import CREATE, NEW, NO_MANAGER, NULL, ServerTest, of_manager
from .test_serving import ServingTest

BEGIN = '{"serve":"begin"}'


class Nobody(FolderTest):
    """Nobody serves at an address."""

    def test_it_is_said_that_nobody_serves_there(self) -> None:
        with socket.socket() as taken:
            taken.bind(("127.0.0.1", 0))  # Where nobody listens.
            for way in (f"unix:{self.place}/s", f"tcp:127.0.0.1:{taken.getsockname()[1]}"):
                with self.assertRaises(karzhoul.Disconnected) as raised:
                    karzhoul.connect(way)
                told = str(raised.exception)
                self.assertIn(f"no connection to the server: nobody serves at {way} now", told)
                self.assertIn(f"'karzhoul serve .. --listen {way}'", told)
                self.assertNotIn("ended", told)


class Ends(ServerTest):
    """The program ends while something waits for it."""

    def stop(self) -> int:
        """Has the program stand still; its process."""
        process = self.server.service.engine.program.pid
        os.kill(process, signal.SIGSTOP)
        return process

    def check_that_it_serves(self) -> None:
        """Whether another connection is answered."""
        self.assertEqual(self.talk().ask(NEW)[0]["ok"], {"object": 1})

    def test_lines_behind_the_one_that_was_under_way(self) -> None:
        talk, engine = self.talk(), self.server.service.engine
        process = self.stop()
        talk.socket.sendall(f"{CREATE}\n{of_manager('begin')}\n{BEGIN}\n".encode())
        self.wait_until(lambda: len(engine) == 1)
        os.kill(process, signal.SIGKILL)
        self.assertEqual(json.loads(talk.reply())["error"]["name"], "ProgramEnded")
        self.assertEqual(json.loads(talk.reply()), NO_MANAGER)
        self.assertEqual(json.loads(talk.reply())["ok"], 1)

    def test_a_manager_that_is_created_with_its_transaction(self) -> None:
        talk, engine = self.talk(), self.server.service.engine
        process = self.stop()
        talk.socket.sendall(f"{BEGIN}\n".encode())
        self.wait_until(lambda: len(engine) == 2)
        os.kill(process, signal.SIGKILL)
        self.assertEqual(json.loads(talk.reply())["error"]["name"], "ProgramEnded")
        self.assertEqual(talk.ask(BEGIN)[0]["ok"], 1)
        self.assertEqual(self.told()["transactions"], 1)

    def test_a_new_run_that_waits_for_a_line(self) -> None:
        talk, service = self.talk(), self.server.service
        process = self.stop()
        talk.socket.sendall(f"{NEW}\n".encode())
        self.wait_until(lambda: len(service.engine) == 1)
        self.server.later(service.renewal.renew())
        self.wait_until(lambda: bool(service.still.awaiting))
        os.kill(process, signal.SIGKILL)
        self.assertEqual(json.loads(talk.reply())["error"]["name"], "ProgramEnded")
        self.check_that_it_serves()


class Begun(ServerTest):
    """Managers that are created with their transactions open."""

    def test_many_at_once(self) -> None:
        first, second = self.talk(), self.talk()
        for talk in (first, second):
            talk.socket.sendall(f"{BEGIN}\n".encode() * 8)
        for talk in (first, second):
            told = [json.loads(talk.reply()) for _ in range(8)]
            self.assertEqual([it["ok"] for it in told], list(range(1, 9)))
        self.assertEqual(self.told()["transactions"], 16)
        for number in range(1, 9):
            self.assertEqual(first.ask(of_manager("rollback", number)), [NULL])

    def test_the_number_is_not_the_one_that_was_expected(self) -> None:
        """As behind a creation that was refused for want of memory."""
        talk, service = self.talk(), self.server.service
        talk.ask(CREATE)
        service.created += 3
        self.assertEqual(talk.ask(BEGIN)[0]["ok"], 2)
        self.assertEqual(talk.ask(of_manager("begin", 2))[0]["error"]["why"], "active")
        self.assertEqual(talk.ask(of_manager("begin", 1), of_manager("commit", 2)), [NULL] * 2)


class Held(ServerTest):
    """Those who begin wait for a new run."""

    settings = Settings(wait=0.3)

    def setUp(self) -> None:
        for name, value in (("DUE", 20), ("LATE", 40), ("LAST", 60), ("STEP", 10)):
            for module in ("gate", "renewing"):
                if hasattr(sys.modules[f"karzhoul.server.{module}"], name):
                    patch = mock.patch(f"karzhoul.server.{module}.{name}", value)
                    patch.start()
                    self.addCleanup(patch.stop)
        super().setUp()

    def test_who_was_refused_a_transaction_waits_once_for_a_manager(self) -> None:
        busy, talk = self.talk(), self.talk()
        busy.ask(BEGIN, NEW, '{"call":"persist","em":1,"object":1}')
        talk.ask(CREATE, *[NEW] * 65)
        [told] = talk.ask(of_manager("begin"))
        self.assertIn("few objects of the run are left", told["error"]["why"])
        told = talk.ask(CREATE, '{"serve":"hello"}', '{"serve":"hello"}')
        self.assertEqual(told[0]["error"]["name"], "Limit")
        self.assertEqual([it.get("ok", {}).get("wait") for it in told[1:]], [0.3, 0.3])
        self.assertEqual(busy.ask(of_manager("commit"))[0]["ok"], None)
        self.wait_until(lambda: self.server.service.counts.restarts == 1)
        self.assertIn("ok", talk.ask(CREATE)[0])

    def test_a_run_that_has_no_managers_left(self) -> None:
        talk = self.talk()
        for number in range(1, 130):
            self.assertEqual(talk.ask(CREATE, of_manager("close", number))[0]["ok"], number)
        self.assertGreater(self.server.service.counts.restarts, 0)


class Grace(ServingTest):
    def test_a_call_that_takes_longer_than_the_grace(self) -> None:
        server = self.serve("--grace", "0.2")
        told: Any = json.loads(self.command("status", "--from", self.way, "--json").stdout)
        with karzhoul.connect(self.way) as app:
            os.kill(told["process"], signal.SIGSTOP)
            self.assertTrue(app.program.let_go(app._run, NEW.encode()))
            server.send_signal(signal.SIGTERM)
            self.assertEqual(server.wait(SECONDS), 0)


@needs_program
class LetGo(FolderTest):
    def test_a_close_that_is_not_answered_has_its_time(self) -> None:
        path = self.place / "s"
        server = Here(PERSONS, self.place / "app.db", listen=path)
        self.addCleanup(server.close)
        app = karzhoul.connect(f"unix:{path}")
        self.addCleanup(app.close)
        with app.begin() as manager:
            manager.persist(app.new("Person", name="Ada"))
        process = server.service.engine.program.pid
        line = b'{"call":"values","objects":[]}'
        with self.assertRaises(karzhoul.GivenUp), app.begin():
            os.kill(process, signal.SIGSTOP)
            self.addCleanup(os.kill, process, signal.SIGCONT)
            self.assertTrue(app.program.let_go(app._run, line))
            app.ask_lines(app._run, [line], timeout=0.2)

    def test_a_call_whose_connection_is_stopped_by_another_thread(self) -> None:
        """As by a console that ends while a query takes long."""
        path = self.place / "s"
        server = Here(PERSONS, self.place / "app.db", listen=path)
        self.addCleanup(server.close)
        app = karzhoul.connect(f"unix:{path}")
        self.addCleanup(app.close)
        process, raised = server.service.engine.program.pid, []
        os.kill(process, signal.SIGSTOP)
        self.addCleanup(os.kill, process, signal.SIGCONT)

        def ask() -> None:
            try:
                app.create_entity_manager()
            except karzhoul.ProgramEnded as ended:
                raised.append(ended)

        thread = threading.Thread(target=ask, daemon=True)
        thread.start()
        until = time.monotonic() + SECONDS
        while not len(server.service.engine) and time.monotonic() < until:
            time.sleep(0.01)
        app.program.stop()
        thread.join(SECONDS)
        self.assertEqual(len(raised), 1)


class Scarce(socket.socket):
    """One that listens, and finds once that the process has no file left for a connection."""

    was_refused = False

    def accept(self) -> Tuple[socket.socket, Any]:
        if not self.was_refused:
            self.was_refused = True
            raise OSError(errno.EMFILE, os.strerror(errno.EMFILE))
        return super().accept()


class Listening(FolderTest):
    def test_a_connection_for_which_no_file_is_left_is_taken_later(self) -> None:
        path = str(self.place / "s")

        async def taken() -> socket.socket:
            listening = Scarce(socket.AF_UNIX)
            listening.bind(path)
            listening.listen()
            made: asyncio.Future[socket.socket] = asyncio.get_running_loop().create_future()
            listener = Listener(listening, made.set_result)
            with socket.socket(socket.AF_UNIX) as client:
                client.connect(path)
                try:
                    return await asyncio.wait_for(made, SECONDS)
                finally:
                    listener.close()

        with mock.patch("karzhoul.server.plain._PAUSE", 0.05):
            asyncio.run(taken()).close()


if __name__ == "__main__":
    unittest.main()
