"""The server as a whole: its connections take turns at the program."""

from __future__ import annotations

import asyncio
import json
import socket
import struct
import time
from collections import deque
from typing import Any, Callable, Coroutine, Deque, Dict, List, Optional, Set, Tuple

from ..session.places import MOST
from ..store.program import Program
from ..refusals import KarzhoulError
from .connection import Connection, Manager
from .counts import Counts
from .creating import Creation
from .engine import Engine
from .files import Files
from .gate import Gate
from .logs import log
from .own import Own
from .plain import Plain
from .refusals import NULL, refusal
from .renewing import Renewal
from .settings import Served, Settings
from .still import Stillness
from .translation import BEGUN, Call, Translation
from .turns import Turn
from .watching import Watch

_WINDOW = 64
_LARGE = 1 << 16
_ENDING = "the server is ending"
# Calls that may have to wait for their turn, or are the server's to do; and those of which more is
# noted than that their manager may hold something.
_IN_TURN = {"createEntityManager", "begin", "restart"}
_NOTED = {
    "createEntityManager", "begin", "commit", "rollback", "clear", "close", "setFlushMode", "index",
}
_ACTIVE = b'{"error":{"name":"IllegalState","no":7,"why":"active"},"events":[]}'
# How many times in a row a program that ended is started again, with a second between them.
_MOST_STARTS = 5


class Service:
    """A server over a program that was started, which `start` starts again where it has ended."""

    def __init__(
        self, settings: Settings, start: Callable[[], Program], program: Program, served: Served,
        files: Files,
    ) -> None:
        """With what waits for the program's pipes and the sockets of connections."""
        self.settings, self.served = settings, served
        self._start, self._files = start, files
        self.engine = Engine(program, self._answered, self._program_ended, files)
        self.gate, self.counts, self.own = Gate(), Counts(), Own(self)
        self.connections: Dict[Connection, None] = {}
        # Those who have their turn, who were told something, who don't read and since when, and
        # whose end is still to be read by them.
        self.ready: Deque[Connection] = deque()
        self.told: List[Connection] = []
        self.full: Dict[Connection, float] = {}
        self.closing: Dict[Connection, float] = {}
        self._coming = self.active = self._last = 0
        # How many objects the run has made, and managers, with those that are on their way.
        self.made = self.created = 0
        self.still, self.renewal, self.watch = Stillness(self), Renewal(self), Watch(self)
        self.is_ending = False
        # What connections have asked this program to look up, beside what it serves.
        self._asked: Dict[Tuple[str, str], None] = {}
        # Its status, once it has ended.
        self.ended: asyncio.Future[int] = asyncio.get_running_loop().create_future()
        self._tasks: Set[asyncio.Task[None]] = set()

    @property
    def used(self) -> int:
        """How many numbers of a kind the run has given, of which it has 1,000,000: of objects, or
        of managers where these are more, as where many only read."""
        return max(self.made, self.created)

    def indexes(self) -> List[Tuple[str, str]]:
        """What the program was told to look up: entities, each with the name of a member."""
        return list(dict.fromkeys([*map(_indexed, self.served.index_lines), *self._asked]))

    # ---- connections

    def connect(self, made: socket.socket, is_trusted: bool) -> None:
        """A connection is made of a socket that leads to a client, which isn't ciphered."""
        Plain(self._files, made, Connection(self, is_trusted))

    def add(self, connection: Connection, transport: asyncio.Transport) -> None:
        """A connection is there, or refused where there are too many."""
        self._last += 1
        connection.number = self._last
        connection.peer = _peer(transport)
        self.connections[connection] = None
        self.counts.connections += 1
        if len(self.connections) > self.settings.most_connections:
            connection.close("Closed", f"{self.settings.most_connections} connections are open")
        elif self.is_ending:
            connection.close("Closed", _ENDING)

    def has_room(self) -> bool:
        """Whether more of long lines may come."""
        return self._coming < self.settings.coming_room

    def note_coming(self, before: int, now: int) -> None:
        """A line that is coming has grown, or has come."""
        self._coming += (now if now > _LARGE else 0) - (before if before > _LARGE else 0)

    def look_at_end(self, connection: Connection) -> None:
        """Lets go what an ended connection has, once all that it sent is answered."""
        if not connection.is_ended or connection.sent:
            return
        if connection.has_lines and not connection.is_closed:
            return
        if connection in self.connections:
            self._let_go(connection)

    def _let_go(self, connection: Connection) -> None:
        """Rolls back its transactions, and closes its managers."""
        del self.connections[connection]
        self.full.pop(connection, None)
        self.renewal.leave(connection)
        self.gate.leave_all(connection)
        for _ in range(connection.reserved):
            self.gate.give_back()
        connection.reserved = 0
        for number, manager in connection.managers.items():
            self.close_manager(connection.translation.managers.real_of[number], manager)
        connection.managers = {}
        if not connection.is_closed:
            connection.close()
        self.closing[connection] = time.monotonic()
        self.engine.flush()

    def close_manager(
        self, real: int, manager: Manager, then: Optional[Callable[[], None]] = None
    ) -> None:
        """Rolls back what a manager has open, and closes it."""
        if manager.since is not None:
            self.active -= 1
            self.engine.send(b'{"call":"rollback","em":%d}' % real, _nothing)

        def closed(reply: Optional[bytes]) -> None:
            if reply is not None:
                self.gate.give_back()
            if then is not None:
                then()

        self.engine.send(b'{"call":"close","em":%d}' % real, closed)

    # ---- lines

    def dispatch(self) -> None:
        """Hands lines on to the program, of each connection one in turn."""
        if not self.still.count:
            turns, asked = self.ready, self.engine.asked
            while turns and len(asked) < _WINDOW:
                connection = turns.popleft()
                if connection.step():
                    turns.append(connection)
                else:
                    connection.is_ready = False
                    if connection.is_ended:
                        self.look_at_end(connection)
        # (a reply may have the server send a line behind it, also while others wait)
        if self.engine.lines:
            self.engine.flush()
        if self.told:
            self.tell()

    def tell(self) -> None:
        """Sends what connections were told."""
        while self.told:
            self.told.pop().flush()

    def serve(self, connection: Connection, line: bytes) -> None:
        """Does a call of the server's own."""
        self.own.serve(connection, line)

    def refuse(self, connection: Connection, refused: bytes) -> None:
        """Tells a connection a refusal of the server's own."""
        self.counts.refused(refused)
        connection.say(refused)

    def hand_on(self, connection: Connection, call: Call) -> bool:
        """Hands a call on, where it is its turn; whether its line is taken. What the server says
        itself comes after what the program has still to say."""
        word = call.word
        if word in _IN_TURN:
            if word == "createEntityManager":
                return self._create(connection, call)
            if word == "restart":
                return connection.sent == 0 and self._restart_own(connection)
            if self.gate.held_until is not None or self.is_ending:
                return self._begin(connection, call)
        self.send(connection, call)
        return True

    def send(self, connection: Connection, call: Call) -> None:
        """Sends a connection's call to the program."""
        connection.is_sent(call.word)
        self.counts.lines += 1
        self.engine.send(call.line, lambda reply: self._take(connection, call, reply))

    def _create(self, connection: Connection, call: Call) -> bool:
        if connection.reserved:
            connection.reserved -= 1
        elif self.gate.is_free and not self.is_ending:
            self.gate.take()
        elif connection.sent:
            return False
        elif len(connection.managers) == MOST:
            self.gate.take()  # The program refuses it, and it is given back.
        elif self.is_ending:
            self.refuse(connection, refusal("Closed", f"{_ENDING}, and creates no manager"))
            return True
        elif not connection.wait:
            self.refuse(connection, self.no_manager("others wait, or have all"))
            return True
        else:
            self.gate.wait(Turn(self, connection))
            return False
        self.send_creation(connection, call)
        return True

    def send_creation(self, connection: Connection, call: Call) -> None:
        """Has the program create a manager for a connection."""
        self.created += 1
        if call is not BEGUN:
            self.send(connection, call)
            return
        creation = Creation(self, connection, self.created)
        for line, take in creation.lines():
            self.counts.lines += 1
            self.engine.send(line, take)

    def no_manager(self, why: str) -> bytes:
        """The refusal of a manager, with who has those that there are."""
        who = ", ".join(
            f"connection {it.number} ({it.peer}) has {len(it.managers) + it.reserved}"
            for it in self.connections if it.managers or it.reserved
        )
        return refusal("Limit", f"no manager is free, {why}: of {MOST}, {who or 'none is had'}")

    def _begin(self, connection: Connection, call: Call) -> bool:
        """A transaction is begun while a new run, or the end, waits for others."""
        is_within = any(it.since is not None for it in connection.managers.values())
        if connection.sent:
            return False
        if self.is_ending:
            self.refuse(connection, refusal("Closed", f"{_ENDING}, and begins no transaction"))
            return True
        if is_within and not self.renewal.is_last():
            self.send(connection, call)
            return True
        refused = self.renewal.refused_now(connection, is_within)
        if refused is not None:
            self.refuse(connection, refused)
        return refused is not None

    def _restart_own(self, connection: Connection) -> bool:
        """A connection begins again: its managers are closed, and its numbers begin at 1."""
        if any(it.since is not None for it in connection.managers.values()):
            connection.say(_ACTIVE)
            return True
        left = len(connection.managers)
        managers, connection.managers = connection.managers, {}

        def over() -> None:
            connection.sent -= 1
            if not connection.sent:
                connection.is_blocked = False
                connection.translation = Translation()
                connection.say(NULL)
                connection.wake()
                self.look_at_end(connection)

        connection.sent, connection.is_blocked = left + 1, True
        for number, manager in managers.items():
            self.close_manager(connection.translation.managers.real_of[number], manager, over)
        over()
        return True

    # ---- replies

    def _take(self, connection: Connection, call: Call, reply: Optional[bytes]) -> None:
        """The reply to a call of a connection; None where the program has ended."""
        connection.is_answered(call.word)
        if reply is None:
            lost = "; it may be stored or not" if call.word == "commit" else ""
            connection.say(refusal("ProgramEnded", f"the program ended before it answered{lost}"))
            return
        self.answer(connection, self.heard(connection, call, reply)[1])

    def heard(self, connection: Connection, call: Call, reply: bytes) -> Tuple[str, bytes]:
        """Takes note of the reply to a call of a connection: the name of its refusal, if it is one,
        and what the connection is told."""
        word, text, refused = call.word, reply, ""
        if reply != NULL:
            text, made = connection.translation.reply(word, reply, self.made)
            self.counts.objects += made - self.made
            self.made = made
            if reply.startswith(b'{"error":'):
                refused = self.counts.refused(reply)
        if word in _NOTED:
            self._note(connection, call, refused)
        elif not refused and call.em in connection.managers:
            connection.managers[call.em].is_touched = True
        return refused, text

    def answer(self, connection: Connection, reply: bytes) -> None:
        """Tells a connection the reply to a line of its."""
        if not connection.is_closed:
            connection.say(reply)
            connection.heard = None
            connection.wake()
        if connection.is_ended:
            self.look_at_end(connection)

    def _note(self, connection: Connection, call: Call, refused: str) -> None:
        """Takes note of what a call has done."""
        word = call.word
        if word == "index":
            if not refused:
                self._asked[_indexed(call.line)] = None
            return
        if word == "createEntityManager":
            if refused:
                self.created -= 1
                self.gate.give_back()
            else:
                number = max(connection.translation.managers.real_of)
                connection.managers[number] = Manager()
            return
        manager = connection.managers.get(call.em)
        if manager is None:
            return
        if word == "commit":
            self.counts.commits += not refused
            if (not refused or refused == "Rollback") and manager.since is not None:
                manager.since = None
                self.active -= 1
        elif refused:
            return
        elif word == "begin":
            manager.since = time.monotonic()
            self.active += 1
        elif word == "rollback":
            manager.since, manager.is_touched = None, False
            self.active -= 1
        elif word == "clear":
            manager.is_touched = False
        elif word == "close":
            del connection.managers[call.em]
            del connection.translation.managers.real_of[call.em]
            self.gate.give_back()
        elif word == "setFlushMode":
            manager.mode = call.line

    def _answered(self) -> None:
        """Replies have come. Who waits for one hears it before all else."""
        if self.told:
            self.tell()
        if self.still.awaiting and self.engine.is_idle:
            self.still.note_idle()
        self.renewal.look()
        self.dispatch()

    # ---- work beside lines

    def later(self, work: Coroutine[Any, Any, None]) -> None:
        """Does work beside all else."""
        task = asyncio.get_running_loop().create_task(work)
        self._tasks.add(task)
        task.add_done_callback(self._done)

    def _done(self, task: asyncio.Task[None]) -> None:
        self._tasks.discard(task)
        fault = None if task.cancelled() else task.exception()
        if fault is not None:
            log("fault", why=repr(fault))
            if not self.ended.done():
                self.ended.set_exception(fault)

    async def ask(self, line: bytes) -> Optional[bytes]:
        """The reply to a line of the server's own; None where the program has ended."""
        future: asyncio.Future[Optional[bytes]] = asyncio.get_running_loop().create_future()
        self.engine.send(line, future.set_result)
        self.engine.flush()
        return await future

    # ---- the end of the program

    def _program_ended(self) -> None:
        """The program has ended, and is started again; who had something of it is told so."""
        status = self.engine.program.status()
        log("program ended", status=status, objects=self.made, transactions=self.active)
        self.still.hold()
        self.engine.left()
        self.still.note_idle()
        self.active = self.made = self.created = 0
        self._asked = {}
        for connection in list(self.connections):
            is_lost = not connection.translation.is_empty
            connection.managers, connection.reserved = {}, 0
            if is_lost or connection.is_ended:
                why = "the program ended: what was not committed is lost; connect again"
                connection.close("ProgramEnded", why)
                self.look_at_end(connection)
            connection.wake()  # What it sent behind a line that wasn't answered is still its turn.
        self.gate.begun(0)
        self.tell()
        if self.is_ending:
            self.end(4)
        else:
            self.later(self._start_again())

    async def _start_again(self) -> None:
        loop = asyncio.get_running_loop()
        for attempt in range(1, _MOST_STARTS + 1):
            try:
                program = await loop.run_in_executor(None, self._start)
                break
            except KarzhoulError as fault:
                log("program not started", attempt=attempt, why=str(fault))
                if attempt == _MOST_STARTS:
                    self.end(4)
                    return
                await asyncio.sleep(1)
        self.engine.close()
        self.engine = Engine(program, self._answered, self._program_ended, self._files)
        self.counts.programs += 1
        log("program started", process=program.pid)
        self.still.let_go()
        self.renewal.release()
        self.dispatch()

    def end(self, status: int) -> None:
        """Ends the server with a status."""
        if not self.ended.done():
            self.ended.set_result(status)

    async def close(self) -> None:
        """Ends all connections, and the program."""
        for connection in list(self.connections):
            # Who waits for nothing hears nothing, since the reply before may still be on its way.
            connection.close("Closed" if connection.has_lines else "", "the server has ended")
        self.tell()
        until = time.monotonic() + 1
        while self.closing and time.monotonic() < until:
            await asyncio.sleep(0.01)
            self.closing = {it: at for it, at in self.closing.items() if not it.is_gone}
        for connection in [*self.closing, *self.connections]:
            connection.drop()
        await asyncio.sleep(0)
        self.engine.close()


def _nothing(_: Optional[bytes]) -> None:
    """What comes of a line that nobody waits for."""


def _indexed(line: bytes) -> Tuple[str, str]:
    """What a line says to look up."""
    said: Dict[str, str] = json.loads(line)
    return said["entity"], said["name"]


def _peer(transport: asyncio.Transport) -> str:
    """Who a connection is of, as far as that is known."""
    peer = transport.get_extra_info("peername")
    if isinstance(peer, tuple):
        return f"{peer[0]}:{peer[1]}"
    try:
        asked = socket.SOL_SOCKET, socket.SO_PEERCRED, struct.calcsize("3i")
        told = transport.get_extra_info("socket").getsockopt(*asked)
        return f"process {struct.unpack('3i', told)[0]}"
    except (OSError, AttributeError):
        return "this machine"
