"""A server in the place of a program of one's own (`karzhoul serve`): lines go to it over a
connection, and all else is as with a file."""

from __future__ import annotations

import json
import os
import select
import socket
import time
import weakref
from contextlib import suppress
from copy import copy
from pathlib import Path
from types import ModuleType
from typing import (
    TYPE_CHECKING, Any, ContextManager, Dict, Iterable, List, Mapping, Optional, Sequence, Type,
    Union,
)

from ..store import program as programs
from ..objects.entities import Entity
from ..session.factory import EntityManagerFactory
from ..session.opening import are_classes, check_no_lock
from ..session.places import Places, check_wait
from ..store.program import Exchange, Program, ended_within
from ..refusals import (
    Disconnected, GivenUp, KarzhoulError, NoFreeManager, ProgramEnded, ProgramNotFound, Restarted,
)
from .way import Tls, Way

if TYPE_CHECKING:
    from ..session.runs import Run

_REFUSED = b'{"error":{"name":"'
# What a server itself says of a connection, beside the refusals of the program.
_RESTARTED, _ENDED = "Restarted", {"Closed", "Denied", "ProgramEnded"}
# Its own call's answer was under way when the program ended, which it may be the cause of.
_WITHIN = "before it answered"
# Of a server that is ending: it keeps the connection, for what that has open.
_BEGINS_NOTHING = ("creates no manager", "begins no transaction")
_AGAIN = 0.1


class Connected(Program):
    """A connection to a server. Not for use by two threads at a time."""

    def __init__(self, way: Way, wait: Optional[float]) -> None:
        """Connects. A manager of the server is waited for so many seconds."""
        self._way, self._wait = way, wait
        self._socket = way.connected()
        self.words: Sequence[programs.Words] = (str(way),)
        self._here = programs._here
        self._in = self._out = (self._socket.fileno(),)
        self._ended: List[bool] = []
        self._end = weakref.finalize(self, _shut, self._socket, self._ended)
        self._reading = select.poll()
        self._reading.register(self._socket, select.POLLIN)
        # It has no `pid`: the server's program is perhaps none of this machine.
        self.fault: Optional[KarzhoulError] = None
        self.run = None
        self._is_stopped = False
        # Whether the server is ending, and lets transactions end meanwhile.
        self._is_ending = False
        # Of lines that were let go: how many bytes were written of each, and what was read.
        self._written: List[int] = []
        self._heard: List[bytes] = []
        # What the server told of itself.
        self.served: Dict[str, Any] = {}

    def start(self) -> None:
        """Says who it is, and hears what is served. A server that doesn't want it says why, which
        is a `Disconnected`."""
        try:
            self._socket.sendall(self._way.hello(wait=0, mapping=True))
            with self._socket.makefile("rb") as replies:
                told = replies.readline()
        except ConnectionError as fault:
            raise Disconnected(0, f"{self._way}: {fault}") from fault
        if not told.endswith(b"\n"):
            raise Disconnected(0, f"{self._way} ended it at once")
        said = json.loads(told)
        if "ok" not in said:
            raise Disconnected(0, str(said["error"].get("why", said["error"]["name"])))
        self.served = said["ok"]

    def again(self, asked: Optional[float]) -> Program:
        """Another connection to the same server, which may be starting meanwhile, for who has waited
        since then."""
        until = self._patience(asked)
        while True:
            try:
                return started(self._way, self._wait)
            except (Disconnected, OSError):
                if time.monotonic() > until:
                    raise
            time.sleep(_AGAIN)

    def _patience(self, asked: Optional[float] = None) -> float:
        """Until when a server is waited for."""
        begun = time.monotonic() if asked is None else asked
        return begun + (30.0 if self._wait is None else self._wait)

    def has_ended(self) -> bool:
        """Whether the connection has: of a server's end a call tells."""
        return self.fault is not None

    def await_end(self, lock: ContextManager[Any]) -> None:
        """Where the server is ending, waits until it has let this connection go: other threads may
        end meanwhile what they have open. The lock is that of calls."""
        until = self._patience()
        while self._is_ending:
            with lock:
                if self._is_let_go():
                    return
            if time.monotonic() > until:
                raise Disconnected(0, f"{self._way} is ending, and still has transactions open")
            time.sleep(_AGAIN)

    def _is_let_go(self) -> bool:
        if self.fault is None:
            with suppress(ConnectionError):
                if not self._have_answered(time.monotonic()):
                    return False
            if self._has_ended(0):
                self.fault = Disconnected(0, f"{self._way} ended it")
        return self.fault is not None

    def replies(self, exchange: Exchange, timeout: Optional[float] = None) -> List[bytes]:
        """As of a program. What the server says of the connection itself is raised: `Restarted`
        where a number is of before a restart, and `Disconnected` where it has ended."""
        try:
            if self._written and self.fault is None:
                self._hear(exchange, timeout)
            replies = super().replies(exchange, timeout)
        except ConnectionError as fault:
            self.fault = Disconnected(0, f"{self._way}: {fault}")
            raise ended_within(self.fault, exchange) from fault
        except Disconnected:
            if isinstance(self.fault, Disconnected):
                self.fault._thread = None  # It was no call's doing.
            raise
        for reply in replies:
            if reply.startswith(_REFUSED):
                self._look_at(reply, exchange)
        return replies

    begins = True

    def let_go(self, run: Run, line: bytes) -> bool:
        """Sends a line, whose reply is read before the next one's."""
        if self.fault is not None or self.run is not run or self._here is not programs._here:
            return False
        try:
            self._written += map(os.write, self._in, (line + b"\n",))
        except ConnectionError:  # Which the next call is told.
            pass
        return True

    def _hear(self, exchange: Exchange, timeout: Optional[float]) -> None:
        """Reads the replies of lines that were let go before an exchange, whose time they share."""
        if not self._have_answered(None if timeout is None else time.monotonic() + timeout):
            why = f"the call before wasn't answered within {timeout} seconds"
            raise ended_within(self._given_up(why), exchange)

    def _have_answered(self, deadline: Optional[float]) -> bool:
        """Reads the replies of lines that were let go; whether all came in time, or none comes."""
        while sum(chunk.count(b"\n") for chunk in self._heard) < len(self._written):
            if deadline is not None and not self._comes(deadline):
                return False
            self._heard += map(os.read, self._out, (1 << 16,))
            if not self._heard[-1]:
                break
        self._written, self._heard = [], []
        return True

    def _look_at(self, reply: bytes, exchange: Exchange) -> None:
        error = json.loads(reply)["error"]
        name, why = error["name"], error.get("why", "")
        if name == _RESTARTED:
            raise Restarted(why)
        if name in _ENDED:
            ended = Disconnected(0, why)
            if why.endswith(_BEGINS_NOTHING):
                self._is_ending = True
            elif self._has_ended(200):
                self.fault = ended
            told = copy(ended_within(ended, exchange))
            if _WITHIN not in why:
                ended._thread = told._thread = None
                told.may_be_stored = False
            raise told

    def _has_ended(self, milliseconds: int) -> bool:
        """Whether the server has ended the connection, or does so within that time."""
        if not self._reading.poll(milliseconds):
            return False
        with suppress(OSError):
            return not self._socket.recv(1, socket.MSG_PEEK)
        return True

    def turn(self, wait: Optional[float]) -> bool:
        """Waits until a manager of the server is kept free for this connection, by another one, so
        that calls go on meanwhile."""
        while True:
            why = self._turned(self.served["wait"] if wait is None else wait)
            if why is None:
                return True
            if wait is not None:
                raise NoFreeManager(why)

    def _turned(self, wait: float) -> Optional[str]:
        """Waits so many seconds for a manager; why none came."""
        asked = {"serve": "turn", "for": self.served["key"], "wait": wait}
        try:
            other = self._way.connected()
        except Disconnected:  # It listens no more.
            self._is_ending = True
            raise
        told = b""
        with other, other.makefile("rb") as replies, suppress(ConnectionError):
            other.sendall(self._way.hello() + json.dumps(asked).encode() + b"\n")
            told = [replies.readline(), replies.readline()][-1]
        if not told.endswith(b"\n"):
            raise Disconnected(0, f"{self._way} ended it while a manager was waited for")
        said = json.loads(told)
        return None if "ok" in said else str(said["error"]["why"])

    def why_unwritten(self) -> str:
        """Why a commit can't be written: the server's machine knows more."""
        way = "nothing of the commit is stored, and its transaction is still open"
        return f"the server at {self._way} can't write its store; {way}"

    def close(self) -> None:
        """Ends the connection: what isn't committed is rolled back."""
        self.fault = self.fault or ProgramEnded(None)
        self._end()

    def stop(self) -> None:
        """Ends the connection under a call that waits for its replies."""
        self._is_stopped = True
        self._shut()

    def _shut(self) -> None:
        """Neither sends nor takes more."""
        with suppress(OSError):
            self._socket.shutdown(socket.SHUT_RDWR)

    def kill(self) -> None:
        """Ends the connection."""
        self.close()

    def _why_it_ended(self) -> KarzhoulError:
        if self._is_stopped:
            return ProgramEnded(None)
        return Disconnected(0, f"{self._way} ended it")

    def _told_more(self) -> KarzhoulError:
        self._shut()
        return Disconnected(0, f"{self._way} told more than it was asked")

    def _given_up(self, why: str) -> GivenUp:
        ended = self.fault = _ConnectionGivenUp(0, why)
        self._shut()
        return ended


class _ConnectionGivenUp(GivenUp):
    """The connection was ended. The program goes on with the call, and rolls back then."""

    def _how(self) -> str:
        return f"the connection to the server was ended: {self.told}"


def started(way: Way, wait: Optional[float]) -> Connected:
    """A connection that was told what is served."""
    made = Connected(way, wait)
    try:
        made.start()
        return made
    except BaseException:
        made.close()
        raise


def _shut(made: socket.socket, ended: List[bool]) -> None:
    ended.append(True)
    made.close()


def connect(
    address: str, classes: Union[None, ModuleType, Iterable[Type[Entity]]] = None, *,
    token: Union[None, str, bytes] = None, tls: Tls = None, echo: bool = False,
    threads: bool = False, wait: Optional[float] = 30.0, lock: Union[None, str, Path] = None,
) -> EntityManagerFactory:
    """Connects to a server (`karzhoul serve`) at an address, as `unix:/run/app.sock` or
    `tcp:127.0.0.1:7117`, and gives a factory as `open` does, over the server's mapping, or over
    these classes (a list of them or their module), which are to be those of the server.

    The server's 16 managers are shared: who finds none free waits for one in turn, at most `wait`
    seconds, and then it is `NoFreeManager`. With `threads` it is for a service of many threads, as
    `open` says. `token` is what the server's `--token-file` has; `tls` is True, or the file of the
    certificates to trust, or a context of the module `ssl`. A server that isn't there, or refuses
    the token, is a `Disconnected`, and classes that aren't the server's a `ProgramNotFound`.

    What needs the file isn't to be had: the server has it. So it has the indexes too, which its
    command names, and those that are `index=True` or `unique=True` in these classes are asked of
    it. A connection that ends rolls back what isn't committed; `reopen` connects again, and waits
    for the server as long.
    """
    check_wait(wait)
    way = Way(address, token, tls)

    def start(said: Optional[Mapping[str, Any]], binding: Any) -> EntityManagerFactory:
        running = started(way, wait)
        try:
            mapping = running.served["mapping"]
            if said is not None:
                check_alike(said, mapping, way)
            app = EntityManagerFactory(
                running, mapping, running.served["language"], echo, None, binding,
                index_lines=[] if binding is None else binding.index_lines(),
            )
            app._again = lambda: _again_of(app)
            app._managers.wait = wait
            if threads:
                app._places = Places(app, wait)
            return app
        except BaseException:
            running.kill()
            raise

    if classes is None:
        check_no_lock(lock)
        return start(None, None)
    if not are_classes(classes):
        raise TypeError("classes are given in a list, or as their module")
    from ..classes.changes import open_classes

    return open_classes(classes, lock, None, start)


def _again_of(app: EntityManagerFactory) -> Program:
    assert isinstance(app.program, Connected)
    return app.program.again(app._asked)


def check_alike(said: Mapping[str, Any], served: Mapping[str, Any], way: Way) -> None:
    """Refuses classes that make another mapping than the one that is served."""
    if json.loads(json.dumps(said)) == served:
        return
    ours, theirs = _entities(said), _entities(served)
    names = [name for name in {**ours, **theirs} if ours.get(name) != theirs.get(name)]
    told = f"these are other ones there: {', '.join(names)}" if names else "its functions are others"
    raise ProgramNotFound(
        f"{way} serves other classes, or the same by other numbers of karzhoul.lock.json; {told}"
    )


def _entities(mapping: Mapping[str, Any]) -> Dict[str, Any]:
    return {str(each.get("name")): each for each in mapping.get("entities", ())}
