"""The server's own calls, `{"serve":".."}`: who one is, what is served, a turn at a manager, the
status, the indexes, and a backup. They are no calls of the program."""

from __future__ import annotations

import hmac
import json
import math
import os
import time
from typing import TYPE_CHECKING, Any, Dict

from ..session.places import MOST
from .copying import Copy
from .counts import memory_of
from .refusals import NULL, answer, refusal

if TYPE_CHECKING:
    from .connection import Connection
    from .service import Service

# How long a manager is kept free for a connection that was granted one by another.
_KEPT = 10.0
_LONGEST = 1 << 12


class Turned:
    """A connection that waits for a manager in another one's place, which serves meanwhile."""

    def __init__(
        self, service: Service, connection: Connection, other: Connection, wait: float
    ) -> None:
        self._service, self.connection, self._other = service, connection, other
        self._wait, self.until = wait, time.monotonic() + wait
        connection.is_blocked = True

    def let_in(self) -> None:
        """The other one may create a manager."""
        if self._other.is_closed:
            self._service.gate.taken -= 1
            self._end(refusal("BadLine", "the connection with this key is closed"))
            return
        self._other.reserved += 1
        self._other.reserved_until = time.monotonic() + _KEPT
        self._end(NULL)

    def refuse(self) -> None:
        """None became free in time."""
        refused = self._service.no_manager(f"none became free within {self._wait:g} seconds")
        self._service.counts.refused(refused)
        self._end(refused)

    def _end(self, reply: bytes) -> None:
        self.connection.say(reply)
        self.connection.is_blocked = False
        self.connection.wake()


class Own:
    """Does the calls of the server's own."""

    def __init__(self, service: Service) -> None:
        self._service = service

    def serve(self, connection: Connection, line: bytes) -> None:
        """Does one. Who isn't trusted may say who it is, and nothing else."""
        said: Dict[str, Any] = {}
        try:
            read = json.loads(line) if len(line) <= _LONGEST else None
            said = read if isinstance(read, dict) else {}
        except (ValueError, RecursionError):
            pass
        word = said.get("serve")
        if word == "hello":
            self._hello(connection, said)
        elif not connection.is_trusted:
            connection.close("Denied", "the first line is to show the server's token")
        elif word == "status":
            connection.say(answer(self.status()))
        elif word == "turn":
            self._turn(connection, said)
        elif word == "backup":
            self._backup(connection)
        elif word == "indexes":
            connection.say(answer(self._service.indexes()))
        else:
            why = 'there are {"serve":"hello"}, "status", "indexes", "turn" and "backup"'
            self._service.refuse(connection, refusal("BadLine", why))

    def _hello(self, connection: Connection, said: Dict[str, Any]) -> None:
        token, settings = said.get("token"), self._service.settings
        if settings.token is not None and not connection.is_trusted:
            shown = token.encode(errors="replace") if isinstance(token, str) else b""
            if not hmac.compare_digest(shown, settings.token):
                connection.close("Denied", f"the token is {'another one' if shown else 'missing'}")
                return
        connection.is_trusted = True
        connection.wait = _seconds(said.get("wait"), settings.wait)
        served = self._service.served
        told = {"key": connection.key, "language": served.language, "wait": settings.wait}
        reply = answer(told)
        if said.get("mapping") is True:
            reply = reply[:-2] + b',"mapping":%b}}' % served.mapping
        connection.say(reply)

    # ---- a turn at a manager

    def _turn(self, connection: Connection, said: Dict[str, Any]) -> None:
        service, key = self._service, said.get("for")
        other = next((it for it in service.connections if it.key == key), None)
        if other is None:
            service.refuse(connection, refusal("BadLine", "no connection has this key"))
        elif len(other.managers) + other.reserved >= MOST:
            service.refuse(connection, service.no_manager("and the connection itself has all"))
        else:
            wait = _seconds(said.get("wait"), service.settings.wait)
            service.gate.wait(Turned(service, connection, other, wait))
            service.gate.let_in()

    # ---- what is told

    def status(self) -> Dict[str, Any]:
        """What is told of the server as it is now."""
        service, now = self._service, time.monotonic()
        counts, program = service.counts, service.engine.program
        connections = [
            {
                "connection": it.number, "peer": it.peer, "seconds": round(now - it.began, 1),
                "managers": len(it.managers), "unread": it.unread,
                "transactions": sorted(
                    round(now - each.since, 1) for each in it.managers.values() if each.since
                ),
            }
            for it in service.connections
        ]
        return {
            "started": counts.started, "connections": connections,
            "connections_made": counts.connections, "managers": service.gate.taken,
            "waiting": service.gate.waiting, "transactions": service.active,
            "objects": service.made, "objects_made": counts.objects, "lines": counts.lines,
            "commits": counts.commits, "refusals": dict(counts.refusals),
            "restarts": counts.restarts, "programs": counts.programs,
            "memory": {"program": memory_of(program.pid), "server": memory_of(os.getpid())},
            "process": program.pid, "ending": service.is_ending,
        }

    # ---- a backup

    def _backup(self, connection: Connection) -> None:
        connection.is_blocked = True
        self._service.later(Copy(self._service, connection).send())


def _seconds(said: object, most: float) -> float:
    """How long one waits that says so, at most so many seconds."""
    if isinstance(said, (int, float)) and not isinstance(said, bool) and math.isfinite(said):
        return min(max(float(said), 0.0), most)
    return most
