"""New runs of the program: its numbers are used up some time, and `restart` gives them anew, at a
moment at which that takes nothing from those who are connected but what they are told. When one
is due `Gate` says."""

from __future__ import annotations

import time
from typing import TYPE_CHECKING, Dict, Optional

from .gate import DUE, LAST, LATE
from .logs import log
from .refusals import NULL, refusal
from .translation import CREATE

if TYPE_CHECKING:
    from .connection import Connection
    from .service import Service

_RESTART = b'{"call":"restart"}'


class Renewal:
    """Begins new runs for a service, and has those wait who would begin a transaction before."""

    def __init__(self, service: Service) -> None:
        self._service = service
        self._is_under_way = False
        # Those who wait to begin a transaction, and until when.
        self._held: Dict[Connection, float] = {}

    # ---- those who wait for it

    def refused_now(self, connection: Connection, is_within: bool) -> Optional[bytes]:
        """The refusal of a transaction that a connection would begin, which has another one open or
        not; None where it waits, and asks again then."""
        now = time.monotonic()
        if is_within or self._held.get(connection, now + 1) < now:
            # It waits no more, and may wait for something else next.
            self._held.pop(connection, None)
            why = "few objects of the run are left, and a new one waits for transactions to end"
            return refusal("Limit", why)
        self._held.setdefault(connection, now + self._service.settings.wait)
        connection.is_blocked = True
        return None

    def is_last(self) -> bool:
        """Whether so few numbers are left that nobody begins a transaction any more."""
        return self._service.used >= LAST

    def leave(self, connection: Connection) -> None:
        """One waits no more."""
        self._held.pop(connection, None)

    def release(self) -> None:
        """Those who waited to begin go on."""
        for connection in list(self._held):
            connection.is_blocked = False
            connection.wake()
        self._held.clear()

    def look_after(self, now: float) -> None:
        """Those go on who waited long enough."""
        gate = self._service.gate
        if gate.is_over(now) and not self.is_last():
            gate.go_on()
            self.release()
        for connection, until in list(self._held.items()):
            if until < now:
                connection.is_blocked = False
                connection.wake()

    # ---- the new run

    def look(self) -> None:
        """Begins a new run, or has those who begin wait for one, where it is time."""
        service = self._service
        if (service.made < DUE and service.created < DUE) or self._is_under_way:
            return
        if not service.gate.taken or (service.used >= LATE and not service.active):
            self._is_under_way = True
            service.later(self.renew())
        else:
            service.gate.hold(service.used, time.monotonic())

    async def renew(self) -> None:
        """Begins a new run, where still no transaction is open."""
        service = self._service
        try:
            async with service.still():
                late = service.used >= LATE
                if service.active or (service.gate.taken and not late):
                    return
                if await service.ask(_RESTART) != NULL:
                    return
                service.counts.restarts += 1
                log("restart", objects=service.made, managers=service.created)
                service.made = service.created = 0
                await self._keep()
        finally:
            self._is_under_way = False
            service.gate.go_on()
            self.release()

    async def _keep(self) -> None:
        """Creates the managers again that hold nothing; all else is of before the restart."""
        service, count = self._service, 0
        for connection in service.connections:
            kept: Dict[int, int] = {}
            for number, manager in list(connection.managers.items()):
                if manager.is_touched:
                    del connection.managers[number]
                    continue
                told = await service.ask(CREATE)
                if told is None:
                    return
                service.created += 1
                kept[number] = int(told[told.rindex(b":") + 1 : -1])
                if manager.mode:
                    mode = manager.mode[manager.mode.index(b',"mode"') :]
                    front = b'{"call":"setFlushMode","em":%d' % kept[number]
                    await service.ask(front + mode)
            count += len(kept) + connection.reserved
            connection.translation.objects.restarted()
            connection.translation.managers.restarted(kept)
        service.gate.begun(count)
