"""What is looked at each second: who is silent too long, doesn't read, sends no whole line or never
shows a token, what waits too long, and a call that takes too long."""

from __future__ import annotations

import time
from typing import TYPE_CHECKING

from .logs import log

if TYPE_CHECKING:
    from .connection import Connection
    from .service import Service


class Watch:
    """Looks after the connections of a service."""

    def __init__(self, service: Service) -> None:
        self._service = service

    def look(self) -> None:
        """Ends those who keep what others need, and lets those go on who waited long enough."""
        service, now = self._service, time.monotonic()
        settings = service.settings
        service.gate.refuse_late(now)
        service.renewal.look_after(now)
        for connection in list(service.connections):
            self._look_at(connection, now)
        for connection, since in list(service.closing.items()):
            if connection.is_gone or now - since > settings.half_line:
                connection.drop()
                del service.closing[connection]
        if sum(it.unread for it in service.full) > settings.unread_room:
            max(service.full, key=lambda it: it.unread).drop()
        since_call = service.engine.waits_since()
        if settings.most_call and since_call and now - since_call > settings.most_call:
            log("call took too long", seconds=settings.most_call)
            service.engine.program.stop()
        service.dispatch()

    def _look_at(self, connection: Connection, now: float) -> None:
        service = self._service
        settings = service.settings
        connection.read_on()
        if connection.heard is None:
            connection.heard = now
        if connection.reserved and connection.reserved_until < now:
            connection.reserved -= 1
            service.gate.give_back()
        half, full = connection.half_since, service.full.get(connection)
        if half is not None and now - half > settings.half_line:
            connection.close("Closed", f"no whole line came for {settings.half_line:g} seconds")
        elif not connection.is_trusted and now - connection.began > settings.half_line:
            connection.close("Denied", "no token came")
        elif full is not None and now - full > settings.half_line:
            log("connection reads nothing", connection=connection.number, unread=connection.unread)
            connection.drop()
        elif connection.managers and not connection.sent and not connection.has_lines:
            if now - connection.heard > settings.idle:
                why = f"it was silent for {settings.idle:g} seconds with a manager open"
                log("connection silent", connection=connection.number, peer=connection.peer)
                connection.close("Closed", f"{why}: what was not committed is rolled back")
