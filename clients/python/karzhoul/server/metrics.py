"""The metrics of a server in the text form that Prometheus reads, over HTTP."""

from __future__ import annotations

import asyncio
from contextlib import suppress
from typing import TYPE_CHECKING, List, Optional

from .address import Address

if TYPE_CHECKING:
    from .service import Service

_HEAD = (
    "HTTP/1.1 {status}\r\nContent-Type: text/plain; version=0.0.4; charset=utf-8\r\n"
    "Content-Length: {length}\r\nConnection: close\r\n\r\n"
)
_SECONDS, _LONGEST = 10, 1 << 13


class Metrics:
    """Answers who asks `GET /metrics`."""

    def __init__(self, service: Service) -> None:
        self._service = service
        self._server: Optional[asyncio.AbstractServer] = None

    async def listen(self, address: Address) -> None:
        """Listens at an address."""
        self._server = await asyncio.start_server(
            self._asked, address.host, address.port, limit=_LONGEST
        )

    def close(self) -> None:
        """Listens no more."""
        if self._server is not None:
            self._server.close()

    async def _asked(self, reader: asyncio.StreamReader, writer: asyncio.StreamWriter) -> None:
        with suppress(OSError, ValueError, asyncio.IncompleteReadError, asyncio.TimeoutError,
                      asyncio.LimitOverrunError):
            asked = await asyncio.wait_for(reader.readuntil(b"\r\n\r\n"), _SECONDS)
            is_found = asked.startswith((b"GET /metrics ", b"GET / "))
            text = self.text() if is_found else "there is /metrics\n"
            status = "200 OK" if is_found else "404 Not Found"
            writer.write((_HEAD.format(status=status, length=len(text)) + text).encode())
            await asyncio.wait_for(writer.drain(), _SECONDS)
        writer.close()

    def text(self) -> str:
        """The metrics."""
        told = self._service.own.status()
        ages = [age for each in told["connections"] for age in each["transactions"]]
        lines: List[str] = []
        for name, kind, about, value in (
            ("connections", "gauge", "Connections that are open.", len(told["connections"])),
            ("connections_total", "counter", "Connections there were.", told["connections_made"]),
            ("managers", "gauge", "Managers that are open, of 16.", told["managers"]),
            ("managers_waiting", "gauge", "Who waits for a manager.", told["waiting"]),
            ("transactions", "gauge", "Transactions that are open.", told["transactions"]),
            ("transaction_oldest_seconds", "gauge", "Age of the oldest.", max(ages, default=0)),
            ("objects", "gauge", "Objects of this run, of 1,000,000.", told["objects"]),
            ("objects_total", "counter", "Objects made, loads counted.", told["objects_made"]),
            ("lines_total", "counter", "Lines handed on to the program.", told["lines"]),
            ("commits_total", "counter", "Commits that were accepted.", told["commits"]),
            ("restarts_total", "counter", "Runs begun again.", told["restarts"]),
            ("programs_total", "counter", "Programs started.", told["programs"]),
            ("started_seconds", "gauge", "When it was started.", told["started"]),
        ):
            lines += _metric(name, kind, about, [f" {value}"])
        memory = [f'{{of="{of}"}} {size}' for of, size in told["memory"].items() if size]
        lines += _metric("memory_bytes", "gauge", "Resident memory.", memory)
        refused = [f'{{name="{name}"}} {count}' for name, count in told["refusals"].items()]
        lines += _metric("refusals_total", "counter", "Refusals by their names.", refused)
        return "\n".join(lines) + "\n"


def _metric(name: str, kind: str, about: str, values: List[str]) -> List[str]:
    front = f"karzhoul_{name}"
    return [f"# HELP {front} {about}", f"# TYPE {front} {kind}", *[front + it for it in values]]
