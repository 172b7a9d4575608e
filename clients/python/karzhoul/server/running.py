"""A server that runs, from its first connection to its end."""

from __future__ import annotations

import asyncio
import os
import resource
import signal
import socket
import stat
from contextlib import suppress
from pathlib import Path
from typing import Callable, List, Union

from ..store.program import Program
from ..refusals import Misused
from .address import Address
from .connection import Connection
from .files import files_beside
from .logs import log
from .metrics import Metrics
from .notify import notify
from .plain import Listener
from .service import Service
from .settings import Listening, Served, Settings

_BACKLOG = 1024
# How long what is under way may still take once those that were open have had their time.
_UNDER_WAY = 1.0


def serve(
    settings: Settings, listening: Listening, start: Callable[[], Program], served: Served
) -> int:
    """Serves until it is told to end by a signal; its status."""
    try:
        sockets = [_listening(listening.address, listening.mode)]
    except OSError as fault:
        told = f"nobody can listen at {listening.address}: {fault.strerror or fault}"
        raise OSError(told) from fault
    try:
        _raise_files(settings.most_connections)
        program = start()
        try:
            return asyncio.run(_serve(settings, listening, sockets, start, program, served))
        finally:
            program.close()
    finally:
        for each in sockets:
            each.close()
        if listening.address.path:
            with suppress(OSError):
                os.unlink(listening.address.path)


async def _serve(
    settings: Settings, listening: Listening, sockets: List[socket.socket],
    start: Callable[[], Program], program: Program, served: Served,
) -> int:
    loop = asyncio.get_running_loop()
    files = files_beside(loop) if listening.tls is None else loop
    service = Service(settings, start, program, served, files)
    is_trusted = bool(listening.address.path) or settings.token is None
    server = await _server(listening, sockets[0], service, is_trusted)
    metrics = Metrics(service)
    if listening.metrics is not None:
        await metrics.listen(listening.metrics)
    ending = _Ending(service, server)
    for number in (signal.SIGTERM, signal.SIGINT):
        loop.add_signal_handler(number, ending.begin)
    log("serving", address=str(listening.address), process=os.getpid(), program=program.pid)
    notify("READY=1")
    looking = loop.create_task(_look_after(service))
    try:
        status = await service.ended
    finally:
        looking.cancel()
        server.close()
        metrics.close()
        await service.close()
    log("ended", status=status)
    return status


async def _server(
    listening: Listening, listener: socket.socket, service: Service, is_trusted: bool
) -> Union[Listener, asyncio.AbstractServer]:
    if listening.tls is None:
        return Listener(listener, lambda made: service.connect(made, is_trusted))
    return await asyncio.get_running_loop().create_server(
        lambda: Connection(service, is_trusted), sock=listener, ssl=listening.tls,
        backlog=_BACKLOG,
    )


async def _look_after(service: Service) -> None:
    while True:
        await asyncio.sleep(min(1.0, service.settings.idle / 4, service.settings.half_line / 4))
        service.watch.look()


class _Ending:
    """The end of a server that is told to end: nothing is begun, and what is open may end."""

    def __init__(
        self, service: Service, server: Union[Listener, asyncio.AbstractServer]
    ) -> None:
        self._service, self._server = service, server

    def begin(self) -> None:
        """Begins it; told again, the server ends at once."""
        service = self._service
        if service.is_ending:
            service.end(0)
            return
        log("ending", transactions=service.active, seconds=service.settings.grace)
        notify("STOPPING=1")
        service.is_ending = True
        self._server.close()
        service.later(self._wait())
        # Also where a call is under way then that takes longer.
        loop = asyncio.get_running_loop()
        loop.call_later(service.settings.grace + _UNDER_WAY, service.end, 0)

    async def _wait(self) -> None:
        service, loop = self._service, asyncio.get_running_loop()
        until = loop.time() + service.settings.grace
        while service.active and loop.time() < until:
            await asyncio.sleep(0.02)
        async with service.still():
            log("ending now", transactions=service.active)
            service.end(0)
            await asyncio.sleep(0)


def _listening(address: Address, mode: int) -> socket.socket:
    """A socket that listens at an address. One of the file system that a server has left, which
    was killed, is taken."""
    if not address.path:
        family = socket.AF_INET6 if ":" in address.host else socket.AF_INET
        made = socket.socket(family, socket.SOCK_STREAM)
        made.setsockopt(socket.SOL_SOCKET, socket.SO_REUSEADDR, 1)
        made.setsockopt(socket.SOL_SOCKET, socket.SO_KEEPALIVE, 1)
        return _bound(made, (address.host, address.port))
    _take_left(address)
    before = os.umask(0o777 & ~mode)
    try:
        return _bound(socket.socket(socket.AF_UNIX, socket.SOCK_STREAM), address.path)
    finally:
        os.umask(before)


def _bound(made: socket.socket, place: object) -> socket.socket:
    try:
        made.bind(place)  # type: ignore[arg-type]
        made.listen(_BACKLOG)
        return made
    except BaseException:
        made.close()
        raise


def _take_left(address: Address) -> None:
    path = Path(address.path)
    if not path.exists():
        return
    if not stat.S_ISSOCK(path.stat().st_mode):
        raise Misused(f"{path} is there already, and is no socket")
    with suppress(ConnectionRefusedError):
        address.connected().close()
        raise Misused(f"a server listens at {address} already")
    path.unlink()


def _raise_files(connections: int) -> None:
    """Lets the process have a file open for each connection, as far as it may."""
    soft, hard = resource.getrlimit(resource.RLIMIT_NOFILE)
    wanted = connections + 100
    if soft != resource.RLIM_INFINITY and soft < wanted:
        most = wanted if hard == resource.RLIM_INFINITY else min(wanted, hard)
        resource.setrlimit(resource.RLIMIT_NOFILE, (most, hard))
