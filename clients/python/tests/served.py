"""Servers for tests: within this process, and as processes of their own."""

from __future__ import annotations

import asyncio
import json
import socket
import threading
from pathlib import Path
from typing import Any, Coroutine, List, Mapping, Optional, Union

from karzhoul.store.starting import started
from karzhoul.store.program import Program
from karzhoul.server.files import files_beside
from karzhoul.server.plain import Listener
from karzhoul.server.service import Service
from karzhoul.server.settings import Served, Settings

from .support import PROGRAM

SECONDS = 120


class Here:
    """A server in a thread of this process, to which sockets lead that it makes itself."""

    def __init__(
        self, mapping: Union[Path, Mapping[str, Any]], db: Path, settings: Optional[Settings] = None,
        language: Any = "profile", listen: Optional[Path] = None, is_trusted: bool = True,
    ) -> None:
        """With the path of a socket at which it listens, if it does; whether those who connect
        there show no token."""
        assert PROGRAM is not None
        word = PROGRAM
        said = json.loads(mapping.read_bytes()) if isinstance(mapping, Path) else mapping
        told = json.dumps(said).encode()

        def start() -> Program:
            return started(word, told, str(db), None, language)

        self._start, self._served = start, Served(told, language)
        self._settings = settings or Settings()
        self._path, self._is_trusted = listen, is_trusted
        self._ready = threading.Event()
        self._thread = threading.Thread(target=lambda: asyncio.run(self._run()), daemon=True)
        self._thread.start()
        assert self._ready.wait(SECONDS)

    async def _run(self) -> None:
        self._loop = asyncio.get_running_loop()
        files = files_beside(self._loop)
        self.service = Service(self._settings, self._start, self._start(), self._served, files)
        server: Optional[Listener] = None
        if self._path is not None:
            listening = socket.socket(socket.AF_UNIX)
            listening.bind(str(self._path))
            listening.listen()
            server = Listener(
                listening, lambda made: self.service.connect(made, self._is_trusted)
            )
        self._ready.set()
        looking = self._loop.create_task(self._look_after())
        await self.service.ended
        looking.cancel()
        if server is not None:
            server.close()
        await self.service.close()

    async def _look_after(self) -> None:
        while True:
            await asyncio.sleep(0.05)
            self.service.watch.look()

    def connected(self, is_trusted: bool = True) -> socket.socket:
        """A socket that leads to it."""
        mine, its = socket.socketpair()
        mine.settimeout(SECONDS)
        self._loop.call_soon_threadsafe(self.service.connect, its, is_trusted)
        return mine

    def later(self, work: Coroutine[Any, Any, None]) -> None:
        """Has it do work beside all else."""
        self._loop.call_soon_threadsafe(self.service.later, work)

    def close(self) -> None:
        """Ends it."""
        self._loop.call_soon_threadsafe(self.service.end, 0)
        self._thread.join(SECONDS)


class Talk:
    """Lines over a socket, and their replies."""

    def __init__(self, connected: socket.socket) -> None:
        self.socket = connected
        self._file = connected.makefile("rb")

    def ask(self, *lines: str) -> List[Any]:
        """The replies to lines that are sent together."""
        self.socket.sendall("".join(f"{line}\n" for line in lines).encode())
        return [json.loads(self.reply()) for _ in lines]

    def reply(self) -> bytes:
        """The next reply; none where there is an end."""
        return self._file.readline().rstrip(b"\n")

    def close(self) -> None:
        """Ends it."""
        self._file.close()
        self.socket.close()
