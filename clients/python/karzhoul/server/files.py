"""Sockets and pipes that are waited for. The event loop of asyncio does that too, and takes longer
over each than the server does over a line. So while something comes all the time it is waited for
here, and the loop has its turn now and then."""

from __future__ import annotations

import asyncio
import select
import time
from typing import Callable, Dict, Protocol

# After how much silence the loop has its turn, and after how long at the latest, in seconds.
_SILENCE, _LONGEST = 0.001, 0.01
_TOGETHER = 256


class Files(Protocol):
    """Calls what is to be done where a file can be read or written, or has ended. An event loop is
    one."""

    def add_reader(self, fd: int, callback: Callable[[], None]) -> object:
        """Whenever it can be read."""

    def remove_reader(self, fd: int) -> object:
        """Not any more, if it was."""

    def add_writer(self, fd: int, callback: Callable[[], None]) -> object:
        """Whenever it can be written."""

    def remove_writer(self, fd: int) -> object:
        """Not any more, if it was."""


def files_beside(loop: asyncio.AbstractEventLoop) -> Files:
    """Those that are waited for beside a loop, or by the loop itself on a system without `epoll`.
    They are for one whose connections all come here: those that the loop itself reads would wait
    for its turn."""
    if hasattr(select, "epoll"):
        return _Files(loop)
    return loop


class _Files:
    """Files of one `epoll`, which is itself one of the loop's."""

    def __init__(self, loop: asyncio.AbstractEventLoop) -> None:
        self._epoll = select.epoll()
        self._readers: Dict[int, Callable[[], None]] = {}
        self._writers: Dict[int, Callable[[], None]] = {}
        self._masks: Dict[int, int] = {}
        loop.add_reader(self._epoll.fileno(), self._serve)

    def add_reader(self, fd: int, callback: Callable[[], None]) -> None:
        """Whenever it can be read."""
        self._readers[fd] = callback
        self._note(fd)

    def remove_reader(self, fd: int) -> None:
        """Not any more, if it was."""
        if self._readers.pop(fd, None) is not None:
            self._note(fd)

    def add_writer(self, fd: int, callback: Callable[[], None]) -> None:
        """Whenever it can be written."""
        self._writers[fd] = callback
        self._note(fd)

    def remove_writer(self, fd: int) -> None:
        """Not any more, if it was."""
        if self._writers.pop(fd, None) is not None:
            self._note(fd)

    def _note(self, fd: int) -> None:
        mask = select.EPOLLIN if fd in self._readers else 0
        mask |= select.EPOLLOUT if fd in self._writers else 0
        before = self._masks.pop(fd, 0)
        if mask:
            self._masks[fd] = mask
        if before and not mask:  # Else its end would be told all the time.
            self._epoll.unregister(fd)
        elif not before:
            self._epoll.register(fd, mask)
        elif before != mask:
            self._epoll.modify(fd, mask)

    def _serve(self) -> None:
        """Calls what is to be called, as long as something comes."""
        poll, readers, writers = self._epoll.poll, self._readers, self._writers
        until = time.monotonic() + _LONGEST
        wait = 0.0
        while came := poll(wait, _TOGETHER):
            for fd, event in came:
                if event & ~select.EPOLLOUT and fd in readers:
                    readers[fd]()
                if event & ~select.EPOLLIN and fd in writers:
                    writers[fd]()
            if time.monotonic() > until:
                return
            wait = _SILENCE
