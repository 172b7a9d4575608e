"""Connections that aren't ciphered: their sockets are written at once as far as they take it."""

from __future__ import annotations

import asyncio
import errno
import socket
from contextlib import suppress
from typing import TYPE_CHECKING, Any, Callable, Optional

from .files import Files
from .logs import log

if TYPE_CHECKING:
    from .connection import Connection

# How many connections are taken at a time; what there may be too little of for another one, and how
# long that is waited for, in seconds.
_TOGETHER = 64
# How much is read at a time.
_CHUNK = 1 << 16
_SCARCE = {errno.EMFILE, errno.ENFILE, errno.ENOBUFS, errno.ENOMEM}
_PAUSE = 1.0


class Plain(asyncio.Transport):
    """The socket of a connection, as the transports of asyncio are: what is written and not taken
    yet is kept, and beyond a bound the connection is told so."""

    def __init__(self, files: Files, made: socket.socket, connection: Connection) -> None:
        """It belongs to this, and closes it. In a running event loop."""
        super().__init__()
        made.setblocking(False)
        if made.family != socket.AF_UNIX:
            made.setsockopt(socket.IPPROTO_TCP, socket.TCP_NODELAY, 1)
        self._files, self._socket, self._connection = files, made, connection
        self._loop, self._fd = asyncio.get_running_loop(), made.fileno()
        # What isn't taken yet, and from how much on the connection is told.
        self._unsent, self._most = bytearray(), 1 << 16
        self._is_full = self._is_closing = self._is_over = False
        connection.connection_made(self)
        self.resume_reading()

    def get_extra_info(self, name: str, default: Any = None) -> Any:
        """The `socket`, or who is at its other end (`peername`)."""
        if name == "peername":
            with suppress(OSError):  # It has gone.
                return self._socket.getpeername()
        return self._socket if name == "socket" else default

    # ---- what comes

    def pause_reading(self) -> None:
        """Reads no more for now."""
        self._files.remove_reader(self._fd)

    def resume_reading(self) -> None:
        """Reads on."""
        if not self._is_closing:
            self._files.add_reader(self._fd, self._read)

    def _read(self) -> None:
        try:
            data = self._socket.recv(_CHUNK)
        except BlockingIOError:
            return
        except OSError as fault:
            self._end(fault)
            return
        if data:
            self._connection.take(data)
            return
        self.pause_reading()
        self._connection.eof_received()  # Which leaves it open.

    # ---- what goes

    def set_write_buffer_limits(
        self, high: Optional[int] = None, low: Optional[int] = None
    ) -> None:
        """Has the connection told where more than so many bytes aren't taken."""
        assert high is not None
        self._most = high

    def get_write_buffer_size(self) -> int:
        """How many bytes aren't taken."""
        return len(self._unsent)

    def write(self, data: Any) -> None:
        """Sends bytes, at once if they are taken."""
        if self._is_over:
            return
        sent = 0 if self._unsent else self._sent(data)
        if sent == len(data) or self._is_over:
            return
        if not self._unsent:
            self._files.add_writer(self._fd, self._write_on)
        self._unsent += data[sent:] if sent else data
        if len(self._unsent) > self._most and not self._is_full:
            self._is_full = True
            self._connection.pause_writing()

    def _sent(self, data: Any) -> int:
        """How many of these bytes were taken."""
        try:
            return self._socket.send(data)
        except BlockingIOError:
            return 0
        except OSError as fault:
            self._end(fault)
            return 0

    def _write_on(self) -> None:
        del self._unsent[: self._sent(self._unsent)]
        if not self._unsent:
            self._files.remove_writer(self._fd)
            if self._is_closing:
                self._end(None)
        if self._is_full and len(self._unsent) <= self._most // 4 and not self._is_over:
            self._is_full = False
            self._connection.resume_writing()

    # ---- its end

    def is_closing(self) -> bool:
        """Whether it ends, or has ended."""
        return self._is_closing

    def close(self) -> None:
        """Ends it, once all is taken."""
        if not self._is_closing:
            self._is_closing = True
            self.pause_reading()
            if not self._unsent:
                self._end(None)

    def abort(self) -> None:
        """Ends it now."""
        self._end(None)

    def _end(self, fault: Optional[Exception]) -> None:
        if self._is_over:
            return
        self._is_closing = self._is_over = True
        self._unsent.clear()
        self._files.remove_reader(self._fd)
        self._files.remove_writer(self._fd)
        # Not at once, since the connection may be about to use it.
        self._loop.call_soon(self._close, fault)

    def _close(self, fault: Optional[Exception]) -> None:
        try:
            self._connection.connection_lost(fault)
        finally:
            self._socket.close()


class Listener:
    """Takes the connections of a socket that listens."""

    def __init__(self, listening: socket.socket, took: Callable[[socket.socket], None]) -> None:
        """`took` is called with each. In a running event loop."""
        listening.setblocking(False)
        self._socket, self._took = listening, took
        self._loop = asyncio.get_running_loop()
        self._is_closed = False
        self._listen()

    def _listen(self) -> None:
        if not self._is_closed:
            self._loop.add_reader(self._socket.fileno(), self._take)

    def _take(self) -> None:
        for _ in range(_TOGETHER):
            try:
                made, _ = self._socket.accept()
            except (BlockingIOError, ConnectionAbortedError):
                return
            except OSError as fault:
                if fault.errno not in _SCARCE:
                    raise
                log("connection not taken", why=str(fault))
                self._loop.remove_reader(self._socket.fileno())
                self._loop.call_later(_PAUSE, self._listen)
                return
            self._took(made)

    def close(self) -> None:
        """Takes no more, and closes the socket."""
        if not self._is_closed:
            self._is_closed = True
            self._loop.remove_reader(self._socket.fileno())
            self._socket.close()
