"""A connection: the lines that come from it, in their order, and the replies that go to it. It is
read no further than its bounds, and so one that sends without reading waits for itself."""

from __future__ import annotations

import asyncio
import secrets
import time
from collections import deque
from typing import TYPE_CHECKING, Deque, Dict, List, Optional, Union, cast

from ..refusals import MOST_LINE_BYTES
from .refusals import refusal
from .translation import BEGIN, LONG, Ahead, Before, Translation

if TYPE_CHECKING:
    from .service import Service

# So many bytes are read at a time, and no more once so many wait; and so many lines are on their
# way at a time.
_CHUNK = _WAITING = 1 << 16
_AHEAD = 32
# What is held for who doesn't read, beyond which no line of its is handed on.
_UNREAD = 1 << 18
# Calls whose answers may be long: one of them is on its way at a time.
_LONG_ANSWERS = {"query", "values", "get"}
OWN = b'{"serve":'
# The place of a line that is too long.
_TOO_LONG = b""
# A view, of which TLS takes parts.
_room = memoryview(bytearray(_CHUNK))


class Manager:
    """An open manager of a connection."""

    __slots__ = ("since", "is_touched", "mode")

    def __init__(self) -> None:
        # Since when its transaction is open; whether it may hold anything; its flush mode.
        self.since: Optional[float] = None
        self.is_touched = False
        self.mode = b""


class Connection(asyncio.BufferedProtocol):
    """One of the connections of a service."""

    def __init__(self, service: Service, is_trusted: bool) -> None:
        """It is trusted where it needs no token."""
        self._service = service
        self.is_trusted = is_trusted
        self.number, self.peer = 0, ""
        # By which another connection of the same client names it.
        self.key = secrets.token_hex(16)
        self.wait: float = service.settings.wait
        self.translation: Translation = Translation()
        self.managers: Dict[int, Manager] = {}
        # How many managers it may create that were kept free for it, and until when.
        self.reserved: int = 0
        self.reserved_until: float = 0.0
        self.began: float = time.monotonic()
        # When it was last seen to have been heard or answered; None where it was since.
        self.heard: Optional[float] = None
        self.half_since: Optional[float] = None
        # The line that is coming, and those that have come.
        self._pieces: List[bytes] = []
        self.coming = 0
        self._lines: Deque[bytes] = deque()
        self._waiting = 0
        self._replies: List[bytes] = []
        # How many of its lines are on their way, and whether a long answer is.
        self.sent: int = 0
        self._is_long = False
        # Whether it waits for its turn, has its turn, doesn't read, or isn't read.
        self.is_blocked: bool = False
        self.is_ready = False
        self.is_full = self._is_paused = False
        # Whether its end has come: it sends no more, or is closed.
        self.is_ended = self.is_closed = False
        self.is_gone: bool = False
        self._drained: Optional[asyncio.Future[None]] = None
        self._transport: Optional[asyncio.Transport] = None

    # ---- what comes

    def connection_made(self, transport: asyncio.BaseTransport) -> None:
        """It is there."""
        self._transport = cast(asyncio.Transport, transport)
        self._transport.set_write_buffer_limits(high=_UNREAD)
        self._service.add(self, self._transport)

    def get_buffer(self, sizehint: int) -> memoryview:
        """Where its bytes are read to: one place for all, since each takes its own at once."""
        return _room

    def buffer_updated(self, count: int) -> None:
        """So many bytes have come."""
        self.take(bytes(_room[:count]))

    def take(self, data: bytes) -> None:
        """These bytes have come."""
        self.heard = None
        pieces = data.split(b"\n")
        if len(pieces) == 2 and pieces[0] and not pieces[1] and not self.coming:
            self._lines.append(pieces[0])  # As below, of one line that came whole.
            self._waiting += len(data)
        else:
            self._add(pieces[0])
            for piece in pieces[1:]:
                self._end_line()
                self._add(piece)
            self.half_since = None if not self.coming else self.half_since or time.monotonic()
        if self._waiting > _WAITING or (self.coming > _CHUNK and not self._service.has_room()):
            self._pause()
        self.wake()
        self._service.dispatch()

    def _add(self, piece: bytes) -> None:
        if piece and self.coming <= MOST_LINE_BYTES:
            self._pieces.append(piece)
            if self.coming + len(piece) > MOST_LINE_BYTES:
                self._pieces.clear()
            self._service.note_coming(self.coming, self.coming + len(piece))
            self.coming += len(piece)

    def _end_line(self) -> None:
        line = _TOO_LONG if self.coming > MOST_LINE_BYTES else b"".join(self._pieces) or b" "
        self._drop_coming()
        self._lines.append(line)
        self._waiting += len(line) + 1

    def _drop_coming(self) -> None:
        self._service.note_coming(self.coming, 0)
        self._pieces.clear()
        self.coming = 0

    def _pause(self) -> None:
        if not self._is_paused and self._transport is not None:
            self._is_paused = True
            self._transport.pause_reading()

    def read_on(self) -> None:
        """Goes on to read it, where there is room."""
        if self._is_paused and self._waiting <= _WAITING and self._transport is not None:
            if self.coming <= _CHUNK or self._service.has_room():
                self._is_paused = False
                self._transport.resume_reading()

    def eof_received(self) -> None:
        """It sends no more. What has come whole is still answered."""
        self.is_ended = True
        self._drop_coming()
        self._service.look_at_end(self)

    def connection_lost(self, fault: Optional[Exception]) -> None:
        """It is gone."""
        self.is_ended = self.is_closed = self.is_gone = True
        self._has_drained()
        self._drop_coming()
        self._lines.clear()
        self._replies.clear()
        self._service.look_at_end(self)

    # ---- its lines, in their turn

    @property
    def has_lines(self) -> bool:
        """Whether lines of its wait."""
        return bool(self._lines)

    def wake(self) -> None:
        """Gives it a turn, where lines of its wait."""
        if self._lines and not self.is_ready and not self.is_closed:
            self.is_ready = True
            self._service.ready.append(self)

    def step(self) -> bool:
        """Hands its next line on; whether it has another one, and may have another turn."""
        if not self._lines or self.is_blocked or self.is_full or self.is_closed:
            return False
        if self._is_long or self.sent >= _AHEAD:
            return False
        line = self._lines[0]
        is_settled = self.sent == 0
        if not self.is_trusted or (line.startswith(OWN) and line != BEGIN):
            if is_settled:
                self.take_line()
                self._service.serve(self, line)
            return is_settled and bool(self._lines)
        try:
            call = LONG if line is _TOO_LONG else self.translation.call(line, is_settled)
        except Ahead:
            return False
        except Before as fault:
            if is_settled:
                self.take_line()
                self._service.refuse(self, refusal("Restarted", str(fault)))
            return is_settled and bool(self._lines)
        is_taken = self._service.hand_on(self, call)
        if is_taken:
            self.take_line()
        return is_taken and bool(self._lines)

    def take_line(self) -> None:
        """Takes its next line off, which is answered or handed on."""
        if self._lines:
            self._waiting -= len(self._lines.popleft()) + 1
        if self._is_paused:
            self.read_on()

    def is_sent(self, word: str) -> None:
        """A call of this name was handed on."""
        self.sent += 1
        if word in _LONG_ANSWERS:
            self._is_long = True

    def is_answered(self, word: str) -> None:
        """A call of this name was answered."""
        self.sent -= 1
        if word in _LONG_ANSWERS:
            self._is_long = False

    # ---- what goes

    def say(self, reply: bytes) -> None:
        """Tells it a reply, at the next `flush`."""
        if not self._replies:
            self._service.told.append(self)
        self._replies.append(reply)

    def flush(self) -> None:
        """Sends it what it was told."""
        if self._replies and self._transport is not None and not self.is_closed:
            self._replies.append(b"")
            self._transport.write(b"\n".join(self._replies))
        self._replies.clear()

    def send(self, data: Union[bytes, memoryview]) -> None:
        """Sends it bytes behind what it was told."""
        self.flush()
        if self._transport is not None and not self.is_closed:
            self._transport.write(data)

    async def drained(self) -> None:
        """Waits until it has read enough to be sent more."""
        if self.is_full and not self.is_gone:
            self._drained = asyncio.get_running_loop().create_future()
            await self._drained

    def _has_drained(self) -> None:
        if self._drained is not None and not self._drained.done():
            self._drained.set_result(None)

    @property
    def unread(self) -> int:
        """How many bytes it hasn't read."""
        return 0 if self._transport is None else self._transport.get_write_buffer_size()

    def pause_writing(self) -> None:
        """It doesn't read."""
        self.is_full = True
        self._service.full[self] = time.monotonic()

    def resume_writing(self) -> None:
        """It has read."""
        self.is_full = False
        self._service.full.pop(self, None)
        self._has_drained()
        self.wake()
        self._service.dispatch()

    def close(self, name: str = "", why: str = "") -> None:
        """Ends it: each line that wasn't handed on is refused so. Where there is none, and nothing
        else is told, the reason is told all the same."""
        if self.is_closed:
            return
        if name:
            for _ in range(len(self._lines) or not self._replies):
                self.say(refusal(name, why))
        self._lines.clear()
        self.flush()
        self.is_ended = self.is_closed = True
        if self._transport is not None:
            self._transport.close()
        self._service.look_at_end(self)

    def drop(self) -> None:
        """Ends it at once, and forgets what it hasn't read."""
        if self._transport is not None:
            self._transport.abort()
