"""The program of a server: lines go to it in turn, and each reply to whom its line belongs. Nothing
waits for it but who asked: its pipes are read and written as far as they go."""

from __future__ import annotations

import asyncio
import os
import time
from collections import deque
from contextlib import suppress
from typing import Callable, Deque, List, Optional

from ..store.program import Program
from .files import Files

Take = Callable[[Optional[bytes]], None]
_CHUNK = 1 << 16  # As much as a pipe holds, and little enough to be kept at hand.


class Engine:
    """A program that runs, and what it was sent and hasn't answered."""

    def __init__(
        self, program: Program, answered: Callable[[], None], ended: Callable[[], None],
        files: Files,
    ) -> None:
        """`answered` is called once the replies that came are taken, `ended` where the program
        has ended by itself."""
        self.program = program
        self._answered, self._ended = answered, ended
        self._loop, self._files = asyncio.get_running_loop(), files
        self._in, self._out = program.pipes()
        # What the reply to a line is handed to that was sent; None in its place where the program
        # has ended. And since when the first of them is under way.
        self.asked: Deque[Take] = deque()
        self._since = 0.0
        # What is to be written at the next `flush`.
        self.lines: List[bytes] = []
        self._unwritten = b""
        # Whether nothing is read of it any more.
        self._is_over = False
        # The pieces of a reply that hasn't come whole.
        self._pieces: List[bytes] = []
        for pipe in (self._in, self._out):
            os.set_blocking(pipe, False)
        self._files.add_reader(self._out, self._read)

    def __len__(self) -> int:
        """How many lines it hasn't answered."""
        return len(self.asked)

    @property
    def is_idle(self) -> bool:
        """Whether it has answered all that it was sent."""
        return not self.asked

    def waits_since(self) -> Optional[float]:
        """Since when the line is under way that it works at; None where there is none."""
        return self._since if self.asked else None

    def send(self, line: bytes, take: Take) -> None:
        """Sends a line, at the next `flush`. Of a program that has ended it is told so, since
        nobody would else."""
        if self._is_over:
            self._loop.call_soon(take, None)
            return
        if not self.asked:
            self._since = time.monotonic()
        self.lines.append(line)
        self.asked.append(take)

    def flush(self) -> None:
        """Writes what was sent, as far as the pipe takes it."""
        if not self.lines or self._is_over:
            return
        text = b"\n".join(self.lines) + b"\n"
        self.lines.clear()
        if self._unwritten:
            self._unwritten += text
            return
        self._write(text)
        if self._unwritten:
            self._files.add_writer(self._in, self._written)

    def _write(self, text: bytes) -> None:
        try:
            self._unwritten = text[os.write(self._in, text) :]
        except BlockingIOError:
            self._unwritten = text
        except BrokenPipeError:  # Its end is read.
            self._unwritten = b""

    def _written(self) -> None:
        """Goes on to write."""
        self._write(self._unwritten)
        if not self._unwritten:
            self._files.remove_writer(self._in)

    def _read(self) -> None:
        """Takes the replies that have come."""
        try:
            chunk = os.read(self._out, _CHUNK)
        except BlockingIOError:
            return
        if not chunk:
            self._stop_pipes()
            self._ended()
            return
        replies = chunk.split(b"\n")
        rest = replies.pop()
        if replies and self._pieces:
            replies[0] = b"".join((*self._pieces, replies[0]))
            self._pieces.clear()
        if rest:
            self._pieces.append(rest)
        asked = self.asked
        for reply in replies:
            if not asked:  # It told more than it was asked.
                self.program.kill()
                return
            asked.popleft()(reply)
        if replies:
            if asked:
                self._since = time.monotonic()
            self._answered()

    def left(self) -> None:
        """Tells those whose lines weren't answered that the program has ended."""
        while self.asked:
            self.asked.popleft()(None)

    def _stop_pipes(self) -> None:
        if self._is_over:
            return
        self._is_over = True
        self._files.remove_reader(self._out)
        with suppress(ValueError, OSError):
            self._files.remove_writer(self._in)

    def close(self) -> None:
        """Ends the program's input, and waits for its end."""
        self._stop_pipes()
        self.program.close()
