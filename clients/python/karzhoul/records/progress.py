"""How far a piece of work is, in one line of a terminal."""

from __future__ import annotations

import sys
import time
from contextlib import AbstractContextManager
from typing import Callable, Optional, TextIO

# A line is written so many times a second at most.
_TIMES = 10


class Progress(AbstractContextManager["Progress"]):
    """One line with the rows that are done, how many a second, and the time left. It stands on a
    terminal alone: a pipe and a file get none."""

    def __init__(
        self,
        total: int,
        stream: Optional[TextIO] = None,
        clock: Callable[[], float] = time.monotonic,
    ) -> None:
        self._total, self._stream, self._clock = total, stream or sys.stderr, clock
        self._start = self._last = clock()
        self._width = 0

    def __call__(self, done: int) -> None:
        """Tells that so many rows are done."""
        now = self._clock()
        if done < self._total and self._width and now - self._last < 1 / _TIMES:
            return
        self._last = now
        seconds = max(now - self._start, 0.001)
        left = round((self._total - done) * seconds / max(done, 1))
        rate = f"{done / seconds:,.0f} a second, {left // 60}:{left % 60:02} left"
        self._write(f"{done:,} of {self._total:,} rows, {rate}")

    def __exit__(self, *_: object) -> None:
        """Takes the line away."""
        if self._width:
            self._write("")

    def _write(self, line: str) -> None:
        if self._stream.isatty():
            self._stream.write(f"\r{line:<{self._width}}" + ("" if line else "\r"))
            self._stream.flush()
            self._width = len(line)
