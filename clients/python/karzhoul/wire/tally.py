"""What went to the program and what came back: counted, and told line by line where that is
wanted, on standard error (`echo`) or by the logger `karzhoul`."""

from __future__ import annotations

import html
import logging
import sys
import threading
from collections import Counter
from dataclasses import dataclass
from typing import Dict, Iterable, List, Mapping, Optional, Sequence, Tuple

from ..refusals import Refused

LOGGER = logging.getLogger("karzhoul")
MOST_OBJECTS = 1_000_000
_EVENTS = {
    b'["PostLoad",': "loaded", b'["PostPersist",': "inserted", b'["PostUpdate",': "changed",
    b'["PostRemove",': "removed",
}
_LOADED, _NO_EVENTS = b'["PostLoad",', b'{"events":[],'
# So many characters of a line or a reply are told.
_MOST = 2_000
_MOST_WAITING = 200
_OTHER = b"other"


@dataclass(frozen=True)
class Statistics:
    """What a factory has asked since it was opened."""

    calls: Mapping[str, int]
    """How many calls there were of each name."""
    refusals: Mapping[str, int]
    """How many were refused, by the `word` of a refusal."""
    seconds: float
    """How long their replies were waited for."""
    slowest: Optional[Tuple[float, str]]
    """The call that alone was waited for the longest, after its seconds."""
    objects: Mapping[str, int]
    """How many objects were `loaded`, and how many `inserted`, `changed` and `removed` by flushes,
    be they committed or not."""
    made: int
    """How many objects this run of the program has made, loads counted."""
    retries: int = 0
    """How often `retry` and `attempts` did work again: since another manager's commit came first,
    or since the program had ended."""

    @property
    def left(self) -> int:
        """How many more this run can make; a `restart` begins another one."""
        return MOST_OBJECTS - self.made

    def _repr_html_(self) -> str:
        return f"<pre>{html.escape(str(self))}</pre>"

    def __str__(self) -> str:
        lines = [
            f"{sum(self.calls.values()):,} calls in {self.seconds:.2f} s: {_listed(self.calls)}",
            f"objects: {self.made:,} made in this run, {self.left:,} left; {_listed(self.objects)}",
        ]
        if self.refusals:
            lines.append(f"refused: {_listed(self.refusals)}")
        if self.retries:
            lines.append(f"done again by retry and attempts: {self.retries:,} times")
        if self.slowest is not None:
            lines.append(f"slowest: {_span(self.slowest[0])}: {_cut(self.slowest[1])}")
        return "\n".join(lines)


def _listed(counts: Mapping[str, int]) -> str:
    return ", ".join(f"{name} {count:,}" for name, count in counts.items()) or "none"


class Tally:
    """Counts calls and events, and tells lines. `echo` says whether they are told on standard
    error."""

    def __init__(self, echo: bool) -> None:
        self.echo = echo
        self._calls: Counter[bytes] = Counter()
        self._objects: Dict[str, int] = dict.fromkeys(_EVENTS.values(), 0)
        self._refusals: Counter[str] = Counter()
        self._seconds = self._longest = 0.0
        self._slowest = b""
        self._retries = 0
        self._lock = threading.Lock()
        # The lines that are still to be counted.
        self._waiting: List[bytes] = []

    def note(self, lines: Sequence[bytes], replies: List[bytes], seconds: float) -> None:
        """Notes lines that were answered together."""
        self._seconds += seconds
        waiting = self._waiting
        waiting += lines
        if len(lines) == 1:
            text = replies[0]
            if seconds > self._longest:
                self._longest, self._slowest = seconds, lines[0]
        else:
            text = b"\n".join(replies)
        if len(waiting) > _MOST_WAITING:
            self._count()
        if len(lines) == 1 and text.startswith(_NO_EVENTS):
            pass  # As below, without a look at long values.
        elif (posts := text.count(b'["Post')) and posts == text.count(_LOADED):
            self._objects["loaded"] += posts
        elif posts:
            # No value has these, since a quote within a text is escaped.
            for front, name in _EVENTS.items():
                self._objects[name] += text.count(front)
        if self.echo or LOGGER.isEnabledFor(logging.DEBUG):
            self._tell_lines(lines, replies, seconds)

    def _count(self) -> None:
        """Counts the lines that are waiting to be, which takes less time for many together."""
        lines, self._waiting = self._waiting, []
        if not lines:
            return
        text, left = b"\n%b" % b"\n".join(lines), len(lines)
        # Most lines that are sent together are of one call or two.
        counted = {_call(lines[0]), _call(lines[-1])} - {_OTHER}
        for name in counted:
            count = text.count(b'\n{"call":"%b"' % name)
            self._calls[name] += count
            left -= count
        if left:
            self._calls.update(name for name in map(_call, lines) if name not in counted)

    def leave_out(self, events: Iterable[str]) -> None:
        """Leaves out of the objects those of which these events were told."""
        for event in events:
            name = _EVENTS.get(b'["%b",' % event.encode())
            if name is not None:
                self._objects[name] -= 1

    def refused(self, refused: Iterable[Refused]) -> None:
        """Counts refusals."""
        self._refusals.update(each.word for each in refused)

    def note_retry(self) -> None:
        """Counts a piece of work that is done again; threads may do so at one time."""
        with self._lock:
            self._retries += 1

    def statistics(self, made: int) -> Statistics:
        """What was counted."""
        self._count()
        calls = {name.decode(): count for name, count in self._calls.most_common()}
        refusals = dict(self._refusals.most_common())
        slowest = None
        if self._slowest:
            slowest = (self._longest, self._slowest.decode(errors="replace"))
        return Statistics(
            calls, refusals, self._seconds, slowest, {**self._objects}, made, self._retries
        )

    # ---- told line by line

    def _tell_lines(
        self, lines: Sequence[bytes], replies: Sequence[bytes], seconds: float
    ) -> None:
        """Tells each line with its reply and its time; of lines that were sent together the time is
        that of all."""
        for place, (line, reply) in enumerate(zip(lines, replies), 1):
            span = _span(seconds)
            time = span if len(lines) == 1 else f"{place} of {len(lines)} together in {span}"
            self._tell(f"{_shown(line)} -> {_shown(reply)} ({time})")

    def tell_fault(self, lines: Sequence[bytes], fault: BaseException) -> None:
        """Tells lines that got no replies, or not all."""
        if self.echo or LOGGER.isEnabledFor(logging.DEBUG):
            more = f" and {len(lines) - 1} more" if len(lines) > 1 else ""
            self._tell(f"{_shown(lines[0])}{more} -> no reply: {fault}")

    def _tell(self, words: str) -> None:
        if self.echo:
            print(f"karzhoul: {words}", file=sys.stderr)
        LOGGER.debug("%s", words)


def _call(line: bytes) -> bytes:
    """The name of a line's call."""
    return line[9 : line.find(b'"', 9)] if line.startswith(b'{"call":"') else _OTHER


def _span(seconds: float) -> str:
    return f"{seconds:.2f} s" if seconds >= 1 else f"{seconds * 1000:.2f} ms"


def _shown(data: bytes) -> str:
    return _cut(data.decode(errors="replace"))


def _cut(text: str) -> str:
    return text if len(text) <= _MOST else f"{text[:_MOST]}.. ({len(text):,} characters)"
