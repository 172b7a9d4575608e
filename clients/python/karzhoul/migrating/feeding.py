"""A program that is told lines without end, while its replies go to a file: so the client makes the
next lines while the program is at these."""

from __future__ import annotations

import json
import queue
import threading
from collections import deque
from pathlib import Path
from subprocess import PIPE, Popen
from typing import Any, Deque, Dict, List, Mapping, Optional, Tuple

from ..store.opening import what_bars_writing, why_unopened
from ..store.program import refusal_told
from ..records.records import Key, named
from ..refusals import KarzhoulError, ProgramEnded, StoreFault

# So many texts of lines wait at most.
_WAITING = 4
_AT_ONCE = 1 << 20
_REFUSED = b'{"error"'
About = Tuple[int, str, Optional[Key]]
"""The line at which begins what is told of an object, and its class and key."""


class Feed:
    """A program over a new file. Its first refusal is raised by the next `tell`, or by `close`."""

    def __init__(self, program: str, mapping: Dict[str, Any], db: Path) -> None:
        said, self._replies = db.with_suffix(".json"), db.with_suffix(".replies")
        self._errors, self._db = db.with_suffix(".errors"), db
        said.write_text(json.dumps(mapping), encoding="utf-8")
        words = [program, "--mapping", str(said), "--db", str(db)]
        with self._replies.open("wb") as out, self._errors.open("wb") as errors:
            self._process = Popen(
                words, stdin=PIPE, stdout=out, stderr=errors, bufsize=0, start_new_session=True
            )
        self._texts: queue.Queue[Optional[bytes]] = queue.Queue(_WAITING)
        self._read = self._replies.open("rb")
        self._rest = b""
        self._lines, self._answered = 0, 0
        self._about: Deque[About] = deque()
        self._writer = threading.Thread(target=self._write, daemon=True)
        self._writer.start()

    def _write(self) -> None:
        """Hands the texts over; after the program's end they are let go."""
        assert self._process.stdin is not None
        is_on = True
        while (text := self._texts.get()) is not None:
            try:
                if is_on:
                    self._process.stdin.write(text)
            except OSError:
                is_on = False
        try:
            self._process.stdin.close()
        except OSError:
            pass

    def tell(self, lines: List[str], about: List[About]) -> None:
        """Tells lines, with where those begin in them that are about each object."""
        self._about.extend((self._lines + at, entity, key) for at, entity, key in about)
        self._lines += len(lines)
        self._texts.put(("\n".join(lines) + "\n").encode())
        is_over = self._process.poll() is not None
        self._look()
        if is_over:
            raise self._ended()

    def _look(self) -> None:
        """Raises the first refusal among the replies that are there."""
        while more := self._read.read(_AT_ONCE):
            text, _, self._rest = (self._rest + more).rpartition(b"\n")
            at = 0 if text.startswith(_REFUSED) else text.find(b"\n" + _REFUSED) + 1
            if text.startswith(_REFUSED, at):
                self._answered += text.count(b"\n", 0, at) + 1
                error = json.loads(text[at:].partition(b"\n")[0])["error"]
                raise KarzhoulError(self._why(error))
            self._answered += text.count(b"\n") + bool(text)
            while len(self._about) > 1 and self._about[1][0] < self._answered:
                self._about.popleft()

    def _why(self, error: Mapping[str, Any]) -> str:
        """A refusal in words."""
        word = f"{error['name']}({error['why']})" if "why" in error else str(error["name"])
        if word == "StoreFault":
            bar = what_bars_writing(self._db, self._process.pid)
            return f"StoreFault: the new store {self._db} can't be written: {bar}"
        return f"{self._object()}: the program refuses it in the new store: {word}"

    def _object(self) -> str:
        """What the last reply is about."""
        return next(
            (named(entity, key) for at, entity, key in reversed(self._about)
             if at < self._answered), "the new file"
        )

    def close(self) -> None:
        """Ends the input, and waits for all to be done; a `ProgramEnded` where it wasn't."""
        self._texts.put(None)
        self._writer.join()
        status = self._process.wait()
        try:
            self._look()
        finally:
            self._read.close()
        if status != 0 or self._answered != self._lines:
            raise self._ended()

    def _ended(self) -> KarzhoulError:
        """Why the program ended before all was done."""
        status, told = self._process.wait(), self._errors.read_text(errors="replace")
        found = refusal_told(status, told)
        if isinstance(found, StoreFault):
            found.why = f"the new store {self._db} can't be opened: {why_unopened(self._db)}"
        return found or ProgramEnded(status, told)

    def stop(self) -> None:
        """Ends the program at once."""
        self._process.kill()
        self._process.wait()
        self._read.close()
        if self._writer.is_alive():
            self._texts.put(None)
            self._writer.join()
