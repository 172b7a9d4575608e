"""The program as a running process: lines go in, and a reply comes out for each, in their order."""

from __future__ import annotations

import math
import os
import re
import select
import signal
import sys
import tempfile
import threading
import time
import weakref
from contextlib import suppress
from copy import copy
from pathlib import Path
from subprocess import DEVNULL, PIPE, Popen, TimeoutExpired
from typing import (
    IO, TYPE_CHECKING, Any, ContextManager, Iterator, List, Optional, Sequence, Set, Tuple, Union,
)

from ..refusals import GivenUp, KarzhoulError, ProgramEnded, ProgramNotFound, Restarted, refusal_of

if TYPE_CHECKING:
    from ..session.runs import Run

_PATIENCE = 2.0
_CHUNK = (1 << 16,)
# How long a program may still take for its reply once it is interrupted a second time.
_GRACE = 1.0
# What a program must serve, and which one does.
HELLO = (b'{"call":"values","objects":[]}', b'{"call":"pending","em":0}')
_SHOWN = b'{"events":[],"ok":[]}'
NEEDED = "version 0.1.0 of 2026-11-29, or a later one"
# Ends the program's group at the end of input, which comes without a line where this process is
# killed, and removes what goes with it. A first line comes once the watch has been started: where
# that is interrupted, the folder stays, which may be that of a program before.
_WATCH = (
    'read -r line || { kill -KILL "-$1"; exit; }; '
    'read -r line || { kill -KILL "-$1"; [ -z "$2" ] || rm -rf -- "$2"; }'
)

# A call of commit, as no value spells it, in which quotes are escaped.
_COMMIT = re.compile(rb'"call"\s*:\s*"commit"')

Words = Union[str, "os.PathLike[str]"]


class _Part:
    """Lines that are written before the first of their replies is read, when all before them are
    answered: so a write never waits for a program that itself waits for its replies to be read."""

    __slots__ = ("text", "count", "written", "read")

    def __init__(self, text: bytes, count: int) -> None:
        self.text, self.count = text, count
        # How many bytes each write took, and what each read gave.
        self.written: List[int] = []
        self.read: List[bytes] = []


class Exchange:
    """Lines that go to the program together, and what came of them so far.

    It is whole at every moment, so that a call which is interrupted anywhere can be gone on with:
    what is still to be done is read off what is noted, and each system call is noted by the step of
    the interpreter that makes it (`notes += map(..)`). The handlers of signals, and so an
    interrupt, run between such steps alone.
    """

    # Whether they are so short that they are one part.
    is_short = False
    # Once they are sent: of several lines their parts.
    parts: Optional[Sequence[_Part]] = None

    def __init__(self, lines: Sequence[bytes], run: Optional[Run] = None) -> None:
        # Of what the lines name; None where they name nothing, until they are sent.
        self.run = run
        self.lines = lines
        # Of a single part.
        self.written: List[int] = []
        self.read: List[bytes] = []

    def start(self) -> None:
        """Parts the lines into a few short ones or one at a time. From now on they are sent, and
        none can be added."""
        self.parts = () if self.is_one() else list(_parts(self.lines))

    def is_one(self) -> bool:
        """Whether it is its own single part."""
        return self.is_short or len(self.lines) == 1

    def text(self) -> bytes:
        """What is written of it, where it is a single part."""
        return b"\n".join(self.lines) + b"\n"

    def waits(self) -> bool:
        """Whether the next of it to be done is to read replies."""
        left = [
            part
            for part in self._sent()
            if sum([chunk.count(b"\n") for chunk in part.read]) < part.count
        ]
        return bool(left) and sum(left[0].written) == len(left[0].text)

    def may_store(self) -> bool:
        """Whether a commit is among what was sent, as a whole or in part."""
        sent = b"".join([part.text for part in self._sent() if any(part.written)])
        return _COMMIT.search(sent) is not None

    def _sent(self) -> Sequence[_Part]:
        """The parts of what is sent."""
        if self.parts is None or not self.is_one():
            return self.parts or ()
        part = _Part(self.text(), len(self.lines))
        part.written, part.read = self.written, self.read
        return (part,)


def of_before(line: bytes) -> str:
    """What is said of a line that was made in a run which is over."""
    found = re.search(rb'"(em|object|objects)":\[?([0-9]+)', line)
    if found is None:
        return "the call is of before a restart"
    number = int(found[2])
    if found[1] == b"em":
        return f"manager {number} is of before a restart: create another one"
    return f"object {number} is of before a restart: make or find it again"


def ended_within(ended: ProgramEnded, exchange: Exchange) -> ProgramEnded:
    """The end of a program that came while an exchange was under way, as that tells it. All that
    are told later know whose it was."""
    ended._thread = threading.get_ident()
    told = copy(ended)
    told.may_be_stored = exchange.may_store()
    return told


def _parts(lines: Sequence[bytes]) -> Iterator[_Part]:
    if lines and sum(map(len, lines)) + len(lines) <= select.PIPE_BUF:  # As below, at once.
        yield _Part(b"%b\n" % b"\n".join(lines), len(lines))
        return
    together: List[bytes] = []
    size = 0
    for line in lines:
        size += len(line) + 1
        if size > select.PIPE_BUF and together:
            yield _Part(b"%b\n" % b"\n".join(together), len(together))
            together, size = [], len(line) + 1
        together.append(line)
    if together:
        yield _Part(b"%b\n" % b"\n".join(together), len(together))


class _Process(Popen[bytes]):
    """A process that can be collected where no function of Python runs: an interrupt that comes
    where such a function begins, called by the collector, is lost. Each is waited for by
    `_stopped`."""

    __del__ = object.__init__  # Does nothing, and is of C.


class Program:
    """A program that was started with these words. Not for use by two threads at a time.

    What it tells on standard error goes to a file, and is told where it ends.
    """

    def __init__(self, words: Sequence[Words], folder: Words = "") -> None:
        """With a folder that goes where this process is killed."""
        self.words, self._errors = words, tempfile.TemporaryFile()
        self._here = _here
        # In a group of its own, so that Ctrl-C at a terminal interrupts a call and doesn't end the
        # program.
        try:
            self._process = _Process(
                words, bufsize=0, stdin=PIPE, stdout=PIPE, stderr=self._errors,
                start_new_session=True,
            )
        except OSError as fault:
            self._errors.close()
            raise ProgramNotFound(f"{words[0]!r} can't be started: {fault.strerror}") from fault
        self._watch = _watch_of(self._process, folder)
        assert self._process.stdin is not None and self._process.stdout is not None
        # As `map` takes them.
        self._in, self._out = (self._process.stdin.fileno(),), (self._process.stdout.fileno(),)
        files = (self._process.stdin, self._process.stdout, self._errors)
        # Not empty once its files are closed, as at the interpreter's exit.
        self._ended: List[bool] = []
        self._end = weakref.finalize(self, _end, self._process, self._watch, self._ended, *files)
        self._reading = select.poll()
        self._reading.register(self._process.stdout, select.POLLIN)
        self.pid = self._process.pid
        # Why the program answers no more; None while it does.
        self.fault: Optional[KarzhoulError] = None
        # The run that is on.
        self.run: Optional[Run] = None
        # Whether it was ended as its owner wished.
        self._is_stopped = False

    def has_ended(self) -> bool:
        """Whether it has ended, also where no call has met that yet."""
        is_own = self._here is _here and not self._ended
        return self.fault is not None or is_own and self._process.poll() is not None

    def await_end(self, lock: ContextManager[Any]) -> None:
        """Waits for the end of what is ending: a program has ended, or it hasn't."""

    def replies(self, exchange: Exchange, timeout: Optional[float] = None) -> List[bytes]:
        """Does what is left to do of an exchange, and gives its replies. The program's end is a
        `ProgramEnded`, or the refusal that it ended with. A program that doesn't answer within
        so many seconds is ended, and so is one that is interrupted (by a `KeyboardInterrupt`) in
        an exchange that was interrupted before: both are a `GivenUp`. An exchange of another run
        than the one that is on is `Restarted`, and nothing of it is sent."""
        if (
            exchange.parts is None
            and (exchange.run is self.run or exchange.run is None)
            and (timeout is None and (len(exchange.lines) == 1 or exchange.is_short))
            and (self.fault is None and self._here is _here and not self._ended)
        ):
            # As below, in less time: of lines and replies that one system call takes each.
            exchange.run, exchange.parts = self.run, ()
            text, count = b"\n".join((*exchange.lines, b"")), len(exchange.lines)
            read = exchange.read
            try:
                exchange.written += map(os.write, self._in, (text,))
                if exchange.written[0] == len(text):
                    read += map(os.read, self._out, _CHUNK)
                    replies = read[0].split(b"\n")
                    if len(replies) == count + 1 and not replies.pop():
                        return replies
            except BrokenPipeError:
                pass  # What it told before its end is still read.
            return self._gone_on(exchange, timeout, False)
        self._require_on(exchange)
        return self._gone_on(exchange, timeout, exchange.parts is not None)

    def _require_on(self, exchange: Exchange) -> None:
        """Refuses an exchange where the program, or its run, is over."""
        if self._here is not _here:
            self.fault = ProgramEnded(None, "it is of the process that this one was forked from")
        if self._ended:  # The numbers of its files may be reused.
            self.fault = self.fault or ProgramEnded(None)
        if self.fault:
            raise copy(self.fault)  # Whose traceback is its own, and no one's before.
        if exchange.run is not self.run:
            if exchange.run is not None:
                raise Restarted(of_before(exchange.lines[0]))
            exchange.run = self.run

    def _gone_on(
        self, exchange: Exchange, timeout: Optional[float], was_interrupted: bool
    ) -> List[bytes]:
        """Does what is left to do of an exchange, and gives its replies."""
        deadline = None if timeout is None else time.monotonic() + timeout
        try:
            if exchange.parts is None:
                exchange.start()
            if exchange.is_one():
                text, count = exchange.text(), len(exchange.lines)
                return self._done(
                    text, count, exchange.written, exchange.read, timeout, deadline
                )
            replies: List[bytes] = []
            for part in exchange.parts or ():
                replies += self._done(
                    part.text, part.count, part.written, part.read, timeout, deadline
                )
            return replies
        except KeyboardInterrupt as interrupt:
            if was_interrupted and exchange.waits() and not self._comes(time.monotonic() + _GRACE):
                ended = self._given_up("a call was interrupted twice")
                raise ended_within(ended, exchange) from interrupt
            raise
        except ProgramEnded as ended:
            raise ended_within(ended, exchange) from None

    def _done(
        self, text: bytes, count: int, written: List[int], read: List[bytes],
        timeout: Optional[float], deadline: Optional[float],
    ) -> List[bytes]:
        """Does what is left to do of a part, and gives its replies."""
        try:
            if not written:
                written += map(os.write, self._in, (text,))
            if written[0] < len(text):
                while (done := sum(written)) < len(text):
                    written += map(os.write, self._in, (text[done:],))
        except BrokenPipeError:
            pass  # What it told before its end is still read.
        left = count
        if read:  # What an interrupted call has read already is counted again.
            left -= b"".join(read).count(b"\n")
        while left > 0:
            if deadline is not None and not self._comes(deadline):
                raise self._given_up(f"a call wasn't answered within {timeout} seconds")
            read += map(os.read, self._out, _CHUNK)
            chunk = read[-1]
            if not chunk:
                self.fault = self._why_it_ended()
                raise self.fault
            left -= chunk.count(b"\n")
        replies = (read[0] if len(read) == 1 else b"".join(read)).split(b"\n")
        if replies.pop() or len(replies) != count:
            self.fault = self._told_more()
            raise self.fault
        return replies

    def _told_more(self) -> KarzhoulError:
        """The end of a program that told more than it was asked."""
        status = _stopped(self._process, self._watch, 0)
        return ProgramEnded(status, "the program told more than it was asked")

    def _comes(self, deadline: float) -> bool:
        """Waits until there is something to read, or a deadline; and whether there is."""
        while True:
            left = deadline - time.monotonic()
            if self._reading.poll(math.ceil(1000 * min(max(left, 0), 3600))):
                return True
            if left <= 0:
                return False

    def _given_up(self, why: str) -> GivenUp:
        """Ends the program for the sake of a call."""
        # The fault first, so that nobody waits for this program again.
        ended = self.fault = GivenUp(-signal.SIGKILL, why)
        _stopped(self._process, self._watch, 0)
        return ended

    def start(self) -> None:
        """Waits for the program to answer at all, by lines that change nothing. What it tells
        meanwhile, as where it is being built, goes to standard error. One that doesn't serve what
        this client asks is a `ProgramNotFound`, which says so."""
        hello = Exchange(HELLO)
        hello.start()
        for part in hello.parts or ():
            with suppress(BrokenPipeError):  # What it told before its end is still read.
                part.written += map(os.write, self._in, (part.text,))
        shown = 0
        while not self._reading.poll(1000 * _PATIENCE):
            if told := self._told()[shown:]:
                print(f"karzhoul: waiting for {self.words[0]}: {told.strip()}", file=sys.stderr)
                shown += len(told)
        replies = self.replies(hello)
        if any(b'"BadLine"' in reply for reply in replies):
            raise ProgramNotFound(
                f"{self.words[0]!r} is older than this client: it doesn't serve the calls values "
                f"and pending. The client needs the program of {NEEDED}"
            )
        if replies[0] != _SHOWN:
            raise ProgramNotFound(f"{self.words[0]!r} is no program that answers calls")

    def close(self) -> None:
        """Ends the program's input and waits for its end; a program that goes on for ten seconds is
        ended."""
        self.fault = self.fault or ProgramEnded(None)
        self._end()

    def pipes(self) -> Tuple[int, int]:
        """Where lines go in, and where replies come out, for who reads and writes them itself."""
        return self._in[0], self._out[0]

    def status(self) -> int:
        """The status of a program whose output has ended, which is ended where it goes on."""
        return _stopped(self._process, self._watch, _PATIENCE)

    def stop(self) -> None:
        """Ends the program under a call that waits for its replies, which is told so."""
        self._is_stopped = True
        self._process.kill()

    def kill(self) -> None:
        """Ends the program at once, with what it runs itself, as where it is being built."""
        _stopped(self._process, self._watch, 0)
        self.close()

    # Whether it creates a manager and opens its transaction by one line.
    begins = False

    def let_go(self, run: Run, line: bytes) -> bool:
        """Sends a line whose reply is of no use, and takes that with the next one's; whether it did
        so: of a program of one's own, which answers at once, it is waited for."""
        return False

    def turn(self, wait: Optional[float]) -> bool:
        """Waits for a manager that the program can create, at most so many seconds; whether that is
        of use: no one else has any of the managers of a program of one's own."""
        return False

    def why_unwritten(self) -> str:
        """Why a commit can't be written, as far as that can be told."""
        from .opening import why_unwritten

        return why_unwritten(Path(os.fspath(self.words[-1])), self.pid)

    def _why_it_ended(self) -> KarzhoulError:
        """Why the program ended: the refusal that it told where it never came to answer, as of its
        mapping."""
        status, told = _stopped(self._process, self._watch, _PATIENCE), self._told()
        if self._is_stopped:
            return ProgramEnded(None)
        return refusal_told(status, told) or ProgramEnded(status, told)

    def _told(self) -> str:
        return os.pread(self._errors.fileno(), os.fstat(self._errors.fileno()).st_size, 0).decode(
            errors="replace"
        )


def refusal_told(status: int, told: str) -> Optional[KarzhoulError]:
    """The refusal that a program tells which ends with this status before it answers; None where it
    tells none."""
    last = told.rstrip().rpartition("\n")[2]
    is_told = status in (2, 3) and last.startswith("jpa: ")
    return refusal_of(last[len("jpa: ") :]) if is_told else None


# What stands for this process: another one in each forked process.
_here = object()
# Those that run. No weak set, since its callbacks are of Python.
_watches: Set[_Process] = set()


def _watch_of(process: _Process, folder: Words) -> _Process:
    """A shell that ends a process where this one ends without a word, be it killed, also while the
    process is at a long query; a folder that is named goes then.

    The kernel's own way to do so (PR_SET_PDEATHSIG) is Linux's alone, and would end the program
    with the thread that started it.
    """
    words = ["/bin/sh", "-c", _WATCH, "karzhoul", str(process.pid), folder]
    watch: Optional[_Process] = None
    try:
        watch = _Process(
            words, bufsize=0, stdin=PIPE, stdout=DEVNULL, stderr=DEVNULL, cwd="/",
            start_new_session=True,
        )
        _watches.add(watch)
        assert watch.stdin is not None
        watch.stdin.write(b"\n")
    except BaseException as fault:
        os.killpg(process.pid, signal.SIGKILL)
        process.wait()
        if watch is not None and watch.stdin is not None:
            watch.stdin.write(b"\n\n")
            watch.stdin.close()
            _watches.discard(watch)
        if not isinstance(fault, OSError):  # It was interrupted.
            raise
        raise ProgramNotFound(
            f"'/bin/sh' can't be started, which watches over the program: {fault.strerror}"
        ) from fault
    return watch


def _let_go() -> None:
    """In a forked process: it keeps no program running that its parent started, and asks none."""
    global _here
    _here = object()
    for watch in list(_watches):
        assert watch.stdin is not None
        watch.stdin.close()


os.register_at_fork(after_in_child=_let_go)


def _stopped(process: _Process, watch: _Process, patience: float) -> int:
    """The status of a process, which is ended with what it runs itself if it hasn't ended after so
    many seconds. Its watch ends."""
    try:
        status = process.wait(patience)
    except TimeoutExpired:
        os.killpg(process.pid, signal.SIGKILL)
        status = process.wait()
    # At once, since the number of a process that ended may become that of another one.
    assert watch.stdin is not None
    if not watch.stdin.closed:
        with suppress(BrokenPipeError):
            watch.stdin.write(b"\n")
        watch.stdin.close()
        watch.wait()
    _watches.discard(watch)
    return status


def _end(process: _Process, watch: _Process, ended: List[bool], *files: IO[bytes]) -> None:
    """Ends the process, which is no child of a forked process and lives on there. Called once, at
    the interpreter's exit at the latest. Where it is interrupted, the process is ended at once."""
    ended.append(True)
    try:
        for file in files:
            file.close()
        _stopped(process, watch, 10)
    except BaseException:
        _stopped(process, watch, 0)
        raise
