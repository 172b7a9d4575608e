#!/usr/bin/env python3
"""tests/input.py PROGRAM [STEP]: tries what no file of calls shows, over the first run of
tests/runs.

Its text is cut after each byte (or after each STEP bytes), and given a byte at a time; standard
input can't be read, standard output can't be written; lines have the greatest length, and one byte
more; the disk refuses to let files grow past a size, from the start or once some commits were made;
the store's folder can't be written; the words of the command line are others. Exit status 0 where
all is as it must be.
"""
from __future__ import annotations

import json, os, resource, shutil, signal, subprocess, sys
from typing import Any, Callable

sys.dont_write_bytecode = True
from runs import FLAT, HERE, SECONDS, cells, read
from trials import Differs, see, tried

FIRST = os.path.join(HERE, "runs", "first-run")
CALLS, REPLIES, CELLS = (
    read(FIRST, name) for name in ("calls.jsonl", "replies.jsonl", "cells.txt")
)
BAD_LINE = b'{"error":{"name":"BadLine","no":3},"events":[]}\n'
LIMIT = b'{"error":{"name":"Limit","no":19},"events":[]}\n'
FAULT = {"error": {"name": "StoreFault", "no": 2}, "events": []}
NOBODY = 65534
LINE_LENGTH = 1_048_576
# The number of the call that commits, and a length that no file of a store of one person and no log
# of it reaches.
COMMIT = next(number for number, line in enumerate(CALLS.splitlines(), 1) if b'"commit"' in line)
STORE_LENGTH = 8 * LINE_LENGTH


def cells_after(calls: int) -> str:
    """The cells once so many calls were answered."""
    return CELLS.decode() if calls >= COMMIT else ""


def ran(program: str, store: str, **how: Any) -> tuple[int, bytes | None, bytes, str]:
    """The status, the output, the error and the cells of a run over a store."""
    ended = subprocess.run(
        [program, "--mapping", FLAT, "--db", store], stderr=subprocess.PIPE, timeout=SECONDS, **how
    )
    return ended.returncode, ended.stdout, ended.stderr, cells(store)


def cut_anywhere(program: str, store: str, step: int) -> None:
    """The text cut after a byte: its whole lines are answered, and what is left of a line is no
    call."""
    replies = REPLIES.splitlines(keepends=True)
    for length in range(0, len(CALLS) + 1, step):
        given = CALLS[:length]
        whole, rest = given.count(b"\n"), given.rpartition(b"\n")[2]
        is_call = CALLS[length:length + 1] == b"\n"
        answered = whole + bool(rest and is_call)
        wanted = b"".join(replies[:answered]) + (BAD_LINE if rest and not is_call else b"")
        own = f"{store}-{length}"
        see(
            ran(program, own, input=given, stdout=subprocess.PIPE),
            (0, wanted, b"", cells_after(answered)),
            f"cut after {length} bytes",
        )


def byte_by_byte(program: str, store: str, _: int) -> None:
    """Each line is answered once its line feed is given, before the next byte."""
    with subprocess.Popen(
        [program, "--mapping", FLAT, "--db", store],
        stdin=subprocess.PIPE, stdout=subprocess.PIPE, bufsize=0,
    ) as process:
        output = os.fdopen(os.dup(process.stdout.fileno()), "rb")
        for line, reply in zip(CALLS.splitlines(keepends=True), REPLIES.splitlines(keepends=True)):
            for byte in line:
                process.stdin.write(bytes([byte]))
            see(output.readline(), reply, "byte by byte")
        process.stdin.close()
        see(
            (process.wait(SECONDS), output.read(), cells(store)),
            (0, b"", CELLS.decode()),
            "at the end",
        )


def unreadable(program: str, store: str, _: int) -> None:
    """Standard input that can't be read, a folder: nothing is answered, and the status is 4."""
    folder = os.open(HERE, os.O_RDONLY)
    try:
        see(
            ran(program, store, stdin=folder, stdout=subprocess.PIPE),
            (4, b"", b"", ""),
            "input that can't be read",
        )
    finally:
        os.close(folder)


def unwritable(program: str, store: str, _: int) -> None:
    """Standard output that takes nothing: the status is 4, and the cells are those of a front of
    the calls. The same of one call that the input's end ends, without a line feed."""
    with open("/dev/full", "wb") as full:
        status, _, said, left = ran(program, store, input=CALLS, stdout=full)
    see((status, said), (4, b""), "output that can't be written")
    if left not in ("", CELLS.decode()):
        raise Differs(f"output that can't be written leaves {left!r}")
    with open("/dev/full", "wb") as full:
        status, _, said, _ = ran(program, store, input=CALLS.splitlines()[0], stdout=full)
    see((status, said), (4, b""), "a last line's reply that can't be written")


def lengths(program: str, store: str, _: int) -> None:
    """A line of the greatest length is a call, one byte more is over the limit, and the next line
    is answered."""
    call, reply = CALLS.splitlines()[0], REPLIES.splitlines(keepends=True)[0]
    given = b"\n".join([call.ljust(LINE_LENGTH), call.ljust(LINE_LENGTH + 1), call])
    see(
        ran(program, store, input=given, stdout=subprocess.PIPE),
        (0, reply + LIMIT + reply.replace(b"1", b"2"), b"", ""),
        "lengths of lines",
    )


def other_bytes(program: str, store: str, _: int) -> None:
    """A call may end in a carriage return; bytes that are no text are no call."""
    call, reply = CALLS.splitlines()[0], REPLIES.splitlines(keepends=True)[0]
    see(
        ran(program, store, input=call + b"\r\n\xff\n", stdout=subprocess.PIPE),
        (0, reply + BAD_LINE, b"", ""),
        "other bytes",
    )


def full_disk(program: str, store: str, _: int) -> None:
    """A disk that refuses each growth of a file past a size: where the store is refused at its
    opening nothing is answered and the status is 3, and else a refused commit tells of a fault
    of the store; the cells are those of the commit where it was answered, and else those or
    none. With room, the replies are those of the first run. The least such size is looked for,
    and tried from below."""

    def limit(size: int) -> None:
        signal.signal(signal.SIGXFSZ, signal.SIG_IGN)
        resource.setrlimit(resource.RLIMIT_FSIZE, (size, size))

    def has_room(size: int) -> bool:
        own, where = f"{store}-{size}", f"a disk of {size} bytes"
        status, output, said, left = ran(
            program, own, input=CALLS, stdout=subprocess.PIPE, preexec_fn=lambda: limit(size)
        )
        is_whole = output == REPLIES
        if status == 3:
            see((output, said), (b"", b"jpa: StoreFault\n"), where)
        else:
            see((status, said, is_whole or b'"name":"StoreFault"' in output), (0, b"", True), where)
        see(
            left in ([CELLS.decode()] if is_whole else ["", CELLS.decode()]),
            True,
            f"the cells on {where}",
        )
        return is_whole

    low, high = 0, STORE_LENGTH
    see((has_room(low), has_room(high)), (False, True), "disks without and with room")
    while high - low > 512:
        middle = (low + high) // 1024 * 512
        low, high = (low, middle) if has_room(middle) else (middle, high)
    for size in range(max(0, low - 32 * 512), low, 512):
        has_room(size)


class Session:
    """A run of the program over persons, call by call."""

    def __init__(self, program: str, store: str) -> None:
        self.process = subprocess.Popen(
            [program, "--db", store],
            stdin=subprocess.PIPE, stdout=subprocess.PIPE, stderr=subprocess.PIPE,
            preexec_fn=lambda: signal.signal(signal.SIGXFSZ, signal.SIG_IGN),
        )

    def call(self, word: str, **members: Any) -> Any:
        """What a call answers: its result, or the whole reply of one that is refused."""
        self.process.stdin.write(json.dumps({"call": word, **members}).encode() + b"\n")
        self.process.stdin.flush()
        reply = json.loads(self.process.stdout.readline())
        return reply["ok"] if "ok" in reply else reply

    def kept(self, em: int, name: str) -> Any:
        """A new person that is committed by a manager."""
        number = self.call("new", entity="Person")["object"]
        self.call("set", object=number, name="name", value=name)
        self.call("begin", em=em)
        self.call("persist", em=em, object=number)
        return self.call("commit", em=em)

    def names(self, em: int) -> list[str]:
        return self.call("query", em=em, text="SELECT p.name FROM Person p")

    def room(self, size: int) -> None:
        """Files may grow to this size from now on; they can't be written past it."""
        _, most = resource.prlimit(self.process.pid, resource.RLIMIT_FSIZE)
        resource.prlimit(self.process.pid, resource.RLIMIT_FSIZE, (size, most))

    def end(self) -> tuple[int, bytes]:
        self.process.stdin.close()
        said = self.process.stderr.read()
        return self.process.wait(SECONDS), said


def disk_that_fills(program: str, store: str, _: int) -> None:
    """A disk that is full after a commit: the next one is a fault of the store, its transaction
    stays open, nothing is changed, and finds, queries and flushes go on. So is each later commit.
    With room again the transaction commits. The next opening finds what was accepted."""
    for size in (0, 512, 4096, 8192, 16384, 32768):
        own, where = f"{store}-{size}", f"a disk that is full past {size} bytes"
        run = Session(program, own)
        managers = [run.call("createEntityManager") for _ in range(2)]
        see((managers, run.kept(1, "a")), ([1, 2], None), where)
        run.room(size)
        see(run.kept(1, "b"), FAULT, where)
        see(run.call("begin", em=1)["error"]["why"], "active", f"{where}: still open")
        see((run.names(1), run.names(2)), (["a", "b"], ["a"]), f"{where}: queries")
        see(run.call("commit", em=1), FAULT, f"{where}: made again")
        see(run.kept(2, "c"), FAULT, f"{where}: another one")
        see(run.call("rollback", em=2), None, f"{where}: rolled back")
        see(run.names(2), ["a"], f"{where}: rolled back")
        run.room(resource.RLIM_INFINITY)
        see((run.call("commit", em=1), run.names(2)), (None, ["a", "b"]), f"{where}: room again")
        see((run.kept(2, "d"), run.end()), (None, (0, b"")), f"{where}: room again")
        run = Session(program, own)
        run.call("createEntityManager")
        see((run.names(1), run.end()), (["a", "b", "d"], (0, b"")), f"{where}: opened again")


def unwritable_folder(program: str, store: str, _: int) -> None:
    """A store that can't be written, or whose log can't be made: the status is 3, and the store is
    as it was. As another user where this one may write anywhere."""
    folder = os.path.dirname(store)
    run = Session(program, store)
    run.call("createEntityManager")
    see((run.kept(1, "a"), run.end()), (None, (0, b"")), "a folder that can be written")
    own, how = os.path.join(folder, "program"), {"user": NOBODY} if os.geteuid() == 0 else {}
    shutil.copy(program, own)
    os.chmod(own, 0o755)
    for path in os.listdir(folder):
        if path.startswith("store.db-"):
            os.remove(os.path.join(folder, path))
    with open(store, "rb") as file:
        before = file.read()
    for mode, of_folder in ((0o444, 0o555), (0o666, 0o555), (0o444, 0o777), (0o000, 0o777)):
        os.chmod(store, mode)
        os.chmod(folder, of_folder)
        ended = subprocess.run(
            [own, "--db", store], input=b"", capture_output=True, timeout=SECONDS, **how
        )
        os.chmod(folder, 0o755)
        os.chmod(store, 0o644)
        with open(store, "rb") as file:
            is_kept = file.read() == before
        see(
            (ended.returncode, ended.stdout, ended.stderr, is_kept),
            (3, b"", b"jpa: StoreFault\n", True),
            f"a store of mode {mode:o} in a folder of mode {of_folder:o}",
        )


def words(program: str, store: str, _: int) -> None:
    """The words of the command line."""
    ask = lambda *given: subprocess.run(
        [program, *given], input=b"", capture_output=True, timeout=SECONDS
    )
    for given, start in [
        (("--version",), b"jpa 0.2.0\n"),
        (("--help",), b"Answers entity manager calls on standard input"),
    ]:
        ended = ask(*given)
        see((ended.returncode, ended.stdout[:len(start)], ended.stderr), (0, start, b""), given)
    for given, start in [
        (("--store", store), b"error: unexpected argument '--store' found"),
        (("s.db",), b"error: unexpected argument 's.db' found"),
        (
            ("--db", "a", "--db", "b"),
            b"error: the argument '--db <FILE>' cannot be used multiple times",
        ),
        (("--db",), b"error: a value is required for '--db <FILE>' but none was supplied"),
    ]:
        ended = ask(*given)
        see((ended.returncode, ended.stdout, ended.stderr[:len(start)]), (2, b"", start), given)
    for given in [("--mapping", os.path.join(HERE, "none.json")), ("--mapping=" + HERE,)]:
        ended = ask(*given)
        see(
            (ended.returncode, ended.stdout, ended.stderr), (2, b"", b"jpa: Mapping(json)\n"), given
        )
    ended = ask("--db", HERE)
    see(
        (ended.returncode, ended.stdout, ended.stderr),
        (3, b"", b"jpa: StoreFault\n"),
        "a folder for a store",
    )


def main(given: list[str]) -> int:
    if len(given) not in (1, 2):
        sys.exit(__doc__)
    step = int(given[1]) if given[1:] else 1
    trials = [
        cut_anywhere, byte_by_byte, unreadable, unwritable, lengths, other_bytes, full_disk,
        disk_that_fills, unwritable_folder, words,
    ]

    def run(trial: Callable[[str, str, int], None], place: str) -> None:
        trial(given[0], os.path.join(place, "store.db"), step)

    return tried(trials, "the input", run)


if __name__ == "__main__":
    sys.exit(main(sys.argv[1:]))
