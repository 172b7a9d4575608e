#!/usr/bin/env python3
"""tests/faults/stopped_runs.py PROGRAM STOP FOLDER..: runs the program over each of these runs, and
kills it at each write to its store in turn.

tests/faults/stopped-disks calls it; STOP is the library with the writes that stop. The replies must
be a front of the run's, and the cells that the next opening finds those that the model of
tests/model/machine.py has after as many lines, or after one more, whose call was served and not
answered. So are those that sqlite3 finds in a copy of the files of a store that was there before;
where the opening itself writes, as one that migrates does, it may find those of before it. Such a
store is then opened once more, and no more is written than over a store of nothing.
"""
from __future__ import annotations

import glob, os, shutil, signal, struct, subprocess, sys, tempfile
from typing import TYPE_CHECKING, Any

sys.dont_write_bytecode = True
sys.path[0] = os.path.dirname(os.path.dirname(os.path.abspath(__file__)))
from model.against_runs import cells_of, left_by
from faults.refused_runs import Differs, over
from runs import SECONDS, cells, fill, read, run, words_of

if TYPE_CHECKING:
    from model.kinds import Cell


def answered(process: subprocess.Popen[bytes], line: bytes) -> bytes:
    """The reply to a line; empty where the program has ended."""
    try:
        process.stdin.write(line)
        process.stdin.flush()
    except BrokenPipeError:
        return b""
    return process.stdout.readline()


def counting(stop: str, count: str, write: int = 0, torn: bool = False) -> dict[str, str]:
    """The environment in which this write is stopped, and writes are counted."""
    with open(count, "wb") as file:
        file.write(bytes(8))
    return {
        **os.environ, "WRITES": count, "STOPPED": str(write), "TORN": str(int(torn)),
        "LD_PRELOAD": stop,
    }


def counted(count: str) -> int:
    with open(count, "rb") as file:
        return struct.unpack("q", file.read())[0]


def writes_of_opening(program: str, stop: str, words: list[str], count: str) -> int:
    """How often the program writes that opens a store and ends."""
    subprocess.run(
        [program, *words], stdin=subprocess.DEVNULL, capture_output=True, timeout=SECONDS,
        env=counting(stop, count), check=True,
    )
    return counted(count)


def idle(program: str, stop: str) -> int:
    """How often it writes over a store of nothing that was opened before."""
    with tempfile.TemporaryDirectory() as place:
        words, count = ["--db", os.path.join(place, "store.db")], os.path.join(place, "writes")
        run(program, words, b"")
        return writes_of_opening(program, stop, words, count)


def found_in_copy(store: str) -> str:
    """The cells that sqlite3 finds in a copy of a store's files."""
    with tempfile.TemporaryDirectory() as place:
        for path in glob.glob(store + "*"):
            shutil.copy(path, place)
        return cells(os.path.join(place, os.path.basename(store)))


def ended(words: list[str], calls: list[bytes], how: dict[str, str]) -> Any:
    """The replies of a run, what it wrote after them and to standard error, and how it ended."""
    with subprocess.Popen(
        words, stdin=subprocess.PIPE, stdout=subprocess.PIPE, stderr=subprocess.PIPE, env=how
    ) as process:
        replies = [reply for reply in (answered(process, line) for line in calls) if reply]
        try:
            process.stdin.close()
        except BrokenPipeError:
            pass
        return replies, process.stdout.read(), process.stderr.read(), process.wait(SECONDS)


def see_opening(program: str, stop: str, words: list[str], store: str, most: int) -> None:
    """A store that was opened again is opened once more with no more writes, and has the same cells
    then."""
    before, writes = cells(store), writes_of_opening(program, stop, words, store + ".count")
    if writes > most or cells(store) != before:
        raise Differs(f"opened once more, {writes} writes, and not {most}, cells {cells(store)}")


def see_stopped(
    program: str,
    stop: str,
    folder: str,
    stood: list[list[Cell]],
    most: int,
    write: int,
    torn: bool = False,
) -> int:
    """Runs with this write stopped, 0 for none, and gives how many there were."""
    calls, wanted = read(folder, "calls.jsonl").splitlines(keepends=True), read(
        folder, "replies.jsonl"
    ).splitlines(keepends=True)
    with tempfile.TemporaryDirectory() as place:
        store, count = os.path.join(place, "store.db"), os.path.join(place, "writes")
        before, words = read(folder, "cells-before.txt"), words_of(folder, store)
        if before:
            fill(store, before)
        replies, rest, said, status = ended(
            [program, *words], calls, counting(stop, count, write, torn)
        )
        writes, found = counted(count), found_in_copy(store) if before else None
        opened = run(program, words, b"")
        left = cells(store)
        told = f"write {write}{' torn' if torn else ''}: status {status}, {said!r}"
        told += f", {replies[-1:]!r}, found {found}, cells {left}"
        if opened.returncode or opened.stdout or opened.stderr:
            raise Differs(f"{told}, opened again {opened.stderr!r}")
        if (
            rest
            or said
            or replies != wanted[: len(replies)]
            or status not in (0, -signal.SIGKILL)
            or status == 0
            and len(replies) < len(calls)
        ):
            raise Differs(told)
        if cells_of(left.encode()) not in stood[len(replies) + 1:len(replies) + 3]:
            raise Differs(told)
        if found is not None and cells_of(found.encode()) not in left_by(stood, len(replies)):
            raise Differs(told)
        if stood[0] != stood[1]:
            see_opening(program, stop, words, store, most)
        return writes


def main(given: list[str]) -> int:
    if len(given) < 3:
        sys.exit(__doc__)
    program, stop = given[:2]
    most = idle(program, stop)

    def look(folder: str, stood: list[list[Cell]]) -> str:
        writes = see_stopped(program, stop, folder, stood, most, 0)
        for write in range(1, writes + 1):
            for torn in (False, True):
                see_stopped(program, stop, folder, stood, most, write, torn)
        return f"killed at each of {writes} writes, before it and within"

    return over(given[2:], look)


if __name__ == "__main__":
    sys.exit(main(sys.argv[1:]))
