#!/usr/bin/env python3
"""tests/faults/refused_runs.py PROGRAM REFUSE MOST FOLDER..: runs the program over each of these
runs with a growth of its memory refused.

tests/faults/refused-growths jpa calls it; REFUSE is the library with the malloc that refuses
(refuse.c). The program makes a run once. At each growth it forks: the child goes on to the end of
the run with that growth refused, then the program goes on with it granted, to the next growth. Of a
run that grows more than MOST times these are the first half of MOST, and then every so manyth. What
ended the opening of an earlier run over the same mapping and the same cells, before a line was
asked for, is not refused again. With sample:N for MOST, N growths by chance are refused, four in
each of some runs; with every:N each Nth growth of each run, those of an opening once for all runs
that open alike; other programs have others. JOBS in the environment is how many runs are made at a
time.

A call that is refused for want of memory is made again, and must then be answered as in the run;
where the program ends, it must say that memory is refused, or break off with status 4, the replies
must be a front of the run's, and the cells those that the model of tests/model/machine.py has after
as many lines, or after one more, which was served and not answered; of an opening that is refused
those of before, or all that it writes.
"""
from __future__ import annotations

import hashlib, mmap, os, random, socket, struct, subprocess, sys, tempfile
from concurrent.futures import ThreadPoolExecutor
from typing import TYPE_CHECKING, Callable, Iterable

sys.dont_write_bytecode = True
sys.path[0] = os.path.dirname(os.path.dirname(os.path.abspath(__file__)))
from model.against_runs import cells_of, left_by, stands
from runs import cells, fill, read, unserved_stage, words_of
from trials import Differs

if TYPE_CHECKING:
    from model.kinds import Cell

HEAD, BOARD = 48, 8 + (1 << 20)


class Wanted:
    """What a run must come to, whichever growth is refused."""

    def __init__(self, folder: str, stood: list[list[Cell]]) -> None:
        self.replies = read(folder, "replies.jsonl").splitlines(keepends=True)
        self.after = (read(folder, "cells.txt") or b"").decode()
        self.stood = stood

    def see(self, growth: int, status: int, replied: bytes, said: bytes, left: str) -> None:
        """Looks at a run with this growth refused, 0 for none."""
        replies = replied.splitlines(keepends=True)
        told = f"growth {growth}: status {status}, {said!r}, {replies[-2:]!r}"
        if replies != self.replies[:len(replies)]:
            raise Differs(told)
        if status == 0 and (replies != self.replies or left != self.after):
            raise Differs(f"{told}, cells {left}")
        if status and (status not in (3, 4) or status == 3 and said != b"jpa: OutOfMemory\n"):
            raise Differs(told)
        if status and cells_of(left.encode()) not in left_by(self.stood, len(replies)):
            raise Differs(f"{told}, cells {left}")


class Turns:
    """A run of the program that forks at these growths, which rise, with a folder for its store
    alone."""

    def __init__(
        self, program: str, refuse: str, folder: str, place: str, growths: Iterable[int]
    ) -> None:
        self.place, self.found = os.path.join(place, "store"), {}
        os.mkdir(self.place)
        store, board = os.path.join(self.place, "store.db"), os.path.join(place, "board")
        self.chosen, before = os.path.join(place, "chosen"), read(folder, "cells-before.txt") or b""
        if before:
            fill(store, before)
        with open(self.chosen, "wb") as file:
            file.write(b"".join(struct.pack("q", growth) for growth in growths))
        with open(board, "w+b") as file:
            file.truncate(HEAD + 4 * BOARD)
            self.board = mmap.mmap(file.fileno(), 0)
        self.socket, others = socket.socketpair()
        how = {
            "TURNS": str(others.fileno()), "BOARD": board, "STORE": store, "CHOSEN": self.chosen,
            "CALLS": os.path.join(folder, "calls.jsonl"), "LD_PRELOAD": refuse,
        }
        with others:
            self.process = subprocess.Popen(
                [program, *words_of(folder, store)], stdin=subprocess.PIPE,
                stdout=subprocess.DEVNULL, stderr=subprocess.DEVNULL, env={**os.environ, **how},
                pass_fds=[others.fileno()],
            )

    def written(self, at: int) -> bytes:
        """What stands on a board: the replies of the program, of a child, what either said."""
        start = HEAD + at * BOARD
        size, = struct.unpack_from("q", self.board, start)
        return self.board[start + 8:start + 8 + size]

    def counts(self) -> tuple[int, int, int, int]:
        """How many growths there were, how many of them before the first line was asked for, how
        many were refused, how many children ended for it."""
        return struct.unpack_from("4q", self.board)

    def of_opening(self) -> set[int]:
        """The growths whose child ended before it asked for a line."""
        with open(self.chosen, "rb") as file:
            return {-growth for growth, in struct.iter_unpack("q", file.read()) if growth < 0}

    def left(self) -> str:
        """The cells that sqlite3 finds in a copy of the files of the store, looked up once for
        each others."""
        files = {name: read(self.place, name) for name in sorted(os.listdir(self.place))}
        key = tuple((name, len(text), text.rstrip(b"\0")) for name, text in files.items())
        if key not in self.found:
            with tempfile.TemporaryDirectory() as place:
                for name, text in files.items():
                    with open(os.path.join(place, name), "wb") as file:
                        file.write(text)
                self.found[key] = cells(os.path.join(place, "store.db"))
        return self.found[key]

    def all(self, see: Callable[..., None]) -> None:
        """Looks at what children come to, and then at the program itself, with 0 for its growth."""
        while word := self.socket.recv(16, socket.MSG_WAITALL):
            growth, status = struct.unpack("2q", word)
            status = os.waitstatus_to_exitcode(status)
            see(growth, status, self.written(1), self.written(3), self.left())
            self.socket.send(bytes(8))
        self.process.stdin.close()
        status = self.process.wait()
        see(0, status, self.written(0), self.written(2), self.left())


class Refused:
    """What refusals came to: how many growths there were, how many of them before the first line
    was asked for; how many were refused, and how many children ended for it; the growths that ended
    an opening."""

    def __init__(
        self, program: str, refuse: str, folder: str, stood: list[list[Cell]],
        growths: Iterable[int] = (),
    ) -> None:
        wanted = sorted(growths)
        with tempfile.TemporaryDirectory() as place:
            turns = Turns(program, refuse, folder, place, wanted)
            try:
                turns.all(Wanted(folder, stood).see)
            finally:
                turns.process.kill()
                turns.process.wait()
                turns.socket.close()
            self.growths, self.first, self.tried, self.ended = turns.counts()
            self.of_opening = turns.of_opening()
        if self.tried != len(wanted):
            raise Differs(f"{self.tried} growths refused, not {len(wanted)}")


def is_plain(folder: str) -> bool:
    """Whether a run is one that is served today, of one process that ends well."""
    odd = ("status", "calls-2.jsonl", "words")
    return not unserved_stage(folder) and not any(read(folder, name) for name in odd)


def over(folders: list[str], look: Callable[[str, list[list[Cell]]], str]) -> int:
    """Looks at each of these runs, with the cells that the model has after each line, and prints
    what it tells; 1 where one differs."""

    def told(folder: str) -> tuple[bool, object]:
        try:
            return False, look(folder, stands(folder))
        except Differs as why:
            return True, why

    failed, fitting = 0, [folder for folder in folders if is_plain(folder)]
    with ThreadPoolExecutor(int(os.environ.get("JOBS", "1"))) as pool:
        for folder, (differs, words) in zip(fitting, pool.map(told, fitting)):
            failed |= differs
            print(f"jpa: {os.path.basename(folder.rstrip('/'))}: {words}", flush=True)
    return failed


def chance_of(program: str) -> random.Random:
    """Chance that is the same for the same program."""
    with open(program, "rb") as file:
        return random.Random(hashlib.sha256(file.read()).digest())


def each_of(program: str, refuse: str, step: int, folders: list[str]) -> int:
    """Refuses each so manyth growth of each run, from one by chance on, and those of an opening once
    for all runs that open alike; 1 where one differs."""
    chance, found = chance_of(program), []
    opened: set[tuple[bytes | None, ...]] = set()
    for folder in filter(is_plain, folders):
        opening = read(folder, "mapping.json"), read(folder, "cells-before.txt")
        stood = stands(folder)
        try:
            none = Refused(program, refuse, folder, stood)
            first = none.first if opening in opened else 0
            wanted = range(first + chance.randint(1, step), none.growths + 1, step)
            found.append(Refused(program, refuse, folder, stood, wanted))
            opened.add(opening)
        except Differs as why:
            print(f"jpa: {os.path.basename(folder.rstrip('/'))}: {why}")
            return 1
    tried, ended = (sum(getattr(one, name) for one in found) for name in ("tried", "ended"))
    print(f"{tried} growths refused in {len(found)} runs; {ended} runs ended for it")
    return 0


def sampled(program: str, refuse: str, count: int, folders: list[str]) -> int:
    """Refuses so many growths by chance, four in each of some runs; 1 where one differs."""
    chance = chance_of(program)
    fitting = [folder for folder in folders if is_plain(folder)]
    chosen, tried, ended = chance.sample(fitting, min(len(fitting), -(-count // 4))), 0, 0
    for folder in chosen:
        stood = stands(folder)
        try:
            growths = Refused(program, refuse, folder, stood).growths
            some = chance.sample(range(1, growths + 1), min(4, count - tried))
            ended += Refused(program, refuse, folder, stood, some).ended
            tried += len(some)
        except Differs as why:
            print(f"jpa: {os.path.basename(folder.rstrip('/'))}: {why}")
            return 1
    print(f"{tried} growths refused in {len(chosen)} runs; {ended} runs ended for it")
    return 0


def chosen(growths: int, most: int) -> set[int]:
    """Which of so many growths are refused."""
    stride = (growths - most // 2) * 2 // most + 1 if growths > most else 1
    return {*range(1, min(growths, most // 2) + 1), *range(most // 2 + 1, growths + 1, stride)}


def main(given: list[str]) -> int:
    if len(given) < 4:
        sys.exit(__doc__)
    if given[2].startswith("sample:"):
        return sampled(given[0], given[1], int(given[2][7:]), given[3:])
    if given[2].startswith("every:"):
        return each_of(given[0], given[1], int(given[2][6:]), given[3:])
    program, refuse, most = given[0], given[1], int(given[2])
    # For each mapping and cells of before the first run that was whole: its name, the growths of
    # its opening, and those that ended it.
    opened: dict[tuple[bytes | None, ...], tuple[str, int, set[int]]] = {}

    def look(folder: str, stood: list[list[Cell]]) -> str:
        none = Refused(program, refuse, folder, stood)
        opening = read(folder, "mapping.json"), read(folder, "cells-before.txt")
        as_in, first, shared = opened.get(opening, ("", none.first, set()))
        if first != none.first:
            raise Differs(f"it opens with {none.first} growths, as {as_in} does with {first}")
        tried = chosen(none.growths, most) - shared
        found = Refused(program, refuse, folder, stood, tried)
        if len(tried) == none.growths:
            opened[opening] = os.path.basename(folder.rstrip("/")), none.first, found.of_opening
        told = f"{found.tried} of {none.growths} growths refused in turn"
        told += f", {len(shared)} as in {as_in}" if shared else ""
        return f"{told}; {found.ended} runs ended for it"

    return over(given[3:], look)


if __name__ == "__main__":
    sys.exit(main(sys.argv[1:]))
