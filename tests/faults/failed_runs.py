#!/usr/bin/env python3
"""tests/faults/failed_runs.py PROGRAM STOP FOLDER..: runs the program over each of these runs, and
lets each write to its store fail in turn: that one alone, and it with all later ones, each without
a byte written and after half of its bytes.

tests/faults/failing-disks calls it; STOP is the library with the writes that fail. An opening may
be refused with status 3 and `StoreFault`. Else a commit may answer `StoreFault` where the model of
tests/model/machine.py accepts it; then it is made once more. All other replies are those of the
model, to which a commit that answered so twice never came. The next opening finds the cells of the
commits that were accepted, or these with one more, which was not.
"""
from __future__ import annotations

import copy, errno, os, subprocess, sys, tempfile
from typing import TYPE_CHECKING, Any

sys.dont_write_bytecode = True
sys.path[0] = os.path.dirname(os.path.dirname(os.path.abspath(__file__)))
from faults.refused_runs import Differs, over
from faults.stopped_runs import answered, counted, counting
from model.against_runs import cells_of, mapping_of
from model.cells import left_alone
from model.machine import Machine
from model.migration import opened
from model.unit import Unit
from runs import SECONDS, cells, fill, read, run, words_of

if TYPE_CHECKING:
    from model.kinds import Cell

FAULT = b'{"error":{"name":"StoreFault","no":2},"events":[]}\n'


class Run:
    """A run over a store, held against the model as it goes."""

    def __init__(self, folder: str, before: list[Cell]) -> None:
        self.unit = Unit(mapping_of(folder))
        self.machine = Machine(self.unit, opened(self.unit, before))
        self.others, self.faults, self.again = left_alone(self.unit, before), 0, 0
        # The cells with each commit since the last accepted one that answered a fault.
        self.unsure: list[list[Cell]] = []

    def cells(self, machine: Machine) -> list[Cell]:
        return sorted(machine.committed.cells(self.unit) + self.others)

    def serve(self, process: subprocess.Popen[bytes], line: bytes) -> bool:
        """Sends a line, and holds its reply against the model; False if the program has ended."""
        before = copy.deepcopy(self.machine)
        wanted, reply = self.machine.answer(line), answered(process, line)
        if reply == FAULT:
            if b'"commit"' not in line or not wanted.startswith(b'{"events"'):
                raise Differs(f"{reply!r} to {line!r}, not {wanted!r}")
            self.faults, reply = self.faults + 1, answered(process, line)
            if reply == FAULT:
                self.unsure.append(self.cells(self.machine))
                self.machine = before
                return True
            self.again += 1
        if reply and reply != wanted:
            raise Differs(f"{reply!r} to {line!r}, not {wanted!r}")
        # (one that writes nothing says nothing of what an earlier one left)
        if b'"commit"' in line and self.cells(before) != self.cells(self.machine):
            self.unsure = []
        return bool(reply)


def see_failing(
    program: str, stop: str, folder: str, write: int, how: dict[str, str]
) -> tuple[int, bool, int, int, bool]:
    """Runs with this write failing, 0 for none: the number of writes, whether the store was refused
    at its opening, how many commits answered a fault, how many of these were accepted when they
    were made again, and whether the next opening finds one that was not."""
    with tempfile.TemporaryDirectory() as place:
        store, count = os.path.join(place, "store.db"), os.path.join(place, "writes")
        before, words = read(folder, "cells-before.txt"), words_of(folder, store)
        if before:
            fill(store, before)
        stood = sorted(cells_of(before))
        one, is_refused, told = Run(folder, stood), False, f"write {write} {how}"
        calls = read(folder, "calls.jsonl").splitlines(keepends=True)
        with subprocess.Popen(
            [program, *words], stdin=subprocess.PIPE, stdout=subprocess.PIPE,
            stderr=subprocess.PIPE, env={**counting(stop, count, write), **how},
        ) as process:
            for at, line in enumerate(calls):
                try:
                    if not one.serve(process, line):
                        is_refused = at == 0
                        break
                except Differs as why:
                    process.kill()
                    raise Differs(f"{told}: {why}") from None
            try:
                process.stdin.close()
            except BrokenPipeError:
                pass
            said, status = process.stderr.read(), process.wait(SECONDS)
        wanted = (3, b"jpa: StoreFault\n") if is_refused else (0, b"")
        if (status, said) != wanted:
            raise Differs(f"{told}: status {status}, {said!r}")
        again = run(program, words, b"")
        found = sorted(cells_of(cells(store).encode()))
        stands = [stood] if is_refused else []
        stands += [one.cells(one.machine), *one.unsure]
        if again.returncode or again.stderr or found not in stands:
            raise Differs(f"{told}: opened again {again.stderr!r}, cells {found}")
        is_left = found != stands[0] and found in one.unsure
        return counted(count), is_refused, one.faults, one.again, is_left


WAYS = [{"FAILING": str(number), "LASTING": lasting, "TORN": torn}
        for number in (errno.ENOSPC, errno.EIO) for lasting in ("0", "1") for torn in ("0", "1")]


def main(given: list[str]) -> int:
    if len(given) < 3:
        sys.exit(__doc__)
    program, stop = given[:2]

    def look(folder: str, _: Any) -> str:
        writes = see_failing(program, stop, folder, 0, {})[0]
        found = [(how["LASTING"] == "1", *see_failing(program, stop, folder, write, how)[1:])
                 for write in range(1, writes + 1) for how in WAYS]
        told = f"each of {writes} writes failed in {len(WAYS)} ways: "
        told += f"{sum(one[1] for one in found)} openings refused"
        for is_lasting, word in ((False, "one write"), (True, "all from one on")):
            some = [one for one in found if one[0] == is_lasting and one[2]]
            told += f"; {word}: {len(some)} runs with a fault at a commit, "
            told += f"{sum(one[3] > 0 for one in some)} accepted when made again, "
            told += f"{sum(one[4] for one in some)} found later though refused"
        return told

    return over(given[2:], look)


if __name__ == "__main__":
    sys.exit(main(sys.argv[1:]))
