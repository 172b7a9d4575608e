#!/usr/bin/env python3
"""tests/model/against_runs.py FOLDER..: what the model says of the runs in these folders
(tests/runs.py tells their form).

The model is judged so by runs that were worked by hand, as the program is: replies and cells byte
for byte, and the row that is named where a store is damaged. Skipped, and said so, are runs with a
call that it does not have, and those of a command line or of a mapping of revision 1 that is
refused. Stages that the program does not serve yet are not skipped. It runs no program. Exit status
0 where all that ran agree.
"""
from __future__ import annotations

import json, os, sys
from typing import TYPE_CHECKING

sys.dont_write_bytecode = True
sys.path[0] = os.path.dirname(os.path.dirname(os.path.abspath(__file__)))
from model.cells import Damaged, left_alone
from model.machine import Machine
from model.mapping import refusal
from model.migration import opened
from model.reading import UNSERVED, lines_of
from model.unit import Unit
from runs import HERE, language_of, other_replies, read

if TYPE_CHECKING:
    from model.kinds import Cell, Mapping


def skipped(folder: str) -> str | None:
    """Why the model has nothing to say of a run, or None."""
    if (
        read(folder, "words") is not None
        or read(folder, "status") == b"2\n"
        and read(folder, "stage") is None
    ):
        return "command line or mapping"
    for line in lines_of(read(folder, "calls.jsonl")):
        try:
            word = json.loads(line)["call"]
        except (ValueError, TypeError, KeyError):
            continue
        if isinstance(word, str) and word in UNSERVED:
            return f"call {word}"
    return None


def cells_of(text: bytes | None) -> list[Cell]:
    parts = [
        [part.strip() for part in line.split(",")] for line in (text or b"").decode().splitlines()
    ]
    return [
        (int(table), bytes.fromhex(row), int(column), bytes.fromhex(value))
        for table, row, column, value in parts
    ]


def difference(folder: str) -> str | None:
    """What the model says otherwise than the run, or None."""
    said, word = (read(folder, "stderr") or b"").decode().strip(), refusal(mapping_text(folder))
    if word or said.startswith("jpa: Mapping"):
        return None if said == f"jpa: Mapping({word})" else f"Mapping({word})"
    unit, before = Unit(mapping_of(folder)), cells_of(read(folder, "cells-before.txt"))
    is_wide = language_of(folder) == "wide"
    try:
        state = opened(unit, before)
    except Damaged as damaged:
        told = f"jpa: Damaged({damaged.table}:{damaged.row.hex()})"
        return None if told == said else told
    for ending in ("", "-2"):
        calls, machine = read(folder, f"calls{ending}.jsonl"), Machine(unit, state, is_wide)
        if calls is None:
            continue
        found = other_replies(
            b"".join(machine.answer(line) for line in lines_of(calls)),
            read(folder, f"replies{ending}.jsonl") or b"",
        )
        if found:
            return found
        state = machine.committed
    after, found = read(folder, "cells.txt"), sorted(state.cells(unit) + left_alone(unit, before))
    return None if after is None or cells_of(after) == found else f"cells {found}"


def stands(folder: str) -> list[list[Cell]]:
    """The cells that stand before the opening of a run, and after so many lines, from none to all,
    as the model has them."""
    unit, before = Unit(mapping_of(folder)), sorted(cells_of(read(folder, "cells-before.txt")))
    machine = Machine(unit, opened(unit, before), language_of(folder) == "wide")
    others = left_alone(unit, before)
    found = [before, sorted(machine.committed.cells(unit) + others)]
    for line in lines_of(read(folder, "calls.jsonl")):
        machine.answer(line)
        found.append(sorted(machine.committed.cells(unit) + others))
    return found


def left_by(stood: list[list[Cell]], answered: int) -> list[list[Cell]]:
    """Which of these cells a run may leave that ended once so many lines were answered: those of
    before the line at hand, or of after it. Where no line was answered, the opening may have
    been at hand too."""
    return stood[answered + bool(answered):answered + 3]


def mapping_text(folder: str) -> bytes:
    """The mapping of a run, as its bytes."""
    text = read(folder, "mapping.json")
    if text is None:
        with open(os.path.join(HERE, "mappings", "persons.json"), "rb") as file:
            text = file.read()
    return text


def mapping_of(folder: str) -> Mapping:
    return json.loads(mapping_text(folder))


def main(tops: list[str]) -> int:
    if not tops:
        sys.exit(__doc__)
    agree = differ = skip = 0
    for top in tops:
        for name in sorted(os.listdir(top)):
            folder = os.path.join(top, name)
            if read(folder, "calls.jsonl") is None:
                continue
            why = skipped(folder)
            found = None if why else difference(folder)
            agree, differ, skip = (
                agree + (not why and not found), differ + bool(found), skip + bool(why),
            )
            if why or found:
                print(f"skipped {name}: {why}" if why else f"differs {name}: {found}")
    print(f"{agree} runs agree, {differ} differ, {skip} are skipped")
    return 1 if differ or not agree else 0


if __name__ == "__main__":
    sys.exit(main(sys.argv[1:]))
