"""Stores for tests/fuzz/hostile-stores and tests/fuzz/hostile-migrations: cells that are changed,
and the calls that look at all that stands."""
from __future__ import annotations

import json
from typing import TYPE_CHECKING

from model.cells import integer_bytes, part_bytes
from model.reading import GREATEST, LEAST
from model.unit import LENGTH

if TYPE_CHECKING:
    from model.cells import State
    from model.kinds import Cell
    from model.unit import Unit
    from random import Random

VALUES = [
    b"", b"\0", b"\x01", b"\x01" + b"\0" * 7, b"\x01" + b"\0" * 9, b"\x02", b"\x02\xff",
    b"\x02\xc0\x80", b"\x02\xed\xa0\x80", b"\x02glad", b"\x020aff", b"\x020AFF", b"\x020af",
    b"\x03", b"\x03\0", b"\x04", b"\x04" + integer_bytes(1), b"\x05x", b"\x02Person", b"\x02person",
    b"\x02" + b"a" * LENGTH, b"\x02" + b"a" * (LENGTH + 1), b"\x03" + b"a" * (LENGTH + 1),
    *map(integer_bytes, [0, 1, 2, 3, -1, GREATEST, LEAST]),
]
ROWS = [
    b"", b"\0", b"\x01", integer_bytes(0), integer_bytes(1), integer_bytes(2), integer_bytes(-1),
    integer_bytes(GREATEST), integer_bytes(1) + b"\0", b"\x02\0\0", b"\x02a", b"\x02a\0\x01\0\0",
    b"\x03\0\xff\0\0", b"\x03\0\0\0\0", b"\x04" + b"\0" * 8,
    b"\x03" + b"a" * (LENGTH + 1) + b"\0\0",
    integer_bytes(3) + part_bytes("a\0") + part_bytes(b""),
]


def changed(chance: Random, unit: Unit, cells: list[Cell]) -> list[Cell]:
    """The cells with one change."""
    cells = {cell[:3]: cell[3] for cell in cells}
    tables = [0, -1, 8, *[entity.table for entity in unit.entities.values()], *unit.joined()]
    columns = [0, 0, 1, 2, 3, 4, 9, 1000000, -1, 2**32, GREATEST, LEAST]
    where = chance.choice(list(cells)) if cells else (0, b"", 0)
    what = chance.randrange(9)
    if what == 7 and cells:
        # a pair or a reference of rows that there are, and perhaps of others
        joined = (
            chance.choice(list(unit.joined()) or [9]),
            where[1] + chance.choice(list(cells))[1],
            0,
        )
        cells[joined if chance.random() < 0.5 else where] = (
            integer_bytes(1) if chance.random() < 0.5 else b"\x04" + chance.choice(list(cells))[1]
        )
    elif what == 8 and cells:
        cells = {place: value for place, value in cells.items() if place[:2] != where[:2]}
    elif what == 0:
        cells[chance.choice(tables), chance.choice(ROWS), chance.choice(columns)] = chance.choice(
            VALUES
        )
    elif what == 1:
        cells[where[0], where[1], chance.choice(columns)] = chance.choice(VALUES)
    elif cells:
        value = cells.pop(where)
        flip = lambda held: held and (
            lambda at: held[:at] + bytes([held[at] ^ 1 << chance.randrange(8)]) + held[at + 1 :]
        )(chance.randrange(len(held)))
        moved = {
            2: where, 3: (where[0], flip(where[1]), where[2]),
            4: (chance.choice(tables), *where[1:]), 5: (*where[:2], chance.choice(columns)),
        }
        if what in moved:
            cells[moved[what]] = flip(value) if what == 2 else value
    return [(*place, value) for place, value in cells.items()]


def looked_at(state: State) -> list[bytes]:
    """Calls that find each object and get its values, and then what it holds in its relations; and
    that ask what all hold, before these are read and after."""
    calls, links = [{"call": "createEntityManager"}], []
    shown = [{"call": "values", "objects": list(range(1, len(state.objects) + 1))}]
    for number, ((name, key), stored) in enumerate(state.objects.items(), 1):
        calls.append(
            {
                "call": "find", "em": 1, "entity": name,
                "key": [{"hex": part.hex()} if isinstance(part, bytes) else part for part in key],
            }
        )
        calls += [{"call": "get", "object": number, "name": member} for member in stored.values]
        links += [
            {"call": "get", "object": number, "name": relation}
            for relation in stored.entity.relations
        ]
    calls += shown + links + shown
    return [json.dumps(call).encode() + b"\n" for call in calls]
