"""The opening of a store: what cells of revision 1 become where the unit is of revision 2, and the
set that stands then.

A store is of revision 1 where row [Int(0)] of table 0 has no cell. Any such row, right or wrong, is
judged as it stands.
"""
from __future__ import annotations

from typing import TYPE_CHECKING, Any

from model.cells import REVISION_ROW, cell_bytes, class_of, integer_bytes, rows_of, state_of_rows

if TYPE_CHECKING:
    from model.cells import State
    from model.kinds import Cell, Part
    from model.unit import Entity, Unit


def opened(unit: Unit, cells: list[Cell]) -> State:
    """The set that stands once the unit has opened a store of these cells, or `Damaged`."""
    rows = rows_of(unit, cells)
    if not is_due(unit, rows):
        return state_of_rows(unit, rows)
    rows, taken = migrated(unit, rows)
    return state_of_rows(unit, rows, taken)


def is_due(unit: Unit, rows: dict[tuple[int, bytes], dict[int, bytes]]) -> bool:
    return unit.revision == 2 and REVISION_ROW not in rows


def migrated(
    unit: Unit, rows: dict[tuple[int, bytes], dict[int, bytes]]
) -> tuple[dict[tuple[int, bytes], dict[int, bytes]], set[tuple[int, bytes]]]:
    """The rows as they are migrated, and those that are damaged since a column that is new has a
    cell already."""
    after, taken = {REVISION_ROW: {0: integer_bytes(2)}}, set()
    for (table, row), cells in rows.items():
        hierarchy = [entity for entity in unit.entities.values() if entity.table == table]
        after[table, row] = cells_after(unit, hierarchy, cells) if hierarchy else cells
        if any(
            attribute["column"] in cells
            for entity in hierarchy
            for attribute in entity.attributes.values()
            if is_new(attribute)
        ):
            taken.add((table, row))
    return after, taken


def is_new(attribute: dict[str, Any]) -> bool:
    """Whether the attribute's column is one that revision 1 doesn't have."""
    return "since" in attribute or "was" in attribute


def cells_after(unit: Unit, hierarchy: list[Entity], cells: dict[int, bytes]) -> dict[int, bytes]:
    """The cells of a main row: without the dropped columns, with the cells of columns that moved,
    and the defaults of its class."""
    entity = class_of(hierarchy, cells)
    moves = {
        each["was"]: each["column"]
        for each in (entity.attributes.values() if entity else [])
        if "was" in each
    }
    after = {
        moves.get(column, column): cell
        for column, cell in cells.items()
        if column not in hierarchy[0].root.dropped
    }
    for attribute in entity.attributes.values() if entity else []:
        if "default" in attribute:
            after[attribute["column"]] = cell_bytes(unit.default_of(attribute))
    return after


def written(unit: Unit, cells: list[Cell]) -> int:
    """How many statements an opening runs that migrates these cells: for each row that differs one
    that drops it, and one for each of its cells; none where nothing is due."""
    before = rows_of(unit, cells)
    after = migrated(unit, before)[0] if is_due(unit, before) else before
    return sum(1 + len(held) for place, held in after.items() if before.get(place) != held)
