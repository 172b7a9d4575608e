"""Random mappings of revision 2, made of one of revision 1, and stores of that one with what only
such a mapping looks at."""
from __future__ import annotations

import copy, json
from typing import TYPE_CHECKING, Any, Iterator

from fuzz.damage import ROWS, VALUES, changed
from model.cells import cell_bytes, integer_bytes
from model.reading import GREATEST, LEAST, Refused
from model.unit import side

if TYPE_CHECKING:
    from model.kinds import Cell, Mapping, Part
    from model.unit import Unit
    from random import Random

DEFAULTS = {
    "int": [0, 1, 2, -7, GREATEST, LEAST],
    "text": ["", "a", "Ada", "glad", "sad", "none\0\u00e9"],
    "bytes": [{"hex": ""}, {"hex": "0aFF"}, {"hex": "00"}],
}
FITS = {"flip": "int", "hextext": "bytes", "table": "text"}
# Members that are refused, as JSON: of an attribute that is new, one that moved, one that is as it
# was, and a root.
BAD_NEW = [
    '"since":1', '"since":3', '"since":2.0', '"since":"2"', '"since":null', '"since":-0',
    '"since":9223372036854775808', '"was":900001', '"default":null', '"default":1.5',
    '"default":true', '"default":[]', '"default":{}', '"default":{"object":1}',
    '"default":{"hex":"0"}', '"default":{"hex":"0g"}', '"default":{"hex":"","x":0}',
    '"default":9223372036854775808', '"default":7', '"default":"x"', '"default":{"hex":"61"}',
    '"default":"' + "a" * 65536 + '"', '"default":"' + "\u20ac" * 21846 + '"',
    '"default":{"hex":"' + "00" * 65536 + '"}', '"default":{"hex":"' + "00" * 32768 + '"}',
]
BAD_MOVED = [
    '"was":0', '"was":-1', '"was":1000001', '"was":2.0', '"was":null', '"was":"2"', '"since":2',
    '"default":0', '"was":18446744073709551616',
]
BAD_KEPT = ['"default":0', '"since":3', '"was":1000001', '"dropped":[]']
BAD_ROOT = [
    '"dropped":[0]', '"dropped":[900002,900002]', '"dropped":[1000001]', '"dropped":[1.0]',
    '"dropped":null', '"dropped":["1"]', '"dropped":7', '"dropped":[9223372036854775808]',
    '"dropped":{}', '"was":2', '"since":2', '"default":0',
]


class Revision:
    """A mapping of revision 2 whose first revision is another one; mostly well formed, and mostly
    careful: such that it can read all that the other one wrote."""

    def __init__(self, chance: Random, mapping: Mapping) -> None:
        self.chance, self.mapping = chance, copy.deepcopy(mapping)
        self.is_careful = self.rolls(0.75)
        self.entities = {entity["name"]: entity for entity in self.mapping["entities"]}
        self.functions = [
            each for each in self.mapping.get("functions", []) if each["make"] in FITS
        ]
        self.count = 1 + max(self.numbers())

    def rolls(self, most: float) -> bool:
        return self.chance.random() < most

    def next(self) -> int:
        self.count += self.chance.choice([1, 1, 7])
        return self.count

    def numbers(self) -> Iterator[int]:
        for entity in self.entities.values():
            yield entity.get("table", 0)
            yield entity.get("version", {}).get("column", 0)
            for each in [*entity.get("attributes", []), *entity.get("relations", [])]:
                yield from (each.get("column", 0), each.get("joinTable", 0))

    def root(self, entity: dict[str, Any]) -> dict[str, Any]:
        return self.root(self.entities[entity["extends"]]) if "extends" in entity else entity

    def text(self) -> str:
        """The mapping as a text."""
        self.mapping["revision"] = 2
        for entity in list(self.entities.values()):
            self.revise(entity)
        if self.rolls(0.15):
            self.subclass()
        if self.rolls(0.15):
            self.rename()
        wrong = self.wrong() if self.rolls(0.12) else None
        text = json.dumps(self.mapping, ensure_ascii=False)
        return text if wrong is None else text.replace('"wrong": 0', wrong)

    # -- what an entity becomes

    def revise(self, entity: dict[str, Any]) -> None:
        entity["attributes"] = [
            after for each in entity.get("attributes", []) for after in self.revised(entity, each)
        ]
        for relation in list(entity.get("relations", [])):
            if self.rolls(0.08) and "mappedBy" not in relation:
                self.take_out(entity, relation)
        for _ in range(self.chance.choice([0, 0, 1, 1, 2])):
            entity["attributes"].append(self.new())
        if "extends" not in entity and self.rolls(0.3):
            self.drop(entity, self.next())

    def drop(self, entity: dict[str, Any], column: int) -> None:
        dropped = self.root(entity).setdefault("dropped", [])
        dropped.insert(self.chance.randint(0, len(dropped)), column)

    def revised(
        self, entity: dict[str, Any], attribute: dict[str, Any]
    ) -> Iterator[dict[str, Any]]:
        """What stands in the place of an attribute."""
        roll = self.chance.random()
        if roll < 0.15:
            self.drop(entity, attribute["column"])
            return
        if roll < 0.40:
            attribute = {**attribute, "was": attribute["column"], "column": self.next()}
        if 0.35 < roll < 0.50:
            attribute = {**attribute, "name": f"n{self.next()}"}
        elif 0.50 < roll < 0.55 and "extends" in entity:
            # it is the superclass's from now on
            self.entities[entity["extends"]].setdefault("attributes", []).append(attribute)
            return
        elif roll > 0.8 and not self.is_careful:
            yield from self.careless(attribute, roll)
            return
        yield attribute

    def careless(self, attribute: dict[str, Any], roll: float) -> Iterator[dict[str, Any]]:
        """The same where values of before may be lost or null."""
        if roll < 0.83:
            return
        if roll < 0.9:
            attribute = {**attribute, "type": self.chance.choice(list(DEFAULTS))}
            attribute.pop("converter", None)
        elif roll < 0.95:
            attribute = {**attribute, "required": not attribute.get("required", False)}
        else:
            attribute = {**attribute, "was": self.next()}
        yield attribute

    def new(self) -> dict[str, Any]:
        kind = self.chance.choice(list(DEFAULTS))
        attribute = {"name": f"n{self.next()}", "type": kind, "column": self.next(), "since": 2}
        fits = [function["name"] for function in self.functions if FITS[function["make"]] == kind]
        if fits and self.rolls(0.4):
            attribute["converter"] = self.chance.choice(fits)
        if self.rolls(0.7):
            values = DEFAULTS[kind]
            # a table has no code for most values
            if kind == "text" and "converter" in attribute and self.rolls(0.9):
                pairs = next(
                    each["pairs"]
                    for each in self.functions
                    if each["name"] == attribute["converter"]
                )
                values = [here for here, _ in pairs if isinstance(here, str)] or values
            attribute["default"] = self.chance.choice(values)
            if self.rolls(0.3):
                attribute["required"] = True
        return attribute

    def take_out(self, entity: dict[str, Any], relation: dict[str, Any]) -> None:
        """A relation goes, with its inverse side; what it had in the store goes too, mostly."""
        entity["relations"].remove(relation)
        for other in self.entities.values():
            other["relations"] = [
                each
                for each in other.get("relations", [])
                if each.get("mappedBy") != relation["name"]
            ]
        if "column" in relation and (self.is_careful or self.rolls(0.5)):
            self.drop(entity, relation["column"])

    def subclass(self) -> None:
        above = self.chance.choice(list(self.entities.values()))
        below = {"name": f"N{self.next()}", "extends": above["name"], "attributes": [self.new()]}
        self.mapping["entities"].append(below)
        self.entities[below["name"]] = below

    def rename(self) -> None:
        """Another name of an entity, whose rows go on with the old one."""
        entity = self.chance.choice(list(self.entities.values()))
        old, entity["name"] = entity["name"], f"N{self.next()}"
        if self.is_careful or self.rolls(0.5):
            entity.setdefault("discriminator", old)
        for other in self.entities.values():
            if other.get("extends") == old:
                other["extends"] = entity["name"]
            for relation in other.get("relations", []):
                if relation["target"] == old:
                    relation["target"] = entity["name"]
        self.entities = {each["name"]: each for each in self.mapping["entities"]}

    # -- what is refused

    def wrong(self) -> str | None:
        """A member as JSON that stands in the place of the one that is marked."""
        attributes = [each for entity in self.entities.values() for each in entity["attributes"]]
        roll = self.chance.random()
        if roll < 0.1:
            self.mapping["revision"] = self.chance.choice([1, 1, 3, 0])
            return None
        if roll < 0.25 or not attributes:
            return self.marked(
                self.root(self.chance.choice(list(self.entities.values()))), BAD_ROOT
            )
        attribute = self.chance.choice(attributes)
        if roll < 0.4:
            # a number of the hierarchy twice
            entity = next(
                each for each in self.entities.values() if attribute in each["attributes"]
            )
            self.drop(
                entity,
                attribute[
                    self.chance.choice([name for name in ("column", "was") if name in attribute])
                ],
            )
            return None
        if roll < 0.45 and "default" in attribute:
            attribute["required"] = True
            del attribute["default"]
            return None
        return self.marked(
            attribute,
            BAD_NEW if "since" in attribute else BAD_MOVED if "was" in attribute else BAD_KEPT,
        )

    def marked(self, described: dict[str, Any], members: list[str]) -> str:
        member = self.chance.choice(members)
        described.pop(member.split('"')[1], None)
        described["wrong"] = 0
        return member


# ---- stores


def damaged(chance: Random, before: Unit, after: Unit, cells: list[Cell]) -> list[Cell]:
    """Cells of revision 1 with one thing that a unit of revision 2 looks at; not all of it is
    damage."""
    roll = chance.random()
    if roll < 0.15:
        return revised_row(chance, cells)
    if roll < 0.25:
        return numbered(chance, before, cells)
    if roll < 0.35:
        return changed(chance, before, cells)
    places = list(
        looked_at(
            after,
            "new" if roll < 0.65 else "dropped" if roll < 0.8 else "old" if roll < 0.9 else "kept",
        )
    )
    if not places:
        return cells
    table, column, attribute = chance.choice(places)
    rows = [row for each, row, _, _ in cells if each == table]
    row = chance.choice(rows if rows and chance.random() < 0.9 else ROWS)
    return with_cell(cells, table, row, column, some_cell(chance, after, attribute))


def looked_at(unit: Unit, what: str) -> Iterator[tuple[int, int, dict[str, Any] | None]]:
    """The columns of a sort, each with its table and its attribute."""
    for entity in unit.entities.values():
        if what == "dropped":
            yield from ((entity.table, column, None) for column in entity.root.dropped)
        for each in entity.attributes.values() if what != "dropped" else []:
            if what == "old" and "was" in each:
                yield entity.table, each["was"], each
            elif what != "old" and (what == "new") == ("since" in each or "was" in each):
                yield entity.table, each["column"], each


def some_cell(chance: Random, unit: Unit, attribute: dict[str, Any] | None) -> bytes:
    """A cell, often such as the attribute's column has."""
    if attribute and chance.random() < 0.6:
        try:
            return cell_bytes(
                unit.column(attribute, side(chance.choice(DEFAULTS[attribute["type"]])))
            )
        except Refused:
            pass
    return chance.choice([*VALUES, cell_bytes("a"), cell_bytes(7), cell_bytes(b"\0")])


def with_cell(cells: list[Cell], *cell: Part) -> list[Cell]:
    """The cells with this one in its place."""
    return [*(each for each in cells if each[:3] != cell[:3]), cell]


def revised_row(chance: Random, cells: list[Cell]) -> list[Cell]:
    """A row of the revision, mostly a wrong one."""
    row = chance.choice(
        [integer_bytes(0)] * 6
        + [integer_bytes(0) + b"\0", integer_bytes(-1), b"\x01", b"\x020\0\0"]
    )
    value = chance.choice(
        [integer_bytes(2)] * 3 + [*map(integer_bytes, (0, 1, 3)), b"", b"\x022", b"\x03\2"]
    )
    cells = with_cell(cells, 0, row, chance.choice([0, 0, 0, 0, 1, -1, 1000000]), value)
    return (
        with_cell(cells, 0, row, chance.choice([1, 2]), integer_bytes(2))
        if chance.random() < 0.2
        else cells
    )


def numbered(chance: Random, unit: Unit, cells: list[Cell]) -> list[Cell]:
    """Another row of a next number, or none."""
    row = integer_bytes(
        chance.choice([-1, 1, 2, 1000000, *(entity.table for entity in unit.entities.values())])
    )
    value = chance.choice([*map(integer_bytes, (0, 1, 2, GREATEST)), b"\x02x", b""])
    if chance.random() < 0.2:
        return [cell for cell in cells if cell[:2] != (0, row)]
    return with_cell(cells, 0, row, 0, value)
