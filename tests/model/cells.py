"""Sets of stored objects for the model: which are sound, the cells of one, and the set that cells
stand for."""
from __future__ import annotations

from typing import TYPE_CHECKING, Any, Iterator

from model.reading import Refused
from model.unit import KINDS, LENGTH, Entity, converted_back

if TYPE_CHECKING:
    from model.kinds import Cell, Identity, Key, Objects, Part, Value, Values
    from model.unit import Relation, Unit


# ---- sets

class Stored:
    """A stored object: its values, and what it owns by the relation: an identity or none, or a set
    of them."""

    def __init__(
        self,
        entity: Entity,
        version: int | None,
        values: Values,
        links: dict[str, Identity | frozenset[Identity] | None] | None = None,
    ) -> None:
        self.entity, self.version, self.values = entity, version, values
        self.links = links or {
            relation.name: frozenset() if relation.is_many else None for relation in entity.owned
        }

    def with_link(self, name: str, held: Identity | frozenset[Identity] | None) -> Stored:
        return Stored(self.entity, self.version, self.values, {**self.links, name: held})

    def is_same(self, other: Stored) -> bool:
        return (self.entity, self.version, self.values, self.links) == (
            other.entity, other.version, other.values, other.links,
        )

    def lacks(self) -> bool:
        """Whether a required value or link is null."""
        return any(self.values[name] is None for name in self.entity.required) or any(
            relation.is_required and self.links[relation.name] is None
            for relation in self.entity.owned
        )

    def linked(self, relation: Relation) -> frozenset[Identity] | list[Identity]:
        """The identities that it owns in a relation."""
        held = self.links[relation.name]
        return held if relation.is_many else [] if held is None else [held]


def agree(some: Objects, others: Objects, identity: Identity) -> bool:
    """Whether two sets have the very same object under an identity, or none."""
    one, other = some.get(identity), others.get(identity)
    return one is other or one is not None and other is not None and one.is_same(other)


def members(objects: Objects, identity: Identity, relation: Relation) -> list[Identity]:
    """The identities that the object of an identity has in a relation, rising. One that isn't
    there, or is of a class without the relation, has none. In an inverse relation these are the
    objects of the target's class whose owning relation leads to it."""
    stored = objects.get(identity)
    if stored is None or not stored.entity.has(relation):
        return []
    if relation.owns:
        return sorted(stored.linked(relation))
    name, is_many = relation.owner.name, relation.owner.is_many
    return sorted(
        other
        for other, each in objects.items()
        if (held := each.links.get(name)) is not None
        and (identity in held if is_many else identity == held)
        and each.entity.is_a(relation.target)
    )


def unsound(objects: Objects) -> str | None:
    """What keeps a set from being sound, or None: a null, a reference to what isn't there, or two
    owners of one target."""
    if any(stored.lacks() for stored in objects.values()):
        return "null"
    claims, taken, is_twice = (
        [
            (relation, target)
            for stored in objects.values()
            for relation in stored.entity.owned
            for target in stored.linked(relation)
        ],
        set(),
        False,
    )
    for relation, target in claims:
        if target not in objects or not objects[target].entity.is_a(relation.target):
            return "reference"
        if relation.kind == "oneToOne":
            is_twice = is_twice or (relation, target) in taken
            taken.add((relation, target))
    return "unique" if is_twice else None


# ---- the cells of a set

def integer_bytes(number: int) -> bytes:
    return b"\x01" + (number + 2**63).to_bytes(8, "big")


def part_bytes(value: Part) -> bytes:
    if isinstance(value, int):
        return integer_bytes(value)
    text = isinstance(value, str)
    return (
        (b"\x02" if text else b"\x03")
        + (value.encode() if text else value).replace(b"\0", b"\0\xff")
        + b"\0\0"
    )


def key_bytes(key: Key) -> bytes:
    return b"".join(part_bytes(part) for part in key)


def cell_bytes(value: Part) -> bytes:
    if isinstance(value, int):
        return integer_bytes(value)
    return b"\x02" + value.encode() if isinstance(value, str) else b"\x03" + value


# The row of a store's revision, if that is 2.
REVISION_ROW = (0, integer_bytes(0))


class State:
    """The committed objects by identity, and the next number of each generator by its root."""

    def __init__(
        self, objects: Objects | None = None, numbers: dict[str, int] | None = None
    ) -> None:
        self.objects, self.numbers = objects or {}, numbers or {}

    def cells(self, unit: Unit) -> list[Cell]:
        rows = [(*REVISION_ROW, 0, integer_bytes(2))] if unit.revision == 2 else []
        rows += [
            (0, integer_bytes(unit.entities[name].table), 0, integer_bytes(n))
            for name, n in self.numbers.items()
            if n != 1
        ]
        for (_, key), stored in self.objects.items():
            row = key_bytes(key)
            rows += [
                (stored.entity.table, row, column, value)
                for column, value in columns_of(unit, stored)
            ]
            for relation in stored.entity.owned:
                if relation.is_many:
                    rows += [
                        (relation.table, row + key_bytes(other), 0, integer_bytes(1))
                        for _, other in stored.linked(relation)
                    ]
        return sorted(rows)


def columns_of(unit: Unit, stored: Stored) -> Iterator[tuple[int, bytes]]:
    """The columns of an object's own row, with their cells."""
    entity = stored.entity
    yield 0, cell_bytes(entity.discriminator)
    if entity.version:
        yield entity.version["column"], integer_bytes(stored.version)
    for attribute in entity.attributes.values():
        value = unit.column(attribute, stored.values[attribute["name"]])
        if value is not None:
            yield attribute["column"], cell_bytes(value)
    for relation in entity.owned:
        if not relation.is_many:
            for _, key in stored.linked(relation):
                yield relation.column, b"\x04" + key_bytes(key)


# ---- what cells stand for

class Damaged(Exception):
    """A store that is refused: the table and row that are named."""

    def __init__(self, table: int, row: bytes) -> None:
        super().__init__(table, row)
        self.table, self.row = table, row


def value_of(cell: bytes) -> Part:
    """The value that a cell spells; a reference is none."""
    tag, rest = cell[:1], cell[1:]
    if tag == b"\x01" and len(rest) == 8:
        return int.from_bytes(rest, "big") - 2**63
    if tag in (b"\x02", b"\x03") and len(rest) <= LENGTH:
        return rest.decode() if tag == b"\x02" else rest
    raise ValueError("cell")


def part_of(kind: type, row: bytes) -> tuple[Part, bytes]:
    """The first part of a key's bytes, and the bytes after it."""
    if row[:1] != {int: b"\x01", str: b"\x02", bytes: b"\x03"}[kind]:
        raise ValueError("kind")
    if kind is int:
        return value_of(row[:9]), row[9:]
    at = 1
    while row[at:at + 2] != b"\0\0":
        if at >= len(row) or (row[at:at + 1] == b"\0" and row[at:at + 2] != b"\0\xff"):
            raise ValueError("end")
        at += 2 if row[at:at + 1] == b"\0" else 1
    part = row[1:at].replace(b"\0\xff", b"\0")
    if len(part) > LENGTH:
        raise ValueError("long")
    return part.decode() if kind is str else part, row[at + 2:]


def identities_of(roots: list[Entity], row: bytes) -> list[Identity]:
    """The identities whose keys a row's bytes spell, one of each root."""
    found = []
    for root in roots:
        parts = []
        for kind in root.key.values():
            part, row = part_of(kind, row)
            parts.append(part)
        found.append((root.name, tuple(parts)))
    if row:
        raise ValueError("more")
    return found


def attribute_of(unit: Unit, attribute: dict[str, Any], cell: bytes | None) -> Value:
    """What an attribute holds for its cell, if it has one."""
    if cell is None:
        return None
    value = value_of(cell)
    if "converter" in attribute:
        value = converted_back(unit.functions[attribute["converter"]], value)
    if not isinstance(value, KINDS[attribute["type"]]):
        raise ValueError("kind")
    return value


def link_of(relation: Relation, cell: bytes | None) -> Identity | frozenset[Any] | None:
    """What an owned relation holds for its cell, if it has one."""
    if relation.is_many:
        return frozenset()
    if cell is None:
        return None
    if cell[:1] != b"\x04":
        raise ValueError("kind")
    return identities_of([relation.target.root], cell[1:])[0]


def class_of(classes: list[Entity], cells: dict[int, bytes]) -> Entity | None:
    """The class that a row's discriminator names."""
    return next(
        (entity for entity in classes if cells.get(0) == cell_bytes(entity.discriminator)), None
    )


def object_of(unit: Unit, classes: list[Entity], cells: dict[int, bytes]) -> Stored:
    """The object that the cells of a row, by their columns, say."""
    entity = class_of(classes, cells)
    if entity is None:
        raise ValueError("class")
    columns = (
        {0}
        | {each["column"] for each in entity.attributes.values()}
        | ({entity.version["column"]} if entity.version else set())
    )
    if not set(cells) <= columns | {
        relation.column for relation in entity.owned if not relation.is_many
    }:
        raise ValueError("columns")
    version = value_of(cells.get(entity.version["column"], b"")) if entity.version else None
    if entity.version and not isinstance(version, int):
        raise ValueError("version")
    values = {
        name: attribute_of(unit, each, cells.get(each["column"]))
        for name, each in entity.attributes.items()
    }
    return Stored(
        entity, version, values,
        {relation.name: link_of(relation, cells.get(relation.column)) for relation in entity.owned},
    )


def number_of(unit: Unit, row: bytes, cells: dict[int, bytes]) -> tuple[str, int]:
    """The root whose next number a row of table 0 is, and the number."""
    ((_, (table,)),) = identities_of(
        [Entity({"name": "", "table": 0, "key": [{"name": "table", "type": "int"}]})], row
    )
    name = next(
        (
            name
            for name, each in unit.entities.items()
            if each.table == table and each.generated and each.root is each
        ),
        None,
    )
    number = value_of(cells.get(0, b""))
    if name is None or set(cells) != {0} or not isinstance(number, int) or number < 2:
        raise ValueError("number")
    return name, number


def see_revision(cells: dict[int, bytes]) -> None:
    """The row of the revision says 2, and nothing else."""
    if cells != {0: integer_bytes(2)}:
        raise ValueError("revision")


def pair_of(relation: Relation, row: bytes, cells: dict[int, bytes]) -> list[Identity]:
    """The owner and the member that a row of a join table says."""
    if cells != {0: integer_bytes(1)}:
        raise ValueError("pair")
    return identities_of([relation.declaring.root, relation.target.root], row)


def with_pairs(state: State, pairs: list[tuple[Relation, Identity, Identity]]) -> None:
    """The state once its objects own these pairs; ValueError where one has no owner."""
    for relation, owner, member in pairs:
        stored = state.objects.get(owner)
        if stored is None or not stored.entity.has(relation):
            raise ValueError("owner")
        state.objects[owner] = stored.with_link(
            relation.name, stored.links[relation.name] | {member}
        )


def is_numbered(state: State) -> bool:
    """Whether each generated key lies below its next number."""
    return all(
        not stored.entity.generated or 1 <= key[0] < state.numbers.get(name, 1)
        for (name, key), stored in state.objects.items()
    )


def tables_of(unit: Unit) -> set[int]:
    return {0, *unit.joined(), *(entity.table for entity in unit.entities.values())}


def rows_of(unit: Unit, cells: list[Cell]) -> dict[tuple[int, bytes], dict[int, bytes]]:
    """The cells by their columns of each row in table 0 and in the unit's tables."""
    tables, rows = tables_of(unit), {}
    for table, row, column, value in cells:
        if table in tables:
            rows.setdefault((table, row), {})[column] = value
    return rows


def left_alone(unit: Unit, cells: list[Cell]) -> list[Cell]:
    """The cells of other tables, which stay as they are."""
    tables = tables_of(unit)
    return [cell for cell in cells if cell[0] not in tables]


def state_of(unit: Unit, cells: list[Cell]) -> State:
    """What cells stand for, or `Damaged`."""
    return state_of_rows(unit, rows_of(unit, cells))


def state_of_rows(
    unit: Unit,
    rows: dict[tuple[int, bytes], dict[int, bytes]],
    damaged: set[tuple[int, bytes]] | tuple[Any, ...] = (),
) -> State:
    """What rows stand for, or `Damaged`; some are damaged already."""
    tables, joined = {}, unit.joined()
    for entity in unit.entities.values():
        tables.setdefault(entity.table, []).append(entity)
    pairs, state = [], State()
    for (table, row), held in sorted(rows.items()):
        try:
            if (table, row) in damaged:
                raise ValueError("damaged")
            if (table, row) == REVISION_ROW and unit.revision == 2:
                see_revision(held)
            elif table == 0:
                name, number = number_of(unit, row, held)
                state.numbers[name] = number
            elif table in joined:
                pairs.append((joined[table], *pair_of(joined[table], row, held)))
            else:
                state.objects[identities_of([tables[table][0].root], row)[0]] = object_of(
                    unit, tables[table], held
                )
        except ValueError:
            raise Damaged(table, row) from None
    try:
        with_pairs(state, pairs)
    except ValueError:
        raise Damaged(0, b"") from None
    if unsound(state.objects) or not is_numbered(state):
        raise Damaged(0, b"")
    return state
