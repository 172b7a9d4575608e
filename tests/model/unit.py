"""Units for the model: the entities of a mapping with their members and relations, who hears of
them, and the functions of the mapping. tests/model/machine.py tells what values are.
"""
from __future__ import annotations

from typing import TYPE_CHECKING, Any

from model.reading import GREATEST, Refused

if TYPE_CHECKING:
    from model.kinds import Part, Value, Values
    from model.live import Live
    from model.reading import Number

LENGTH = 65535
KINDS = {"int": int, "text": str, "bytes": bytes}


def size(value: Any) -> int:
    return (
        len(value.encode())
        if isinstance(value, str)
        else len(value)
        if isinstance(value, bytes)
        else 0
    )


class Relation:
    """A relation of an entity. One that owns has a column or a join table; an inverse one has the
    owning relation of its target."""

    def __init__(self, described: dict[str, Any], declaring: Entity) -> None:
        self.name, self.kind, self.declaring = described["name"], described["kind"], declaring
        self.is_many = self.kind in ("oneToMany", "manyToMany")
        self.column, self.table, self.mapped_by = (
            described.get(name) for name in ("column", "joinTable", "mappedBy")
        )
        self.is_required, self.cascade = described.get("required", False), described.get(
            "cascade", []
        )
        self.removes_orphans = described.get("orphanRemoval", False)
        self.owns = self.mapped_by is None
        self.target = self.owner = None

    def cascades(self, operation: str) -> bool:
        return (
            operation in self.cascade
            or "ALL" in self.cascade
            or (operation == "REMOVE" and self.removes_orphans)
        )


class Entity:
    """An entity of a mapping: its members and relations by their names, in order, the root's first;
    its chain are the entities from the root to it."""

    def __init__(self, described: dict[str, Any], above: Entity | None = None) -> None:
        self.name, self.above, self.root = described["name"], above, above.root if above else self
        self.chain = [*(above.chain if above else []), self]
        self.discriminator = described.get("discriminator", self.name)
        if above:
            self.table, self.key, self.generated, self.version = (
                above.table, above.key, above.generated, above.version,
            )
        else:
            before = described["embedded"] + "." if "embedded" in described else ""
            self.table = described["table"]
            self.key = {before + part["name"]: KINDS[part["type"]] for part in described["key"]}
            self.generated = described.get("generated", False)
            self.version = described.get("version")
            self.dropped = described.get("dropped", [])
        self.attributes = {
            **(above.attributes if above else {}),
            **{each["name"]: each for each in described.get("attributes", [])},
        }
        self.relations = {
            **(above.relations if above else {}),
            **{each["name"]: Relation(each, self) for each in described.get("relations", [])},
        }
        self.owned = [relation for relation in self.relations.values() if relation.owns]
        self.required = [name for name, each in self.attributes.items() if each.get("required")]
        self.listeners, self.callbacks = described.get("listeners", []), described.get(
            "callbacks", []
        )
        self.excludes_default, self.excludes_super = described.get(
            "excludeDefault", False
        ), described.get("excludeSuper", False)

    def is_a(self, other: Entity) -> bool:
        return other in self.chain

    def has(self, relation: Relation) -> bool:
        return self.relations.get(relation.name) is relation

    def kind(self, name: str) -> type:
        """The kind of a value's member, if the entity has one of this name."""
        if name in self.key:
            return self.key[name]
        if self.version and name == self.version["name"]:
            return int
        if name in self.attributes:
            return KINDS[self.attributes[name]["type"]]
        raise Refused("IllegalArgument", "name")


def side(data: Part | dict[str, str]) -> Part:
    return bytes.fromhex(data["hex"]) if isinstance(data, dict) else data


class Unit:
    """The entities of a mapping, who listens to them, and the functions of the mapping; the
    revision of the stores that it writes."""

    def __init__(self, mapping: dict[str, int | list[dict[str, Any]]]) -> None:
        self.revision = mapping.get("revision", 1)
        self.described = {each["name"]: each for each in mapping["entities"]}
        self.entities = {}
        for name in self.described:
            self.entity(name)
        self.entities = {name: self.entities[name] for name in self.described}
        for entity in self.entities.values():
            for each in self.described[entity.name].get("relations", []):
                relation = entity.relations[each["name"]]
                relation.target = self.entities[each["target"]]
                relation.owner = relation.target.relations.get(relation.mapped_by)
        self.functions = {each["name"]: each for each in mapping.get("functions", [])}
        self.default = mapping.get("listeners", [])

    def entity(self, name: str) -> Entity:
        if name not in self.entities:
            above = self.described[name].get("extends")
            self.entities[name] = Entity(
                self.described[name], self.entity(above) if above else None
            )
        return self.entities[name]

    def joined(self) -> dict[int, Relation]:
        """The relations with a join table, by its number."""
        return {
            relation.table: relation
            for entity in self.entities.values()
            for relation in entity.owned
            if relation.table
        }

    def column(self, attribute: dict[str, Any], value: Value) -> Value:
        """What the attribute's column holds for a value."""
        if value is None or "converter" not in attribute:
            return value
        found = converted(self.functions[attribute["converter"]], value)
        if found is None or size(found) > LENGTH:
            raise Refused("Persistence", "converter")
        return found

    def default_of(self, attribute: dict[str, Any]) -> Part:
        """What the column of an attribute that is new holds for its default."""
        return self.column(attribute, side(attribute["default"]))

    def defaults_pass(self) -> bool:
        """Whether no converter throws for a default."""
        try:
            for entity in self.entities.values():
                for attribute in entity.attributes.values():
                    if "default" in attribute:
                        self.default_of(attribute)
        except Refused:
            return False
        return True

    def heard_by(self, entity: Entity, event: str) -> list[dict[str, str]]:
        """The functions that hear an event of an entity, in order."""
        chain, entries = entity.chain, []
        if not any(each.excludes_default for each in chain):
            entries += self.default
        lowest = max((at for at, each in enumerate(chain) if each.excludes_super), default=0)
        for each in chain[lowest:]:
            entries += each.listeners
        for each in chain:
            entries += each.callbacks
        return [self.functions[entry["name"]] for entry in entries if event in entry["events"]]


def assigned(function: dict[str, str], values: Values) -> Values:
    """What a listener assigns when it hears of an object with these values."""
    make = function["make"]
    if make == "set_text":
        return {function["attribute"]: function["value"]}
    if make == "copy":
        return {function["to"]: values.get(function["from"])}
    if make == "count":
        # (null counts as 0; what isn't there is no whole number)
        value = values.get(function["attribute"], "")
        value = 0 if value is None else value
        if not isinstance(value, int) or value == GREATEST:
            raise Refused("Listener", "count")
        return {function["attribute"]: value + 1}
    if make == "require" and values.get(function["attribute"]) is None:
        raise Refused("Listener", "require " + function["attribute"])
    return {}


def converted(function: Any, value: Part) -> Value:
    if function["make"] == "flip":
        return -1 - value if isinstance(value, int) else None
    if function["make"] == "hextext":
        return value.hex() if isinstance(value, bytes) else None
    return next((side(there) for here, there in function["pairs"] if side(here) == value), None)


def converted_back(function: Any, value: Part) -> Value:
    if function["make"] == "flip":
        return -1 - value if isinstance(value, int) else None
    if function["make"] == "hextext":
        is_digits = (
            isinstance(value, str) and len(value) % 2 == 0 and set(value) <= set("0123456789abcdef")
        )
        return bytes.fromhex(value) if is_digits else None
    return next((side(here) for here, there in function["pairs"] if side(there) == value), None)
