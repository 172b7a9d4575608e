"""What a store has of its objects, as records: what of an object is written, and no more.

The sides of a relation that are inverse aren't written, and so no record has them. A record has the
values of attributes as they are in Python, before a converter makes of them what is stored.
"""

from __future__ import annotations

from dataclasses import dataclass, field
from typing import Any, Collection, Dict, Iterator, List, Mapping, Optional, Tuple, Union

from ..explain.texts import value_text
from ..mapping.unit import EntityDescription, Member, MemberKind, entities_of

Value = Union[None, int, str, bytes]
Key = Tuple[Value, ...]

LEAST, GREATEST = -(2**63), 2**63 - 1
MOST_BYTES = 65_535
_NAMES = {"int": "a whole number", "text": "a text", "bytes": "bytes"}


class Unfit(ValueError):
    """What was read is no record of the mapping's."""


@dataclass(frozen=True)
class Shape:
    """What is written of an entity's objects, with what its superclasses have."""

    name: str
    top: str
    """The entity at the top of its hierarchy, in which no two objects have one key."""
    chain: Tuple[str, ...]
    """Itself and its superclasses."""
    is_generated: bool
    key: Tuple[Member, ...]
    version: Optional[str]
    values: Mapping[str, Member]
    links: Mapping[str, Member]
    """The relations to one object that it owns."""
    pairs: Mapping[str, Member]
    """The relations to many that it owns."""

    def relations(self) -> Iterator[Member]:
        """The relations that it owns."""
        yield from self.links.values()
        yield from self.pairs.values()


@dataclass
class Record:
    """An object as it is stored, or is to be. What a record doesn't tell is left as it is: in a new
    object null or empty."""

    entity: str
    key: Optional[Key]
    """None where the key is to be generated."""
    version: Optional[int] = None
    values: Dict[str, Value] = field(default_factory=dict)
    links: Dict[str, Optional[Key]] = field(default_factory=dict)
    pairs: Dict[str, List[Key]] = field(default_factory=dict)

    def __str__(self) -> str:
        return named(self.entity, self.key)

    def targets(self, shape: Shape) -> Iterator[Tuple[Member, Key]]:
        """What it leads to: the relation, and the key."""
        for name, key in self.links.items():
            if key is not None:
                yield shape.links[name], key
        for name, keys in self.pairs.items():
            for each in keys:
                yield shape.pairs[name], each


@dataclass(frozen=True)
class Next:
    """The number that the next object of a hierarchy gets as its key."""

    entity: str
    number: int


def named(entity: str, key: Optional[Key]) -> str:
    """An object in words: `Person 1`."""
    return entity if key is None else f"{entity} {', '.join(map(value_text, key))}"


def shapes_of(mapping: Mapping[str, Any]) -> Dict[str, Shape]:
    """What is written of each entity of a well-formed mapping, by name."""
    described = entities_of(mapping)
    return {name: _shape(described, entity) for name, entity in described.items()}


def _shape(described: Mapping[str, EntityDescription], entity: EntityDescription) -> Shape:
    chain = [entity.name]
    while (above := described[chain[-1]].superclass) is not None:
        chain.append(above)

    def owned(kind: MemberKind) -> Dict[str, Member]:
        return {each.name: each for each in entity.members if each.kind is kind and each.is_owner}

    plain = [each for each in entity.members if each.kind is MemberKind.ATTRIBUTE]
    versions = [each.name for each in entity.members if each.kind is MemberKind.VERSION]
    return Shape(
        name=entity.name,
        top=chain[-1],
        chain=tuple(chain),
        is_generated=described[chain[-1]].is_generated,
        key=tuple(each for each in entity.members if each.kind is MemberKind.KEY),
        version=versions[0] if versions else None,
        values={each.name: each for each in plain},
        links=owned(MemberKind.TO_ONE),
        pairs=owned(MemberKind.COLLECTION),
    )


def bare(mapping: Mapping[str, Any], heard: Collection[str] = ()) -> Dict[str, Any]:
    """A mapping over which an object is stored as it is given, alone: without cascades and without
    the removal of orphans, and with listeners and callbacks of these events alone. It is a mapping
    of the same rows."""
    entities = []
    for entity in mapping["entities"]:
        kept = {**entity}
        for sort in ("listeners", "callbacks"):
            if sort in kept:
                kept[sort] = _heard(kept[sort], heard)
        if "relations" in kept:
            kept["relations"] = [_alone(relation) for relation in kept["relations"]]
        entities.append(kept)
    listeners = _heard(mapping.get("listeners", []), heard)
    return {**mapping, "listeners": listeners, "entities": entities}


def _heard(listeners: List[Any], heard: Collection[str]) -> List[Any]:
    kept = [{**it, "events": [each for each in it["events"] if each in heard]} for it in listeners]
    return [listener for listener in kept if listener["events"]]


def _alone(relation: Mapping[str, Any]) -> Dict[str, Any]:
    without = ("cascade", "orphanRemoval")
    return {name: each for name, each in relation.items() if name not in without}


# ---- values


def fitting(value: Any, kind: str, what: str) -> Value:
    """A value of a type, or null; `Unfit` where it is another one, or too long."""
    if value is None:
        return None
    if kind == "int" and isinstance(value, int) and not isinstance(value, bool):
        if LEAST <= value <= GREATEST:
            return value
        raise Unfit(f"{what} is {value}, which is no whole number of 64 bits")
    if kind == "text" and isinstance(value, str):
        return _short(value, _encoded(value, what), what)
    if kind == "bytes" and isinstance(value, bytes):
        return _short(value, value, what)
    raise Unfit(f"{what} is to be {_NAMES[kind]}, and is {value!r}")


def _encoded(value: str, what: str) -> bytes:
    try:
        return value.encode()
    except UnicodeEncodeError:
        raise Unfit(f"{what} has half a character") from None


def _short(value: Value, data: bytes, what: str) -> Value:
    if len(data) > MOST_BYTES:
        raise Unfit(f"{what} has {len(data):,} bytes, and {MOST_BYTES:,} are the most")
    return value


def key_fitting(parts: Any, shape: Shape, what: str) -> Key:
    """A whole key of an entity, of the values of its parts."""
    if not isinstance(parts, (list, tuple)) or len(parts) != len(shape.key):
        wanted = ", ".join(part.name for part in shape.key)
        raise Unfit(f"{what} is to be a list of {wanted}, and is {parts!r}")
    titles = [what if len(parts) == 1 else f"{what}, {part.name}," for part in shape.key]
    key = [fitting(it, part.type, title) for it, part, title in zip(parts, shape.key, titles)]
    if None in key:
        raise Unfit(f"{what} has null in it")
    return tuple(key)
