"""Reading a mapping that has its shape."""

from __future__ import annotations

import re
from dataclasses import dataclass
from typing import Dict, Iterator, List, Optional, Tuple

from ...wire.strict_json import Value
from ..converters import Plain
from .findings import Path

VALUES = 'an integer of 64 bits, a text, or bytes as {"hex":"0aff"}'


def members(value: Value) -> Dict[str, Value]:
    assert isinstance(value.data, dict)
    return value.data


def items(value: Value, name: str) -> List[Value]:
    member = members(value).get(name)
    return member.data if member is not None and isinstance(member.data, list) else []


def at(value: Value, name: str) -> Value:
    return members(value)[name]


def text(value: Value, name: str) -> str:
    return str(at(value, name).data)


def has(value: Value, name: str) -> bool:
    return name in members(value)


def flag(value: Value, name: str) -> bool:
    return has(value, name) and bool(at(value, name).data)


@dataclass(frozen=True)
class Placed:
    """A value with its path."""

    path: Path
    value: Value

    def at(self, name: str) -> Placed:
        return Placed((*self.path, name), at(self.value, name))

    def items(self, name: str) -> Iterator[Placed]:
        for place, item in enumerate(items(self.value, name)):
            yield Placed((*self.path, name, place), item)

    def has(self, name: str) -> bool:
        return has(self.value, name)

    def text(self, name: str) -> str:
        return text(self.value, name)


class Unit:
    """The entities of a mapping that has its shape, with their chains from the root on."""

    def __init__(self, root: Value) -> None:
        self.root = Placed((), root)
        self.entities = list(self.root.items("entities"))
        self.by_name: Dict[str, int] = {}
        for place, entity in enumerate(self.entities):
            self.by_name.setdefault(entity.text("name"), place)
        self.chains = [self._chain(place) for place in range(len(self.entities))]

    def superclass(self, place: int) -> Optional[int]:
        entity = self.entities[place]
        return self.by_name.get(entity.text("extends")) if entity.has("extends") else None

    def _chain(self, place: int) -> List[int]:
        chain: List[int] = [place]
        superclass = self.superclass(place)
        while superclass is not None and len(chain) <= len(self.entities):
            chain.insert(0, superclass)
            superclass = self.superclass(superclass)
        return chain

    def is_whole(self, place: int) -> bool:
        """Whether the chain begins with a root."""
        return not self.entities[self.chains[place][0]].has("extends")

    def hierarchy(self, root: int) -> List[int]:
        return [place for place, chain in enumerate(self.chains) if chain[0] == root]

    def relations_along(self, place: int) -> Iterator[Tuple[int, Placed]]:
        for declarer in self.chains[place]:
            for relation in self.entities[declarer].items("relations"):
                yield declarer, relation

    @staticmethod
    def member_names(entity: Placed) -> Iterator[Placed]:
        """The names of the members that an entity declares itself."""
        if not entity.has("extends"):
            if entity.has("embedded"):
                yield entity.at("embedded")
            else:
                yield from (part.at("name") for part in entity.items("key"))
            if entity.has("version"):
                yield entity.at("version").at("name")
        for sort in ("attributes", "relations"):
            yield from (item.at("name") for item in entity.items(sort))


def plain_of(value: Value) -> Optional[Tuple[type, Plain]]:
    """A value of a pair, or a default, with its type."""
    data = value.data
    if isinstance(data, (int, str)) and not isinstance(data, bool):
        return type(data), data
    if isinstance(data, dict) and set(data) == {"hex"}:
        digits = data["hex"].data
        if isinstance(digits, str) and re.fullmatch(r"(?:[0-9a-fA-F]{2})*", digits):
            return bytes, bytes.fromhex(digits)
    return None
