"""What keeps a row of a store from being one that a mapping writes, as far as its cells alone tell.
What a converter makes of them, and whether the rows go together, only the program knows."""

from __future__ import annotations

from dataclasses import dataclass
from typing import Any, Dict, Mapping, Optional, Sequence

_TAGS = {"int": 1, "text": 2, "bytes": 3}
_LINK = 4
_KINDS = {1: "a whole number", 2: "a text", 3: "bytes", _LINK: "a link"}


@dataclass(frozen=True)
class Column:
    """What a column holds: a member, the byte with which its cells begin (None where a converter
    chooses it), and whether each row has a cell there."""

    name: str
    tag: Optional[int]
    is_needed: bool = False


def row_columns(chain: Sequence[Mapping[str, Any]]) -> Dict[int, Column]:
    """The columns of an entity's rows, of a well-formed mapping: those of its chain of classes, the
    root first."""
    found = {0: Column("its class", _TAGS["text"], True)}
    if "version" in chain[0]:
        version = chain[0]["version"]
        found[version["column"]] = Column(version["name"], _TAGS["int"], True)
    for entity in chain:
        for attribute in entity.get("attributes", ()):
            tag = None if "converter" in attribute else _TAGS[attribute["type"]]
            is_needed = attribute.get("required", False)
            found[attribute["column"]] = Column(attribute["name"], tag, is_needed)
        for relation in entity.get("relations", ()):
            if "column" in relation:
                is_needed = relation.get("required", False)
                found[relation["column"]] = Column(relation["name"], _LINK, is_needed)
    return found


def damage(entity: str, columns: Mapping[int, Column], cells: Mapping[int, bytes]) -> Optional[str]:
    """What is wrong with a row of an entity; None where nothing is seen."""
    for column, value in sorted(cells.items()):
        known = columns.get(column)
        if known is None:
            return f"has a cell in column {column}, which no member of {entity} has"
        held = value[0] if value else 0
        if known.tag not in (None, held):
            word = _KINDS.get(held, "nothing that can be read")
            wanted = _KINDS[known.tag or 0]
            return f"has {word} in column {column}, and {entity}.{known.name} is {wanted}"
    for column, known in sorted(columns.items()):
        if known.is_needed and column not in cells:
            return f"has nothing in column {column}, and {entity}.{known.name} is needed"
    return None
