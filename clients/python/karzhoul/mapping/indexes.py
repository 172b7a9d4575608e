"""Which attributes the program keeps an index of (`index` of docs/CALLS.md), as a user names them."""

from __future__ import annotations

import json
from typing import TYPE_CHECKING, Any, Dict, Iterable, List, Mapping, NamedTuple, Optional, Type
from typing import Union

from ..refusals import Misused
from ..wire.lines import line_of, text_spelled
from .meant import meant
from .unit import MemberKind, entities_of

if TYPE_CHECKING:
    from ..classes.binding import Binding

Indexes = Union[Mapping[str, Iterable[str]], Mapping[Type[Any], Iterable[str]]]
"""Names of members by the name of their entity, or by its class: `{"Title": ["name"]}`."""

WHY_NOT = {
    MemberKind.VERSION: "is the version, which has no index",
    MemberKind.TO_ONE: "is a relation, and references are looked up without a word",
    MemberKind.COLLECTION: "is a relation, and references are looked up without a word",
}
"""What is said of a member that can have no index."""


class Known(NamedTuple):
    """A member as the program knows it."""

    name: str
    """Its name in the mapping."""
    why_not: str = ""
    """Why it can have no index; nothing where it can."""


def index_lines(
    said: bytes, indexes: Optional[Indexes], binding: Optional[Binding] = None
) -> List[bytes]:
    """The lines that say which attributes will be looked up: those of classes with `index=True`,
    and those that are named here of what a mapping says, or of its classes. A name of nothing that
    can have an index is a `Misused`, which is a `ValueError`, and anything but lists of names a
    `TypeError`. A mapping that is wrong has no lines: the program refuses it."""
    lines = [] if binding is None else binding.index_lines()
    if indexes:
        named = _named(indexes)
        known = _of_mapping(said) if binding is None else binding.known_members()
        if known is not None:
            lines += [_line(entity, name, known) for entity in named for name in named[entity]]
    return list(dict.fromkeys(lines))


def _named(indexes: Indexes) -> Dict[str, List[str]]:
    """The names by the entity's."""
    wrong = TypeError(
        "indexes= is lists of names by their entities, as {'Title': ['name']}, and not "
        f"{indexes!r}"
    )
    if not isinstance(indexes, Mapping):
        raise wrong
    found: Dict[str, List[str]] = {}
    for given, names in indexes.items():
        entity = given if isinstance(given, str) else getattr(given, "__name__", None)
        if entity is None or isinstance(names, str) or not isinstance(names, Iterable):
            raise wrong
        found.setdefault(entity, []).extend(names)
    if not all(isinstance(name, str) for names in found.values() for name in names):
        raise wrong
    return found


def _of_mapping(said: bytes) -> Optional[Dict[str, Dict[str, Known]]]:
    """The members of each entity of a mapping by hand; None where it is wrong."""
    from .linter import lint

    if lint(said).findings:
        return None
    return {
        entity: {it.name: Known(it.name, WHY_NOT.get(it.kind, "")) for it in described.members}
        for entity, described in entities_of(json.loads(said)).items()
    }


def _line(entity: str, name: str, known: Mapping[str, Mapping[str, Known]]) -> bytes:
    """The line for a member; a `Misused` where it can have no index."""
    if entity not in known:
        there = meant(entity, known) or f"; there are {', '.join(known)}"
        raise Misused(f"indexes: there is no entity {entity!r}{there}")
    members = known[entity]
    found = members.get(name)
    if found is None:
        able = [it for it in members if not members[it].why_not]
        there = meant(name, able) or f"; there can be one of {', '.join(able)}"
        raise Misused(f"indexes: {entity} has no member {name!r}{there}")
    if found.why_not:
        raise Misused(f"indexes: {entity}.{name} {found.why_not}")
    return index_line(entity, found.name)


def index_line(entity: str, name: str) -> bytes:
    """The line that says that a member will be looked up, by its name in the mapping."""
    return line_of("index", {"entity": text_spelled(entity), "name": text_spelled(name)})


def named_in_words(words: Iterable[str]) -> Dict[str, List[str]]:
    """What words of a command name, each as `Title.name`; a `Misused` where one doesn't."""
    found: Dict[str, List[str]] = {}
    for word in words:
        entity, dot, name = word.partition(".")
        if not (entity and dot and name):
            raise Misused(f"--index {word} is no entity with its member, as Title.name")
        found.setdefault(entity, []).append(name)
    return found
