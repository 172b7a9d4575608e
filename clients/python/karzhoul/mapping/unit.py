"""What the tools know of a mapping: the entities, and the members of each along its chain of
classes."""

from __future__ import annotations

import enum
from dataclasses import dataclass, replace
from typing import Any, Dict, Iterator, List, Mapping, Optional, Tuple


class MemberKind(enum.Enum):
    """What a member of an entity is."""

    KEY = "key"
    VERSION = "version"
    ATTRIBUTE = "attribute"
    TO_ONE = "to-one relation"
    COLLECTION = "collection"


@dataclass(frozen=True)
class Member:
    """A member by the name that `get` and `set` take: a part of an embedded id is `id.part`."""

    name: str
    kind: MemberKind
    type: str
    """`int`, `text` or `bytes`; of a relation the target's name."""
    declarer: str
    """The class of the chain that declares it."""
    is_owner: bool = False
    is_required: bool = False
    """Whether it is null in no stored object."""


@dataclass(frozen=True)
class EntityDescription:
    """An entity: the members that it has with its superclasses, the key's parts first."""

    name: str
    superclass: Optional[str]
    embedded: Optional[str]
    is_generated: bool
    members: Tuple[Member, ...]

    @property
    def key(self) -> Tuple[Member, ...]:
        """The parts of the key."""
        return tuple(member for member in self.members if member.kind is MemberKind.KEY)

    @property
    def relations(self) -> Tuple[Member, ...]:
        """The relations."""
        return tuple(
            member
            for member in self.members
            if member.kind in (MemberKind.TO_ONE, MemberKind.COLLECTION)
        )


def entities_of(mapping: Mapping[str, Any]) -> Dict[str, EntityDescription]:
    """The entities of a well-formed mapping, by name."""
    declared = {entity["name"]: entity for entity in mapping["entities"]}
    return {name: _described(declared, name) for name in declared}


# What the client of classes keeps in a store for itself.
OWN_ENTITIES, OWN_MEMBERS = ("KarzhoulForm", "KarzhoulUnique"), ("_unique_", "_gone_")


def shown_entities(mapping: Mapping[str, Any]) -> Dict[str, EntityDescription]:
    """The entities of a mapping as people are shown them: without what the client of classes keeps
    for itself, the forms of columns, the keys of unique values, and what classes have no more."""
    return {
        name: replace(entity, members=tuple(
            it for it in entity.members if not it.name.startswith(OWN_MEMBERS)
        ))
        for name, entity in entities_of(mapping).items() if name not in OWN_ENTITIES
    }


def _described(declared: Mapping[str, Any], name: str) -> EntityDescription:
    chain: List[Any] = [declared[name]]
    while "extends" in chain[0]:
        chain.insert(0, declared[chain[0]["extends"]])
    root = chain[0]
    members = [*_key(root), *(member for entity in chain for member in _own(entity))]
    return EntityDescription(
        name, declared[name].get("extends"), root.get("embedded"), root.get("generated", False),
        tuple(members),
    )


def _key(root: Any) -> Iterator[Member]:
    prefix = f"{root['embedded']}." if "embedded" in root else ""
    for part in root["key"]:
        yield Member(
            prefix + part["name"], MemberKind.KEY, part["type"], root["name"], is_required=True
        )
    if "version" in root:
        yield Member(
            root["version"]["name"], MemberKind.VERSION, "int", root["name"], is_required=True
        )


def _own(entity: Any) -> Iterator[Member]:
    for attribute in entity.get("attributes", ()):
        is_required = attribute.get("required", False)
        yield Member(
            attribute["name"], MemberKind.ATTRIBUTE, attribute["type"], entity["name"],
            is_required=is_required,
        )
    for relation in entity.get("relations", ()):
        kind = (
            MemberKind.TO_ONE
            if relation["kind"] in ("manyToOne", "oneToOne")
            else MemberKind.COLLECTION
        )
        is_owner, is_required = "mappedBy" not in relation, relation.get("required", False)
        yield Member(
            relation["name"], kind, relation["target"], entity["name"], is_owner, is_required
        )
