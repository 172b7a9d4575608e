"""The writer of typed classes of a mapping's entities (`karzhoul stubs`), which stand on
`karzhoul.stubs`."""

from __future__ import annotations

import keyword
from typing import Any, Dict, Iterator, List, Mapping, Set, Tuple

from .unit import EntityDescription, Member, MemberKind, entities_of

_FROM = {
    "int": "builtins",
    "str": "builtins",
    "bytes": "builtins",
    "Any": "typing",
    "Iterable": "typing",
    "Mapping": "typing",
    "Optional": "typing",
    "Tuple": "typing",
    "Union": "typing",
    "Collection": "karzhoul",
    "TypedEntity": "karzhoul.stubs",
    "TypedId": "karzhoul.stubs",
    "View": "karzhoul.stubs",
}
"""What the classes are written with, and where it is imported from."""
_TYPES = {"int": "int", "text": "str", "bytes": "bytes"}
_HEAD = '''"""Typed classes of the entities of {source}. `karzhoul stubs` wrote this: \
change the mapping, and have it written again."""

from __future__ import annotations
'''


def module_of(mapping: Mapping[str, Any], source: str) -> str:
    """The module of the classes of a well-formed mapping."""
    return _Writer(entities_of(mapping)).module(source)


class _Writer:
    def __init__(self, entities: Mapping[str, EntityDescription]) -> None:
        self._entities = entities
        self._members = {
            step
            for entity in entities.values()
            for member in entity.members
            for step in member.name.split(".")
        }
        self._members |= {entity.embedded for entity in entities.values() if entity.embedded}
        self._taken = {*entities, *self._members}
        self._used: Set[str] = set()
        # Entities that are written by another name where types stand, since a member has theirs.
        clashing = [name for name in entities if name in self._members and _can_stand(name)]
        self._aliases = {name: self._free(f"{name}_entity") for name in clashing}

    def module(self, source: str) -> str:
        classes = [text for entity in self._superclasses_first() for text in self._classes(entity)]
        aliases = [f"{alias} = {name}" for name, alias in self._aliases.items()]
        parts = [_HEAD.format(source=source.replace("\\", "/").replace('"', "'")), *self._imports()]
        return (
            "\n".join(parts)
            + "\n\n\n"
            + "\n\n\n".join([*classes, *(["\n".join(aliases)] if aliases else [])])
            + "\n"
        )

    def _superclasses_first(self) -> Iterator[EntityDescription]:
        written: Set[str] = set()
        for entity in self._entities.values():
            chain = [entity]
            while chain[0].superclass is not None:
                chain.insert(0, self._entities[chain[0].superclass])
            for each in chain:
                if each.name not in written and _can_stand(each.name):
                    written.add(each.name)
                    yield each

    def _imports(self) -> Iterator[str]:
        named: Dict[str, List[str]] = {}
        for name in sorted(self._used):
            word = self._free(name)
            if word != name or _FROM[name] != "builtins":
                named.setdefault(_FROM[name], []).append(
                    name if word == name else f"{name} as {word}"
                )
        standard = [
            f"from {module} import {', '.join(named.pop(module))}"
            for module in ("builtins", "typing")
            if module in named
        ]
        own = [f"from {module} import {', '.join(names)}" for module, names in named.items()]
        return iter([*standard, *([""] if standard else []), *own])

    def _free(self, name: str) -> str:
        """A name that no entity and no member has."""
        while name in self._taken:
            name += "_"
        return name

    def _word(self, name: str) -> str:
        """The word for something that is imported."""
        self._used.add(name)
        return self._free(name)

    def _entity(self, name: str) -> str:
        return self._aliases.get(name, name) if _can_stand(name) else self._word("Any")

    # ---- classes

    def _classes(self, entity: EntityDescription) -> Iterator[str]:
        """An embedded id's class, and the entity's."""
        is_root = entity.superclass is None
        if is_root and entity.embedded:
            parts = [(part.name.partition(".")[2], self._plain(part)) for part in entity.key]
            yield self._class(
                self._id_of(entity),
                self._word("TypedId"),
                f"The embedded id {entity.embedded} of {entity.name}.",
                parts,
            )
        base = self._word("TypedEntity") if entity.superclass is None else entity.superclass
        members = list(self._typed(entity))
        own = [(member, got) for member, declarer, got, _ in members if declarer == entity.name]
        given = [
            f"        {member}: {taken} = ...,\n"
            for member, _, _, taken in members
            if _can_stand(member)
        ]
        made = (
            f"    def __init__(\n        {self._free('self')},\n        *,\n"
            f"{''.join(given)}    ) -> None: ..."
        )
        yield f"{self._class(entity.name, base, f'The entity {entity.name}.', own)}\n\n{made}"

    @staticmethod
    def _class(name: str, base: str, what: str, members: List[Tuple[str, str]]) -> str:
        lines = [
            f"    {member}: {kind}" if _can_stand(member) else f"    # {member}: {kind}"
            for member, kind in members
        ]
        return "\n".join(
            [f"class {name}({base}):", f'    """{what}"""', *([""] if lines else []), *lines]
        )

    def _typed(self, entity: EntityDescription) -> Iterator[Tuple[str, str, str, str]]:
        """Each member with its declarer, and the types that it is read with and that it takes."""
        if entity.embedded:
            root = entity.key[0].declarer
            parts = ", ".join(map(self._plain, entity.key))
            word = self._id_of(entity)
            named = f"{self._word('Mapping')}[{self._word('str')}, {self._word('Any')}]"
            taken = f"{self._word('Union')}[{word}, {self._word('Tuple')}[{parts}], {named}]"
            yield entity.embedded, root, f"{self._word('View')}[{word}, {taken}]", taken
        for member in entity.members:
            if "." not in member.name:
                yield (member.name, member.declarer, *self._types(member))

    def _types(self, member: Member) -> Tuple[str, str]:
        if member.kind is MemberKind.COLLECTION:
            target = self._entity(member.type)
            taken = f"{self._word('Iterable')}[{target}]"
            return f"{self._word('View')}[{self._word('Collection')}[{target}], {taken}]", taken
        kind = (
            self._entity(member.type) if member.kind is MemberKind.TO_ONE else self._plain(member)
        )
        kind = kind if member.is_required else f"{self._word('Optional')}[{kind}]"
        return kind, kind

    def _plain(self, member: Member) -> str:
        return self._word(_TYPES[member.type])

    def _id_of(self, entity: EntityDescription) -> str:
        """The name of the class of an entity's embedded id."""
        return self._free(f"{entity.key[0].declarer}_{entity.embedded}")


def _can_stand(name: str) -> bool:
    """Whether a name may stand as it is in a class of Python."""
    return not keyword.iskeyword(name) and not name.startswith("__")
