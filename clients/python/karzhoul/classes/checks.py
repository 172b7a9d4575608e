"""What the classes of a model must have together, told with what to write."""

from __future__ import annotations

from typing import Dict, List, Optional, Sequence

from .declared import TO_MANY, TO_ONE, Declared, Member, Model
from .faults import Faults
from .types import Plainly

_SIDES = {
    "one_to_many": "many_to_one", "one_to_one": "one_to_one", "many_to_many": "many_to_many",
}


_MOST_PARTS = 4


def check(model: Model, faults: Faults) -> None:
    """Refuses a model that makes no mapping: a `DeclarationError` has all that is wrong."""
    for entity in model.values():
        _check_key(entity, faults)
        _check_version(entity, faults)
        _check_names(model, entity, faults)
        for names in entity.unique:
            _check_unique(model, entity, names, faults)
        for member in entity.of(*TO_ONE, *TO_MANY):
            _check_relation(model, entity, member, faults)
    faults.tell()


def chain(model: Model, entity: Declared) -> List[Declared]:
    """An entity with those that it extends, the root first."""
    found = [entity]
    while found[0].parent is not None:
        found.insert(0, model[found[0].parent])
    return found


def member_of(model: Model, name: str, attribute: str) -> Optional[Member]:
    """The attribute of an entity, its own or one of those that it extends."""
    for entity in reversed(chain(model, model[name])):
        if attribute in entity.members:
            return entity.members[attribute]
    return None


def _check_key(entity: Declared, faults: Faults) -> None:
    keys = entity.of("key", "generated")
    if entity.parent is not None:
        for each in keys:
            faults.add(each.writer, each.said, f"is a key, and {entity.name} has that of "
                       f"{entity.parent}, which it extends: take the word key() away")
        return
    if not keys:
        faults.add(entity.kind, None, "has no key: write id: int = generated(), or give the word "
                   "key() to the attribute by which an object is found")
    for each in keys:
        if len(keys) > 1 and (each.field.sort == "generated" or each.kind is not None):
            word = "is generated" if each.kind is None else "is an embedded id"
            faults.add(each.writer, each.said, f"{word}, and so the whole key: take the other "
                       "key() away")
        if each.is_optional:
            faults.add(each.writer, each.said, "is a key, which is never None: take None away")
        if each.field.sort == "generated" and not _is_int(each):
            faults.add(each.writer, each.said, "is generated, and so a number: write it as int")
    if len(entity.key()) > _MOST_PARTS:
        faults.add(entity.kind, None, f"has a key of {len(entity.key())} parts, and "
                   f"{_MOST_PARTS} are the most: write a key() of less")


def _check_version(entity: Declared, faults: Faults) -> None:
    versions = entity.of("version")
    for each in versions[1:]:
        faults.add(each.writer, each.name, "is a second version: take it away")
    for each in versions[:1]:
        if entity.parent is not None:
            faults.add(each.writer, each.name, f"is a version, which {entity.parent} has where it "
                       "is wanted: write it there")
        elif not _is_int(each) or each.is_optional:
            faults.add(each.writer, each.name, "is a version, and so a number: write it as int")


def _is_int(member: Member) -> bool:
    return isinstance(member.type, Plainly) and member.type.kind is int


def _check_names(model: Model, entity: Declared, faults: Faults) -> None:
    above: Dict[str, str] = {
        name: each.name for each in chain(model, entity)[:-1] for name in each.members
    }
    for name, member in entity.members.items():
        if name in above:
            faults.add(member.writer, name, f"is in {above[name]} already, which it extends: take "
                       "it away here")


def _check_unique(
    model: Model, entity: Declared, names: Sequence[str], faults: Faults
) -> None:
    """What is unique is stored, and is no key, which is so anyhow."""
    for name in names:
        member = member_of(model, entity.name, name)
        if member is None:
            faults.add(entity.kind, None, f"has unique=.. of {name!r}, which is no attribute of it")
        elif member.parts:
            faults.add(entity.kind, None, f"has unique=.. of {name}, which is an embedded value: "
                       f"name its parts, as {next(member.leaves()).said}")
        elif member.field.sort == "version" or member.type is None and not member.is_link:
            faults.add(entity.kind, None, f"has unique=.. of {name}, which is no value and no link "
                       "that is stored: take it away there")
    members = [member_of(model, entity.name, name) for name in names]
    key = chain(model, entity)[0].key()
    if key and all(part in members for part in key):
        faults.add(entity.kind, None, f"has unique=.. of {', '.join(names)}, which is the key, and "
                   "so unique: take it away there")
    if len(set(names)) < len(names) or entity.unique.count(tuple(names)) > 1:
        faults.add(entity.kind, None, f"has unique=.. of {', '.join(names)} twice: once is enough")


def _check_relation(model: Model, entity: Declared, member: Member, faults: Faults) -> None:
    sort, mapped = member.field.sort, member.field.mapped_by
    if sort == "one_to_many" or mapped is not None:
        owner = member_of(model, member.target, mapped or "")
        wanted = _SIDES[sort]
        if owner is None or owner.field.sort != wanted or owner.field.mapped_by is not None:
            faults.add(member.writer, member.name, f"is mapped by {member.target}.{mapped}, which "
                       f"is no {wanted}: write {mapped}: {_written(wanted, entity.name)} in "
                       f"{member.target}")
        elif owner.target != entity.name:
            faults.add(member.writer, member.name, f"is mapped by {member.target}.{mapped}, which "
                       f"leads to {owner.target}: write this one there, or annotate that one by "
                       f"{entity.name}")
    for word in member.field.cascade:
        if word not in ("ALL", "PERSIST", "REMOVE", "REFRESH", "DETACH", "MERGE"):
            faults.add(member.writer, member.name, f"cascades {word.lower()!r}: what it may be is "
                       "all, persist, remove, refresh, detach or merge")


def _written(sort: str, name: str) -> str:
    kind = f'list["{name}"]' if sort == "many_to_many" else f'"{name}"'
    return f"{kind} = {sort}()"
