"""What of an UPDATE or a DELETE may have been in the way, as its text tells."""

from __future__ import annotations

from typing import Any, Dict, Iterator, List, Mapping, Set, Tuple

from ..jpql.statements import Assignment, Bulk, read
from ..mapping.unit import EntityDescription, Member, MemberKind
from ..told import with_article

Entities = Mapping[str, EntityDescription]


def of_statement(detail: str, said: Mapping[str, Any], entities: Entities) -> Iterator[str]:
    """Why the statement of a line may have left a `null` or a `reference` that is refused."""
    statement = read(str(said.get("text")))
    if not isinstance(statement, Bulk) or statement.source.entity is None:
        return
    entity = entities.get(statement.source.entity.said)
    if entity is not None and detail == "null":
        yield from _nulls(entity, statement, said.get("params") or {})
    elif entity is not None and detail == "reference":
        yield from _set(entity, statement) if statement.sets else _removed(entity, entities)


def _nulls(
    entity: EntityDescription, statement: Bulk, given: Mapping[str, Any]
) -> Iterator[str]:
    """The required members that are set to null, or else those that may have been."""
    required = [
        (each, f"{entity.name}.{member.name}") for each, member in _assigned(entity, statement)
        if member.is_required
    ]
    sure = [name for each, name in required if _is_null(each, given)]
    if sure:
        yield from (f"{name} is set to null, and is required" for name in sure)
    elif len(required) == 1:
        yield f"{required[0][1]} is required, and what it is set to is null of an object"
    elif required:
        names = " and ".join(name for _, name in required)
        yield f"{names} are required, and what one of them is set to is null of an object"


def _is_null(each: Assignment, given: Mapping[str, Any]) -> bool:
    value = each.value
    return value is None or (value.sort == "parameter" and given.get(value.said, "") is None)


def _assigned(
    entity: EntityDescription, statement: Bulk
) -> List[Tuple[Assignment, Member]]:
    members: Dict[str, Member] = {it.name: it for it in entity.members}
    sets = statement.sets or []
    return [(each, members[each.name.said]) for each in sets if each.name.said in members]


def _set(entity: EntityDescription, statement: Bulk) -> Iterator[str]:
    for _, member in _assigned(entity, statement):
        if member.kind is MemberKind.TO_ONE:
            led = with_article(member.type)
            yield f"{entity.name}.{member.name} is set to {led} that isn't stored"


def _removed(entity: EntityDescription, entities: Entities) -> Iterator[str]:
    """By which relations others lead to what a DELETE would remove."""
    family = _family(entity, entities)
    ways = [
        f"{each.name}.{member.name}" for each in entities.values() for member in each.relations
        if member.is_owner and member.declarer == each.name and member.type in family
    ]
    if ways:
        yield (
            f"what stays leads to {with_article(entity.name)} that would be removed, by "
            f"{' or '.join(ways)}: let that lead elsewhere first, or remove it too"
        )


def _family(entity: EntityDescription, entities: Entities) -> Set[str]:
    """The entity with those that it extends and those that extend it."""

    def chain(each: EntityDescription) -> List[str]:
        names = [each.name]
        while each.superclass is not None:
            each = entities[each.superclass]
            names.append(each.name)
        return names

    below = {each.name for each in entities.values() if entity.name in chain(each)}
    return {*chain(entity), *below}
