"""How functions name members: as their classes do, an embedded value whole or by its parts."""

from __future__ import annotations

from typing import Any, Collection, Dict, Iterator, Mapping, Optional, Tuple

from ..classes.binding import embedded_of, parts_with
from ..classes.declared import OWN_ID, part_name
from ..classes.declared import Member as ClassMember
from ..classes.types import Unfit

Members = Mapping[str, ClassMember]


def stored_name(name: str, known: Collection[str]) -> str:
    """The name in the mapping of a member that a class has as this one."""
    for each in (name, f"{OWN_ID}.{name}", part_name(*name.split("."))):
        if each in known:
            return each
    return name


def shown(name: str) -> str:
    """The name that a class has for a member of the mapping that it made."""
    return name[len(OWN_ID) + 1 :] if name.startswith(f"{OWN_ID}.") else name.replace("__", ".")


def flattened(
    given: Mapping[str, Any], members: Members, known: Collection[str]
) -> Iterator[Tuple[str, Any]]:
    """What is given, by the names of the mapping; an `Unfit` of an embedded value that is none."""
    for name, value in given.items():
        member = members.get(name)
        if member is None or member.kind is None:
            yield stored_name(name, known), value
        elif type(value) is member.kind or value is None:
            for leaf, part in parts_with(member, value):
                yield leaf.name, part
        else:
            raise Unfit(f"{name} is of {member.kind.__name__}, and {value!r} is none")


def check_whole(members: Members, values: Mapping[str, Any]) -> None:
    """Refuses that only a part of an embedded value is there, by a `WrongValue`."""
    for name, member in members.items():
        if member.kind is not None and member.part is None and member.field.sort != "key":
            embedded_of(member, values, name)


def whole(members: Members, name: str, values: Mapping[str, Any]) -> Tuple[bool, Any]:
    """Whether a name is that of an embedded value, and the value, of what its parts are."""
    member: Optional[ClassMember] = members.get(name)
    if member is None or member.kind is None:
        return False, None
    typed: Dict[str, Any] = {
        leaf.name: None if values[leaf.name] is None or leaf.type is None
        else leaf.type.from_stored(values[leaf.name]) for leaf in member.leaves()
    }
    return True, embedded_of(member, typed, name)
