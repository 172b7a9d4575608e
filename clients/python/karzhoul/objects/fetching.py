"""Reading members of many objects together, along paths."""

from __future__ import annotations

from typing import TYPE_CHECKING, Any, Dict, List, Optional, Sequence, Type

from .entities import Entity

if TYPE_CHECKING:
    from ..session.factory import EntityManagerFactory


def fetched(
    factory: EntityManagerFactory, objects: Sequence[Optional[Entity]], names: Sequence[str]
) -> List[Any]:
    """What a path of these names leads to from each object; from None to None."""
    first, *rest = _steps(objects, names)
    values = _read(factory, objects, first)
    if not rest:
        return values
    members = (each for value in values for each in _listed(value))
    reached = list(dict.fromkeys(each for each in members if each is not None))
    beyond = dict(zip(reached, fetched(factory, reached, rest)))
    return [_beyond(value, beyond) for value in values]


def _steps(objects: Sequence[Optional[Entity]], names: Sequence[str]) -> List[str]:
    """The names as steps, of which a part of an embedded id is one."""
    known = next((each for each in objects if each is not None), None)
    part = ".".join(names[:2])
    is_part = known is not None and part in known._karzhoul_key[1]
    return [part, *names[2:]] if is_part else list(names)


def _read(
    factory: EntityManagerFactory, objects: Sequence[Optional[Entity]], name: str
) -> List[Any]:
    """The values of a member, asked of the objects of each class together."""
    values: List[Any] = [None] * len(objects)
    of_class: Dict[Type[Entity], List[int]] = {}
    for place, each in enumerate(objects):
        if each is not None:
            of_class.setdefault(type(each), []).append(place)
    for places in of_class.values():
        held = [each for place in places if (each := objects[place]) is not None]
        for place, value in zip(places, _values(factory, held, name)):
            values[place] = value
    return values


def _values(factory: EntityManagerFactory, held: Sequence[Entity], name: str) -> Sequence[Any]:
    """The values of a member of objects of one class; an embedded id is the tuple of its parts."""
    key, parts = held[0]._karzhoul_key
    is_typed = hasattr(getattr(type(held[0]), name, None), "of_row")
    if name != key or list(parts) == [name] or is_typed:
        return factory.get_many(held, name)
    return list(zip(*(factory.get_many(held, part) for part in parts)))


def _listed(value: Any) -> List[Any]:
    return value if isinstance(value, list) else [value]


def _beyond(value: Any, beyond: Dict[Any, Any]) -> Any:
    """What lies behind a link or the members of a collection."""
    if not isinstance(value, list):
        return None if value is None else beyond[value]
    return [each for member in value for each in _listed(beyond[member])]
