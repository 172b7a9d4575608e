"""What keeps a mapping from being served, of one that is well formed but for what its revision
adds: the members `since`, `default` and `was` of attributes, and `dropped` of root entities."""
from __future__ import annotations

from typing import TYPE_CHECKING, Any, Iterable, Iterator

from model.reading import Json, Number, given, is_integer
from model.unit import KINDS, LENGTH, Unit, size

if TYPE_CHECKING:
    from model.kinds import Mapping

NEW = {"since", "default", "was"}
MOST = 1000000


def refusal(text: bytes) -> str | None:
    """What is wrong with the mapping of a text: json, shape, model or function, the first of these;
    None where nothing is."""
    try:
        mapping = Json(text.decode()).whole()
    except ValueError:
        return "json"
    if not has_shape(mapping):
        return "shape"
    if not (
        is_first(mapping)
        if mapping["revision"] == 1
        else mapping["revision"] == 2 and is_second(mapping)
    ):
        return "model"
    return None if has_functions(mapping) else "function"


def attributes_of(mapping: Mapping) -> list[dict[str, Any]]:
    return [
        attribute for entity in mapping["entities"] for attribute in entity.get("attributes", [])
    ]


# ---- shape

def has_shape(mapping: Mapping) -> bool:
    """Whether the new members stand in attributes and roots alone, and each is what JSON must say
    there."""
    roots = [entity for entity in mapping["entities"] if "extends" not in entity]
    return (
        is_integer(mapping["revision"])
        and all(map(has_attribute_shape, attributes_of(mapping)))
        and all(
            isinstance(root.get("dropped", []), list)
            and all(map(is_integer, root.get("dropped", [])))
            for root in roots
        )
        and not any(NEW & set(each) or "dropped" in each for each in others(mapping))
        and not any("dropped" in each for each in attributes_of(mapping))
    )


def has_attribute_shape(attribute: dict[str, Any]) -> bool:
    try:
        return (all(is_integer(attribute[name]) for name in ("since", "was") if name in attribute)
                and not isinstance(given(attribute.get("default")), Number))
    except ValueError:
        return False


def others(mapping: Mapping) -> Iterator[dict[str, Any]]:
    """The objects in which the new members don't stand: without the one that each kind of object
    has."""
    yield mapping
    yield from mapping.get("listeners", [])
    for entity in mapping["entities"]:
        yield {
            name: value
            for name, value in entity.items()
            if name != "dropped" or "extends" in entity
        }
        yield from [*entity.get("key", []), *([entity["version"]] if "version" in entity else [])]
        for sort in ("relations", "listeners", "callbacks"):
            yield from entity.get(sort, [])


# ---- model

def is_first(mapping: Mapping) -> bool:
    """Revision 1 has none of the members, not even an empty list."""
    return not any(NEW & set(attribute) for attribute in attributes_of(mapping)) and not any(
        "dropped" in each for each in mapping["entities"]
    )


def is_second(mapping: Mapping) -> bool:
    roots = [entity["name"] for entity in mapping["entities"] if "extends" not in entity]
    return all(map(is_changed_well, attributes_of(mapping))) and all(
        are_numbers(numbers_of(mapping, root)) for root in roots
    )


def is_changed_well(attribute: dict[str, Any]) -> bool:
    """An attribute is new since 2; only one that is new has a default, of its type, and must have
    one where it is required; one that moved is not new."""
    is_new = "since" in attribute
    if is_new and (attribute["since"] != 2 or "was" in attribute):
        return False
    if "default" not in attribute:
        return not (is_new and attribute.get("required", False))
    default = given(attribute["default"])
    return is_new and isinstance(default, KINDS[attribute["type"]]) and size(default) <= LENGTH


def numbers_of(mapping: Mapping, root: str) -> Iterator[int]:
    """The columns that a hierarchy has, had and drops."""
    by_name = {entity["name"]: entity for entity in mapping["entities"]}
    for entity in mapping["entities"]:
        top = entity
        while "extends" in top:
            top = by_name[top["extends"]]
        if top["name"] != root:
            continue
        yield from [
            *([entity["version"]["column"]] if "version" in entity else []),
            *entity.get("dropped", []),
        ]
        for each in [*entity.get("attributes", []), *entity.get("relations", [])]:
            yield from (each[name] for name in ("column", "was") if name in each)


def are_numbers(numbers: Iterable[Any]) -> bool:
    numbers = list(numbers)
    return len(set(numbers)) == len(numbers) and all(1 <= number <= MOST for number in numbers)


# ---- functions

def has_functions(mapping: Mapping) -> bool:
    """Whether each converter is there, and none throws for a default."""
    made = {function["name"] for function in mapping.get("functions", [])}
    names = [
        attribute["converter"] for attribute in attributes_of(mapping) if "converter" in attribute
    ]
    return set(names) <= made and Unit(mapping).defaults_pass()
