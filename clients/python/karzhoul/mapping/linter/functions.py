"""The functions of a mapping: what they make, and whether what names them finds them."""

from __future__ import annotations

from dataclasses import dataclass, field
from typing import Any, Dict, Optional, Set, Tuple

from ...wire.strict_json import Value
from ..converters import column_value, value_of
from ..meant import meant
from .findings import Fault, Path, Teller
from .reading import VALUES, Unit, at, has, members, plain_of, text

MAKES: Dict[str, Tuple[bool, Tuple[str, ...]]] = {
    "set_text": (True, ("attribute", "value")),
    "copy": (True, ("from", "to")),
    "count": (True, ("attribute",)),
    "require": (True, ("attribute",)),
    "note": (True, ()),
    "flip": (False, ()),
    "table": (False, ("pairs",)),
    "hextext": (False, ()),
}
"""The makes: whether they make a listener, and their own members."""


@dataclass
class Made:
    """The listeners and the converters that the functions make, by their names."""

    listeners: Dict[str, Any] = field(default_factory=dict)
    converters: Dict[str, Any] = field(default_factory=dict)


def made_by(teller: Teller, root: Value) -> Optional[Made]:
    """Checks the functions; gives what they make where nothing is wrong."""
    made = Made()
    if not has(root, "functions"):
        return made
    functions = at(root, "functions")
    if not isinstance(functions.data, list):
        teller.tell(Fault.FUNCTION, ("functions",), functions, "this must be a list")
        return None
    told = [
        _function(teller, made, ("functions", place), value)
        for place, value in enumerate(functions.data)
    ]
    return made if all(told) else None


def _function(teller: Teller, made: Made, path: Path, value: Value) -> bool:
    def refuse(message: str, *steps: str) -> bool:
        where = members(value)[steps[0]] if steps else value
        teller.tell(Fault.FUNCTION, (*path, *steps), where, message)
        return False

    if not isinstance(value.data, dict):
        return refuse("a function is an object")
    for name in ("name", "make"):
        if not has(value, name) or not isinstance(at(value, name).data, str):
            return refuse(f"a function has a text {name!r}")
    make = text(value, "make")
    if make not in MAKES:
        return refuse(f"the makes are {', '.join(MAKES)}", "make")
    is_listener, own = MAKES[make]
    if set(members(value)) != {"name", "make", *own}:
        return refuse(
            f"a function of the make {make} has exactly the members "
            f"{', '.join(('name', 'make', *own))}"
        )
    for name in own:
        if name != "pairs" and not isinstance(at(value, name).data, str):
            return refuse("this must be a text", name)
    if "pairs" in own and not _pairs(teller, (*path, "pairs"), at(value, "pairs")):
        return False
    functions, name = made.listeners if is_listener else made.converters, text(value, "name")
    if name in functions:
        return refuse(
            f"a second {'listener' if is_listener else 'converter'} has the name {name!r}", "name"
        )
    functions[name] = value.plain()
    return True


def _pairs(teller: Teller, path: Path, pairs: Value) -> bool:
    if not isinstance(pairs.data, list):
        teller.tell(Fault.FUNCTION, path, pairs, "this must be a list of pairs")
        return False
    sides: Tuple[Set[object], Set[object]] = (set(), set())
    is_good = True
    for place, pair in enumerate(pairs.data):
        message = _pair(sides, pair)
        if message:
            teller.tell(Fault.FUNCTION, (*path, place), pair, message)
            is_good = False
    return is_good


def _pair(sides: Tuple[Set[object], Set[object]], pair: Value) -> Optional[str]:
    if not isinstance(pair.data, list) or len(pair.data) != 2:
        return "a pair is a list of the attribute's value and the column's"
    for seen, side in zip(sides, pair.data):
        value = plain_of(side)
        if value is None:
            return f"a value of a pair is {VALUES}"
        if value in seen:
            return "a value stands on this side already"
        seen.add(value)
    return None


def tell_unknown(teller: Teller, root: Value, made: Made) -> None:
    """Tells the functions that a mapping names and doesn't make."""
    unit = Unit(root)
    own = (
        each
        for entity in unit.entities
        for sort in ("listeners", "callbacks")
        for each in entity.items(sort)
    )
    listeners = [*unit.root.items("listeners"), *own]
    named = [(listener.at("name"), made.listeners, "listener") for listener in listeners]
    attributes = (
        attribute
        for entity in unit.entities
        for attribute in entity.items("attributes")
        if attribute.has("converter")
    )
    named += [(attribute.at("converter"), made.converters, "converter") for attribute in attributes]
    for where, names, what in named:
        if where.value.data not in names:
            teller.tell(
                Fault.FUNCTION, where.path, where.value, f"'functions' makes no {what} of this name"
            )


def tell_thrown(teller: Teller, unit: Unit, made: Made) -> None:
    """Tells the defaults for which their converters throw."""
    for attribute in (each for entity in unit.entities for each in entity.items("attributes")):
        function = (
            made.converters.get(attribute.text("converter")) if attribute.has("converter") else None
        )
        if function is not None and attribute.has("default"):
            where = attribute.at("default")
            if column_value(function, value_of(where.value.plain())) is None:
                teller.tell(
                    Fault.FUNCTION, where.path, where.value,
                    f"the converter {function['name']!r} throws for this default",
                )


def warn_of_lost(teller: Teller, unit: Unit) -> None:
    """Warns of functions that look for an attribute which no entity has: their first run throws."""
    names = {
        str(where.value.data) for entity in unit.entities for where in unit.member_names(entity)
    }
    for function in unit.root.items("functions"):
        for name in MAKES[function.text("make")][1]:
            if name in ("attribute", "from", "to") and function.text(name) not in names:
                where = function.at(name)
                teller.warn(
                    where.path,
                    where.value,
                    f"no entity has an attribute "
                    f"{function.text(name)!r}{meant(function.text(name), names)}",
                )
