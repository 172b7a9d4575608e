"""What callers hand in: named as what it is, or refused with a word on what to hand in instead."""

from __future__ import annotations

from typing import Any, Mapping, Type, Union

from ..mapping.meant import meant
from ..wire.lines import spelled
from .entities import Entity

# The flags of the code of a generator, a coroutine and an asynchronous generator, as `inspect` has
# them.
_DOES_NOTHING = 0x20 | 0x80 | 0x200


def entity_named(
    classes: Mapping[str, Type[Entity]], given: Union[str, Type[Entity]]
) -> Type[Entity]:
    """The class of a factory's entity, by its name or by a class of its name; a `KeyError` where
    there is none."""
    name = given if isinstance(given, str) else getattr(given, "__name__", None)
    if name is None:
        raise TypeError(f"an entity is given by its name or its class, and not by {given!r}")
    if name not in classes:
        raise KeyError(
            f"there is no entity {name!r}"
            + (meant(name, classes) or f"; there are {', '.join(classes)}")
        )
    return classes[name]


def item_class(classes: Mapping[str, Type[Entity]], given: Union[str, Type[Any]]) -> Type[Any]:
    """The class of an item of a query's rows: an entity's, or any other one, as int."""
    if isinstance(given, type) and not issubclass(given, Entity):
        return given
    return entity_named(classes, given)


def row_limit(name: str, given: object) -> str:
    """The first row that is asked for, or how many are, as JSON; a `TypeError` where something else
    was handed in, as for a parameter of this name."""
    if not isinstance(given, int) or isinstance(given, bool):
        raise TypeError(
            f"{name}= is a number of rows, and no {type(given).__name__}: a parameter :{name} is "
            f"handed in by params={{{name!r}: ..}}"
        )
    return spelled(given)


def check_callback(callback: object) -> None:
    """Refuses what does nothing when it is called with an event; a `TypeError` says so."""
    if not callable(callback):
        raise TypeError(f"a callback is a function of an event, and not {callback!r}")
    function = getattr(callback, "func", callback)  # Of a `functools.partial`.
    if getattr(getattr(function, "__code__", None), "co_flags", 0) & _DOES_NOTHING:
        raise TypeError(
            f"{callback!r} is a coroutine or a generator, and does nothing when it is called: let "
            "the callback be an ordinary function"
        )


def check_query(text: object, result_class: object, params: object) -> None:
    """Refuses what is no query's text, result class or parameters; a `TypeError` says how they are
    handed in."""
    if isinstance(text, type):
        raise TypeError(
            f"a query is a text, as 'SELECT e FROM {text.__name__} e', and not the class alone"
        )
    if not isinstance(text, str):
        raise TypeError(f"a query is a text, and no {type(text).__name__}")
    if isinstance(result_class, Mapping):
        raise TypeError("parameters are handed in by name: query(text, params={..})")
    if not (result_class is None or isinstance(result_class, (type, str))):
        raise TypeError(
            f"the result class is an entity's, or another one as int, and not {result_class!r}"
        )
    if not (params is None or isinstance(params, Mapping)):
        raise TypeError(
            f"params is a dict, as {{'name': 'Ada'}} for :name or {{1: 'Ada'}} for ?1, and no "
            f"{type(params).__name__}"
        )


def parameter_name(name: object) -> str:
    """The name of a parameter: of `:name` its text, of `?1` its number or that as a text."""
    if isinstance(name, str):
        return name
    if isinstance(name, int) and not isinstance(name, bool):
        return str(name)
    raise TypeError(f"a parameter has a text for its name, or a number for ?1, and not {name!r}")
