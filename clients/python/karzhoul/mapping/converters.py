"""Converters, as a mapping's functions make them: what a column holds for an attribute's value."""

from __future__ import annotations

from typing import Any, Mapping, Optional, Union

Plain = Union[int, str, bytes]

MOST_BYTES = 65_535


def is_converter(function: Mapping[str, Any]) -> bool:
    """Whether a function of a mapping is a converter, and no listener."""
    return function["make"] in ("flip", "table", "hextext")


def value_of(data: Any) -> Plain:
    """The value that JSON says: an integer, a text, or bytes as `{"hex":"0aff"}`."""
    value: Plain = bytes.fromhex(data["hex"]) if isinstance(data, Mapping) else data
    return value


def length(value: Plain) -> int:
    """How many bytes a value has; an integer none."""
    if isinstance(value, int):
        return 0
    return len(value.encode()) if isinstance(value, str) else len(value)


def column_value(function: Mapping[str, Any], value: Plain) -> Optional[Plain]:
    """What a converter stores for a value; None where it throws."""
    found = _converted(function, value)
    return found if found is not None and length(found) <= MOST_BYTES else None


def _converted(function: Mapping[str, Any], value: Plain) -> Optional[Plain]:
    if function["make"] == "flip":
        return -1 - value if isinstance(value, int) else None
    if function["make"] == "hextext":
        return value.hex() if isinstance(value, bytes) else None
    for here, there in function["pairs"]:
        if value_of(here) == value:
            return value_of(there)
    return None
