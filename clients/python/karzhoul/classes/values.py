"""Values as they are stored, and back, with what they are for told where they don't fit."""

from __future__ import annotations

from typing import Any

from ..told import cut, shown
from . import types


class WrongValue(ValueError, TypeError):
    """A value that its attribute doesn't take; it names the class, the attribute and the value."""


def to_stored(kind: types.StoredType, value: Any, what: str) -> types.Plain:
    """What is stored of a value for this; else a `WrongValue`."""
    try:
        return kind.to_stored(value)
    except types.Unfit as why:
        raise WrongValue(f"{what} is {kind.what}, and {shown(value)} {cut(str(why))}") from None


def from_stored(kind: types.StoredType, stored: Any, what: str) -> Any:
    """The value of what is stored for this; else a `WrongValue`."""
    try:
        return kind.from_stored(stored)
    except types.Unfit as why:
        told = f"{shown(stored)}, {cut(str(why))}"
        raise WrongValue(f"{what} is {kind.what}, and what is stored, {told}") from None
