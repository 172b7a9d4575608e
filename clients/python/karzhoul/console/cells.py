"""Values as the page and the console hand them to each other: null, or a type and a text, since a
browser's numbers have 53 bits, and the store's 64."""

from __future__ import annotations

import re
from typing import Any, List, NamedTuple, Optional, Tuple, Union

from ..jpql.check import BYTES, INT, TEXT, Kind
from ..explain.texts import value_text

Plain = Union[None, int, str, bytes]
Cell = Optional[List[str]]
_INT, _HEX = re.compile(r"-?[0-9]{1,19}"), re.compile(r"(?:[0-9a-fA-F]{2})*")


class Unread(ValueError):
    """What was handed in isn't understood; nothing was done."""


class Reference(NamedTuple):
    """An object by its entity and its key."""

    entity: str
    key: Tuple[Plain, ...]

    def __str__(self) -> str:
        return f"{self.entity} {', '.join(map(value_text, self.key))}"


def cell_of(value: Plain) -> Cell:
    """A value as a cell."""
    if value is None:
        return None
    if isinstance(value, bytes):
        return ["bytes", value.hex()]
    return ["int", str(value)] if isinstance(value, int) else ["text", value]


def value_of(cell: Any) -> Plain:
    """The value of a cell; `Unread` where it is none."""
    if cell is None:
        return None
    if not isinstance(cell, list) or len(cell) != 2 or not isinstance(cell[1], str):
        raise Unread("a value is null, or its type and its text")
    sort, text = cell[0], str(cell[1])
    if sort == "text":
        return text
    if sort == "int" and _INT.fullmatch(text) and -(2**63) <= int(text) < 2**63:
        return int(text)
    if sort == "bytes" and _HEX.fullmatch(text):
        return bytes.fromhex(text)
    wanted = {"int": "whole number of 64 bits", "bytes": "bytes in hexadecimal digits"}
    what = wanted.get(sort) if isinstance(sort, str) else None
    raise Unread(f"{text!r} is no {what}" if what else "a value is an int, a text or bytes")


def kind_of(value: Plain) -> Optional[Kind]:
    """The kind of a value, by which a query is checked; None of null."""
    if value is None:
        return None
    return BYTES if isinstance(value, bytes) else INT if isinstance(value, int) else TEXT


def reference_of(said: Any) -> Reference:
    """The object that is named; `Unread` where none is."""
    entity, key = (said.get("entity"), said.get("key")) if isinstance(said, dict) else (None, None)
    if not isinstance(entity, str) or not isinstance(key, list):
        raise Unread("an object is its entity and its key")
    return Reference(entity, tuple(map(value_of, key)))


def said_reference(told: Reference) -> Any:
    """An object as the page has it, with what it is called."""
    return {"entity": told.entity, "key": [cell_of(part) for part in told.key], "name": str(told)}
