"""The lines that are sent: the words of the standard that stand in them, and how values are
spelled."""

from __future__ import annotations

import enum
import json
from typing import Any, Callable, Dict, Mapping, Sequence


class FlushModeType(str, enum.Enum):
    """When a query in a transaction flushes first."""

    AUTO = "AUTO"
    COMMIT = "COMMIT"


class LockModeType(str, enum.Enum):
    """How a managed object is locked (chapter 3.4.4): READ is OPTIMISTIC, and WRITE is
    OPTIMISTIC_FORCE_INCREMENT."""

    READ = "READ"
    OPTIMISTIC = "OPTIMISTIC"
    WRITE = "WRITE"
    OPTIMISTIC_FORCE_INCREMENT = "OPTIMISTIC_FORCE_INCREMENT"


class LifecycleEvent(str, enum.Enum):
    """The events of an object's life (chapter 3.5)."""

    PRE_PERSIST = "PrePersist"
    POST_PERSIST = "PostPersist"
    PRE_REMOVE = "PreRemove"
    POST_REMOVE = "PostRemove"
    PRE_UPDATE = "PreUpdate"
    POST_UPDATE = "PostUpdate"
    POST_LOAD = "PostLoad"


CALLS: Dict[str, Sequence[str]] = {
    "createEntityManager": (),
    "close": ("em",),
    "begin": ("em",),
    "commit": ("em",),
    "rollback": ("em",),
    "setRollbackOnly": ("em",),
    "clear": ("em",),
    "flush": ("em",),
    "setFlushMode": ("em", "mode"),
    "new": ("entity",),
    "get": ("object", "name"),
    "set": ("object", "name", "value"),
    "add": ("object", "name", "member"),
    "takeOut": ("object", "name", "member"),
    "find": ("em", "entity", "key"),
    "getReference": ("em", "entity", "key"),
    "persist": ("em", "object"),
    "remove": ("em", "object"),
    "refresh": ("em", "object"),
    "detach": ("em", "object"),
    "merge": ("em", "object"),
    "contains": ("em", "object"),
    "lock": ("em", "object", "mode"),
    "query": ("em", "text", "params", "first", "max"),
    "querySingle": ("em", "text", "params", "first", "max"),
    "executeUpdate": ("em", "text", "params"),
}
"""The calls with their members."""
OWN_CALLS: Dict[str, Sequence[str]] = {
    "values": ("objects",), "pending": ("em",), "restart": (), "index": ("entity", "name"),
}
"""Those beside them that clients make for themselves."""
OPTIONAL = {"params", "first", "max"}
"""The members that may be left out."""

# The integers that there are.
LEAST, GREATEST = -(2**63), 2**63 - 1
# A text as JSON.
text_spelled: Callable[[str], str] = getattr(json.encoder, "encode_basestring")


def spelled(value: Any) -> str:
    """A value as JSON: None, an int of 64 bits, a str or bytes; anything else is a `TypeError` or
    an `OverflowError`."""
    if type(value) is int and LEAST <= value <= GREATEST:
        return str(value)
    if isinstance(value, str):
        return text_spelled(value)
    if isinstance(value, (bytes, bytearray, memoryview)):
        return f'{{"hex":"{bytes(value).hex()}"}}'
    if value is not None and (isinstance(value, bool) or not isinstance(value, int)):
        raise TypeError(
            f"a value is None, an int, a str, bytes or an object of an entity, and no "
            f"{type(value).__name__}"
        )
    if value is not None and not LEAST <= value <= GREATEST:
        raise OverflowError(f"{value} is no integer of 64 bits")
    return "null" if value is None else str(int(value))


def line_of(call: str, members: Mapping[str, str]) -> bytes:
    """The line of a call, without its line feed, whose members are JSON already. A text that isn't
    Unicode, as a lone surrogate, is a `UnicodeEncodeError`."""
    said = f'{{"call":"{call}"'
    for name in members:
        said += f',"{name}":{members[name]}'
    return f"{said}}}".encode()
