"""The reading of an input: its lines, the JSON of a line, and the call that it means."""
from __future__ import annotations

import re
from json.decoder import scanstring
from typing import TYPE_CHECKING, Any

if TYPE_CHECKING:
    from model.kinds import Part, Value, Values

LEAST, GREATEST = -2**63, 2**63 - 1
LINE, DEPTH, COLLECTION = 1048576, 127, 4096
MEMBERS = {
    "createEntityManager": [], "close": ["em"], "new": ["entity"],
    "set": ["object", "name", "value"], "get": ["object", "name"],
    "add": ["object", "name", "member"], "takeOut": ["object", "name", "member"], "begin": ["em"],
    "flush": ["em"], "commit": ["em"], "rollback": ["em"], "setRollbackOnly": ["em"],
    "find": ["em", "entity", "key"], "getReference": ["em", "entity", "key"],
    "persist": ["em", "object"], "remove": ["em", "object"], "refresh": ["em", "object"],
    "detach": ["em", "object"], "contains": ["em", "object"], "clear": ["em"],
    "merge": ["em", "object"], "lock": ["em", "object", "mode"], "setFlushMode": ["em", "mode"],
    "query": ["em", "text", "params", "first", "max"],
    "querySingle": ["em", "text", "params", "first", "max"],
    "executeUpdate": ["em", "text", "params"], "values": ["objects"], "pending": ["em"],
    "restart": [], "index": ["entity", "name"],
}
# The members that may be left out, with what stands for them.
OPTIONAL = {"params": {}, "first": None, "max": None}
# The calls that the program does not serve, of which there are none: it would answer BadLine to
# them.
UNSERVED = set()
# The stages that the program does not serve: runs that need one are skipped.
STAGES: set[str] = set()
# What the modes of a call ask for.
MODES = {
    "lock": {
        "READ": "READ", "OPTIMISTIC": "READ", "WRITE": "WRITE",
        "OPTIMISTIC_FORCE_INCREMENT": "WRITE",
    },
    "setFlushMode": {"AUTO": "AUTO", "COMMIT": "COMMIT"},
}


class Refused(Exception):
    """A refusal by its name and detail."""

    def __init__(self, name: str, why: str | None = None) -> None:
        super().__init__(name)
        self.name, self.why = name, why

    def text(self) -> str:
        return f"{self.name}({self.why})" if self.why else self.name


class Number:
    """The number of an object, as a value."""

    def __init__(self, number: int) -> None:
        self.number = number


# ---- JSON, as the program's reader takes it

BLANKS = re.compile("[ \\t\\r\\n]*")
NUMBER = re.compile(r"-?(?:0|[1-9][0-9]*)(\.[0-9]+)?([eE][+-]?[0-9]+)?", re.ASCII)


class Json:
    """A text of JSON: at most 127 lists and objects in one another, no number past the floats, no
    half of a surrogate pair."""

    def __init__(self, text: str) -> None:
        self.text, self.at = text, 0

    def whole(self) -> dict[str, Any] | list[Any] | None:
        value = self.value(0)
        self.blanks()
        if self.at != len(self.text):
            raise ValueError("more")
        return value

    def blanks(self) -> None:
        self.at = BLANKS.match(self.text, self.at).end()

    def take(self, word: str) -> bool:
        self.blanks()
        if not self.text.startswith(word, self.at):
            return False
        self.at += len(word)
        return True

    def need(self, word: str) -> None:
        if not self.take(word):
            raise ValueError(word)

    def value(self, depth: int) -> Any:
        for word, value in (("null", None), ("true", True), ("false", False)):
            if self.take(word):
                return value
        if self.take('"'):
            return self.string()
        if self.take("["):
            return self.items(depth + 1)
        if self.take("{"):
            return self.members(depth + 1)
        return self.number()

    def string(self) -> str:
        value, self.at = scanstring(self.text, self.at, True)
        value.encode()
        return value

    def number(self) -> float | int:
        found = NUMBER.match(self.text, self.at)
        if not found:
            raise ValueError("number")
        self.at = found.end()
        digits = found.group()
        if (
            not (found[1] or found[2])
            and digits != "-0"
            and len(digits) < 21
            and LEAST <= int(digits) < 2**64
        ):
            return int(digits)
        if float(digits) in (float("inf"), float("-inf")):
            raise ValueError("too large")
        return float(digits)

    def items(self, depth: int) -> list[Any]:
        if depth > DEPTH:
            raise ValueError("deep")
        values = []
        while not self.take("]"):
            if values:
                self.need(",")
            values.append(self.value(depth))
        return values

    def members(self, depth: int) -> dict[str, Any]:
        if depth > DEPTH:
            raise ValueError("deep")
        values, first = {}, True
        while not self.take("}"):
            if not first:
                self.need(",")
            self.need('"')
            name = self.string()
            self.need(":")
            values[name] = self.value(depth)
            first = False
        return values


# ---- calls

def is_integer(data: Any) -> bool:
    return type(data) is int and LEAST <= data <= GREATEST


def given(data: Any) -> Number | Value:
    """The value that a member gives."""
    if data is None or isinstance(data, str) or is_integer(data):
        return data
    if isinstance(data, dict) and len(data) == 1:
        if is_integer(data.get("object")):
            return Number(data["object"])
        digits = data.get("hex")
        if (
            isinstance(digits, str)
            and len(digits) % 2 == 0
            and re.fullmatch("[0-9a-fA-F]*", digits)
        ):
            return bytes.fromhex(digits)
    raise ValueError("value")


def handed(data: Any, is_wide: bool) -> Number | Value | list[Number | Value]:
    """What is handed in for a parameter: a value, or a collection in the wider language."""
    return [given(value) for value in data] if is_wide and isinstance(data, list) else given(data)


def member_of(word: str, name: str, data: Any, is_wide: bool) -> Any:
    if name in ("em", "object", "member", "first", "max"):
        if not is_integer(data):
            raise ValueError(name)
        return data
    if name == "objects":
        if not isinstance(data, list) or not all(map(is_integer, data)):
            raise ValueError(name)
        return data
    if name == "value":
        return given(data)
    if name == "key":
        if not isinstance(data, list):
            raise ValueError(name)
        return [given(part) for part in data]
    if name == "params":
        if not isinstance(data, dict):
            raise ValueError(name)
        return {parameter: handed(value, is_wide) for parameter, value in data.items()}
    if not isinstance(data, str):
        raise ValueError(name)
    return MODES[word][data] if name == "mode" else data


def call_of(line: bytes, is_wide: bool = False) -> tuple[str, list[Any]]:
    """The call that a line means, in the profile's language or the wider one: its word and its
    members in order."""
    if len(line) > LINE:
        raise Refused("Limit")
    try:
        data = Json(line.decode()).whole()
        word = data["call"] if isinstance(data, dict) else None
        members = MEMBERS[word] if isinstance(word, str) and word not in UNSERVED else None
        lacking = {"call", *members} - set(data) if members is not None else {"call"}
        if lacking - set(OPTIONAL) or set(data) - {"call", *members}:
            raise ValueError("members")
        return word, [
            OPTIONAL[name] if name in lacking else member_of(word, name, data[name], is_wide)
            for name in members
        ]
    except (ValueError, KeyError):
        raise Refused("BadLine") from None


def lines_of(text: bytes) -> list[bytes]:
    """The lines of an input: a line feed ends each, but a last one that isn't empty."""
    lines = text.split(b"\n")
    return lines if lines[-1] else lines[:-1]
