"""A reader of JSON that takes exactly the texts that the program takes, and knows where each value
stands in its text.

The program's reader takes no byte order mark, no lone surrogate, no number beyond a float's range
and at most 127 open lists and objects, and of a repeated member the last one counts. Python's own
`json` differs in each of these.
"""

from __future__ import annotations

import re
from bisect import bisect_right
from typing import Dict, Iterator, List, NamedTuple, Tuple, Union

MOST_OPEN = 127
LEAST_INTEGER, GREATEST_INTEGER = -(2**63), 2**63 - 1

_SPACE = re.compile(r"[ \t\n\r]*")
_PLAIN = re.compile(r'[^"\\\x00-\x1f]*')
_NUMBER = re.compile(r"-?(?:0|[1-9][0-9]*)((?:\.[0-9]+)?(?:[eE][+-]?[0-9]+)?)")
_HEX = re.compile(r"[0-9a-fA-F]{4}")
_WORDS = {"true": True, "false": False, "null": None}
_ESCAPES = {'"': '"', "\\": "\\", "/": "/", "b": "\b", "f": "\f", "n": "\n", "r": "\r", "t": "\t"}


class NoJson(ValueError):
    """The text is no JSON, at this place: an offset in its characters."""

    def __init__(self, why: str, at: int) -> None:
        super().__init__(why, at)
        self.why, self.at = why, at


class Value(NamedTuple):
    """A value and the offset at which it stands. Objects are dicts from names to values, lists are
    lists of values; a whole number of 64 bits is an int, and any other number a float."""

    data: Union[None, bool, int, float, str, List["Value"], Dict[str, "Value"]]
    at: int

    def plain(self) -> object:
        """The value without places."""
        if isinstance(self.data, dict):
            return {name: member.plain() for name, member in self.data.items()}
        if isinstance(self.data, list):
            return [item.plain() for item in self.data]
        return self.data


def text_of(data: bytes) -> str:
    """The characters of a text in UTF-8; `NoJson` where the bytes are none."""
    try:
        return data.decode("utf-8")
    except UnicodeDecodeError as fault:
        raise NoJson("the bytes are no UTF-8", len(data[: fault.start].decode("utf-8"))) from None


def read(text: str) -> Value:
    """The value that a text says; `NoJson` where it says none."""
    if text.startswith("\ufeff"):
        raise NoJson("a byte order mark stands in front, which JSON has none of", 0)
    reader = _Reader(text)
    value = reader.value()
    reader.space()
    if reader.at < len(text):
        raise NoJson("something stands after the value", reader.at)
    return value


class Lines:
    """The lines of a text."""

    def __init__(self, text: str) -> None:
        self._starts = [0, *(found.end() for found in re.finditer("\n", text))]

    def place(self, at: int) -> Tuple[int, int]:
        """The line and the column of an offset, each from 1."""
        line = bisect_right(self._starts, at)
        return line, at - self._starts[line - 1] + 1


class _Reader:
    def __init__(self, text: str) -> None:
        self.text, self.at, self.open = text, 0, 0

    def space(self) -> None:
        self.at = _SPACE.match(self.text, self.at).end()  # type: ignore[union-attr]

    def value(self) -> Value:
        self.space()
        start = self.at
        first = self.text[start : start + 1]
        if first == '"':
            return Value(self.string(), start)
        if first == "{":
            return Value(dict(self.members()), start)
        if first == "[":
            return Value(list(self.items()), start)
        if first == "-" or "0" <= first <= "9":
            return Value(self.number(), start)
        for word, data in _WORDS.items():
            if self.text.startswith(word, start):
                self.at += len(word)
                return Value(data, start)
        raise NoJson("a value is missing" if first else "the text ends within a value", start)

    def expect(self, mark: str) -> None:
        self.space()
        if not self.text.startswith(mark, self.at):
            raise NoJson(f"'{mark}' is missing", self.at)
        self.at += 1

    def takes(self, mark: str) -> bool:
        self.space()
        found = self.text.startswith(mark, self.at)
        self.at += found
        return found

    def opened(self) -> None:
        self.open += 1
        if self.open > MOST_OPEN:
            raise NoJson(f"more than {MOST_OPEN} lists and objects are open", self.at)
        self.at += 1

    def items(self) -> Iterator[Value]:
        self.opened()
        if not self.takes("]"):
            yield self.value()
            while not self.takes("]"):
                self.expect(",")
                yield self.value()
        self.open -= 1

    def members(self) -> Iterator[Tuple[str, Value]]:
        self.opened()
        if not self.takes("}"):
            yield self.member()
            while not self.takes("}"):
                self.expect(",")
                yield self.member()
        self.open -= 1

    def member(self) -> Tuple[str, Value]:
        self.space()
        if not self.text.startswith('"', self.at):
            raise NoJson("a member's name is missing", self.at)
        name = self.string()
        self.expect(":")
        return name, self.value()

    def number(self) -> Union[int, float]:
        found = _NUMBER.match(self.text, self.at)
        if not found:
            raise NoJson("a number is ill-formed", self.at)
        digits, start, self.at = found[0], self.at, found.end()
        number = float(digits)
        if number in (float("inf"), float("-inf")):
            raise NoJson("a number is out of range", start)
        if found[1] or digits == "-0" or len(digits) > 20:
            return number
        return int(digits) if LEAST_INTEGER <= int(digits) <= GREATEST_INTEGER else number

    def string(self) -> str:
        parts, start = [], self.at
        self.at += 1
        while True:
            plain = _PLAIN.match(self.text, self.at)
            parts.append(plain[0])  # type: ignore[index]
            self.at = plain.end()  # type: ignore[union-attr]
            mark = self.text[self.at : self.at + 1]
            if mark == '"':
                self.at += 1
                return "".join(parts)
            if mark != "\\":
                raise NoJson(
                    "a control character stands in a text" if mark else "a text isn't closed",
                    self.at if mark else start,
                )
            parts.append(self.escape())

    def escape(self) -> str:
        start, mark = self.at, self.text[self.at + 1 : self.at + 2]
        self.at += 2
        if mark in _ESCAPES:
            return _ESCAPES[mark]
        if mark != "u":
            raise NoJson("an escape is unknown", start)
        code = self.hex_code(start)
        if 0xD800 <= code < 0xDC00 and self.text.startswith("\\u", self.at):
            self.at += 2
            low = self.hex_code(start)
            if 0xDC00 <= low < 0xE000:
                return chr(0x10000 + ((code - 0xD800) << 10) + (low - 0xDC00))
        if 0xD800 <= code < 0xE000:
            raise NoJson("a surrogate stands alone", start)
        return chr(code)

    def hex_code(self, start: int) -> int:
        found = _HEX.match(self.text, self.at)
        if not found:
            raise NoJson("an escape is ill-formed", start)
        self.at = found.end()
        return int(found[0], 16)
