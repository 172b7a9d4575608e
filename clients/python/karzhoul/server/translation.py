"""The numbers of a connection. Each has managers and objects of its own, from 1, and the program
has one list for all: so lines are told to the program with its numbers, and replies to the
connection with those that it knows.

A number stands where docs/CALLS.md says so, and nowhere else. A line whose numbers can't be told
for certain is handed on as one that the program can't read, which answers it `BadLine`. What the
program is told is spelled here, so that it never reads a number that wasn't looked up.
"""

from __future__ import annotations

import json
import math
import re
from array import array
from bisect import bisect_left
from typing import Any, Callable, Dict, List, Match, NamedTuple, NoReturn, Tuple, Union

from ..wire.lines import CALLS, GREATEST, LEAST, OPTIONAL, OWN_CALLS
from ..refusals import MOST_LINE_BYTES

_MEMBERS = {**CALLS, **OWN_CALLS}
_WORDS = {word.encode(): word for word in _MEMBERS}
# A number as lines have it that were written without a blank; a value in which none is an object.
_N = rb"([1-9][0-9]{0,11})"
_TEXT = rb'"[ !#-\[\]-~]*"'
_SCALAR = rb'(?:null|-?[0-9]{1,18}|%b|\{"hex":"[0-9a-fA-F]*"\})' % _TEXT
_LIST = rb"\[(?:%b(?:,%b)*)?\]" % (_SCALAR, _SCALAR)
_PARAMS = rb"\{(?:%b:%b(?:,%b:%b)*)?\}" % (_TEXT, _SCALAR, _TEXT, _SCALAR)
_PLAIN = (
    rb'(?:,"(?:entity|name|text|mode|value|first|max)":%b|,"key":%b|,"params":%b)*'
    % (_SCALAR, _LIST, _PARAMS)
)
_LINE = re.compile(
    rb'\{"call":"([A-Za-z]+)"(?:,"em":%b)?(?:,"object":%b)?(%b)(?:,"member":%b)?\}'
    % (_N, _N, _PLAIN, _N)
).fullmatch
_VALUES = re.compile(
    rb'\{"call":"values","objects":\[([1-9][0-9]{0,11}(?:,[1-9][0-9]{0,11})*)?\]\}'
).fullmatch
# Of replies: an event with its object, and an object. (A quote within a text is escaped.)
_EVENT = re.compile(rb'(\["[A-Za-z]+",)([0-9]+)')
_OBJECT = re.compile(rb'(\{"object":)([0-9]+)(?=\})')
# A reply that has one number: one event with nothing behind it, or an object without events.
_ONE = re.compile(
    rb'(\{"events":\[(?:\["[A-Za-z]+",|\],"ok":\{"object":))([0-9]+)(\]\],"ok":null\}|\}\})'
).fullmatch
# Which the server does itself, and so is told from what only begins like it.
_RESTART = b'{"call":"restart"}'
_OK, _ERROR = b'],"ok":', b'},"events":['


class Before(Exception):
    """A line names what is of before a restart: a manager or an object."""

    def __init__(self, kind: str, number: int) -> None:
        super().__init__(kind, number)
        self.kind, self.number = kind, number

    def __str__(self) -> str:
        again = "create another one" if self.kind == "manager" else "make or find it again"
        return f"{self.kind} {self.number} is of before a restart: {again}"


class Ahead(Exception):
    """A line names a number that was not given yet: a reply that is on its way may give it."""


class Call(NamedTuple):
    """A call that is handed on."""

    word: str
    """Its name; none where the line can't be read."""
    em: int
    """Its manager, by the connection's number; 0 where it names none."""
    line: bytes
    """What the program is told."""


BEGIN = b'{"serve":"begin"}'
"""Asks for a manager with its transaction open."""
CREATE = b'{"call":"createEntityManager"}'
BEGUN = Call("createEntityManager", -1, CREATE)
"""What is handed on of it first."""
# What the program can't read, and what is too long for it.
BAD = Call("", 0, b"-")
LONG = Call("", 0, b" " * (MOST_LINE_BYTES + 1))


class Objects:
    """The program's numbers of the objects of a connection, by its own, which begin at 1 and are
    given in the same order."""

    __slots__ = ("_before", "_real")

    def __init__(self) -> None:
        # How many of its own are of before the program's last restart.
        self._before = 0
        self._real = array("q")

    def __len__(self) -> int:
        """How many it has of this run of the program."""
        return len(self._real)

    def real(self, number: int, is_settled: bool) -> int:
        """The program's number of one; 0, which names none, where the connection has none. Where
        replies are on their way (it isn't settled), one that wasn't given yet is `Ahead`."""
        place = number - self._before - 1
        if 0 <= place < len(self._real):
            return self._real[place]
        if 0 < number <= self._before:
            raise Before("object", number)
        if not is_settled and number > 0:
            raise Ahead
        return 0

    def give(self, real: int) -> int:
        """Its number of one that the program has just made, which the connection is told."""
        self._real.append(real)
        return self._before + len(self._real)

    def own(self, real: int) -> int:
        """Its number of what the program calls so; of what isn't its, which a refused call made and
        gave up again, the number that the next one gets."""
        place = bisect_left(self._real, real)
        if place < len(self._real) and self._real[place] == real:
            return self._before + place + 1
        return self._before + len(self._real) + 1

    def restarted(self) -> None:
        """All that it has is of before a restart of the program."""
        self._before += len(self._real)
        self._real = array("q")


class Managers:
    """The program's numbers of the open managers of a connection, by its own, from 1."""

    __slots__ = ("real_of", "_before", "_given")

    def __init__(self) -> None:
        self.real_of: Dict[int, int] = {}
        # How many of its own are of before the program's last restart, and how many were given.
        self._before = self._given = 0

    def real(self, number: int, is_settled: bool) -> int:
        """As `Objects.real`; a closed one is no manager's."""
        real = self.real_of.get(number)
        if real is not None:
            return real
        if 0 < number <= self._before:
            raise Before("manager", number)
        if not is_settled and number > self._given:
            raise Ahead
        return 0

    def give(self, real: int) -> int:
        """Its number of one that the program has just created."""
        self._given += 1
        self.real_of[self._given] = real
        return self._given

    def restarted(self, kept: Dict[int, int]) -> None:
        """All are of before a restart of the program, but for those that were created again."""
        self.real_of, self._before = kept, self._given


class Translation:
    """The lines and replies of a connection."""

    __slots__ = ("objects", "managers")

    def __init__(self) -> None:
        self.objects, self.managers = Objects(), Managers()

    @property
    def is_empty(self) -> bool:
        """Whether the connection has nothing of the program's run."""
        return not self.objects and not self.managers.real_of

    # ---- lines

    def call(self, line: bytes, is_settled: bool) -> Call:
        """The call of a line; `Before` where it names what is of before a restart, and `Ahead`
        where it isn't settled yet what it names."""
        if line == BEGIN:
            return BEGUN
        found = _LINE(line)
        if found is not None:
            return self._spelled(found, is_settled)
        listed = _VALUES(line)
        if listed is not None:
            numbers = map(int, listed[1].split(b",")) if listed[1] else ()
            told = ",".join([str(self.objects.real(it, is_settled)) for it in numbers])
            return Call("values", 0, f'{{"call":"values","objects":[{told}]}}'.encode())
        return self._read(line, is_settled)

    def _spelled(self, found: Match[bytes], is_settled: bool) -> Call:
        """The call of a line that is spelled as clients do."""
        word, em, number, plain, member = found.groups()
        known = _WORDS.get(word)
        if known is None or (known == "restart" and found[0] != _RESTART):
            return BAD
        own, told, end = 0, b'{"call":"%b"' % word, b"}"
        if em is not None:
            own = int(em)
            told = b'%b,"em":%d' % (told, self.managers.real(own, is_settled))
        if number is not None:
            told = b'%b,"object":%d' % (told, self.objects.real(int(number), is_settled))
        if member is not None:
            end = b',"member":%d}' % self.objects.real(int(member), is_settled)
        return Call(known, own, told + plain + end)

    def _read(self, line: bytes, is_settled: bool) -> Call:
        """The call of any line."""
        try:
            said = _json(line)
            word = said["call"]
            members = _MEMBERS[word]
            if set(said) - {"call", *members} or {*members} - OPTIONAL - set(said):
                return BAD
            told: Dict[str, Any] = {"call": word}
            for name in members:
                if name in said:
                    told[name] = self._member(name, said[name], is_settled)
            text = json.dumps(told, ensure_ascii=False, separators=(",", ":")).encode()
        except (ValueError, LookupError, TypeError, RecursionError):
            return BAD
        return Call(word, said.get("em", 0), text)

    def _member(self, name: str, said: Any, is_settled: bool) -> Any:
        if name == "em":
            return self.managers.real(_integer(said), is_settled)
        if name in ("object", "member"):
            return self.objects.real(_integer(said), is_settled)
        if name == "objects" and isinstance(said, list):
            return [self.objects.real(_integer(it), is_settled) for it in said]
        if name == "value":
            return self._value(said, is_settled)
        if name == "key" and isinstance(said, list):
            return [self._value(it, is_settled) for it in said]
        if name == "params" and isinstance(said, dict):
            return {each: self._handed(it, is_settled) for each, it in said.items()}
        return said if isinstance(said, str) else _integer(said)

    def _handed(self, said: Any, is_settled: bool) -> Any:
        if isinstance(said, list):
            return [self._value(it, is_settled) for it in said]
        return self._value(said, is_settled)

    def _value(self, said: Any, is_settled: bool) -> Any:
        if said is None or isinstance(said, str):
            return said
        if not isinstance(said, dict):
            return _integer(said)
        [(name, held)] = said.items()
        if name == "object":
            return {"object": self.objects.real(_integer(held), is_settled)}
        if name == "hex" and isinstance(held, str):
            return said
        raise ValueError(name)

    # ---- replies

    def reply(self, word: str, reply: bytes, made: int) -> Tuple[bytes, int]:
        """The program's reply to a call of this name, with the connection's numbers; and how many
        objects the program has made after it, of which it had made so many before. What is made is
        the connection's; a refused call gives up what it made."""
        one = _ONE(reply)
        if one is None:
            return self._reply(word, reply, made)
        front, told, end = one.groups()
        real = int(told)
        if real <= made:
            return b"%b%d%b" % (front, self.objects.own(real), end), made
        return b"%b%d%b" % (front, self.objects.give(real), end), real

    def _reply(self, word: str, reply: bytes, made: int) -> Tuple[bytes, int]:
        """The same of any reply."""
        if reply.startswith(b'{"error":'):
            refused, between, events = reply.partition(_ERROR)
            return refused + between + _EVENT.sub(self._given_up(made), events), made
        front, between, ended = reply.partition(_OK)
        if word == "createEntityManager":
            return front + between + b"%d}" % self.managers.give(int(ended[:-1])), made
        has_events = len(front) > len(b'{"events":[')
        numbers = [it for _, it in _OBJECT.findall(ended)]
        if has_events:
            numbers += [it for _, it in _EVENT.findall(front)]
        for number in sorted({real for it in numbers if (real := int(it)) > made}):
            self.objects.give(number)
            made = number
        if has_events:
            front = _EVENT.sub(self._own, front)
        pattern = _EVENT if word == "pending" else _OBJECT
        return front + between + pattern.sub(self._own, ended), made

    def _own(self, found: Match[bytes]) -> bytes:
        return b"%b%d" % (found[1], self.objects.own(int(found[2])))

    def _given_up(self, made: int) -> Callable[[Match[bytes]], bytes]:
        """Replaces the numbers of a refused call, which gives up what it made."""
        first = self.objects.own(made + 1)

        def own(found: Match[bytes]) -> bytes:
            real = int(found[2])
            number = first + real - made - 1 if real > made else self.objects.own(real)
            return b"%b%d" % (found[1], number)

        return own


# ---- JSON, as the program's reader takes it, also of what a later member of its name replaces

# What may be a minus nought or too large; and what may be half a character.
_ODD = re.compile(rb"-0|[0-9]{300}").search
_STRING = re.compile(rb'"(?:[^"\\]|\\.)*"', re.DOTALL)
_BRACKET = re.compile(rb"[][{}]")
_DEPTH = 127


def _json(line: bytes) -> Dict[str, Any]:
    """What a line says; a `ValueError` where it is no object of JSON, or one that the program's
    reader doesn't take."""
    if line.count(b"[") + line.count(b"{") > _DEPTH:
        _check_depth(line)
    said = json.loads(
        line.decode(), parse_float=_fraction, parse_constant=_none,
        parse_int=_whole if _ODD(line) else None,
        object_pairs_hook=_checked if b"\\u" in line else None,
    )
    if not isinstance(said, dict):
        raise ValueError("no object")
    return said


def _check_depth(line: bytes) -> None:
    depth = 0
    for bracket in _BRACKET.findall(_STRING.sub(b"", line)):
        depth += 1 if bracket in b"[{" else -1
        if depth > _DEPTH:
            raise ValueError("deep")


def _checked(pairs: List[Tuple[str, Any]]) -> Dict[str, Any]:
    """The members of an object, where none has half a character."""
    for name, value in pairs:
        name.encode()
        for each in value if isinstance(value, list) else (value,):
            if isinstance(each, str):
                each.encode()
    return dict(pairs)


def _none(digits: str) -> NoReturn:
    raise ValueError(digits)


def _fraction(digits: str) -> float:
    number = float(digits)
    if math.isinf(number):
        raise ValueError(digits)
    return number


def _whole(digits: str) -> Union[int, float]:
    number = _fraction(digits)
    return number if digits == "-0" else int(digits)


def _integer(said: Any) -> int:
    if type(said) is not int or not LEAST <= said <= GREATEST:
        raise ValueError("no whole number")
    return said
