"""What is told of lines and replies without reading each."""

from __future__ import annotations

import json
import re
from contextlib import suppress
from typing import Any, Dict, List, Optional, Set, Tuple

from .lines import LifecycleEvent

# What stands between the numbers of replies that are an object each, and no event.
_BETWEEN = b'}}\n{"events":[],"ok":{"object":'
_FRONT = _BETWEEN[3:]
_NULL_END = b',"ok":null}'
_LOADED = b'["PostLoad",'
# The replies to a line that answers null and tells no event.
NULL = [b'{"events":[],"ok":null}']
_OBJECT = re.compile(rb'\{"object":([0-9]+)\}')
_ONE = re.compile(
    rb'\{"events":\[(?:\["PostLoad",([0-9]+)\])?\],"ok":\{"object":([1-9][0-9]*)\}\}'
).fullmatch
# What stands before and behind the values of one object, when no member of them is an object.
_VALUES, _VALUES_END = b'"values":[', b"]}]}"
_ENTITY = b'{"entity":"'
_SHOWN = b'{"events":[],"ok":[' + _ENTITY
# What stands before, between and behind the numbers of rows that were loaded, as they are told.
_LOADS, _LOADS_BETWEEN = b'{"events":[["PostLoad",', b'],["PostLoad",'
_ROWS, _ROWS_BETWEEN, _ROWS_END = b']],"ok":[{"object":', b'},{"object":', b"}]}"
_decode = json.JSONDecoder().raw_decode
_EVENTS = {kind.value for kind in LifecycleEvent}
_HEX = re.compile(r"(?:[0-9a-fA-F]{2})*").fullmatch


def are_silent(replies: List[bytes]) -> bool:
    """Whether replies answer null each, and tell of no object that was loaded. No other reply has
    this end, since of a refusal's its events stand last."""
    if len(replies) == 1:  # As below, in half the time.
        return replies[0].endswith(_NULL_END) and replies[0].find(_LOADED) < 0
    text = b"%b\n" % b"\n".join(replies)
    return text.count(_NULL_END + b"\n") == len(replies) and text.find(_LOADED) < 0


def are_null(replies: List[bytes]) -> bool:
    """Whether replies answer null each, and tell no event."""
    return replies.count(NULL[0]) == len(replies)


def numbers_of(replies: List[bytes]) -> Optional[List[int]]:
    """The numbers of the objects that replies are; None where one is anything else, or tells an
    event."""
    if len(replies) == 1:  # As below, in a third of the time.
        reply = replies[0]
        digits = reply[len(_FRONT) : -2]
        is_one = (
            digits.isdigit()
            and digits[:1] != b"0"
            and reply[-2:] == b"}}"
            and reply.startswith(_FRONT)
        )
        return [int(digits)] if is_one else None
    text = b"".join((_BETWEEN[:3], b"\n".join(replies), _BETWEEN[2:]))
    pieces = text.split(_BETWEEN)[1:-1]
    if len(pieces) != len(replies) or not b"".join(pieces).isdigit() or text.find(b":0") >= 0:
        return None
    return list(map(int, pieces))


def rows_of_values_in(
    replies: List[bytes], count: int
) -> Optional[Tuple[str, List[List[Any]]]]:
    """The entity of so many objects and the values of each, as replies tell them in their order,
    where all have the same entity; None where they are any other ones, or bytes are among what is
    told."""
    entities, rows = set(), []
    for reply in replies:
        if not reply.startswith(_SHOWN) or b'{"hex"' in reply:
            return None
        entity, values = _alike_in(reply) or _shown_in(reply)
        entities |= entity
        rows += values
    return (entities.pop(), rows) if len(rows) == count and len(entities) == 1 else None


def _alike_in(reply: bytes) -> Optional[Tuple[Set[str], List[List[Any]]]]:
    """The entity and the values of the objects in a reply that all have the same entity and the
    same relations: in less time, as nothing else is read. None where they are any other ones."""
    at = reply.find(_VALUES) + len(_VALUES)
    # No value has what stands between two objects, since a quote within a text is escaped.
    rows = reply[at : -len(_VALUES_END)].split(b"]}," + reply[len(_SHOWN) - len(_ENTITY) : at])
    said = b"],[".join(rows)
    if not reply.endswith(_VALUES_END) or b'"values":[' in said:
        return None
    entity = reply[len(_SHOWN) : reply.find(b'"', len(_SHOWN))].decode()
    return {entity}, _decode(f"[[{said.decode()}]]")[0]


def _shown_in(reply: bytes) -> Tuple[Set[str], List[List[Any]]]:
    """The entities and the values of the objects in a reply."""
    rows = said_of(reply)["ok"]
    return {row["entity"] for row in rows}, [row["values"] for row in rows]


def object_in(reply: bytes) -> Tuple[bool, int]:
    """Whether the one object that a reply is was loaded for it, and its number; 0 where the reply
    is anything else, or tells more."""
    found = _ONE(reply)
    if found is None:
        return False, 0
    loaded, number = found.groups()
    if loaded is None:
        return False, int(number)
    return (True, int(number)) if loaded == number else (False, 0)


def values_in(reply: bytes) -> Optional[List[Any]]:
    """The values that a reply tells of one object, as JSON has them; None where it is any other
    one, or bytes are among them."""
    at = reply.find(_VALUES) + len(_VALUES) - 1
    is_plain = reply.startswith(_SHOWN) and reply.endswith(_VALUES_END)
    if not is_plain or reply.find(b'{"hex"', at) >= 0:
        return None
    values: List[Any] = _decode(reply[at:].decode())[0]
    return values


def loaded_in(reply: bytes) -> Optional[Tuple[List[int], bytes]]:
    """The numbers of the objects that are the rows of a reply, and these as a line lists them,
    where all of them were loaded for it, each once, with numbers that follow each other; None where
    it is any other one."""
    loaded, rows, ended = reply.partition(_ROWS)
    if not rows or not loaded.startswith(_LOADS) or not ended.endswith(_ROWS_END):
        return None
    told = ended[: -len(_ROWS_END)].split(_ROWS_BETWEEN)
    if not b"".join(told).isdigit():
        return None
    listed = b",".join(told)
    following = numbers = _decode(f"[{listed.decode()}]")[0]
    if loaded[len(_LOADS) :] != _LOADS_BETWEEN.join(told):  # Their order may be another one.
        following = sorted(numbers)
        if loaded[len(_LOADS) :] != _LOADS_BETWEEN.join([b"%d" % number for number in following]):
            return None
    is_whole = following == list(range(following[0], following[0] + len(following)))
    return (numbers, listed) if is_whole else None


def said_of(reply: bytes) -> Dict[str, Any]:
    """What a reply says."""
    said: Dict[str, Any] = _decode(reply.decode())[0]
    return said


def objects_in(reply: bytes) -> List[int]:
    """The numbers of the objects in an answer. (A quote within a text is escaped.)"""
    return list(map(int, _OBJECT.findall(reply))) if b'{"object":' in reply else []


def is_reply(line: bytes) -> bool:
    """Whether a line is a reply: an answer or a refusal, with its events."""
    try:
        said = json.loads(line)
    except (ValueError, RecursionError):
        return False
    if not isinstance(said, dict) or not isinstance(said.get("events"), list):
        return False
    error = said.get("error")
    is_refusal = isinstance(error, dict) and isinstance(error.get("name"), str)
    return all(map(_is_event, said["events"])) and (
        is_refusal if "ok" not in said else _is_answer(said["ok"])
    )


def _is_event(said: Any) -> bool:
    return (
        isinstance(said, list) and len(said) >= 2
        and isinstance(said[0], str) and said[0] in _EVENTS
        and type(said[1]) is int and all(isinstance(ran, str) for ran in said[2:])
    )


def _is_answer(said: Any) -> bool:
    if isinstance(said, list):
        return all(map(_is_answer, said))
    if not isinstance(said, dict):
        return True
    if "object" in said:
        return type(said["object"]) is int
    if "hex" in said:
        return isinstance(said["hex"], str) and _HEX(said["hex"]) is not None
    return all(map(_is_answer, said.values()))


def is_restart(line: str) -> bool:
    """Whether a line that is a call begins a new run."""
    with suppress(ValueError, RecursionError, AttributeError):
        return bool(json.loads(line).get("call") == "restart")
    return False
