"""Lines and requests at random, for a server, its metrics and a console."""
from __future__ import annotations

import json
import random
from typing import Any, List

# What is done to bytes: those that mean something in a line or a request come more often.
_BYTES = b'0123456789"{}[],:x\\\xff\x00 \r\t/%'
_NAMES = ("Person", "Order", "Nobody", "")
_MEMBERS = ("name", "number", "amount", "id", "version", "orders", "person", "x")
_TEXTS = (
    "SELECT p FROM Person p", "SELECT COUNT(p) FROM Person p", "SELECT p.name FROM Person p",
    "SELECT o.number FROM Order o WHERE o.number > :a", "UPDATE Person p SET p.name = 'y'",
    "DELETE FROM Order o", "SELECT", "",
)


def _number(chance: random.Random) -> int:
    return chance.choice((0, 1, 1, 1, 2, 2, 3, 4, 7, 16, 17, 1_000_000, -1, 2**63 - 1))


def _value(chance: random.Random) -> Any:
    return chance.choice((
        None, "x", "y" * chance.randrange(300), chance.randrange(-5, 5), 2**63 - 1, -(2**63),
        {"hex": "00ff"}, {"object": _number(chance)}, {"hex": "0"}, [1], True, 1.5,
    ))


def _sound(chance: random.Random) -> Any:
    """A call whose members are of their kinds."""
    em, number = _number(chance), _number(chance)
    named = {"object": number, "name": chance.choice(_MEMBERS)}
    text = {"em": em, "text": chance.choice(_TEXTS), "params": {"a": _value(chance)}}
    return chance.choice((
        lambda: {"call": "createEntityManager"},
        lambda: {"call": chance.choice((
            "close", "begin", "begin", "commit", "rollback", "setRollbackOnly", "clear", "flush",
            "pending")), "em": em},
        lambda: {"call": "setFlushMode", "em": em, "mode": chance.choice(("AUTO", "COMMIT", "x"))},
        lambda: {"call": "new", "entity": chance.choice(_NAMES)},
        lambda: {"call": "get", **named},
        lambda: {"call": "set", **named, "value": _value(chance)},
        lambda: {"call": chance.choice(("add", "takeOut")), **named, "member": _number(chance)},
        lambda: {"call": chance.choice(("find", "getReference")), "em": em,
                 "entity": chance.choice(_NAMES), "key": [_value(chance)]},
        lambda: {"call": chance.choice((
            "persist", "remove", "refresh", "detach", "merge", "contains")), "em": em,
            "object": number},
        lambda: {"call": "lock", "em": em, "object": number, "mode": "READ"},
        lambda: {"call": chance.choice(("query", "querySingle")), **text},
        lambda: {"call": "executeUpdate", **text},
        lambda: {"call": "values",
                 "objects": [_number(chance) for _ in range(chance.randrange(5))]},
        lambda: {"call": "restart"},
        lambda: {"serve": chance.choice(("begin", "status", "turn", "x")), "for": "x", "wait": 0},
        lambda: {"serve": "hello", "wait": 0, "mapping": chance.random() < 0.1},
    ))()


def damaged(chance: random.Random, data: bytes) -> bytes:
    """Bytes of which some are others, doubled or cut off."""
    made = bytearray(data)
    for _ in range(chance.choice((1, 1, 2, 8))):
        at = chance.randrange(len(made) + 1)
        made[at : at + chance.randrange(3)] = bytes(
            chance.choice(_BYTES) for _ in range(chance.randrange(3))
        )
    if chance.random() < 0.1:
        made = made * 2
    return bytes(made[: chance.randrange(len(made) + 1)] if chance.random() < 0.1 else made)


def line(chance: random.Random) -> bytes:
    """A line, without its line feed."""
    between = chance.choice(((",", ":"), (",", ":"), (", ", ": ")))
    made = json.dumps(_sound(chance), separators=between).encode()
    if chance.random() < 0.4:
        made = damaged(chance, made).replace(b"\n", b" ")
    if chance.random() < 0.001:
        made = b'{"call":"new","entity":"' + b"x" * chance.randrange(1 << 21) + b'"}'
    return made


def request(chance: random.Random, paths: List[str], host: str) -> bytes:
    """A request of HTTP, sound or damaged."""
    body = json.dumps({"text": chance.choice(_TEXTS), "entity": chance.choice(_NAMES),
                       "key": [_value(chance)], "x": _value(chance)}).encode()
    size = chance.choice((len(body), len(body), len(body) - 1, 0, -1, 1 << 40, "x"))
    method = chance.choice(("GET", "POST", "POST", "PUT", "", "G" * 200))
    made = (
        f"{method} {chance.choice(paths)} HTTP/1.{chance.choice('0112')}\r\n"
        f"Host: {chance.choice((host, host, host, 'x', ''))}\r\n"
        f"Content-Type: {chance.choice(('application/json', 'application/json', 'text/plain'))}\r\n"
        f"Content-Length: {size}\r\nConnection: close\r\n\r\n"
    ).encode() + body
    if chance.random() < 0.5:
        made = damaged(chance, made)
    return made + (b"x" * chance.randrange(1 << 17) if chance.random() < 0.01 else b"")
