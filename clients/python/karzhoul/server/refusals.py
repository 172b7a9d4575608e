"""What a server itself says to a connection: refusals as the program's are, by names of its own
where they are no call's."""

from __future__ import annotations

import json
from typing import Any, Dict

# Their numbers, which are none of the program's but for those that mean the same.
_NUMBERS = {
    "StoreFault": 2, "BadLine": 3, "Limit": 19, "Restarted": 22, "ProgramEnded": 23, "Closed": 24,
    "Denied": 25,
}
NULL = b'{"events":[],"ok":null}'


def refusal(name: str, why: str) -> bytes:
    """A refusal of this name, with its reason in words."""
    said = {"error": {"name": name, "no": _NUMBERS[name], "why": why}, "events": []}
    return _line(said)


def answer(told: Any) -> bytes:
    """An answer to a call of the server's own."""
    return _line({"events": [], "ok": told})


def _line(said: Dict[str, Any]) -> bytes:
    return json.dumps(said, ensure_ascii=False, separators=(",", ":")).encode()
