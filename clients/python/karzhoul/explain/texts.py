"""Values as a reader sees them."""

from __future__ import annotations

import json
from typing import Any


def value_text(value: Any) -> str:
    """A value as a reader sees it."""
    if value is None:
        return "null"
    if isinstance(value, bytes):
        return f"x'{value.hex()}'"
    if isinstance(value, str):
        return value if value.isprintable() else json.dumps(value, ensure_ascii=False)[1:-1]
    if isinstance(value, list):
        return "[" + ", ".join(map(value_text, value)) + "]"
    return str(value)
