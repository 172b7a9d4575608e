"""The question which known word was meant, where one isn't known."""

from __future__ import annotations

import difflib
from typing import Iterable


def meant(word: str, known: Iterable[str]) -> str:
    """The question which known word was meant, after a word that isn't known; nothing where none is
    near."""
    near = difflib.get_close_matches(word, list(known), n=1)
    return f": did you mean {near[0]!r}?" if near else ""
