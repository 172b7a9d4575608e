"""Values and words as messages tell them, which may stand in a log: long ones without their middle."""

from __future__ import annotations

# So many characters are told of a value, and of why it isn't taken.
_OF_VALUE, _OF_WORDS = 200, 500


def with_article(word: str) -> str:
    """A class's name with its article, as `an Order` and `a User`."""
    return f"{'an' if word[:1] in 'AEIO' else 'a'} {word}"


def shown(value: object) -> str:
    """A value as messages tell it: they may stand in a log, and a text may have 65,535 bytes."""
    size = f"{len(value):,} bytes" if isinstance(value, bytes) else ""
    size = f"{len(value):,} characters" if isinstance(value, str) else size
    return cut(repr(value), size, _OF_VALUE)


def cut(told: str, size: str = "", longest: int = _OF_WORDS) -> str:
    """What is told without its middle, where that is long, and how long it is."""
    if len(told) <= longest:
        return told
    size = size or f"{len(told):,} characters"
    return f"{told[: longest // 2]} .. ({size}) .. {told[-longest // 4 :]}"
