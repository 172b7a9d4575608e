"""Whether the values of objects are asked for together with their find, before one is read."""

from __future__ import annotations

# How often in a row it was seen, at most, and from when on it is foreseen.
_MOST, _ENOUGH = 3, 2


class Foresight:
    """Of the objects of a class: whether those that are found are mostly loaded, and read then.

    What it foresees costs or saves a moment, and is never what a reader is told.
    """

    __slots__ = ("is_on", "is_sure", "_seen")

    def __init__(self) -> None:
        self.is_on = self.is_sure = False
        self._seen = 0

    def note(self, was_read: bool) -> None:
        """Takes note of an object that was loaded and read, or of one whose values were asked for
        in vain."""
        self._seen = min(self._seen + 1, _MOST) if was_read else max(self._seen - 1, 0)
        self.is_on, self.is_sure = self._seen >= _ENOUGH, self._seen == _MOST
