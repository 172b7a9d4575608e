"""What a manager was told to do with objects since its last transaction ended, and what of that is
lost where it is closed."""

from __future__ import annotations

from typing import Any, Dict, Iterable, List, Sequence, Set


class Concern:
    """The numbers of the objects that a manager was told to persist, to remove and to lock, by
    which a refusal of its flush or its commit is explained."""

    __slots__ = ("since", "sets", "has_merged", "persisted", "removed", "locked", "let_go")

    def __init__(self, since: int, sets: int = 0) -> None:
        """With the number of the last object that was made before, and how often objects that may
        be the manager's had been set."""
        self.since, self.sets = since, sets
        self.has_merged = False
        self.persisted: List[int] = []
        self.removed: List[int] = []
        self.locked: List[int] = []
        # What was detached.
        self.let_go: Set[int] = set()

    def of(self, call: str) -> List[int]:
        """Those of a call."""
        return {"persist": self.persisted, "remove": self.removed, "lock": self.locked}[call]


class Noted:
    """The numbers of the objects that a manager's calls persisted and removed, and that no flush
    has written yet."""

    __slots__ = ("new", "removed")

    def __init__(self) -> None:
        self.new: Dict[int, None] = {}
        self.removed: Dict[int, None] = {}

    def hear(self, events: Iterable[Sequence[Any]]) -> None:
        """Takes note of events of calls that were done."""
        for kind, number, *_ in events:
            if kind == "PrePersist":
                self.new[number] = None
                self.removed.pop(number, None)
            elif kind == "PreRemove":
                self.removed[number] = None
                self.new.pop(number, None)
            elif kind in ("PostPersist", "PostRemove"):
                (self.new if kind == "PostPersist" else self.removed).pop(number, None)
