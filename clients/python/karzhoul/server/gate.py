"""Whose turn it is to have one of the 16 managers that the program has open at a time, and when a
new run of it begins.

Who finds none free waits in turn. A run makes 1,000,000 objects and as many managers: once it has
made half of either, another one begins when no manager is open; once a tenth is left, as soon as no transaction is open,
for which those who begin one wait a second at a time; and once a hundredth is left, as long as it
takes.
"""

from __future__ import annotations

from collections import deque
from typing import TYPE_CHECKING, Deque, Optional, Protocol

from ..session.places import MOST
from ..wire.tally import MOST_OBJECTS

if TYPE_CHECKING:
    from .connection import Connection

DUE, LATE = MOST_OBJECTS // 2, MOST_OBJECTS - MOST_OBJECTS // 10
LAST = MOST_OBJECTS - MOST_OBJECTS // 100
# How long those who begin a transaction wait for a new run, and after how many more objects again.
PATIENCE, STEP = 1.0, MOST_OBJECTS // 100


class Waiter(Protocol):
    """One who waits for a manager."""

    connection: Connection
    until: float

    def let_in(self) -> None:
        """A manager is its."""

    def refuse(self) -> None:
        """None became free in time."""


class Gate:
    """The managers of a program. Those that connections were granted and have not yet, as one whose
    creation is under way, are counted with those that are open."""

    def __init__(self) -> None:
        self.taken = 0
        self._waiting: Deque[Waiter] = deque()
        # Until when nobody begins, for the sake of a new run.
        self.held_until: Optional[float] = None
        self._held_at = LATE

    @property
    def waiting(self) -> int:
        """How many wait for a manager."""
        return len(self._waiting)

    @property
    def is_free(self) -> bool:
        """Whether a manager can be had at once."""
        return self.taken < MOST and not self._waiting and self.held_until is None

    def take(self) -> None:
        """One is taken."""
        self.taken += 1

    def give_back(self) -> None:
        """One is free, which who waits first gets."""
        self.taken -= 1
        self.let_in()

    def wait(self, waiter: Waiter) -> None:
        """Has one wait for its turn."""
        self._waiting.append(waiter)

    def leave_all(self, connection: Connection) -> None:
        """None of a connection waits any more."""
        self._waiting = deque(it for it in self._waiting if it.connection is not connection)

    def let_in(self) -> None:
        """Lets those in that may."""
        while self._waiting and self.taken < MOST and self.held_until is None:
            self.taken += 1
            self._waiting.popleft().let_in()

    def refuse_late(self, now: float) -> None:
        """Refuses those who have waited too long."""
        for waiter in [it for it in self._waiting if it.until <= now]:
            self._waiting.remove(waiter)
            waiter.refuse()

    # ---- a new run

    def hold(self, made: int, now: float) -> None:
        """Has those who begin wait for a new run, where it is late, for a time."""
        if self.held_until is None and made >= self._held_at:
            self.held_until = float("inf") if made >= LAST else now + PATIENCE
            self._held_at = min(made + STEP, max(LAST, made + 1))

    def is_over(self, now: float) -> bool:
        """Whether the time is over for which those who begin wait."""
        return self.held_until is not None and self.held_until <= now

    def go_on(self) -> None:
        """Those who begin don't wait any more for now."""
        self.held_until = None
        self.let_in()

    def begun(self, kept: int) -> None:
        """A new run is on, with so many managers."""
        self.taken, self._held_at = kept, LATE
        self.go_on()
