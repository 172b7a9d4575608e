"""Places for managers, of which 16 are open at a time: who finds none waits for one, in turn. And
between transactions the run is renewed before it has no objects left.

A run makes 1,000,000 objects, loads counted, and as many managers. Once it has made half of either,
those who ask for a place wait until the transactions that are open have ended; then the program
begins another run, which takes milliseconds. A transaction may last, and so nobody waits for its
end longer than a second at a time, unless fewer than a tenth of the run's objects are left.
"""

from __future__ import annotations

import gc
import math
import os
import threading
import time
from collections import deque
from typing import TYPE_CHECKING, Deque, Dict, Optional
from weakref import ref

from ..refusals import NoFreeManager
from ..wire.tally import MOST_OBJECTS

if TYPE_CHECKING:
    from .factory import EntityManagerFactory
    from .managers import EntityManager
    from .runs import Run

MOST = 16
# When a run is renewed, by the number of its objects; and when also managers that are open outside
# of the block of a `begin` don't hold that off.
_DUE, _LATE = MOST_OBJECTS // 2, MOST_OBJECTS - MOST_OBJECTS // 10
# How many seconds all wait for a transaction's end before that, and after how many more objects
# they do so again.
_PATIENCE, _STEP = 1.0, MOST_OBJECTS // 20


def check_wait(wait: Optional[float]) -> None:
    """Refuses what is no number of seconds to wait for a manager."""
    is_number = isinstance(wait, (int, float)) and not isinstance(wait, bool)
    if wait is not None and not (is_number and wait >= 0 and math.isfinite(wait)):
        raise ValueError(
            f"wait={wait!r} is no number of seconds from 0 on; wait=None waits without an end"
        )


class Place:
    """A place of a manager, from before the manager is made until it is closed."""

    __slots__ = ("is_block", "thread", "name", "since", "manager", "run", "number")

    def __init__(self, is_block: bool) -> None:
        """For the block of a `begin`, or for a manager that is open until it is closed."""
        self.is_block = is_block
        self.thread = threading.get_ident()
        self.name = threading.current_thread().name
        self.since = time.monotonic()
        # Its manager, once that is made. Where it is gone, nobody gives the place back.
        self.manager: Optional[ref[EntityManager]] = None
        self.run: Optional[Run] = None
        self.number = 0

    def is_left(self) -> bool:
        """Whether its manager is gone without being closed."""
        return self.manager is not None and self.manager() is None


class _Waiter:
    """One who waits for a place."""

    __slots__ = ("place", "is_let_in", "woken")

    def __init__(self, place: Place, woken: threading.Condition) -> None:
        self.place, self.woken = place, woken
        self.is_let_in = False


class Places:
    """The places of a factory."""

    def __init__(self, factory: EntityManagerFactory, wait: Optional[float]) -> None:
        """With how many seconds a place is waited for at most; None is for ever."""
        self.wait = wait
        self._factory, self._process = factory, os.getpid()
        # Where both are held, the factory's lock is taken first.
        self._lock = threading.RLock()
        self._held: Dict[Place, None] = {}
        self._waiting: Deque[_Waiter] = deque()
        self._due = _DUE
        # When what is dropped is looked for next.
        self._collects_from = 0.0
        # Until when those who hold no place wait for a new run; None where they don't.
        self._closed_until: Optional[float] = None

    # ---- taken and given back

    def take(self, place: Place, wait: Optional[float]) -> None:
        """Takes a place, which is waited for; `NoFreeManager` where none came in time. Where this
        raises, none is taken."""
        if os.getpid() != self._process:
            return  # In a forked process each call is refused.
        self._renew_where_due(place)
        with self._lock:
            self._look_after()
            waiter = _Waiter(place, threading.Condition(self._lock))
            try:
                self._waiting.append(waiter)
                self._let_in()
                self._wait_for(waiter, wait)
            except BaseException:
                self._held.pop(place, None)
                raise
            finally:
                if waiter in self._waiting:
                    self._waiting.remove(waiter)
                self._let_in()

    def give_back(self, place: Place) -> None:
        """Gives a place back; again it does nothing."""
        if os.getpid() != self._process:
            return
        with self._lock:
            self._held.pop(place, None)
            self._let_in()
        self._renew_where_due(place)

    def keep(self, place: Place) -> None:
        """Takes a place again where it was given back as another run began."""
        with self._lock:
            is_held = place in self._held
        if not is_held:
            self.take(place, self.wait)

    def run_begun(self) -> None:
        """A new run is on, in which no manager of before is open. Those that go on take their
        places again where they are used. (Blocks go on to their ends.)"""
        if os.getpid() != self._process:
            return
        with self._lock:
            for place in list(self._held):
                if not place.is_block and place.run is not None:
                    del self._held[place]
            self._due, self._closed_until = _DUE, None
            self._let_in()

    def wake(self) -> None:
        """The program has ended: those who wait are told so by their next call."""
        with self._lock:
            for waiter in self._waiting:
                waiter.woken.notify()

    # ---- who may have one

    def _wait_for(self, waiter: _Waiter, wait: Optional[float]) -> None:
        deadline = math.inf if wait is None else time.monotonic() + wait
        while not waiter.is_let_in and not self._factory.program.fault:
            now = time.monotonic()
            is_over = self._closed_until is not None and now >= self._closed_until
            if is_over or (self._closed_until is not None and not self._has_blocks()):
                self._open_again()
                continue
            if now >= deadline or self._is_stuck():
                raise NoFreeManager(self._why(wait))
            # It looks again after a second, whatever was interrupted that would have woken it.
            if not waiter.woken.wait(min(deadline, self._closed_until or math.inf, now + 1) - now):
                self._collect()
                self._look_after()
                self._let_in()

    def _collect(self) -> None:
        """Lets what is dropped go, which stays until then. Nobody gives a place back meanwhile, and
        many may wait: so one of them does it, and for a tenth of the time at most."""
        begun = time.monotonic()
        if begun >= self._collects_from:
            gc.collect()
            ended = time.monotonic()
            self._collects_from = ended + max(1.0, 9 * (ended - begun))

    def _let_in(self) -> None:
        """Lets those in that may: first who holds a place already, and the others in turn."""
        while self._waiting and len(self._held) < MOST:
            within = next((each for each in self._waiting if self._is_within(each.place)), None)
            if within is None and self._closed_until is not None:
                return
            waiter = within or self._waiting[0]
            self._waiting.remove(waiter)
            self._held[waiter.place] = None
            waiter.is_let_in = True
            waiter.woken.notify()

    def _is_within(self, place: Place) -> bool:
        """Whether nothing ends while the thread of a place waits: it holds another one, or keeps
        all others from going on."""
        is_ahead = place.thread == threading.get_ident() and self._factory._is_ahead()
        return is_ahead or any(
            each.is_block and each.thread == place.thread and each is not place
            for each in self._held
        )

    def _has_blocks(self) -> bool:
        return any(place.is_block for place in self._held)

    def _is_stuck(self) -> bool:
        """Whether no place becomes free while this thread waits: it keeps all others from going on,
        or all who hold one wait themselves."""
        waiting = {each.place.thread for each in self._waiting}
        return self._factory._is_ahead() or (
            len(self._held) >= MOST
            and all(place.is_block and place.thread in waiting for place in self._held)
        )

    def _look_after(self) -> None:
        """Takes the places of managers that are gone, and has these closed."""
        for place in list(self._held):
            if place.is_left():
                if place.run is self._factory._run:
                    self._factory._left.append((place.run, place.number))
                del self._held[place]

    def _why(self, wait: Optional[float]) -> str:
        """Why no manager is free, and who has those that are open."""
        now = time.monotonic()
        held = ", ".join(
            f"{place.name} ({'a block' if place.is_block else 'a manager'}, "
            f"{now - place.since:.1f} s)"
            for place in self._held
        )
        if self._factory._is_ahead():
            why = "a callback or a pipeline keeps all others from going on"
        elif self._is_stuck():
            why = "each thread that has one waits for another one"
        elif self._closed_until is not None:
            why = "few objects of the run are left, and a new one waits for transactions to end"
        else:
            why = f"none became free within {wait} seconds"
        return f"no manager is free: {why}; {len(self._held)} are open: {held}"

    # ---- a new run

    def _renew_where_due(self, place: Place) -> None:
        """Has a new run begin where it is time, or those who ask for a place wait for one."""
        if self._factory._run.used < _DUE:
            return
        with self._lock:
            if not self._is_due() or self._is_within(place):
                return
        with self._factory._lock, self._lock:
            # What was interrupted is gone on with by another call, which is told of it.
            if self._is_due() and not self._factory._has_left():
                self._look_after()
                self._renew()

    def _is_due(self) -> bool:
        made = self._factory._run.used
        return made >= self._due or (made >= _DUE and not self._held)

    def _renew(self) -> None:
        made = self._factory._run.used
        is_late, now = made >= _LATE, time.monotonic()
        if any(not place.is_block for place in self._held) and not is_late:
            self._due = min(made + _STEP, _LATE)
        elif self._has_blocks():
            if self._closed_until is None:
                self._closed_until = math.inf if is_late else now + _PATIENCE
        elif not self._factory._renewed(may_start=not self._held):
            self._open_again()

    def _open_again(self) -> None:
        """Those who hold no place don't wait for a new run for now."""
        left = MOST_OBJECTS - self._factory._run.used
        self._due = self._factory._run.used + max(1, min(_STEP, left // 4))
        self._closed_until = None
        self._let_in()
