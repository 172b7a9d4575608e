"""Work that is done again where it was lost through no fault of its own: since another manager's
commit came first, or since another thread's call ended the program."""

from __future__ import annotations

import threading
import time
from types import CoroutineType, GeneratorType
from typing import TYPE_CHECKING, Callable, Optional, TypeVar

from ..refusals import NotUnique, ObjectLimit, ProgramEnded, Refused, Restarted, Rollback
from .begun import Begun, is_too_late
from .pausing import note_refusals, pause
from .transactions import is_of_callback

if TYPE_CHECKING:
    from .factory import EntityManagerFactory
    from .managers import EntityManager

T = TypeVar("T")
_LATE = (
    "the work gave a {kind}, which would run after its transaction has ended: let it be an "
    "ordinary function, and give a list"
)
# From a block to the application: `_Attempt.answer`, `Retry.answer`, `EntityManagerFactory.retry`.
_ABOVE = 3


class Retry:
    """One piece of work that is done until it is done, at most so many times in all."""

    def __init__(self, factory: EntityManagerFactory, most: int) -> None:
        if most < 1:
            raise ValueError(f"there are {most} attempts, and one is the least")
        self._factory, self._most = factory, most
        # How often it was refused.
        self._refused = 0

    def answer(self, work: Callable[[EntityManager], T]) -> T:
        """What the work gives that is committed then."""
        while True:
            attempt = _Attempt(self._factory)
            try:
                return attempt.answer(work)
            except Exception as fault:
                is_lost = attempt.is_lost(fault)
                self._refused += is_lost
                if not is_lost or self._refused == self._most:
                    if self._refused:
                        note_refusals(fault, self._refused)
                    raise
                if not isinstance(fault, (NotUnique, Refused)):
                    self._factory._reopen(attempt.waits_since)
            self._factory._tally.note_retry()
            pause(self._refused)


class _Attempt:
    """One time that work is done."""

    def __init__(self, factory: EntityManagerFactory) -> None:
        self._factory, self._program = factory, factory.program
        # How many objects its run had made before it.
        self._made = 0
        # Once the work has begun.
        self._manager: Optional[EntityManager] = None
        self._begun = time.monotonic()

    @property
    def waits_since(self) -> Optional[float]:
        """Since when it has waited to begin, as behind a thread that opens the program again; None
        once it has begun."""
        return self._begun if self._manager is None else None

    def answer(self, work: Callable[[EntityManager], T]) -> T:
        with Begun(self._factory, _ABOVE) as manager:
            self._manager, self._program = manager, self._factory.program
            self._made = manager._run.made
            answer = work(manager)
            if isinstance(answer, (CoroutineType, GeneratorType)):
                raise TypeError(_LATE.format(kind=type(answer).__name__))
        return answer

    def is_lost(self, fault: Exception) -> bool:
        """Whether the work was lost through no fault of its own, and is not stored."""
        if is_of_callback(fault):  # The commit was done.
            return False
        if isinstance(fault, NotUnique):
            return fault.is_raced
        if isinstance(fault, Refused):
            return is_too_late(fault) or self._is_at_an_end(fault)
        if isinstance(fault, ProgramEnded):
            return self._is_end_lost(fault)
        return isinstance(fault, Restarted) and self._is_of_before() and not self._has_ended_it()

    def _is_at_an_end(self, refused: Refused) -> bool:
        """Whether the run had no objects left for the work, and the next one has more. Opened for
        threads, the factory begins it before the next attempt."""
        found = refused.cause if isinstance(refused, Rollback) else refused
        is_renewed = self._factory._places is not None and self._made > 0
        return isinstance(found, ObjectLimit) and is_renewed

    def _is_end_lost(self, ended: ProgramEnded) -> bool:
        """Whether the program's end, which isn't the factory's own, came before the work began, or
        by another thread's call: where its own call met it, it may be what ended it."""
        if ended.status is None or ended.may_be_stored:
            return False
        return self._manager is None or not self._has_ended_it()

    def _has_ended_it(self) -> bool:
        """Whether a call of this thread met the program's end, be it told of or not."""
        ended = self._program.fault
        return isinstance(ended, ProgramEnded) and ended._thread == threading.get_ident()

    def _is_of_before(self) -> bool:
        """Whether another thread has opened the program again since."""
        manager = self._manager
        return manager is None or manager._run is not self._factory._run
