"""The callbacks that run before a flush writes.

The program is asked which events a flush would tell before it writes (`pending`). Their callbacks
run then, and may change objects, so it is asked again, until it tells nothing new. Then the flush
is sent. Its reply tells these events again, and they are told to nobody; what it alone can tell, of
objects that it had to load, is told when it is done.
"""

from __future__ import annotations

from typing import TYPE_CHECKING, Callable, FrozenSet, Iterator, List, Optional, Set, Tuple, TypeVar

from ..objects.entities import Event
from ..refusals import NoSuchManager, TransactionRequired
from ..wire.lines import LifecycleEvent, line_of

if TYPE_CHECKING:
    from .managers import EntityManager

T = TypeVar("T")
# The kind of an event and the number of its object.
Due = Tuple[str, int]
BEFORE = frozenset(
    (LifecycleEvent.PRE_PERSIST, LifecycleEvent.PRE_UPDATE, LifecycleEvent.PRE_REMOVE)
)
# So often the program is asked what is new.
_MOST = 1000


class Pending:
    """Runs the callbacks that come before the flushes of a manager."""

    def __init__(self, manager: EntityManager) -> None:
        self._manager = manager
        # What ran before a flush that isn't done yet, with the flushes that its callbacks call for.
        self._ran: Optional[Set[Due]] = None

    def before(
        self, flush: Callable[[FrozenSet[Due]], T], timeout: Optional[float] = None,
        is_commit: bool = False,
    ) -> T:
        """Runs the callbacks that come before a flush, and then the flush, which is given what ran.
        Between the two, what is unique gets its keys (`classes.unique`).

        What a callback raises is raised, and the flush isn't sent. No other thread calls in
        between. A flush that a callback calls for runs no callback that ran already. It is a
        `RuntimeError` where callbacks have others run without an end.
        """
        factory = self._manager.factory
        keeper = self._manager.keeper
        if not factory._events.hears_before and keeper is None:
            return flush(frozenset())
        with factory._lock:
            is_outer = self._ran is None
            try:
                ran = self._ran = set() if self._ran is None else self._ran
                due = self._run(ran, timeout)
                if keeper is not None and due is not None:
                    keeper.settle(due, is_commit)
                return flush(frozenset(ran))
            finally:
                if is_outer:
                    self._ran = None

    def _run(self, ran: Set[Due], timeout: Optional[float]) -> Optional[List[Due]]:
        """Runs callbacks until nothing is new, and answers what the flush would tell, as `asked`.
        """
        factory = self._manager.factory
        for _ in range(_MOST):
            told = self.asked(timeout)
            new = [due for due in told or () if due not in ran]
            if not new:
                return told
            turn = factory._turn
            factory._events.tell_before(self._events(new, ran))
            if factory._turn == turn and factory._calls is None:
                return told  # Nothing was called, and so nothing is new.
        raise RuntimeError(
            f"callbacks before a flush made others run {_MOST:,} times over: {new[0][0]} of "
            f"{factory.objects(self._manager._run, [new[0][1]])[0]!r} was the last"
        )

    def asked(self, timeout: Optional[float]) -> Optional[List[Due]]:
        """What a flush would tell before it writes; None where the flush is refused as it is
        called, which its own reply says."""
        manager = self._manager
        line = line_of("pending", {"em": manager._em})
        try:
            [told] = manager.factory.ask_lines(manager._run, [line], timeout=timeout)
        except (NoSuchManager, TransactionRequired):
            return None
        return [(kind, number) for kind, number in told]

    def _events(self, new: List[Due], ran: Set[Due]) -> Iterator[Event]:
        """The events that have callbacks, each as its turn comes, if it hasn't run meanwhile."""
        factory, run = self._manager.factory, self._manager._run
        heard = {kind.value for _, kinds in factory._events.callbacks for kind in kinds}
        waiting = {
            each for each in new
            if each[0] in heard and run.kinds[each[1]] not in factory._events.hidden
        }
        due = [each for each in new if each in waiting]
        objects = factory.objects(run, [number for _, number in due])
        ran.update(each for each in new if each not in waiting)
        for (kind, number), entity in zip(due, objects):
            if (kind, number) not in ran:
                ran.add((kind, number))
                yield Event(LifecycleEvent(kind), entity, (), self._manager)
