"""The transaction of a manager, with the names of the standard (chapter 7.5)."""

from __future__ import annotations

from contextlib import suppress
from types import TracebackType
from typing import TYPE_CHECKING, FrozenSet, Iterator, Optional, Type, Union

from ..refusals import IllegalState, KarzhoulError, NotUnique, ProgramEnded, Restarted, Rollback
from ..refusals import OptimisticLock
from ..wire.lines import line_of
from .holding import Few
from .interrupts import begin_of_block, carried_out, end_of_block, guard, is_guarded, unguard
from .pausing import note_refusals, pause
from .pending import Due

if TYPE_CHECKING:
    from .managers import EntityManager


class EntityTransaction:
    """The transaction of a manager; each manager has one of its own.

    `is_active` says whether it is open. Where one of its calls was interrupted it may be over all
    the same: then `rollback` is refused.
    """

    def __init__(self, manager: EntityManager, is_begun: bool = False) -> None:
        """With whether the program has opened it already, for the next `begin`."""
        self._manager, self.is_active, self._is_begun = manager, is_begun, is_begun

    def begin(self) -> EntityTransaction:
        """Opens it."""
        was_active = self.is_active
        while True:
            run = self._manager._run
            try:
                # Before it is, so that no interrupt leaves one open that isn't known to be.
                self.is_active = True
                if self._is_begun:
                    self._is_begun = False
                else:
                    self._ask("begin")
                break
            except KarzhoulError as fault:
                self.is_active = was_active
                if not isinstance(fault, Restarted) or not self._manager._goes_on(run):
                    raise
        number = self._manager.number
        refused = run.refused.get(number)
        run.transaction_over(number)
        if refused:  # By callbacks, outside of a transaction.
            self._ask("setRollbackOnly")
            run.marked[number] = next(iter(refused.values()))
        return self

    def commit(self) -> None:
        """Stores the manager's new and changed objects, all or none. After a `Rollback` it is
        rolled back. What a callback raises that runs before (`EntityManagerFactory.listen`) leaves
        it open, with nothing stored."""
        self._manager.factory.tell_kept()
        self._manager._pending.before(self._commit, is_commit=True)

    def _commit(self, ran: FrozenSet[Due]) -> None:
        # What callbacks set that are told once it is done isn't stored.
        sets = self._manager._sets()
        try:
            self._manager._ask_flushing("commit", ran)
        except Exception as fault:
            is_told = is_of_callback(fault)  # Then the commit was done.
            raced: Optional[NotUnique] = None
            if isinstance(fault, Rollback) and not is_told:
                fault._concern = self._manager._concern
                if self._manager.keeper is not None:
                    raced = self._manager.keeper.raced(fault)
            if isinstance(fault, Rollback) or is_told:
                self._end(sets)
                if not is_told:
                    self._manager._holding = None
            if raced is not None:
                raise raced from fault
            raise
        self._end(sets)

    def rollback(self) -> None:
        """Gives up what isn't committed; the manager's objects are detached as they are."""
        try:
            self._manager.factory.tell_kept()  # Whose refusals aren't those of the rollback.
        except ProgramEnded:
            self._end()
            raise
        try:
            self._ask("rollback")
        except (IllegalState, ProgramEnded, Restarted):  # It is over already.
            self._end()
            raise
        self._end()
        self._manager._holding = None

    def _end(self, sets: Optional[int] = None) -> None:
        """It is over. With how often objects had been set when it was, where some were since."""
        manager = self._manager
        manager._run.transaction_over(manager.number)
        if manager.keeper is not None:
            manager.keeper.over()
        manager._concern = manager._new_concern(sets)
        few = manager._holding
        if isinstance(few, Few) and few.sets != manager._sets():
            manager._holding = manager  # A flush may have had it hold what was linked.
        self.is_active = False  # Last, since an interrupt before has it be ended again.

    def set_rollback_only(self) -> None:
        """Leaves it able only to roll back."""
        manager = self._manager
        manager.factory.tell(manager._run, line_of("setRollbackOnly", {"em": manager._em}))

    def _ask(self, call: str) -> None:
        self._manager._ask(call)

    @begin_of_block
    def __enter__(self) -> EntityTransaction:
        was_guarded = is_guarded(self)
        try:
            guard(self)
            return self.begin()
        except BaseException as fault:
            if not isinstance(fault, KarzhoulError):  # Neither the block is run, nor its end.
                carried_out(self._roll_back)
            if not was_guarded:  # Else it is within its own block, which goes on.
                unguard(self)
            raise

    @end_of_block
    def __exit__(self, kind: Optional[Type[BaseException]], *_: object) -> None:
        try:
            if self.is_active and kind is None:
                self.commit()
        finally:
            try:
                carried_out(self._roll_back)
            finally:
                unguard(self)

    def _roll_back(self) -> None:
        """Rolls it back where it is open, and raises no refusal of that: it is over already, or the
        program is, or something else was raised, as of the calls of a pipeline around it."""
        if self.is_active:
            try:
                with suppress(KarzhoulError):
                    self._manager.factory.tell_kept()
            finally:  # Also where a callback raises what is no refusal.
                with suppress(KarzhoulError):
                    self.rollback()


def is_of_callback(fault: Optional[BaseException]) -> bool:
    """Whether a callback raised a fault, whose call was done before."""
    return fault is not None and "_karzhoul_is_told" in vars(fault)


class Attempt:
    """One attempt of `EntityManager.attempts`, whose `with` block is a transaction. Where the block
    is left by a `Rollback` since another manager's commit came first, it is to be made again."""

    def __init__(self, transaction: EntityTransaction, number: int, most: int) -> None:
        self._transaction, self._number, self._is_last = transaction, number, number == most
        self.is_done = False
        # The refusal of its commit, after which it is to be made again.
        self.refused: Union[None, NotUnique, Rollback] = None

    @begin_of_block
    def __enter__(self) -> EntityTransaction:
        return self._transaction.__enter__()

    @end_of_block
    def __exit__(
        self,
        kind: Optional[Type[BaseException]],
        fault: Optional[BaseException],
        trace: Optional[TracebackType],
    ) -> bool:
        try:
            self._transaction.__exit__(kind, fault, trace)
        except Exception as refused:
            if self._is_raised(refused):
                raise
            assert isinstance(refused, (NotUnique, Rollback))
            self.refused = refused
            return True
        self.is_done = fault is None
        return fault is not None and not self._is_raised(fault)

    def _is_raised(self, fault: BaseException) -> bool:
        """Whether what ended the attempt is raised, and no other one follows. It says then how
        often the work was refused."""
        is_stale = isinstance(fault, Rollback) and isinstance(fault.cause, OptimisticLock)
        is_stale = is_stale or isinstance(fault, NotUnique) and fault.is_raced
        is_refused = is_stale and not is_of_callback(fault)
        if is_refused and not self._is_last:
            return False
        if is_refused or self._number > 1:
            note_refusals(fault, self._number - (not is_refused))
        return True


def attempts(transaction: EntityTransaction, most: int) -> Iterator[Attempt]:
    """At most so many attempts at a transaction, until one is done, with a pause before each but
    the first."""
    for number in range(1, most + 1):
        if number > 1:
            transaction._manager.factory._tally.note_retry()
            pause(number - 1)
        attempt = Attempt(transaction, number, most)
        try:
            yield attempt
        except GeneratorExit:
            # The block was left by a `return` or a `break`, and nothing of it is stored.
            if attempt.refused is not None:
                raise attempt.refused from None
            raise
        if attempt.is_done:
            return
