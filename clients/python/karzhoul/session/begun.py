"""A manager with its transaction open, for the time of a block."""

from __future__ import annotations

from contextlib import AbstractContextManager
from typing import TYPE_CHECKING, Optional, Type

from ..refusals import Busy, OptimisticLock, Refused, Rollback
from .interrupts import begin_of_block, end_of_block
from .managers import OWN_BLOCK, EntityManager
from .places import Place
from .transactions import is_of_callback

if TYPE_CHECKING:
    from .factory import EntityManagerFactory


class Begun(AbstractContextManager["EntityManager"]):
    """The block of `EntityManagerFactory.begin`. Its end commits, or rolls back where the block
    raises, and closes the manager."""

    def __init__(self, factory: EntityManagerFactory, above: int = 0) -> None:
        """With how many calls of this package are above the block."""
        self._factory, self._level = factory, OWN_BLOCK + 1 + above
        self._manager: Optional[EntityManager] = None

    if not TYPE_CHECKING:

        def __getattr__(self, name: str) -> object:
            # Of a manager, which it isn't.
            raise AttributeError(
                f"begin() is for a block, whose manager has {name!r}: "
                "with app.begin() as manager: .."
            )

    @begin_of_block
    def __enter__(self) -> EntityManager:
        manager = self._manager = self._factory._managers.created(Place(True))
        try:
            manager._level = self._level
            manager.__enter__()
            manager.transaction().__enter__()
        except BaseException as fault:
            manager.__exit__(fault.__class__)
            raise
        return manager

    @end_of_block
    def __exit__(self, kind: Optional[Type[BaseException]], *_: object) -> None:
        try:
            # (No call of another function comes first, which could be interrupted.)
            if self._manager is not None:
                # Nothing is set between its transaction's end and its own, but by callbacks.
                is_active = self._manager._transaction.is_active
                self._manager._is_settled = is_active and not self._factory._events.callbacks
                self._manager._transaction.__exit__(kind)
        except BaseException as refused:
            kind = refused.__class__
            raise
        finally:
            if self._manager is not None:
                self._manager.__exit__(kind)


def is_too_late(refused: Refused) -> bool:
    """Whether a refusal says that another manager came first, so that work may be done again: it,
    or what marked the transaction before."""
    if is_of_callback(refused):
        return False
    found = refused.cause if isinstance(refused, Rollback) else refused
    before, _ = refused._before or ("", "")
    was_marked = isinstance(refused, Rollback) and found is None and before == "OptimisticLock"
    return was_marked or isinstance(found, (OptimisticLock, Busy))
