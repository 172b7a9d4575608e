"""The versions that new objects were given. Such a one is that of the row that was read, which
`merge` compares; of what is new the store counts them itself (chapter 3.4.2)."""

from __future__ import annotations

from typing import TYPE_CHECKING, Any, Dict

from ..classes.values import WrongValue
from ..wire.lines import LifecycleEvent

if TYPE_CHECKING:
    from ..session.factory import EntityManagerFactory
    from .entities import Entity, Event


class Versions:
    """Those of a run, by the numbers of their objects."""

    def __init__(self) -> None:
        self._given: Dict[int, Any] = {}

    def give(self, entity: Entity, value: Any) -> None:
        """An object is given a version. What a new object begins with is no other one."""
        if value in (None, 0):
            self._given.pop(entity._karzhoul_number, None)
            return
        hear_of_versions(entity._karzhoul_factory)
        self._given[entity._karzhoul_number] = value

    def check(self, entity: Entity) -> None:
        """Refuses to have an object stored whose version would be dropped."""
        given, name = self._given.get(entity._karzhoul_number), type(entity)._karzhoul_version
        # (It hasn't this one where its program refused that.)
        if given is not None and getattr(entity, name) == given:
            raise WrongValue(
                f"{type(entity).__name__}.{name} is {given!r}, and the store counts the versions of "
                "new objects itself, from 0 on: leave it out, or hand the object to merge, which "
                "compares it with the version that is stored"
            )


def hear_of_versions(factory: EntityManagerFactory) -> None:
    """Has a factory look at what is persisted along a cascade."""
    if all(callback is not _check for callback, _ in factory._events.callbacks):
        factory.listen(_check, LifecycleEvent.PRE_PERSIST)


def _check(event: Event) -> None:
    event.object._karzhoul_run.versions.check(event.object)
