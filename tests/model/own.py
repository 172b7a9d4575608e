"""The calls of the model that are this provider's own: what objects hold, which callbacks a flush
would run, what is to be looked up, and the restart."""
from __future__ import annotations

from typing import TYPE_CHECKING, Any

from model.live import Before, Live
from model.reading import Refused

if TYPE_CHECKING:
    from model.kinds import Due, Events
    from model.unit import Relation

BEFORE = ("PrePersist", "PreRemove", "PreUpdate")


class OwnCalls:
    """The part of the machine that has them."""

    def values(self, events: Events, numbers: list[int]) -> list[dict[str, Any]]:
        """What objects hold, as far as it was read."""
        return [
            {
                "entity": live.entity.name,
                "relations": [reached(live, each) for each in live.entity.relations.values()],
                "values": list(live.values.values()),
            }
            for live in map(self.object, numbers)
        ]

    def pending(self, events: Events, em: int) -> list[Due]:
        """The events before its writes that a flush would tell of what is there now."""
        manager = self.manager(em)
        if not manager.is_begun:
            raise Refused("TransactionRequired")
        count, before, told = len(self.objects), Before(self), []
        try:
            self.write(told, manager)
        except Refused:
            pass
        before.restore()
        return [[event, number] for event, number, _ in told if event in BEFORE and number <= count]

    def restart(self, events: Events) -> None:
        """All managers and objects go, and the next numbers of generated keys go on."""
        if any(manager.is_begun for manager in self.managers):
            raise Refused("IllegalState", "active")
        self.objects, self.managers = [], []

    def index(self, events: Events, name: str, member: str) -> None:
        """Judges what is to be looked up; it has no meaning."""
        entity = self.entity(name)
        if member not in entity.key and member not in entity.attributes:
            raise Refused("IllegalArgument", "name")


def reached(live: Live, relation: Relation) -> Any:
    held = live.links[relation.name]
    if held is Live.UNREAD:
        return {"unread": True}
    return {"key": list(held[1])} if isinstance(held, tuple) else held
