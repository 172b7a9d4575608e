"""A run of the program: from its opening, or a restart, to the next restart. Objects and managers
have their numbers in one run alone."""

from __future__ import annotations

from typing import TYPE_CHECKING, Any, Dict, List, Mapping, Optional, Sequence, Tuple, Type
from weakref import ref

from ..objects.concern import Noted
from ..objects.entities import Entity
from ..objects.identity import IdentityMap
from ..objects.kinds import Classes
from ..objects.misfits import misfit, no_member, stranger
from ..objects.shown import VALUES
from ..objects.versions import Versions
from ..refusals import Restarted
from ..wire.lines import spelled, text_spelled
from .reading import Reader

if TYPE_CHECKING:
    from .factory import EntityManagerFactory
    from .managers import EntityManager

# So many objects are asked for by one line.
_AT_ONCE = 1000


class Run:
    """What is known of a run: its objects and managers by their numbers, and its reader of replies.

    It alone spells the numbers of objects. The lines in which these stand are sent with it, and so
    only while it is on.
    """

    __slots__ = (
        "factory", "map", "reader", "marked", "refused", "written", "merged", "removed", "noted",
        "managers", "opened", "versions",
    )

    def __init__(
        self, factory: EntityManagerFactory, named: Mapping[str, Type[Entity]]
    ) -> None:
        """With the classes of entities by their names."""
        self.factory, self.map = factory, IdentityMap(self, named)
        self.reader = Reader(self)
        # The first refusal of each manager's transaction that marked it, by the manager's number.
        self.marked: Dict[int, Tuple[str, str]] = {}
        # What callbacks refused outside of a transaction: the objects by their numbers, with what
        # was raised and the line of the call; by the manager's number.
        self.refused: Dict[int, Dict[int, Tuple[str, str]]] = {}
        # The numbers of the objects that merges of each manager have made since its last
        # transaction, or in the open one.
        self.merged: Dict[int, List[int]] = {}
        # The numbers of the objects that removals of each manager came to in its transaction, along
        # cascades too.
        self.removed: Dict[int, List[int]] = {}
        # What each manager has persisted and removed and no flush has written, by its number, where
        # values are kept unique.
        self.noted: Dict[int, Noted] = {}
        self.versions = Versions()
        # The managers that are open, by their numbers.
        self.opened: Dict[int, ref[EntityManager]] = {}
        # The numbers of the objects that flushes of each manager's open transaction wrote or
        # dropped, by the manager's number, as far as that was read.
        self.written: Dict[int, Dict[int, None]] = {}
        # How many managers it has made, as far as they were created by the factory.
        self.managers: Optional[int] = None

    @property
    def kinds(self) -> Classes:
        """The classes of its objects."""
        return self.map.kinds

    @property
    def made(self) -> int:
        """How many objects it has made, loads counted."""
        return self.map.kinds.made

    @property
    def used(self) -> int:
        """How many numbers of a kind it has given, of which it has 1,000,000: of objects, or of
        managers where these are more, as where many blocks only count."""
        return max(self.made, self.managers or 0)

    def end(self) -> None:
        """It is over: only those who hold its objects go on to hold it, and no more."""
        self.marked = {}
        self.map.end(self.factory._classes)

    def transaction_over(self, manager: int) -> None:
        """Lets go what is known of the transaction of a manager of this number."""
        self.marked.pop(manager, None)
        self.refused.pop(manager, None)
        self.written.pop(manager, None)
        self.merged.pop(manager, None)
        self.removed.pop(manager, None)

    # ---- the numbers of objects

    def number(self, entity: Entity) -> str:
        """The number of an object of this run, as JSON."""
        if isinstance(entity, Entity) and entity._karzhoul_run is self:
            return f"{entity._karzhoul_number}"
        if not isinstance(entity, Entity) or entity._karzhoul_factory is not self.factory:
            raise stranger(entity)
        if entity._karzhoul_run is not self.factory._run:
            raise Restarted(
                f"object {entity._karzhoul_number} is of before a restart: make or find it again"
            )
        raise Restarted(
            f"object {entity._karzhoul_number} goes together with nothing of before a restart: "
            "create another manager, and make or find its objects again"
        )

    def given(self, value: Any) -> str:
        """A value, or an object of this run, as JSON."""
        if type(value) is int and -(2**63) <= value < 2**63:
            return str(value)
        return f'{{"object":{self.number(value)}}}' if isinstance(value, Entity) else spelled(value)

    # ---- the lines of an object

    def get_line(self, entity: Entity, name: str) -> bytes:
        """The line that asks for a member."""
        number, word = self.number(entity), text_spelled(name)
        return f'{{"call":"get","object":{number},"name":{word}}}'.encode()

    @staticmethod
    def values_lines(numbers: Sequence[int], listed: bytes = b"") -> List[bytes]:
        """The lines that ask for the values of objects, in their order; with the numbers as a line
        lists them, where that is known."""
        if listed and len(numbers) <= _AT_ONCE:
            return [VALUES % listed]
        return [
            VALUES % ",".join(map(str, numbers[start : start + _AT_ONCE])).encode()
            for start in range(0, len(numbers), _AT_ONCE)
        ]

    def set_line(self, entity: Entity, name: str, value: Any) -> bytes:
        """The line that sets a member."""
        number, word = self.number(entity), text_spelled(name)
        try:
            given = self.given(value)
            line = f'{{"call":"set","object":{number},"name":{word},"value":{given}}}'.encode()
        except (TypeError, ValueError, OverflowError) as fault:
            raise misfit(fault, f"{type(entity).__name__}.{name}", value) from None
        if name == entity._karzhoul_version:
            self.versions.give(entity, value)
        return line

    def member_line(self, call: str, entity: Entity, name: str, member: Entity) -> bytes:
        """The line that adds a member to a collection, or takes it out."""
        if not isinstance(member, Entity):
            raise no_member(entity, name, member)
        number, word, other = self.number(entity), text_spelled(name), self.number(member)
        return f'{{"call":"{call}","object":{number},"name":{word},"member":{other}}}'.encode()
