"""The queries of the model: the calls that take the text of a statement (tests/model/jpql_text.py
reads it, model/jpql_types.py types it, model/jpql_run.py says what it means)."""
from __future__ import annotations

from typing import TYPE_CHECKING, Any, Iterator

from model.jpql_run import Meaning
from model.jpql_text import parts_of, statement_of
from model.jpql_types import IllTyped, Typing
from model.reading import COLLECTION, Number, Refused
from model.unit import LENGTH, size

if TYPE_CHECKING:
    from model.jpql_text import Node
    from model.kinds import Datum, Events, Value
    from model.live import Live, Manager
    from model.machine import Machine
    from model.unit import Entity

    Handed = Number | Value | list[Number | Value]
    # The name of a parameter, or of a collection's parameter with the place of one of its values.
    Name = str | tuple[str, int]


def each_named(params: dict[str, Handed]) -> Iterator[tuple[Name, Number | Value]]:
    """Each value that is handed in, by its name."""
    for name, value in params.items():
        if isinstance(value, list):
            yield from (((name, place), one) for place, one in enumerate(value))
        else:
            yield name, value


class Given:
    """The parameters that a call hands in: what each is, and an object's identity in its place. The
    values of a collection go by its name and their places."""

    def __init__(self, machine: Machine, params: dict[str, Handed]) -> None:
        self.lists = {name: len(value) for name, value in params.items() if isinstance(value, list)}
        self.values = {
            name: machine.object(value.number) if isinstance(value, Number) else value
            for name, value in each_named(params)
        }
        if any(size(value) > LENGTH for value in self.values.values()) or any(
            count > COLLECTION for count in self.lists.values()
        ):
            raise Refused("Limit")

    def objects(self) -> dict[Name, Live]:
        """The live objects among them."""
        return {
            name: value
            for name, value in self.values.items()
            if value is not None and not isinstance(value, (int, str, bytes))
        }

    def kinds(self) -> dict[Name, Entity | type | None]:
        kinds = {
            name: None if value is None else type(value) for name, value in self.values.items()
        }
        return {**kinds, **{name: live.entity.root for name, live in self.objects().items()}}

    def meant(self) -> dict[Name, Datum]:
        return {**self.values, **{name: live.identity() for name, live in self.objects().items()}}

    def has_keyless(self) -> bool:
        return any(None in live.key() for live in self.objects().values())


class Queries:
    """The part of the machine that queries."""

    def setFlushMode(self, events: Events, em: int, mode: str) -> None:
        self.manager(em).flush_mode = mode

    def querySingle(self, *given: Any) -> Any:
        """The one row that `query` finds of the same."""
        return self.query(*given, is_single=True)

    def query(
        self,
        events: Events,
        em: int,
        text: str,
        params: dict[str, Handed],
        first: int | None,
        most: int | None,
        is_single: bool = False,
    ) -> Any:
        """The rows that a statement finds, or the one row."""
        manager, given = self.manager(em), Given(self, params)
        statement = statement_of(text, self.is_wide, given.lists)
        if any(number is not None and number < 0 for number in (first, most)):
            raise Refused("IllegalArgument", "range")
        self.typed(statement, given)
        if statement.sort != "select":
            raise Refused("IllegalState", "statement")
        self.flush_before(events, manager)
        rows = Meaning(self.unit, self.view(manager), given.meant()).rows(statement)[first or 0:]
        rows = rows if most is None else rows[:most]
        if is_single and len(rows) != 1:
            raise Refused("NonUniqueResult" if rows else "NoResult")
        rows = [[self.resulting(events, manager, value) for value in row] for row in rows]
        rows = [row[0] if len(row) == 1 else row for row in rows]
        return rows[0] if is_single else rows

    def executeUpdate(
        self, events: Events, em: int, text: str, params: dict[str, Handed]
    ) -> int:
        manager, given = self.manager(em), Given(self, params)
        statement = statement_of(text, self.is_wide, given.lists)
        if not manager.is_begun:
            raise Refused("TransactionRequired")
        self.typed(statement, given)
        if statement.sort == "select":
            raise Refused("IllegalState", "statement")
        self.flush_before(events, manager)
        manager.seen, count = Meaning(self.unit, manager.seen, given.meant()).changed(statement)
        return count

    def typed(self, statement: Node | None, given: Given) -> None:
        """The statement is one of the grammar, is well typed, and has exactly the parameters that
        are given."""
        if statement is None:
            raise Refused("IllegalArgument", "syntax")
        try:
            Typing(self.unit, given.kinds(), self.is_wide).statement(statement)
        except IllTyped:
            raise Refused("IllegalArgument", "typing") from None
        parts = list(parts_of(statement))
        if (
            {part.name for part in parts if part.sort == "parameter"} != set(given.values)
            or {part.listed for part in parts if part.sort == "in"} - {None} != set(given.lists)
            or given.has_keyless()
        ):
            raise Refused("IllegalArgument", "parameter")

    def flush_before(self, events: Events, manager: Manager) -> None:
        if manager.is_begun and manager.flush_mode == "AUTO":
            self.write(events, manager)

    def resulting(self, events: Events, manager: Manager, value: Datum) -> Live | Value:
        """What a row shows of a value: of an identity the manager's instance, which is loaded where
        it has none."""
        return self.reached(events, manager, value) if isinstance(value, tuple) else value
