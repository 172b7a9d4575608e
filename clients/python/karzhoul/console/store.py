"""The store that a console shows: it is read by managers of its own, or within the transaction that
is open, whose changes are seen then. One thread does its work at a time."""

from __future__ import annotations

import threading
from contextlib import contextmanager
from typing import Any, Iterator, List, Mapping, Optional, Sequence

from ..classes.naming import Naming
from ..session.factory import EntityManagerFactory
from ..jpql.statements import Unreadable, parameters_of, statement_of
from ..wire.lines import line_of, spelled, text_spelled
from ..queries.lookups import lookups_of
from ..session.managers import EntityManager
from ..refusals import Misused, ProgramEnded, Restarted
from ..queries.rows import Names
from ..records.spelling import row_of_cells
from ..mapping.unit import EntityDescription, entities_of, shown_entities
from .answers import Answer, Declined, declined, mistakes_of, refusal_of, said_mistake
from .cells import Plain, Reference, Unread, kind_of, value_of
from .changing import Changes, tell_lost
from .objects import Objects

MOST_ROWS = 500
"""So many rows are on one page at most."""
Params = Mapping[str, Plain]
# How many seconds a call may still take at the end.
_GRACE = 5.0


class Store:
    """A store as the console reads and changes it."""

    def __init__(
        self, app: EntityManagerFactory, name: str, can_write: bool, seconds: Optional[float],
        naming: Optional[Naming] = None,
    ) -> None:
        """With what it is called, whether it may be changed, after how many seconds a query is
        given up where no transaction is open, and the names that queries may have."""
        self._naming = naming or Naming({})
        self._app, self._name, self._can_write, self._seconds = app, name, can_write, seconds
        self._every = entities_of(app.mapping)
        self._entities = shown_entities(app.mapping)
        self._lock, self._is_closed = threading.Lock(), False
        self.objects = Objects(app, self._every, self._entities)
        self._changes = Changes(app, self.objects)

    # ---- turns

    @contextmanager
    def _reading(self, mistakes: Sequence[Any] = ()) -> Iterator[EntityManager]:
        """The manager by which is read. A query that the linter finds wrong is never asked in the
        open transaction, which its refusal would leave able only to roll back."""
        self._renew()
        if self._changes.manager is not None and not mistakes:
            try:
                yield self._changes.manager
            except Unread:  # Nothing was asked.
                raise
            except Exception as fault:
                answer = refusal_of(fault)
                self._changes.repair()
                raise Declined(answer) from fault
            return
        with self._app.begin() as manager:
            yield manager
            # What listeners of the mapping have set on what was loaded isn't stored.
            manager.transaction().rollback()

    def _renew(self) -> None:
        """Opens the program again where it has ended. Where a transaction was open it is told first
        what is lost."""
        ended = self._app.program.fault
        if ended is not None:
            self._app.reopen()
            if self._changes.manager is not None:
                raise ended

    @contextmanager
    def _turn(self) -> Iterator[None]:
        """One thread's turn. What is refused is a `Declined`, whatever a method of a class raised."""
        with self._lock:
            if self._is_closed:
                raise Declined(declined("Closed", ["the console is ending"]))
            try:
                yield
            except Declined:
                raise
            except Exception as fault:
                raise Declined(self._refusal(fault)) from fault

    def _refusal(self, fault: BaseException) -> Answer:
        answer = refusal_of(fault)
        if isinstance(fault, (ProgramEnded, Restarted)):
            tell_lost(answer, self._changes.give_up())
        return answer

    # ---- what is told

    def transaction(self) -> Optional[List[str]]:
        """What the open transaction has changed, in words; None where none is open."""
        return self._changes.told()

    def overview(self) -> Answer:
        """The entities, with how many objects each has, those of its subclasses among them."""
        with self._turn(), self._reading() as manager:
            counts = {
                name: self._rows(manager, f"SELECT COUNT(e) FROM {name} e", {}, None, None)[0]
                for name in self._entities
            }
        return {
            "store": self._name, "write": self._can_write, "language": self._app.language,
            "entities": [
                {**self._described(entity), "count": str(counts[entity.name])}
                for entity in self._entities.values()
            ],
        }

    def _described(self, entity: EntityDescription) -> Answer:
        return {
            "name": entity.name, "superclass": entity.superclass, "text": self._text_of(entity),
            "generated": entity.is_generated,
            "members": [
                {"name": it.name, "kind": it.kind.name, "type": it.type, "owner": it.is_owner,
                 "required": it.is_required}
                for it in entity.members
            ],
        }

    def _text_of(self, entity: EntityDescription) -> str:
        """The query of all objects of an entity, in the order of their keys where it may be."""
        text = f"SELECT e FROM {entity.name} e"
        ordered = f"{text} ORDER BY {', '.join(f'e.{part.name}' for part in entity.key)}"
        is_wrong = mistakes_of(ordered, {}, self._every, self._app.language, self._naming)
        return text if is_wrong else self._naming.told(ordered)

    def check(self, text: str, params: Params) -> Answer:
        """What the linter says of a query, and which parameters it has."""
        try:
            statement = statement_of(text, self._app.language)
            named = list(dict.fromkeys(str(node.said) for node in parameters_of(statement)))
        except (Unreadable, RecursionError):
            named = []
        given = {name: params.get(name) for name in named} if named else {}
        found = self._mistakes(text, given)
        return {"mistakes": [said_mistake(it) for it in found], "parameters": named}

    def _mistakes(self, text: str, params: Params) -> Sequence[Any]:
        kinds = {name: kind_of(value) for name, value in params.items()}
        return mistakes_of(text, kinds, self._every, self._app.language, self._naming)

    # ---- rows

    def query(self, text: str, params: Params, first: int, most: int) -> Answer:
        """A page of the rows of a SELECT."""
        self._require_select(text)
        mistakes = self._mistakes(text, params)
        with self._turn():
            try:
                with self._reading(mistakes) as manager:
                    rows = self._rows(manager, text, params, first, most + 1)
                    table = self._table(text, rows[:most])
            except Exception as fault:
                raise self._declined(fault, mistakes) from fault
        return {**table, "first": first, "more": len(rows) > most}

    def explain(self, text: str, params: Params) -> Answer:
        """By what the program finds the objects for a SELECT, a line for each of its variables."""
        self._require_select(text)
        mistakes = self._mistakes(text, params)
        if mistakes:
            raise Declined(declined(mistakes[0].refusal, [mistakes[0].message], mistakes))
        with self._turn():
            told = lookups_of(self._app, self._naming.named(text).text, params)
            return {"lookups": list(map(self._naming.told, told))}

    def csv(self, text: str, params: Params) -> str:
        """All rows of a SELECT as CSV: their table, an object by its name."""
        self._require_select(text)
        mistakes = self._mistakes(text, params)
        with self._turn():
            try:
                with self._reading(mistakes) as manager:
                    table = self._table(text, self._rows(manager, text, params, None, None))
            except Exception as fault:
                raise self._declined(fault, mistakes) from fault
        titles = table["titles"] or list(Names(text).fields)
        rows = [[each or "object" for each in titles], *(map(_plain, row) for row in table["rows"])]
        return "".join(f"{row_of_cells(row)}\r\n" for row in rows)

    def _declined(self, fault: BaseException, mistakes: Sequence[Any]) -> Declined:
        answer = self._refusal(fault)
        refused = answer["refused"]
        refused["mistakes"] = [said_mistake(it) for it in mistakes]
        if mistakes and mistakes[0].refusal == refused["word"]:
            refused["told"] = [str(it) for it in mistakes]  # By the names that were typed.
        return Declined(answer)

    def _require_select(self, text: str) -> None:
        if text.lstrip()[:6].upper() in ("UPDATE", "DELETE"):
            way = "Change does it, within the transaction" if self._can_write else (
                "the console reads alone: it is started with --write to change")
            raise Declined(declined("Unread", [f"this is no SELECT: {way}"]))

    def _rows(
        self, manager: EntityManager, text: str, params: Params, first: Optional[int],
        most: Optional[int],
    ) -> List[Any]:
        """The rows as they are stored, also where classes are bound."""
        given = ",".join(f"{text_spelled(name)}:{spelled(it)}" for name, it in params.items())
        asked = text_spelled(self._naming.named(text).text)
        members = {"em": str(manager.number), "text": asked, "params": f"{{{given}}}"}
        if first is not None:
            members.update(first=str(first), max=str(most))
        seconds = self._seconds if self._changes.manager is None else None
        run = self._app._run
        rows: List[Any] = self._app.ask_lines(run, [line_of("query", members)], timeout=seconds)[0]
        return rows

    def _table(self, text: str, rows: Sequence[Any]) -> Answer:
        """Rows as a table, whose columns have the names of classes."""
        table = self.objects.table(text, rows)
        titles = table["titles"]
        if titles[:1] != [""]:  # Else they are objects, with their members.
            titles = self._naming.named(text).titles(len(titles), self._naming)
        return {**table, "titles": list(map(self._naming.told, titles))}

    # ---- one object

    def object(self, reference: Reference) -> Answer:
        """An object with all its members."""
        with self._turn(), self._reading() as manager:
            found = self.objects.found(manager, self._changes.renamed(reference))
            return self.objects.shown(found)

    # ---- changes

    def change(self, name: str, said: Mapping[str, Any]) -> Answer:
        """Does a change within the transaction, which is begun by the first one. One that is
        refused leaves the transaction as it was."""
        self._require_write()
        with self._turn():
            self._renew()
            try:
                return self._changes.do(name, said)
            except Declined as fault:
                text, params = said.get("text"), said.get("params", {})
                if name == "execute" and isinstance(text, str) and isinstance(params, dict):
                    given = {it: value_of(value) for it, value in params.items()}
                    found = self._mistakes(text, given)
                    fault.answer["refused"]["mistakes"] = [said_mistake(it) for it in found]
                raise

    def end(self, commits: bool) -> Answer:
        """Commits the transaction, or rolls it back."""
        self._require_write()
        with self._turn():
            return self._changes.end(commits)

    def _require_write(self) -> None:
        if not self._can_write:
            told = "the console reads alone: it is started with --write to change"
            raise Declined(declined("ReadOnly", [told]))

    def close(self) -> List[str]:
        """Rolls back what is open, and tells what it had changed. A call that is under way has five
        seconds, and then the program is ended, or the connection."""
        self._is_closed = True
        if not self._lock.acquire(timeout=_GRACE):
            self._app.program.stop()  # By which the call that waits is told.
            self._lock.acquire()
        try:
            return self._changes.give_up()
        finally:
            self._lock.release()


def _plain(cell: Any) -> Optional[str]:
    """A cell of the page as one of CSV."""
    if cell is None:
        return None
    return str(cell["name"] if isinstance(cell, dict) else cell[1])


def require_classes(app: EntityManagerFactory, can_write: bool) -> None:
    """Refuses to change a store of classes that aren't there to look at what is written."""
    if can_write and app.binding is None and set(entities_of(app.mapping)) - set(
        shown_entities(app.mapping)
    ):
        raise Misused(
            "the store is one of classes, which look at what is written: --write takes their "
            "module as --mapping"
        )
