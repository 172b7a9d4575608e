"""The anomalies of Hermitage (github.com/ept/hermitage), each as steps of sessions that take turns,
and a session that does them: in this process, or in one of its own (`python -m
tests.session.isolation ADDRESS`), which reads a step a line and prints what came of it as JSON.

What must come of them is what Hermitage has of PostgreSQL's `repeatable read`, which isolates by
snapshots too: all are prevented but G2-item and G2. There the second of two writers waits and is
refused at its statement; here it is refused at its commit, as the standard has it (chapter 3.4.2).
"""

from __future__ import annotations

import json
import sys
from typing import Any, List, Mapping, NamedTuple, Optional, Sequence

import karzhoul

MAPPING: Mapping[str, Any] = {
    "revision": 1,
    "entities": [
        {
            "name": "Item", "table": 1, "key": [{"name": "number", "type": "int"}],
            "version": {"name": "version", "column": 1},
            "attributes": [{"name": "value", "type": "int", "column": 2}],
        }
    ],
}
OK, STALE = "ok", "OptimisticLock"


class Step(NamedTuple):
    """A step of a session, and what must come of it; None where that is of no interest."""

    session: int
    does: str
    wanted: Any = OK


class Session:
    """One who reads and writes items within a transaction."""

    def __init__(self, app: karzhoul.EntityManagerFactory) -> None:
        self._app = app
        self._manager: Optional[karzhoul.EntityManager] = None

    def do(self, step: str) -> Any:
        """Does a step, and answers what came of it: what was read, `ok`, or a refusal's name."""
        word, *told = step.split()
        numbers = list(map(int, told))
        if word == "begin":
            self._manager = self._app.create_entity_manager()
            self._manager.transaction().begin()
            return OK
        assert self._manager is not None
        answer = getattr(self, f"_{word}")(self._manager, *numbers)
        return OK if answer is None else answer

    def _get(self, manager: karzhoul.EntityManager, number: int) -> Any:
        item: Any = manager.find("Item", number)
        return "none" if item is None else item.value

    def _all(self, manager: karzhoul.EntityManager) -> Any:
        text = "SELECT i.number, i.value FROM Item i ORDER BY i.number"
        return [list(row) for row in manager.query(text)]

    def _multiples(self, manager: karzhoul.EntityManager, of: int) -> Any:
        text = "SELECT i.number, i.value FROM Item i WHERE MOD(i.value, :of) = 0 ORDER BY i.number"
        return [list(row) for row in manager.query(text, of=of)]

    def _set(self, manager: karzhoul.EntityManager, number: int, value: int) -> None:
        item: Any = manager.find("Item", number)
        item.value = value
        manager.flush()

    def _new(self, manager: karzhoul.EntityManager, number: int, value: int) -> None:
        manager.persist(self._app.new("Item", number=number, value=value))
        manager.flush()

    def _raise(self, manager: karzhoul.EntityManager, by: int) -> None:
        manager.execute_update("UPDATE Item i SET i.value = i.value + :by", by=by)

    def _replace(self, manager: karzhoul.EntityManager, value: int, other: int) -> None:
        text = "UPDATE Item i SET i.value = :other WHERE i.value = :value"
        manager.execute_update(text, value=value, other=other)

    def _delete(self, manager: karzhoul.EntityManager, value: int) -> None:
        manager.execute_update("DELETE FROM Item i WHERE i.value = :value", value=value)

    def _lock(self, manager: karzhoul.EntityManager, number: int) -> None:
        item: Any = manager.find("Item", number)
        manager.lock(item, karzhoul.LockModeType.READ)

    def _rollback(self, manager: karzhoul.EntityManager) -> None:
        manager.transaction().rollback()
        manager.close()

    def _commit(self, manager: karzhoul.EntityManager) -> Any:
        try:
            manager.transaction().commit()
            return OK
        except karzhoul.Rollback as refused:
            return type(refused.cause).__name__
        finally:
            manager.close()


def _both(*more: Step) -> List[Step]:
    """Steps of two sessions whose transactions are begun before."""
    return [Step(1, "begin"), Step(2, "begin"), *more]


_AT_FIRST = [[1, 10], [2, 20]]


def _end(*items: Sequence[int]) -> List[Step]:
    """What stands then."""
    return [Step(0, "begin"), Step(0, "all", [list(item) for item in items]), Step(0, "commit")]


SCENARIOS: Mapping[str, List[Step]] = {
    "G0, dirty writes": _both(
        Step(1, "set 1 11"), Step(2, "set 1 12"), Step(1, "set 2 21"), Step(1, "commit"),
        *_end((1, 11), (2, 21)), Step(2, "set 2 22"), Step(2, "commit", STALE),
        *_end((1, 11), (2, 21)),
    ),
    "G1a, aborted reads": _both(
        Step(1, "set 1 101"), Step(2, "all", _AT_FIRST), Step(1, "rollback"),
        Step(2, "all", _AT_FIRST), Step(2, "commit"), *_end(*_AT_FIRST),
    ),
    "G1b, intermediate reads": _both(
        Step(1, "set 1 101"), Step(2, "all", _AT_FIRST), Step(1, "set 1 11"), Step(1, "commit"),
        Step(2, "all", _AT_FIRST), Step(2, "commit"), *_end((1, 11), (2, 20)),
    ),
    "G1c, circular flow of information": _both(
        Step(1, "set 1 11"), Step(2, "set 2 22"), Step(1, "get 2", 20), Step(2, "get 1", 10),
        Step(1, "commit"), Step(2, "commit"), *_end((1, 11), (2, 22)),
    ),
    "OTV, a transaction that vanishes": _both(
        Step(1, "set 1 11"), Step(1, "set 2 19"), Step(2, "set 1 12"), Step(1, "commit"),
        Step(3, "begin"), Step(3, "get 1", 11), Step(2, "set 2 18"), Step(3, "get 2", 19),
        Step(2, "commit", STALE), Step(3, "all", [[1, 11], [2, 19]]), Step(3, "commit"),
        *_end((1, 11), (2, 19)),
    ),
    "PMP, a predicate and many before it": _both(
        Step(1, "multiples 30", []), Step(2, "new 3 30"), Step(2, "commit"),
        Step(1, "multiples 3", []), Step(1, "commit"), *_end((1, 10), (2, 20), (3, 30)),
    ),
    "PMP, for writing": _both(
        Step(1, "raise 10"), Step(2, "delete 20"), Step(1, "commit"), Step(2, "commit", STALE),
        *_end((1, 20), (2, 30)),
    ),
    "P4, a lost update": _both(
        Step(1, "get 1", 10), Step(2, "get 1", 10), Step(1, "set 1 11"), Step(2, "set 1 11"),
        Step(1, "commit"), Step(2, "commit", STALE), *_end((1, 11), (2, 20)),
    ),
    "G-single, read skew": _both(
        Step(1, "get 1", 10), Step(2, "get 1", 10), Step(2, "get 2", 20), Step(2, "set 1 12"),
        Step(2, "set 2 18"), Step(2, "commit"), Step(1, "get 2", 20), Step(1, "commit"),
        *_end((1, 12), (2, 18)),
    ),
    "G-single, with a predicate": _both(
        Step(1, "multiples 5", _AT_FIRST), Step(2, "replace 10 12"), Step(2, "commit"),
        Step(1, "multiples 3", []), Step(1, "commit"), *_end((1, 12), (2, 20)),
    ),
    "G-single, for writing": _both(
        Step(1, "get 1", 10), Step(2, "all", _AT_FIRST), Step(2, "set 1 12"), Step(2, "set 2 18"),
        Step(2, "commit"), Step(1, "delete 20"), Step(1, "commit", STALE),
        *_end((1, 12), (2, 18)),
    ),
    "G2-item, write skew": _both(
        Step(1, "all", _AT_FIRST), Step(2, "all", _AT_FIRST), Step(1, "set 1 11"),
        Step(2, "set 2 21"), Step(1, "commit"), Step(2, "commit"), *_end((1, 11), (2, 21)),
    ),
    "G2-item, where what is read is locked": _both(
        Step(1, "lock 2"), Step(2, "lock 1"), Step(1, "set 1 11"), Step(2, "set 2 21"),
        Step(1, "commit"), Step(2, "commit", STALE), *_end((1, 11), (2, 20)),
    ),
    "G2, a cycle by predicates": _both(
        Step(1, "multiples 3", []), Step(2, "multiples 3", []), Step(1, "new 3 30"),
        Step(2, "new 4 42"), Step(1, "commit"), Step(2, "commit"),
        *_end((1, 10), (2, 20), (3, 30), (4, 42)),
    ),
    "G2, of two edges": [
        Step(1, "begin"), Step(1, "all", _AT_FIRST), Step(2, "begin"), Step(2, "set 2 25"),
        Step(2, "commit"), Step(3, "begin"), Step(3, "all", [[1, 10], [2, 25]]), Step(3, "commit"),
        Step(1, "set 1 0"), Step(1, "commit"), *_end((1, 0), (2, 25)),
    ],
}
"""Each begins with the items 1 and 2 of the values 10 and 20."""


def begin_again(app: karzhoul.EntityManagerFactory) -> None:
    """Stores what each begins with."""
    with app.begin() as manager:
        manager.execute_update("DELETE FROM Item i")
    with app.begin() as manager:
        for number, value in _AT_FIRST:
            manager.persist(app.new("Item", number=number, value=value))


def _serve(address: str) -> None:
    with karzhoul.connect(address) as app:
        session = Session(app)
        for line in sys.stdin:
            print(json.dumps(session.do(line)), flush=True)


if __name__ == "__main__":
    _serve(sys.argv[1])
