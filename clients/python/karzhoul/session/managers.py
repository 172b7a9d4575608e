"""The manager of a running unit's objects, with the names of the standard (chapter 3.1)."""

from __future__ import annotations

import warnings
from contextlib import AbstractContextManager
from typing import (
    TYPE_CHECKING, Any, Callable, Dict, FrozenSet, Iterable, Iterator, List, Optional, Tuple, Type,
    TypeVar, Union, overload,
)
from weakref import ref

from ..objects.concern import Concern
from ..objects.entities import E, EmbeddedId, Entity
from ..objects.fetching import fetched
from ..objects.misfits import misfit
from ..queries.queries import Queries
from ..refusals import (
    KarzhoulError, NoSuchManager, ProgramEnded, Refused, Restarted,
)
from ..wire.lines import (
    GREATEST, LEAST, FlushModeType, LifecycleEvent, LockModeType, line_of, spelled, text_spelled,
)
from .interrupts import begin_of_block, carried_out, end_of_block, guard, unguard
from .holding import Few, Loads, objects_of
from .othernames import no_member
from .pending import Due, Pending
from .transactions import Attempt, EntityTransaction, attempts, is_of_callback

if TYPE_CHECKING:
    from ..classes.unique import Keeper
    from .places import Place
    from .runs import Run

T = TypeVar("T")
_LOST = (
    "a manager is closed with what was done outside of a transaction, and no commit came since: "
    "that is not stored: {}"
)
_LOST_BEFORE = (
    "a manager of before a restart, or whose program has ended, is closed with what was persisted, "
    "removed, merged or set, and no commit has said that this is stored"
)
_DUE = {
    LifecycleEvent.PRE_PERSIST: "persisted", LifecycleEvent.PRE_REMOVE: "removed",
    LifecycleEvent.PRE_UPDATE: "changed",
}
# So many objects are named.
_NAMED = 5
# How many calls above `_end` the application is, at the end of a manager's block: beyond
# `_end_block`, `carried_out` and `__exit__`. Other blocks add their own.
OWN_BLOCK = 5


class EntityManager(Queries, AbstractContextManager["EntityManager"]):
    """A manager of objects, whose context lasts over its commits.
    `EntityManagerFactory.create_entity_manager` makes one."""

    number: int

    def __init__(self, run: Run, number: int, place: Place, is_begun: bool = False) -> None:
        """With its place, which is taken where the factory has places, and whether its transaction
        is open already, for the block that begins it."""
        self.factory, self.number, self._place = run.factory, number, place
        place.manager = ref(self)
        # What is known of its run's values, also where that is over.
        self._known = run.map.known
        self._run, self._em = run, str(number)
        self._bytes = self._em.encode()
        self._transaction = EntityTransaction(self, is_begun)
        self._pending, self._mode = Pending(self), FlushModeType.AUTO
        self._concern = self._new_concern()
        # What keeps its objects' values unique, where that is asked for.
        self.keeper: Optional[Keeper] = None
        if run.factory.uniques is not None:
            from ..classes.unique import Keeper

            self.keeper = Keeper(self, run.factory.uniques)
        self._level, self._is_closed = OWN_BLOCK, False
        # Whether it is closed as its transaction ends.
        self._is_settled = False
        # None where no object is managed for certain; a few, where they are known; else it is of
        # the last call after which one may be.
        self._holding: Optional[object] = None
        run.opened[number] = ref(self)

    @begin_of_block
    def __enter__(self) -> EntityManager:
        try:
            guard(self)
            return self
        except BaseException:
            unguard(self)
            raise

    @end_of_block
    def __exit__(self, kind: Optional[Type[BaseException]], *_: object) -> None:
        """Rolls back what is open, and closes it. What the block itself raised is told."""
        try:
            carried_out(self._transaction._roll_back)
        finally:
            try:
                carried_out(self._end_block)
            except (NoSuchManager, ProgramEnded, Restarted):
                pass  # It was closed in the block, or has ended with its program.
            except KarzhoulError:
                if kind is None:
                    raise
            finally:
                unguard(self)

    if not TYPE_CHECKING:

        def __getattr__(self, name: str) -> object:
            # What the sessions of other libraries have by another name.
            raise AttributeError(no_member(name))

    def transaction(self) -> EntityTransaction:
        """Its transaction: `with manager.transaction():` begins it, commits it at the end and rolls
        it back where the block raises."""
        return self._transaction

    def attempts(self, most: int) -> Iterator[Attempt]:
        """A transaction that is begun again where another manager's commit came first, at most so
        many times in all:

        for attempt in manager.attempts(3): with attempt: manager.find("Person", 1).name = "Bob"

        It is begun again after a `Rollback` whose cause is an `OptimisticLock`, and after a
        `NotUnique` that `is_raced`. That of the last attempt is raised, and so is anything else at
        once. A refused attempt lets the manager's objects go: find them again within the block.
        """
        if most < 1:
            raise ValueError(f"there are {most} attempts, and one is the least")
        return attempts(self._transaction, most)

    # ---- another run

    @property
    def is_free(self) -> bool:
        """Whether it has neither an object nor an open transaction, so that it goes on in the next
        run of the program."""
        return self._holding is None and not self._transaction.is_active

    def _goes_on(self, run: Run) -> bool:
        """Whether a call that was spelled for a run is to be spelled again, since another one is on
        by now: there it is created again, where it is free."""
        if run is self.factory._run or not self.is_free:
            return False
        while self._run is not self.factory._run:
            on = self.factory._run
            try:
                self.factory._managers.go_on(self)
            except Restarted:  # Yet another one has begun meanwhile.
                if on is self.factory._run:
                    raise
        return True

    def _go_over(self, run: Run, number: int) -> None:
        """It is the manager of this number in another run."""
        if self._mode is not FlushModeType.AUTO:  # First, so that no interrupt leaves it out.
            self.factory.tell(run, _mode_line(str(number), self._mode))
        self._run.opened.pop(self.number, None)
        self.number, self._em = number, str(number)
        self._bytes = self._em.encode()
        self._run, self._known = run, run.map.known
        run.opened[number] = ref(self)
        self._concern = self._new_concern()
        if self.keeper is not None:
            self.keeper.go_over()

    def _done(self, call: Callable[[], T], loads: bool = True, keeps: bool = False) -> T:
        """What a call answers, which spells its lines: again where another run began meanwhile, and
        the manager is free. With whether it may load objects, and whether it may keep some that are
        made, even where it is refused."""
        while True:
            run, held, holding = self._run, self._holding, object()
            before = Loads.before(run.map.known, self._bytes)
            if loads:
                self._holding = holding
            try:
                answer = call()
            except Restarted:
                if run is not self.factory._run and self._holding is holding:
                    self._holding = held  # It wasn't sent, or is gone with its run.
                if not self._goes_on(run):
                    raise
                continue
            except ProgramEnded:
                if not keeps:  # What it loaded is gone, and nobody has it.
                    self._holds_as_before(held, holding)
                raise
            except (Refused, TypeError, ValueError):
                # One that a handler of a signal raised may leave the call under way.
                is_over = not keeps and not self.factory.is_asked(run, before.manager)
                if is_over and not before.since:
                    self._holds_as_before(held, holding)
                raise
            self._has_found(held, holding, before, answer)
            return answer

    def _has_found(
        self, held: Optional[object], holding: object, before: Loads, answer: Any
    ) -> None:
        """Takes note of what it holds behind a call, whatever other managers have loaded."""
        if held is None and before.since and any(objects_of(answer, 0)):
            few = before.found(answer)
            if few is not None and self._holding is holding:
                self._holding = few
        elif held is None or not before.since:
            self._holds_as_before(held, holding)

    def _holds_as_before(self, held: Optional[object], holding: object) -> None:
        """It holds what it held before a call, where no callback had it do more meanwhile."""
        if self._holding is holding and (held is None or isinstance(held, Few)):
            self._holding = held

    # ---- objects by key

    @overload
    def find(self, entity: str, key: Any) -> Optional[Entity]: ...

    @overload
    def find(self, entity: Type[E], key: Any) -> Optional[E]: ...

    def find(self, entity: Union[str, Type[Entity]], key: Any) -> Any:
        """The object of this key, or None; a key of several parts is a tuple."""
        known = self.factory.leaves.get(entity)
        if known is not None and type(key) is int and LEAST <= key <= GREATEST:
            # As below, in less time.
            name, kind = known
            if self._holding is None:
                return self._done(lambda: self._found(key, name, kind))
            return self._found(key, name, kind)
        return self._by_key("find", entity, (key,))[0]

    def _found(self, key: int, name: bytes, kind: Type[E]) -> Optional[E]:
        line = b'{"call":"find","em":%b,"entity":%b,"key":[%d]}' % (self._bytes, name, key)
        return self.factory.ask_found(self._run, line, kind, self._bytes)

    @overload
    def find_many(self, entity: str, keys: Iterable[Any]) -> List[Optional[Entity]]: ...

    @overload
    def find_many(self, entity: Type[E], keys: Iterable[Any]) -> List[Optional[E]]: ...

    def find_many(self, entity: Union[str, Type[Entity]], keys: Iterable[Any]) -> List[Any]:
        """The object of each key, or None, asked without waiting for each."""
        return self._by_key("find", entity, keys)

    @overload
    def get_reference(self, entity: str, key: Any) -> Entity: ...

    @overload
    def get_reference(self, entity: Type[E], key: Any) -> E: ...

    def get_reference(self, entity: Union[str, Type[Entity]], key: Any) -> Any:
        """The object of this key; `EntityNotFound` where there is none."""
        return self._by_key("getReference", entity, (key,))[0]

    def _by_key(
        self, call: str, entity: Union[str, Type[Entity]], keys: Iterable[Any]
    ) -> List[Any]:
        name = entity if isinstance(entity, str) else entity.__name__
        given = list(keys)
        binding = self.factory.binding
        if binding is not None:
            given = binding.keys(name, given)
        return self._done(lambda: self._found_many(call, name, given))

    def _found_many(self, call: str, name: str, keys: List[Any]) -> List[Any]:
        front = f'{{"call":"{call}","em":{self._em},"entity":{text_spelled(name)},"key":'
        try:
            lines = [f"{front}{self._key(key)}}}".encode() for key in keys]
        except (TypeError, OverflowError, UnicodeEncodeError) as fault:
            raise misfit(fault, f"the key of {name}", keys) from None
        return self.factory.ask_lines(self._run, lines, name)

    def _key(self, key: Any) -> str:
        if type(key) is int:
            return f"[{key}]" if -(2**63) <= key < 2**63 else f"[{spelled(key)}]"
        parts = key if isinstance(key, (tuple, list, EmbeddedId)) else (key,)
        return f"[{','.join(map(self._run.given, parts))}]"

    # ---- the life of objects

    def persist(self, entity: Entity) -> None:
        """Makes a new object managed; a commit stores it."""
        self._check_versions(entity)
        self._tell_on("persist", entity)
        self._concern.persisted.append(entity._karzhoul_number)

    def persist_all(self, objects: Iterable[Entity]) -> None:
        """Makes new objects managed, as `persist` each of them, sent together. The first refusal is
        raised, with the others as its `later`."""
        told = list(objects)
        self._check_versions(*told)
        self._done(lambda: self._tell_to_persist(told), keeps=True)

    def _check_versions(self, *objects: Entity) -> None:
        """Before anything is sent, where a callback would have the transaction roll back."""
        for entity in objects:
            if isinstance(entity, Entity) and entity._karzhoul_run is self._run:
                self._run.versions.check(entity)

    def _tell_to_persist(self, objects: List[Entity]) -> None:
        front, number = f'{{"call":"persist","em":{self._em},"object":', self._run.number
        numbers = [number(entity) for entity in objects]
        self.factory.tell_all(self._run, [f"{front}{each}}}".encode() for each in numbers])
        self._holding = self
        self._concern.persisted += map(int, numbers)

    def remove(self, entity: Entity) -> None:
        """Removes an object; a commit drops it."""
        self._tell_on("remove", entity)
        self._concern.removed.append(entity._karzhoul_number)

    def refresh(self, entity: Entity) -> None:
        """Loads an object again."""
        self._tell_on("refresh", entity)

    def detach(self, entity: Entity) -> None:
        """Takes an object out of the context."""
        self._tell_on("detach", entity, keeps=False)
        self._holds_without(entity)
        self._concern.let_go.add(entity._karzhoul_number)
        self._run.refused.get(self.number, {}).pop(entity._karzhoul_number, None)

    def _holds_without(self, entity: Entity) -> None:
        """It holds an object no more. In a pipeline that wasn't sent yet; and a flush may have had
        it hold new ones, to which what was set leads."""
        few, known = self._holding, self._run.map.known
        if not isinstance(few, Few) or self.factory._is_ahead():
            return
        is_flushed = self._transaction.is_active and known.sets_of(self._bytes) != few.sets
        if known.loads_of(self._bytes) == few.loads and not is_flushed:
            few = few.without(entity._karzhoul_number)
            self._holding = few if few.numbers else None

    def _tell_on(self, call: str, entity: Entity, more: str = "", keeps: bool = True) -> None:
        """Tells a call of an object, which may have others be managed, unless it keeps none."""
        while True:
            run, held = self._run, self._holding
            holding, line = object() if keeps else held, ""
            try:
                number = run.number(entity)
                line = f'{{"call":"{call}","em":{self._em},"object":{number}{more}}}'
                self._holding = holding
                self.factory.tell(run, line.encode())
                return
            except Restarted:
                if run is not self.factory._run and self._holding is holding:
                    self._holding = held
                if not self._goes_on(run):
                    raise
            except Refused as refused:
                # It changed nothing, but for what a callback did that heard of it.
                is_own = refused.line == line and not is_of_callback(refused)
                if is_own and self._holding is holding:
                    self._holding = held
                raise

    def fetch(self, objects: Iterable[Optional[Entity]], path: str) -> List[Any]:
        """What a relation leads to from each of many objects, asked without waiting for each: of a
        link the object or None, of a collection the list of its members. It is read then, and stays
        with an object that is detached.

        A path goes on, as "lines.product": that is asked of all lines together, and of each object
        there is one list then of what its lines lead to. It may end in any member.
        """
        return fetched(self.factory, list(objects), path.split("."))

    def merge(self, entity: E) -> E:
        """Copies an object's state onto the managed one of its identity, which is loaded or made
        where there is none, and is the answer; the object itself stays as it is. What the object
        leads to goes along where MERGE cascades. `OptimisticLock` where its version isn't the
        one that stands."""
        return self._done(lambda: self._merged(entity), keeps=True)

    def _merged(self, entity: E) -> E:
        self._concern.has_merged = True
        image: E = self._ask("merge", object=self._run.number(entity))
        self._holding = self
        return image

    def contains(self, entity: Entity) -> bool:
        """Whether an object is managed here."""
        return self._done(
            lambda: bool(self._ask("contains", object=self._run.number(entity))), loads=False
        )

    def lock(self, entity: Entity, mode: LockModeType) -> None:
        """Locks a managed object, which has a version, until the open transaction ends: READ asks
        at the commit that it still stands as it was read, WRITE raises its version at the next
        flush."""
        self._tell_on("lock", entity, f',"mode":{text_spelled(LockModeType(mode))}')
        self._concern.locked.append(entity._karzhoul_number)

    def clear(self) -> None:
        """Takes all objects out of the context."""
        self._done(
            lambda: self.factory.tell(self._run, line_of("clear", {"em": self._em})), loads=False
        )
        self._holding = None
        self._run.refused.pop(self.number, None)
        self._run.merged.pop(self.number, None)
        self._run.removed.pop(self.number, None)
        self._concern = self._new_concern()

    def _new_concern(self, sets: Optional[int] = None) -> Concern:
        self._own_sets = self._known.own_sets_of(self._bytes)
        return Concern(self._run.made, self._sets() if sets is None else sets)

    def _sets(self) -> int:
        """How often an object was set that may be its own."""
        return self._known.sets_of(self._bytes)

    def flush(self) -> None:
        """Writes what has changed into the transaction. What a callback raises that runs before
        (`EntityManagerFactory.listen`) leaves nothing written."""
        self._done(lambda: self._pending.before(self._flush), loads=False)

    def _flush(self, ran: FrozenSet[Due]) -> None:
        try:
            self._ask_flushing("flush", ran)
        except Refused as refused:
            refused._concern = self._concern
            raise

    def set_flush_mode(self, mode: FlushModeType) -> None:
        """Says when a query in a transaction flushes first."""
        self._done(lambda: self._tell_mode(FlushModeType(mode)), loads=False)
        self._mode = FlushModeType(mode)

    def _tell_mode(self, mode: FlushModeType) -> None:
        self.factory.tell(self._run, _mode_line(self._em, mode))

    def close(self) -> None:
        """Ends the manager, which owns no open transaction. What was persisted, removed, merged or
        set outside of a transaction, and in none since, is lost then: a `RuntimeWarning` says so,
        and names it. One that is closed, of before a restart, or whose program has ended is gone
        already: then it does nothing but give that warning, which names nothing."""
        self._end(3)

    def _end_block(self) -> None:
        self._end(self._level)

    def _end(self, level: int) -> None:
        """Closes it. A warning names the line of the application, so many calls above."""
        # Nobody knows it once the close is asked.
        is_set = self._known.own_sets_of(self._bytes) != self._own_sets
        try:
            self.factory.tell_kept()
            lost = self._lost()
            is_over = self._is_settled and not self._transaction.is_active
            line = b'{"call":"close","em":%b}' % self._bytes
            if not is_over or not self.factory.let_go(self._run, line):
                self._ask("close")
        except (NoSuchManager, ProgramEnded, Restarted):  # It is gone already.
            lost = self._lost_before(is_set)
        self._give_place_back()
        if lost:
            warnings.warn(lost, RuntimeWarning, stacklevel=level)

    def _lost_before(self, is_set: bool) -> str:
        """That something is lost with a manager that is gone already, which can't be named."""
        told, self._concern = self._concern, self._new_concern()
        if self._is_closed or self._holding is None:
            return ""
        persisted = set(told.persisted) - told.let_go
        is_lost = persisted or told.removed or told.has_merged or is_set
        return _LOST_BEFORE if is_lost else ""

    def _lost(self) -> str:
        """What a close loses, in words."""
        told, run = self._concern, self._run
        if self._transaction.is_active:  # Then it is refused.
            return ""
        named: Dict[str, None] = {}
        try:
            is_touched = told.has_merged or run.map.known.sets_of(self._bytes) != told.sets
            done, refused = self._told(), ""
            if is_touched and not self._is_settled:
                due, refused = self._due(any(numbers for _, numbers in done))
                done += due
            for word, numbers in done:
                for entity in self.factory.objects(run, numbers[: _NAMED + 1]):
                    named[f"{entity!r} was {word}"] = None
        except KarzhoulError:  # The manager is gone, or its program.
            return ""
        words = list(named)
        words += [refused] if refused else []
        more = ", and more" if len(words) > _NAMED else ""
        return _LOST.format(", ".join(words[:_NAMED]) + more) if words else ""

    def _told(self) -> List[Tuple[str, List[int]]]:
        """What it was told to persist, to remove and to merge, as far as that still stands."""
        told, kinds = self._concern, self._run.kinds
        merged = self._run.merged.get(self.number, [])
        numbers = list(dict.fromkeys([*told.persisted, *told.removed, *merged]))
        front = f'{{"call":"contains","em":{self._em},"object":'
        lines = [f"{front}{number}}}".encode() for number in numbers]
        answers = self.factory.ask_lines(self._run, lines) if lines else ()
        held = {number for number, is_held in zip(numbers, answers) if is_held}
        # What is new since was stored by none, and removing it loses nothing.
        removed = [
            number
            for number in told.removed
            if number not in held and number not in told.let_go
            and (number <= told.since or kinds.was_loaded(number))
        ]
        return [
            ("persisted", [number for number in told.persisted if number in held]),
            ("removed", removed), ("merged", [number for number in merged if number in held]),
        ]

    def _due(self, is_told: bool) -> Tuple[List[Tuple[str, List[int]]], str]:
        """What a flush would do to the manager's objects, and the number of each; in words why it
        is refused, where it comes to nothing of what was changed and nothing else is told. A
        transaction that an interrupt left is open already."""
        try:
            _, told = self._quietly("begin", "pending")
            flushed = None if told or is_told else self._quietly("flush")[0]
        finally:
            self._quietly("rollback")
        if isinstance(told, Refused):
            raise told
        due = [(_DUE[LifecycleEvent(kind)], [number]) for kind, number in told]
        is_refused = isinstance(flushed, Refused)
        return due, f"what was set, since a flush of it is refused: {flushed}" if is_refused else ""

    def _quietly(self, *calls: str) -> List[Any]:
        """What calls answer that nobody hears of."""
        lines = [line_of(call, {"em": self._em}) for call in calls]
        return self.factory.ask_lines(self._run, lines, is_quiet=True)

    def _give_place_back(self) -> None:
        self._holding, self._is_closed = self, True  # It goes on in no other run.
        self._run.opened.pop(self.number, None)
        self._run.transaction_over(self.number)
        self._run.noted.pop(self.number, None)
        if self.factory._places is not None:
            self.factory._places.give_back(self._place)

    def _flushes_before(self) -> bool:
        """Whether a query flushes first."""
        return self._transaction.is_active and self._mode is FlushModeType.AUTO

    def _ask_flushing(self, call: str, ran: FrozenSet[Due]) -> None:
        """Does a call that flushes, before which these callbacks ran."""
        self.factory.ask_lines(self._run, [line_of(call, {"em": self._em})], ran=ran)

    def _ask(self, call: str, **members: str) -> Any:
        """Does a call of this manager, whose members are JSON, and gives its answer."""
        line = line_of(call, {"em": self._em, **members})
        return self.factory.ask_lines(self._run, [line])[0]


def _mode_line(manager: str, mode: FlushModeType) -> bytes:
    return line_of("setFlushMode", {"em": manager, "mode": text_spelled(mode)})
