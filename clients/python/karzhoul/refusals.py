"""What can go wrong, each as an exception of its own: a class for each refusal of the program, and
the client's own faults."""

from __future__ import annotations

import re
from typing import TYPE_CHECKING, Any, ClassVar, Dict, Optional, Sequence, Tuple, Type

from .told import shown

if TYPE_CHECKING:
    from .objects.concern import Concern
    from .objects.entities import Entity, Event
    from .session.factory import EntityManagerFactory
    from .session.runs import Run


class KarzhoulError(Exception):
    """The base of all exceptions of this package.

    `times_refused` says how often `retry` or `attempts` had their work refused, this time counted.
    """

    times_refused: int = 0


class Misused(ValueError):
    """The words of a command, or names that an opening was handed, can't be taken; nothing was
    done."""


class ProgramNotFound(KarzhoulError):
    """There is no program to start."""


class ProgramEnded(KarzhoulError):
    """The program ended, or was ended, before it answered. What was answered as committed is
    stored, and what isn't committed is lost.

    `may_be_stored` says that a commit had been sent and wasn't answered: it may be stored or not.
    """

    may_be_stored: bool = False
    # The thread whose call was waiting for its reply, or was interrupted; None where none did.
    _thread: Optional[int] = None

    def __init__(self, status: Optional[int], told: str = "") -> None:
        super().__init__(status, told)
        self.status, self.told = status, told.strip()

    def __str__(self) -> str:
        return self._how() + self._of_commit()

    def _how(self) -> str:
        status = self.status
        how = (
            "is closed"
            if status is None
            else f"was ended by signal {-status}"
            if status < 0
            else f"ended with status {status}"
        )
        return f"the program {how}" + (f": {self.told}" if self.told else "")

    def _of_commit(self) -> str:
        return (
            "; the commit was sent and not answered, so it may be stored or not: look before you "
            "do it again"
            if self.may_be_stored
            else ""
        )


class GivenUp(ProgramEnded):
    """The program was ended, for all threads, since a call took too long (`end_program_after`), or
    was interrupted twice. `EntityManagerFactory.reopen` opens it again, and `retry` does so by
    itself where the call was another thread's."""

    def __str__(self) -> str:
        return (
            f"{self._how()}, and was given up: what was not committed is lost; app.reopen() opens "
            f"the program again over its store{self._of_commit()}"
        )


class Disconnected(ProgramEnded):
    """The connection to a server has ended (`karzhoul.connect`), or none can be made: the server
    has ended, or its program, or it has ended the connection, which `told` says. What wasn't
    committed is rolled back. `EntityManagerFactory.reopen` connects again, and `retry` does so by
    itself, where no commit was under way."""

    # Whether there was a connection.
    _was_made = True

    def _how(self) -> str:
        if not self._was_made:
            return f"there is no connection to the server: {self.told}"
        return f"the connection to the server has ended: {self.told}"


class Restarted(KarzhoulError):
    """An object or a manager is of before a restart, and can't be used any more: make or find it
    again."""


class NoFreeManager(KarzhoulError):
    """No manager was free within the time that is waited for one (`karzhoul.open(.., threads=True,
    wait=..)`), or none can become free. Nothing was done."""


class StoreInMemory(KarzhoulError):
    """Nothing raises this any more: a store in memory is restarted as others are. It stays for the
    `except` clauses that name it."""


class NotUnique(KarzhoulError):
    """Two objects would have one value of what is unique (`field(unique=True)`). Nothing was
    written, and the transaction is open as before; where it was another commit that took the value
    first (`is_raced`), it is rolled back, and `retry` and `attempts` do the work again.

    It is of the attributes `attributes` of the class `entity`, and their `values`: `object` would
    have them, and `other` has them, or would have them too.
    """

    def __init__(
        self, entity: str, attributes: Sequence[str], values: Sequence[Any], object: Entity,
        other: Entity, is_raced: bool = False,
    ) -> None:
        super().__init__(entity, tuple(attributes), tuple(values))
        self.entity, self.attributes, self.values = entity, tuple(attributes), tuple(values)
        self.object, self.other, self.is_raced = object, other, is_raced
        # As they are now: once it is told, their program may have ended.
        self._told = f"{object!r} and {other!r}"

    def __reduce__(self) -> Tuple[Any, ...]:
        # A copy, as for another process, has no objects.
        told = {name: it for name, it in vars(self).items() if name not in ("object", "other")}
        return _copied_not_unique, (self.args, told)

    def __str__(self) -> str:
        names, values = " and ".join(self.attributes), " and ".join(map(shown, self.values))
        unique = "is unique" if len(self.attributes) == 1 else "are unique together"
        raced = ", which another commit took first" if self.is_raced else ""
        return f"{self.entity}.{names} {unique}, and {self._told} would both have {values}{raced}"


def _copied_not_unique(args: Tuple[Any, ...], told: Dict[str, Any]) -> NotUnique:
    made: NotUnique = NotUnique.__new__(NotUnique, *args)
    made.args = args
    vars(made).update(told)
    return made


# The refusals by name, and those after which a transaction can only roll back.
REFUSALS: Dict[str, Type[Refused]] = {}
MARKING = {
    "IllegalArgument", "EntityExists", "EntityNotFound", "IllegalState", "OptimisticLock",
    "Persistence", "Listener", "Limit", "Overflow",
}


class Refused(KarzhoulError):
    """A call that was refused; docs/CALLS.md tells what a refused call leaves.

    `name` and `number` are the refusal's, `detail` its `why`, `events` what the call told before it
    was refused, `line` what was sent, and `later` the refusals of calls that had been sent along in
    the same pipeline after this one.

    As a text it is what `explain` says, where that asks the program nothing: of a query, a value, a
    name, a limit and the like. Else it is its `word`.
    """

    number: ClassVar[int] = 0
    # The factory whose call it is, the run that it was done in, and what its manager was told in
    # the transaction.
    _factory: Optional[EntityManagerFactory] = None
    _run: Optional[Run] = None
    _concern: Optional[Concern] = None
    # What marked its manager's transaction before, as its word and its line.
    _before: Optional[Tuple[str, str]] = None
    # The numbers of the objects that flushes of its manager's transaction wrote before.
    _written: Tuple[int, ...] = ()
    # The numbers of the objects that removals of its transaction came to.
    _removed: Tuple[int, ...] = ()
    # What is said of it, where that was told when it was refused.
    _sentence: Optional[str] = None

    def __init__(
        self, detail: Optional[str] = None, events: Tuple[Event, ...] = (), line: str = ""
    ) -> None:
        super().__init__(detail)
        self.name = type(self).__name__
        self.detail, self.events, self.line = detail, events, line
        self.later: Tuple[Refused, ...] = ()

    def __reduce__(self) -> Tuple[Any, ...]:
        # A copy, as for another process, has no objects, and no factory that could explain it.
        of_this_process = ("_factory", "_run", "_concern", "_written", "_removed")
        told = {name: it for name, it in vars(self).items() if name not in of_this_process}
        return _copied, (type(self), self.detail, {**told, "events": ()})

    def __init_subclass__(cls, number: Optional[int] = None) -> None:
        if number is not None:
            cls.number = number
            REFUSALS[cls.__name__] = cls

    @property
    def word(self) -> str:
        """It as one word, with its detail, as `IllegalArgument(name)`: that of docs/CALLS.md."""
        return self.name if self.detail is None else f"{self.name}({self.detail})"

    def __str__(self) -> str:
        return self._sentence or self.word

    def explain(self) -> str:
        """What can be told of it: of a query each mistake with its line, column and word, of an
        entity or a member which one is meant, of a refused flush or commit the objects and members
        that it is about, as they stand now, and else what the refusal means."""
        from .explain.explaining import explained

        return self._sentence or explained(self, self._factory)


def _copied(kind: Type[Refused], detail: Optional[str], told: Dict[str, Any]) -> Refused:
    made = kind(detail)
    vars(made).update(told)
    return made


class OutOfMemory(Refused, number=1):
    """A growth was refused; nothing was done, and the same call can be made again."""


class StoreFault(Refused, number=2):
    """The store can't be opened, or a commit could not be written; its transaction stays open.
    `why` says of an opening what is in the way, as far as that can be told."""

    why: str = ""

    def __str__(self) -> str:
        return f"{self.word}: {self.why}" if self.why else self.word

    def explain(self) -> str:
        return self.why or super().explain()


class BadLine(Refused, number=3):
    """The line is no call."""


class NotServed(BadLine):
    """The line is a call by the rules, and the program at hand doesn't serve it."""

    def __str__(self) -> str:
        return f"the program doesn't serve this call: {_shortened(self.line)}"

    def explain(self) -> str:
        return str(self)


def _shortened(line: str) -> str:
    return line if len(line) < 200 else f"{line[:200]}.."


class NoSuchManager(Refused, number=4):
    """No open manager has this number."""


class NoSuchObject(Refused, number=5):
    """No object has this number."""


class IllegalArgument(Refused, number=6):
    """The call doesn't take what it was handed: entity, name, type, key, version, state, range,
    syntax, typing, parameter or second."""


class IllegalState(Refused, number=7):
    """The state doesn't allow the call: active, inactive, unfetched, reference or statement."""


class TransactionRequired(Refused, number=8):
    """The call needs an open transaction."""


class EntityExists(Refused, number=9):
    """Another object has this identity."""


class EntityNotFound(Refused, number=10):
    """No stored object has this identity."""


class OptimisticLock(Refused, number=11):
    """The stored version is not the one that was read."""


class Persistence(Refused, number=12):
    """What would be stored isn't allowed: key, null, reference, unique, generator, version,
    converter or callback."""


class Listener(Refused, number=13):
    """A listener or a callback threw the text that is the detail."""


class Rollback(Refused, number=14):
    """A commit was refused, and its transaction is rolled back: `marked`, or the text of the
    refusal that made it so."""

    @property
    def cause(self) -> Optional[Refused]:
        """What made the commit roll back; None where the transaction could only roll back."""
        if self.detail is None or self.detail == "marked":
            return None
        cause = refusal_of(self.detail, self.events, self.line)
        if isinstance(cause, Limit):
            from .explain.limits import told_apart

            cause = told_apart(cause)
        cause._factory, cause._run, cause._concern = self._factory, self._run, self._concern
        cause._written, cause._removed = self._written, self._removed
        return cause

    def explain(self) -> str:
        cause = self.cause
        if self._sentence is None and cause is not None:
            return cause.explain()
        if self._sentence is not None or self._before is None:
            return super().explain()
        return f"the transaction could only roll back, since this was refused: {self._told()}"

    def _told(self) -> str:
        """The refusal before, with its line."""
        name, line = self._before or ("", "")
        return f"{name} of {_shortened(line)}"


class NoResult(Refused, number=15):
    """A query for a single result found none."""


class NonUniqueResult(Refused, number=16):
    """A query for a single result found several."""


class Overflow(Refused, number=17):
    """A whole number in a query lies outside 64 bits."""


class Busy(Refused, number=18):
    """No program answers this any more; its number stays."""


MOST_LINE_BYTES = 1_048_576
_RESTART = (
    ": commit, and app.restart() begins another one, as karzhoul.open(.., threads=True) does by "
    "itself"
)
_OBJECTS = f"a run makes at most 1,000,000 objects, loads counted{_RESTART}"
_OPEN = (
    "at most 16 managers are open at a time: close one that isn't used, or have "
    "karzhoul.open(.., threads=True) wait for one"
)
_MADE = f"a run makes at most 1,000,000 managers{_RESTART}"
_TEXT, _LINE = "a text or bytes have at most 65,535 bytes", "a line has at most 1,048,576 bytes"
_QUERY = "the query is over the limits of docs/QUERIES.md"
# What each call may have too much of.
_OF_CALLS = {"set": _TEXT, "createEntityManager": f"{_OPEN}; and {_MADE}"}
_OF_CALLS.update(
    dict.fromkeys(
        ("find", "getReference"),
        f"{_OBJECTS}; or the key has a text or bytes of over 65,535 bytes",
    )
)
_OF_CALLS.update(dict.fromkeys(("query", "querySingle"), f"{_OBJECTS}; or {_QUERY}"))
_OF_CALLS["executeUpdate"] = f"{_OBJECTS}; or {_TEXT}, and so has what an UPDATE puts together"


class Limit(Refused, number=19):
    """More than the program allows. It says which limits the call may have met, and what to do.

    The program doesn't tell which limit it is. Where what was sent tells, it is a class of its own
    below this one, whose `detail` says which: `ObjectLimit`, `ManagerLimit`, `TextLimit`,
    `LineLimit` or `QueryLimit`. Of an UPDATE with CONCAT it can't be told.
    """

    kind: ClassVar[Optional[str]] = None

    def __init__(
        self, detail: Optional[str] = None, events: Tuple[Event, ...] = (), line: str = ""
    ) -> None:
        super().__init__(self.kind if detail is None else detail, events, line)
        self.name = "Limit"

    def __str__(self) -> str:
        return self._sentence or f"Limit: {self.told()}"

    def told(self) -> str:
        """What there is too much of, and what to do."""
        if len(self.line.encode(errors="replace")) > MOST_LINE_BYTES:
            return _LINE
        found = re.match(r'\{"call":"(\w+)"', self.line)
        return _OF_CALLS.get(found[1] if found else "", _OBJECTS)


class ObjectLimit(Limit):
    """`Limit("objects")`: a run makes at most 1,000,000 objects, loads counted. A restart begins
    another run."""

    kind = "objects"

    def told(self) -> str:
        return _OBJECTS


class ManagerLimit(Limit):
    """`Limit("managers")`: at most 16 managers are open at a time, and a run makes 1,000,000."""

    kind = "managers"
    # How many the run had made, where that is known.
    made: Optional[int] = None

    def told(self) -> str:
        if self.made is None:
            return f"{_OPEN}; and {_MADE}"
        return _OPEN if self.made < 1_000_000 else _MADE


class TextLimit(Limit):
    """`Limit("text")`: a text or bytes have at most 65,535 bytes."""

    kind = "text"

    def told(self) -> str:
        return _TEXT


class LineLimit(Limit):
    """`Limit("line")`: a line has at most 1,048,576 bytes."""

    kind = "line"

    def told(self) -> str:
        return _LINE


class QueryLimit(Limit):
    """`Limit("query")`: a query has at most 16,384 bytes, 32 parentheses within one another, and 8
    variables, a list that is handed in 4,096 values, and lists become 65,536 in a query."""

    kind = "query"
    # Which list has too many values, where it is that.
    why: str = ""

    def told(self) -> str:
        return self.why or _QUERY


class Mapping(Refused, number=20):
    """The mapping can't be served: json, shape, model or function. `faults` says what this client's
    own check finds in it."""

    faults: Tuple[str, ...] = ()

    def __str__(self) -> str:
        return "\n  ".join([self.word, *self.faults])


class Damaged(Refused, number=21):
    """The store's cells stand for no set of objects; the detail is the damaged row's table and its
    bytes in hex."""

    @property
    def table(self) -> int:
        """The number of the damaged row's table; 0 with no `row` where the rows together are not
        those of a sound set."""
        return int((self.detail or "0:").partition(":")[0])

    @property
    def row(self) -> bytes:
        """The bytes of the damaged row's key."""
        return bytes.fromhex((self.detail or "0:").partition(":")[2])


def refusal_of(text: str, events: Tuple[Event, ...] = (), line: str = "") -> Refused:
    """The refusal of this text, `Name` or `Name(detail)`; a plain `Refused` for a name that this
    client doesn't know."""
    name, mark, rest = text.partition("(")
    kind = REFUSALS.get(name)
    return kind(rest[:-1] if mark else None, events, line) if kind else Refused(text, events, line)


__all__ = [
    "Disconnected", "GivenUp", "KarzhoulError", "LineLimit", "ManagerLimit", "Misused",
    "NoFreeManager", "NotServed",
    "ObjectLimit", "ProgramEnded", "ProgramNotFound", "QueryLimit", "Refused", "Restarted",
    "StoreInMemory", "TextLimit", *REFUSALS,
]
