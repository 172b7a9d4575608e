"""The calls of a running unit: lines go to the program one after the other, whichever thread they
are of, and what comes of them is told."""

from __future__ import annotations

import re
import threading
from contextlib import contextmanager, suppress
from copy import copy
from time import perf_counter
from typing import (
    Any, Callable, Dict, FrozenSet, Iterator, List, Mapping, Optional, Sequence, Tuple, Type,
    Union,
)

from ..explain.refusing import manager_of
from ..objects.entities import E, Entity, Event
from ..objects.kinds import Classes
from ..objects.shown import VALUES, Shown
from ..refusals import BadLine, IllegalState, KarzhoulError, NotServed, Refused, Restarted
from ..store.program import Exchange, Program, of_before
from ..wire.lines import LifecycleEvent, line_of, text_spelled
from ..wire.replies import (
    NULL, are_null, are_silent, is_reply, is_restart, loaded_in, numbers_of, objects_in, said_of,
)
from ..wire.tally import Tally
from .events import Events, Untold
from .pending import Due
from .runs import Run

# What a server takes for both of a block's first calls.
_BEGIN = b'{"serve":"begin"}'
# What the reading of no reply raises.
_UNREADABLE = (AttributeError, LookupError, TypeError, ValueError)
# After so many readings that raised, replies are taken for none, whatever they look like.
_MOST_FAULTS = 3
_CREATE, RESTART = line_of("createEntityManager", {}), line_of("restart", {})


class _Calls(Exchange):
    """Lines, what their answers are taken for, and the events of their replies that aren't queued
    to be told."""

    # What most have is of the class, so that one is made in little time.
    run: Optional[Run]
    # The entity of the objects in the answers, whose classes aren't known better.
    entity = ""
    bad_line: Type[BadLine] = NotServed
    # Whether they were told in a pipeline, so that their refusals are still to be raised.
    are_kept = False
    # The events that they tell again, whose callbacks ran before.
    ran: FrozenSet[Due] = frozenset()
    # Whether no callback is told of them, and a refusal is an answer: nothing of them lasts.
    is_quiet = False
    untold: Optional[Iterator[Untold]] = None
    # Their replies, once all have come: these are counted once, whatever is interrupted.
    replies: Optional[List[bytes]] = None
    # Whether another run is on once they are done.
    is_restart = False
    # Whether they create a manager and were interrupted, so that nobody gets it.
    is_left = False
    # How often the reading of their replies has raised.
    faults = 0
    # How often values had been read when it was noted what they change.
    reads = -1
    # The objects in their replies whose class wasn't known, with the lines that ask for them.
    shown: Optional[Tuple[List[int], _Calls]] = None

    def __init__(self, run: Optional[Run], lines: Sequence[bytes]) -> None:
        # As the base does, in less time.
        self.run = run
        self.lines = lines
        self.written = []
        self.read = []

    def first(self) -> _Calls:
        """The first of several calls that were sent together and answered."""
        calls = _Calls(self.run, self.lines[:1])
        calls.entity, calls.parts, calls.replies = self.entity, (), (self.replies or [])[:1]
        return calls

    def join(self, run: Optional[Run], line: bytes) -> None:
        """Has them be of the run of one more line, of a pipeline."""
        if run is not None and run is not self.run:
            if self.run is not None:
                raise Restarted(of_before(line))
            self.run = run


class Calls:
    """What a factory does calls by. Each call is done as a whole, and threads wait for each other.
    """

    program: Program
    # The run that is on.
    _run: Run

    def __init__(
        self, mapping: Mapping[str, Any], classes: Dict[str, Type[Entity]], echo: bool
    ) -> None:
        self.mapping = mapping
        self._classes: Dict[str, Type[Entity]] = classes
        # Those without subclasses: what an answer is of that can be of no other class.
        self._lowest = {name: kind for name, kind in classes.items() if not kind.__subclasses__()}
        # The same, by their names and by themselves, with the names as lines have them.
        self.leaves: Dict[Union[str, Type[Any]], Tuple[bytes, Type[Entity]]] = {}
        for name, kind in self._lowest.items():
            self.leaves[name] = self.leaves[kind] = text_spelled(name).encode(), kind
        # By the line that makes one.
        self._new = {kind._karzhoul_line: kind for kind in classes.values()}
        self._tally = Tally(echo)
        self._lock = threading.RLock()
        # It rises with each call.
        self._turn = 0
        # Held where the thread that holds the lock is in a pipeline, and where it waits for
        # replies.
        self._pipeline = threading.RLock()
        self._waiting = threading.RLock()
        # The calls that aren't done: those that were told in a pipeline, or those that are under
        # way, which an interrupt may have left.
        self._calls: Optional[_Calls] = None
        self._events = Events(self._mark)
        # Managers of a run, by their numbers, that are open and that nobody has.
        self._left: List[Tuple[Run, int]] = []

    @property
    def _kinds(self) -> Classes:
        return self._run.kinds

    def listen(self, callback: Callable[[Event], None], *events: LifecycleEvent) -> None:
        """Hands the events of these kinds, or without any all events, to a callback, in the order
        told. It may call, also `persist` and `remove`; the events of its own calls come after.

        Events before a flush (`PRE_PERSIST`, `PRE_UPDATE` and `PRE_REMOVE`) come before anything is
        written, also where `commit` or a query flushes. What the callback sets is written by this
        flush. What it raises is raised, and the flush isn't done: the transaction is open as
        before, and a `with` block rolls it back. It runs once for an object and flush. `persist`,
        `remove` and `merge` tell some of these themselves, when they are done; so does a flush of
        an object that it had to load.

        All other events come when their call is done. What the callback raises then is raised by
        that call. A coroutine or a generator, which would do nothing, is a `TypeError`.
        """
        self._events.listen(callback, *events)

    @property
    def turn(self) -> Optional[int]:
        """A number that rises with each call, so that nothing changes while it stays. None where
        calls are kept in a pipeline, and once the program has ended."""
        return None if self._calls or self.program.fault else self._turn

    # ---- calls

    # Whatever is sent comes with the run of the managers and objects that it names, and with None
    # where it names none. Where another run is on by the time that it is sent, it is `Restarted`.

    def ask(self, call: str, entity: str = "", /, **members: str) -> Any:
        """Does a call, whose members are JSON, and gives its answer, with objects of this entity
        where their class isn't known better. The numbers in it are those of the run that is on when
        it is called."""
        if call == "restart":
            return self.ask_restart()
        return self.ask_lines(self._run, [line_of(call, members)], entity)[0]

    def ask_lines(
        self, run: Optional[Run], lines: Sequence[bytes], entity: str = "",
        bad_line: Type[BadLine] = NotServed, timeout: Optional[float] = None,
        ran: FrozenSet[Due] = frozenset(), is_quiet: bool = False,
    ) -> List[Any]:
        """Does the calls of lines without waiting for each, and gives the answers. A line that is
        taken for no call is a `bad_line`. Where they aren't answered within so many seconds, the
        program is ended: `GivenUp`. Events whose callbacks `ran` before aren't told again, and
        those of quiet calls not at all, whose refusals are answers."""
        with self._lock:
            while self._calls:  # A callback that is told of what was kept may have added to it.
                self._settle(timeout)
            reads = self._note(run, lines, bad_line)
            calls = _Calls(run, lines)
            calls.entity, calls.bad_line, calls.reads, calls.ran = entity, bad_line, reads, ran
            calls.is_quiet = is_quiet
            self._calls = calls
            return self._answers(calls, timeout)

    def ask_object(
        self, run: Optional[Run], line: bytes, kind: Type[E], manager: bytes = b""
    ) -> Optional[E]:
        """Does a call that changes no values and answers an object, of this class where its own
        isn't known, or null: as `ask_lines` does, in less time. With the manager's number."""
        with self._lock:
            while self._calls:  # As in `ask_lines`.
                self._settle()
            calls = _Calls(run, (line,))
            calls.entity = kind.__name__
            self._calls = calls
            self._turn += 1
            replies = self._replies(calls, None)
            if not self._is_heard():
                found = (calls.run or self._run).map.one(replies[0], kind, manager)
                if found is not None:
                    self._calls = None
                    return found
            answer: Optional[E] = self._taken(calls, replies, None)[0]
            return answer

    def ask_found(
        self, run: Run, line: bytes, kind: Type[E], manager: bytes
    ) -> Optional[E]:
        """Does a manager's call that finds an object, as `ask_object` does. Where it is foreseen
        that the object is loaded, and read then, its values are asked for at once, by the number
        that is the next to be given. They are taken where the reply tells that number."""
        foresight = kind._karzhoul_foresight
        if not foresight.is_on or self._is_heard():
            return self.ask_object(run, line, kind, manager)
        with self._lock:
            while self._calls:  # As in `ask_lines`.
                self._settle()
            number = run.made + 1
            calls = _Calls(run, (line, VALUES % b"%d" % number))
            calls.entity, calls.is_short = kind.__name__, True
            self._calls = calls
            self._turn += 1
            places = run.map.known.expect_loaded(number, manager)
            if self._calls is not calls:  # As in `_shown`.
                run.map.known.forget()
            replies = self._replies(calls, None)
            # As of a thread that listens meanwhile.
            found = None if self._is_heard() else run.map.one_shown(replies, kind, places)
            if found is not None:
                if not foresight.is_sure:
                    foresight.note(True)
                self._calls = None
                return found
            foresight.note(False)
            calls = self._calls = calls.first()
            answer: Optional[E] = self._answers(calls)[0]
            return answer

    def ask_manager(self, run: Run, is_begun: bool = False) -> int:
        """Creates a manager, with its transaction open where that is wished, and gives its number.
        Where that is interrupted, it is `_left`."""
        calls = _Calls(run, [_BEGIN if is_begun else _CREATE])
        try:
            with self._lock:
                while self._calls:  # As in `ask_lines`.
                    self._settle()
                self._calls = calls
                number: int = self._answers(calls)[0]
            return number
        except BaseException:
            calls.is_left = True
            self._take_note(calls, calls.read)
            raise

    def _take_note(self, calls: _Calls, replies: List[bytes]) -> None:
        """What replies to a restart and to what was interrupted mean for other calls. It is taken
        note of before the calls are over, and so perhaps twice."""
        if calls.is_restart and replies == NULL and self.program.run is calls.run:
            self._begin_run(self.program)
        if calls.is_left and calls.run is not None:
            for number in re.findall(rb'"ok":([0-9]+)}', b"".join(replies)):
                self._left.append((calls.run, int(number)))

    def let_go(self, run: Run, line: bytes) -> bool:
        """Does the call of a line whose reply nobody needs to wait for, where that is of use;
        whether it was done."""
        with self._lock:
            if self._calls or self._events.callbacks or not self.program.let_go(run, line):
                return False
            self._turn += 1
            self._tally.note([line], NULL, 0.0)
            return True

    def tell(self, run: Optional[Run], line: bytes, *more: bytes) -> None:
        """Does the calls of lines, which answer null; within a pipeline they are kept."""
        with self._lock:
            is_kept = self._pipeline._is_owned()  # type: ignore[attr-defined]
            if is_kept and self.program.fault:
                raise copy(self.program.fault)
            while (calls := self._calls) is not None:
                if is_kept and calls.are_kept and calls.parts is None:
                    if run is not calls.run:
                        calls.join(run, line)
                    reads = self._note(run, (line, *more))
                    if more:
                        calls.lines += (line, *more)  # type: ignore[operator]
                    else:
                        calls.lines.append(line)  # type: ignore[attr-defined]
                    if reads != self._run.map.known.reads:
                        self._note(run, (line, *more))
                    return
                self._settle()  # Those that were sent are to be done first.
            reads = self._note(run, (line, *more))
            calls = _Calls(run, [line, *more])
            calls.reads, calls.are_kept = reads, is_kept
            self._calls = calls
            if not is_kept:
                self._answers(calls)

    def _note(
        self, run: Optional[Run], lines: Sequence[bytes], bad_line: Type[BadLine] = NotServed
    ) -> int:
        """Takes note of what lines may change, and answers how often values had been read before.
        So whatever an interrupt comes between, they count from then on, be they sent or not. Where
        a handler of a signal has values read meanwhile, it is to be noted again."""
        known = self._run.map.known
        reads = known.reads
        if run is not None and run is not self._run:
            return reads  # They are of a run that is over, and aren't sent.
        if bad_line is BadLine:  # A line of one's own may say one thing and then another.
            known.anyone.sets += 1
            known.forget()
        else:
            known.note(lines)
        return reads

    def tell_all(self, run: Optional[Run], lines: Sequence[bytes]) -> None:
        """Does the calls of lines as `tell` does, in their order."""
        if lines:
            self.tell(run, *lines)

    def send_line(self, line: str) -> Any:
        """Sends any line as it is, and gives its answer; one that is no call is a `BadLine`. The
        numbers in it are those of the run that is on when it is called."""
        if "\n" in line:  # It would be several, each with a reply of its own.
            raise ValueError("a line has no line feed in it, nor at its end")
        if is_restart(line):
            return self.ask_restart(line.encode())
        return self.ask_lines(self._run, [line.encode()], bad_line=BadLine)[0]

    def ask_restart(self, line: bytes = RESTART) -> None:
        """Has the program begin a new run; `IllegalState` where a transaction is open, and nothing
        was done. It is known to be on by the step that takes the reply, whatever is interrupted."""
        with self._lock:
            self.tell_kept()
            calls = _Calls(None, [line])
            calls.bad_line, calls.is_restart = BadLine, True
            calls.reads = self._run.map.known.reads  # It sets nothing.
            self._calls = calls
            self._answers(calls)

    def _begin_run(self, program: Program) -> None:
        """From now on a new run is on, of this program."""
        raise NotImplementedError

    @contextmanager
    def pipeline(self) -> Iterator[None]:
        """Within it, calls that answer nothing but null (`set`, `add`, `persist` and the like) are
        kept. A call that answers something, and the end of the block, send them together, and
        raise the first refusal, with the others as its `later`; what was sent after a refused
        call was done all the same. Other threads wait until the block ends."""
        with self._lock:
            try:
                with self._pipeline:
                    yield
            except BaseException:
                with suppress(KarzhoulError):  # What the block itself raised is told.
                    self._settle()
                raise
            self._settle()

    def tell_kept(self, timeout: Optional[float] = None) -> None:
        """Sends what was kept in a pipeline, and raises its first refusal."""
        with self._lock:
            while self._calls:  # As in `ask_lines`.
                self._settle(timeout)

    def _settle(self, timeout: Optional[float] = None) -> None:
        """Does what is left: calls that were kept, whose refusals are raised, or those that were
        interrupted, whose answers nobody waits for. Their events are told."""
        calls = self._calls
        if calls is None:
            return
        self._refuse_within()
        try:
            self._answers(calls, timeout)
        except KarzhoulError:
            if self._calls is calls:  # The program has ended.
                self._calls = None
            if calls.are_kept:
                raise
            # Else it is a refusal that nobody waits for; an end of the program is told by the next
            # call too.

    def is_asked(self, run: Run, manager: bytes) -> bool:
        """Whether calls of the manager of this number are under way, or left."""
        calls, number = self._calls, int(manager)
        if calls is None or calls.run is not run:
            return False
        return any(manager_of(line) == number for line in list(calls.lines))

    def _is_heard(self) -> bool:
        """Whether someone hears of events, or some are untold."""
        return bool(self._events.callbacks or self._events.untold)

    def _has_left(self) -> bool:
        """Whether calls or events are left that another call goes on with."""
        return self._calls is not None or bool(self._events.untold)

    def _is_ahead(self) -> bool:
        """Whether this thread keeps all others from calling, as in a pipeline or a callback."""
        return bool(self._lock._is_owned())  # type: ignore[attr-defined]

    def _refuse_within(self) -> None:
        """Refuses a call within another one of its thread that waits for its replies, as of a
        handler of a signal, or of what the collector calls: it would take them."""
        if self._is_within():
            raise RuntimeError("reentrant call: another one of this thread waits for its reply")

    def _is_within(self) -> bool:
        """Whether a call of this thread waits for its replies."""
        return bool(self._waiting._is_owned())  # type: ignore[attr-defined]

    def _answers(self, calls: _Calls, timeout: Optional[float] = None) -> List[Any]:
        """The answers to calls, which are over with it. Their events are told first, and then the
        first refusal is raised."""
        self._turn += 1
        if calls.reads != self._run.map.known.reads:
            self._note(calls.run, calls.lines, calls.bad_line)
        replies = self._replies(calls, timeout)
        if calls.is_short:  # A find that was interrupted: the values were asked for in vain.
            calls = self._calls = calls.first()
            replies = replies[:1]
        return self._taken(calls, replies, timeout)

    def _taken(
        self, calls: _Calls, replies: List[bytes], timeout: Optional[float]
    ) -> List[Any]:
        """The answers that replies have."""
        is_noted = calls.is_restart or calls.is_left
        if replies == NULL and not self._events.callbacks and not is_noted:
            self._calls = None
            return [None]
        run = calls.run or self._run
        if is_noted:
            self._take_note(calls, replies)
        try:
            answers = self._at_once(run, calls, replies, timeout)
            if answers is not None:
                self._calls = None
                return answers
            heard = self._heard(run, calls, replies, timeout)
        except _UNREADABLE:
            # By a handler of a signal, after which they are read again, or by what is no reply.
            calls.faults += 1
            if calls.faults == _MOST_FAULTS or not all(map(is_reply, replies)):
                self._calls = None
            raise
        if calls.untold is None:
            told = () if calls.is_quiet else [events for _, events in heard]
            calls.untold = self._events.to_be_told(run, calls.lines, told, calls.ran)
        # They are queued by one step, and so once, whatever is interrupted.
        self._events.untold.extend(calls.untold)
        self._calls = None
        refused = [] if calls.is_quiet else [it for it, _ in heard if isinstance(it, Refused)]
        self._tally.refused(refused)
        raised = [*refused, *self._events.tell()] if refused or self._events.untold else []
        if refused:
            refused[0].later = tuple(refused[1:])
        if raised:
            raise raised[0]
        return [answer for answer, _ in heard]

    def _kind_of(self, calls: _Calls) -> Optional[Type[Entity]]:
        """The class of the objects in the answers to calls, where that can be no other one."""
        if calls.entity and calls.lines:
            return self._lowest.get(calls.entity) or self._new.get(calls.lines[0])
        return None

    def _at_once(
        self, run: Run, calls: _Calls, replies: List[bytes], timeout: Optional[float]
    ) -> Optional[List[Any]]:
        """What most calls answer, an object each or null, with no event to be told; None where it
        is anything else."""
        kind = self._kind_of(calls)
        if calls.entity and not self._events.untold:
            numbers = numbers_of(replies)
            if numbers is not None and (kind is not None or run.map.are_known(numbers)):
                return run.map.objects(numbers, kind)
        if are_null(replies) and not self._events.untold:
            return [None] * len(replies)
        if not self._events.callbacks and not self._events.hidden and are_silent(replies):
            return [None] * len(replies)
        if kind is None and not self._is_heard() and len(replies) == 1:
            loaded = loaded_in(replies[0])
            rows = self._rows(run, calls, *loaded, timeout) if loaded else None
            return None if rows is None else [rows]
        return None

    def _rows(
        self, run: Run, calls: _Calls, numbers: List[int], listed: bytes, timeout: Optional[float]
    ) -> Optional[List[Entity]]:
        """The rows of a reply, which were all loaded for it, with their values, as `_heard` gives
        them, in less time; None where they are any other ones."""
        if calls.shown is None:
            calls.shown = numbers, _Calls(run, run.values_lines(numbers, listed))
        turn, owner = self._turn, run.map.known.expect_rows(calls.lines[0])
        epoch = owner.epoch()
        if self._calls is not calls:  # As in `_shown`.
            return None
        replies = self._replies(calls.shown[1], timeout)
        return run.reader.rows_shown(numbers, replies, owner, epoch, turn)

    def _mark(self, run: Run, line: bytes, number: int, fault: Exception) -> None:
        """Marks the transaction of a line's manager, since a callback has raised this of what its
        call told of an object when it was done, as `persist` does (chapter 3.5). So what it refused
        isn't stored where that is caught. Where none is open, the next one is marked, which would
        store it, unless the object is detached before."""
        manager = manager_of(line)
        if manager is None or manager in run.marked:
            return
        why = repr(fault), line.decode()
        try:
            self.ask_lines(run, [line_of("setRollbackOnly", {"em": str(manager)})])
            run.marked[manager] = why
        except IllegalState:
            run.refused.setdefault(manager, {})[number] = why
        except KarzhoulError:
            pass  # The manager or its program is gone, and so is what it was told.

    def _heard(
        self, run: Run, calls: _Calls, replies: List[bytes], timeout: Optional[float]
    ) -> List[Tuple[Any, Tuple[Event, ...]]]:
        """The answer to each line, or its refusal, and its events. Where the class of an object
        isn't known, the program is asked for it, and for its values with it."""
        told, kind = self._events.heard, self._kind_of(calls)
        each = [(line, reply, said_of(reply)) for line, reply in zip(calls.lines, replies)]
        unknown = [number for it in each for number in run.reader.hear(*it, kind, told)]
        places: Dict[int, Shown] = {}
        refused = None
        if unknown:
            if calls.shown is None:
                numbers = list(dict.fromkeys(unknown))
                lines = run.values_lines(numbers)
                calls.shown = numbers, _Calls(run, lines)
            places, refused = self._shown(run, calls, *calls.shown, timeout)
        heard = [
            (refused, run.reader.events(line, said, told))
            if refused is not None and not run.map.are_known(objects_in(reply))
            else run.reader.answer(line, reply, said, calls.bad_line, told)
            for line, reply, said in each
        ]
        run.map.done(places)
        return heard

    def _shown(
        self, run: Run, calls: _Calls, numbers: Sequence[int], asked: _Calls,
        timeout: Optional[float] = None,
    ) -> Tuple[Dict[int, Shown], Optional[Refused]]:
        """Reads the values of objects for calls that aren't done, by lines that ask for them."""
        places = run.map.known.expect(numbers, run.map.loaded)
        if self._calls is not calls:  # A signal's handler had them done, and may have sent others.
            run.map.known.forget()
        replies = self._replies(asked, timeout)
        return places, run.reader.show(asked.lines, replies, places)

    def objects(self, run: Run, numbers: Sequence[int]) -> List[Entity]:
        """The objects of these numbers, which there are. Where a class isn't known, the program is
        asked for it."""
        with self._lock:
            unknown = list(dict.fromkeys(it for it in numbers if run.kinds[it] is None))
            if unknown:
                self.show(run, unknown)
            return run.map.objects(numbers)

    def values_of(self, entity: Entity) -> Sequence[Any]:
        """The values of an object, which are read anew, with those of the objects that were told
        together with it."""
        run = entity._karzhoul_run
        run.number(entity)
        if entity._karzhoul_shown.group:
            self.show(run, run.map.unread([entity]))
        else:
            self._show_one(run, entity)
        return entity._karzhoul_values

    def _show_one(self, run: Run, entity: Entity) -> None:
        """Reads the values of an object anew, as `show` does, in less time."""
        with self._lock:
            if self._calls:
                self.tell_kept()
            shown = entity._karzhoul_shown
            if shown is shown.owner.unread and shown.owner is not run.map.known.anyone:
                entity._karzhoul_foresight.note(True)
            calls = self._calls = _Calls(run, (VALUES % b"%d" % entity._karzhoul_number,))
            places = run.map.known.expect_one(entity)
            if self._calls is not calls:  # As in `_shown`.
                run.map.known.forget()
            replies = self._replies(calls, None)
            refused = run.reader.show_one(entity, calls.lines, replies, places)
            self._calls = None
            if refused is not None:
                self._tally.refused([refused])
                raise refused

    def show(self, run: Run, numbers: Sequence[int]) -> None:
        """Reads the values of objects of a run anew, by their numbers, each once."""
        with self._lock:
            if self._calls:
                self.tell_kept()
            calls = self._calls = _Calls(run, run.values_lines(numbers))
            places, refused = self._shown(run, calls, numbers, calls)
            self._calls = None
            run.map.done(places)
            if refused is not None:
                self._tally.refused([refused])
                raise refused

    def _replies(self, calls: _Calls, timeout: Optional[float]) -> List[bytes]:
        """The replies to calls, which are noted once."""
        if calls.replies is not None:
            return calls.replies
        began = perf_counter()
        try:
            with self._waiting:
                replies = calls.replies = self.program.replies(calls, timeout)
        except KarzhoulError as fault:
            if isinstance(fault, Restarted):  # They weren't sent, and never will be.
                self._calls = None
            # So that who reads an object hears that the program is gone.
            self._run.map.known.forget()
            self._tally.tell_fault(calls.lines, fault)
            raise
        self._tally.note(calls.lines, replies, perf_counter() - began)
        return replies
