"""A running unit of entities: its factory, with the names of the standard (chapter 7)."""

from __future__ import annotations

import json
import time
from contextlib import AbstractContextManager, closing, nullcontext, suppress
from typing import TYPE_CHECKING, Any, Callable, Mapping, Optional, Sequence, Type, TypeVar

from ..jpql.statements import LanguageName
from ..objects.entities import classes_of
from ..refusals import BadLine, KarzhoulError, ProgramEnded
from ..store.memory import MemoryStore, room_words
from ..store.program import Program
from ..store.starting import started
from ..wire.tally import Statistics
from .begun import Begun
from .creating import Managers
from .managers import EntityManager
from .object_calls import ObjectCalls
from .pausing import MOST_ATTEMPTS
from .places import Place, Places
from .retrying import Retry
from .runs import Run

if TYPE_CHECKING:
    from ..classes.binding import Binding
    from ..classes.conversions import Conversions
    from ..classes.unique import Uniques

T = TypeVar("T")


class EntityManagerFactory(ObjectCalls, AbstractContextManager["EntityManagerFactory"]):
    """A running unit. A context manager that ends the program; threads may share it, and each call
    is done as a whole."""

    def __init__(
        self, program: Program, mapping: Mapping[str, Any], language: LanguageName,
        echo: bool = False, store: Optional[MemoryStore] = None, binding: Optional[Binding] = None,
        again: Optional[Callable[[], Program]] = None, index_lines: Sequence[bytes] = (),
    ) -> None:
        """With the language of its queries, the store, where it is in memory, the classes that a
        user wrote, what gives a program in the place of one that has ended, where it isn't to be
        started over its file, and the lines that say what will be looked up."""
        super().__init__(mapping, classes_of(self, mapping, binding), echo)
        self.language = language
        self.binding, self.index_lines = binding, index_lines
        # What it does to queries, where it has classes, and what is unique of these.
        self.conversions: Optional[Conversions] = None
        self.uniques: Optional[Uniques] = None
        self._store, self._again = store, again
        # Since when the thread waits for it that opens the program again.
        self._asked: Optional[float] = None
        self._managers = Managers(self)
        # Where it is opened for threads.
        self._places: Optional[Places] = None
        self._begin_run(program)

    def _begin_run(self, program: Program) -> None:
        before: Optional[Run] = vars(self).get("_run")
        self.program, self._run = program, Run(self, self._classes)
        self._turn += 1  # So that no collection shows what it read before.
        # Last but for what may be done again, since it says that all is done.
        program.run = self._run
        if before is not None:
            before.end()
        if self._places is not None:
            self._places.run_begun()

    def bind(self, uniques: Optional[Uniques]) -> None:
        """From now on new objects of its classes are its own, their methods hear of events, and
        what is unique is kept so."""
        assert self.binding is not None
        from ..classes.conversions import Conversions

        from ..classes.mapping import UNIQUE

        self.uniques = uniques
        if uniques is not None:
            self._events.hidden = frozenset([self._classes[UNIQUE]])
        self.conversions = Conversions(self.binding.model)
        self.binding.find_fast(self.leaves)
        self.binding.listen(self)
        self.binding.opened(self)
        self._ask_indexes()

    def _ask_indexes(self) -> None:
        """Tells a program that was started what will be looked up. A new run of it needs no word,
        and what is refused costs time alone."""
        if self.index_lines:
            self.ask_lines(None, self.index_lines, is_quiet=True)

    def __exit__(self, kind: Optional[Type[BaseException]], *_: object) -> None:
        # What the block itself raised is told.
        with suppress(KarzhoulError) if kind else nullcontext():
            self.close()

    def close(self) -> None:
        """Ends the program; what isn't committed is gone. Again it does nothing. A call that was
        interrupted may take ten seconds more. Within another call of its thread, as of a handler of
        a signal, it ends the program at once, and that call is `ProgramEnded`."""
        with self._lock:
            if self.binding is not None:
                self.binding.closed(self)
            if self._is_within():  # The call that waits is told of the end.
                self.program.stop()
                return
            store = nullcontext() if self._store is None else closing(self._store)
            with store, closing(self.program):
                try:
                    self._settle(10)
                finally:
                    self._calls = None
                    self.program.fault = ProgramEnded(None)  # Also where it had ended before.
                    self._run.map.known.forget()  # What is read from now on is refused.
        if self._places is not None:
            self._places.wake()

    def restart(self) -> None:
        """Begins a new run, as after a `GivenUp`, a `ProgramEnded`, or where a run has made all its
        objects (`Limit`). The program does so where it can (`restart` of docs/CALLS.md); where it
        has ended, and where a transaction is open, it is started again over its file.

        What isn't committed is gone. Objects of before are `Restarted` where they are used, and so
        are managers that had some or an open transaction, also by a call of another thread that
        waits meanwhile. Other managers go on, and classes and callbacks stay. In a pipeline the
        calls that were kept are sent first, and their first refusal is raised: then nothing else
        was done.
        """
        with self._lock:
            self._refuse_within()
            with suppress(ProgramEnded):
                self.tell_kept(10)
            try:
                self.ask_restart()
            except KarzhoulError:
                self._start_again()

    def reopen(self) -> None:
        """Opens the program again where it has ended, as after a `GivenUp` or a crash; else it does
        nothing. Threads may call it at one time: one of them opens it, and the others wait. It waits
        first for the end of a server that is ending, as long as for a manager, and then for a server,
        as long again: so long in all, however many threads wait for it."""
        self._reopen(None)

    def _reopen(self, since: Optional[float]) -> None:
        """As `reopen`, for who has waited since then for a thread that tried to."""
        waited = 0.0 if since is None else time.monotonic() - since
        if not self._is_ahead():
            self.program.await_end(self._lock)
        asked = time.monotonic() - waited
        with self._lock:
            if self.program.has_ended():
                self._asked = asked
                try:
                    self.restart()
                finally:
                    self._asked = None

    def _start_again(self) -> None:
        """Ends the program, and starts another one over its file. Numbers of generated keys that no
        commit has stored are given again."""
        with self._lock:
            self._refuse_within()
            self.program.close()
            self._calls = None
            self._begin_run((self._again or self._started_again)())
            self._ask_indexes()

    def _started_again(self) -> Program:
        program, *_, db = self.program.words
        said = json.dumps(self.mapping).encode()
        return started(program, said, db, self._store, self.language)

    def _renewed(self, may_start: bool) -> bool:
        """A new run, where no transaction is open; whether one is on. A program that doesn't serve
        that is started again, where it may be."""
        try:
            try:
                self.ask_restart()
            except BadLine:
                if not may_start:
                    return False
                self._start_again()
        except KarzhoulError:
            return False
        return True

    def create_entity_manager(self) -> EntityManager:
        """A manager with an empty context. Opened for threads, the factory waits for one where 16
        are open; `NoFreeManager` where none was closed in time."""
        return self._managers.created(Place(False))

    def begin(self) -> Begun:
        """A new manager with its transaction open, for a block: the block's end commits, or rolls
        back where the block raises, and closes the manager.

            with app.begin() as manager:
                manager.find("Person", 1).name = "Bob"
        """
        return Begun(self)

    def retry(self, work: Callable[[EntityManager], T], most: int = MOST_ATTEMPTS) -> T:
        """Does work in the block of a `begin`, and gives its answer. It is done again from its
        beginning, with a new manager, at most so many times in all:

        - where another manager's commit came first: after an `OptimisticLock` or a `Busy`, be it of
          a call or of the commit, and after a `NotUnique` that `is_raced`;
        - where another thread's call ended the program, as by `end_program_after`: then it is
          opened again first. So it is where the program had ended before the work began;
        - opened for threads: where the run had too few objects left for the work (`ObjectLimit`).
          Then it is done in the next run.

        Before each time it waits for a time at random, up to 50 ms. The last refusal is raised,
        with `times_refused`, and anything else at once: also a `ProgramEnded` that a call of the
        work met itself, and one whose commit `may_be_stored`."""
        return Retry(self, most).answer(work)

    def _repr_html_(self) -> str:
        from ..showing.notebook import mapping_html

        return mapping_html(self.mapping)

    @property
    def echo(self) -> bool:
        """Whether each line, its reply and its time are told on standard error."""
        return self._tally.echo

    @echo.setter
    def echo(self, echoes: bool) -> None:
        self._tally.echo = echoes

    def why_unwritten(self) -> str:
        """Why a commit can't be written, as far as that can be told."""
        if self._store is not None:
            return room_words(self._store.folder)
        return self.program.why_unwritten()

    def statistics(self) -> Statistics:
        """How many calls there were of each name, how long they took, what was refused, and how
        many objects were loaded, inserted, changed and removed, since the opening."""
        return self._tally.statistics(self._kinds.made)
