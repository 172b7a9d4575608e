"""The managers of a factory as they are created, each at its place."""

from __future__ import annotations

from contextlib import suppress
from typing import TYPE_CHECKING, Optional

from ..refusals import KarzhoulError, Limit, Restarted
from ..wire.lines import line_of
from .managers import EntityManager
from .places import Place

if TYPE_CHECKING:
    from .factory import EntityManagerFactory


class Managers:
    """Creates the managers of a factory, and closes those that nobody has."""

    def __init__(self, factory: EntityManagerFactory) -> None:
        self._factory = factory
        # How long a manager of a server is waited for.
        self.wait: Optional[float] = None

    def created(self, place: Place, at_once: bool = False) -> EntityManager:
        """A manager at a place, which is waited for, unless it is to be had at once."""
        factory = self._factory
        places = factory._places
        try:
            if places is not None:
                places.take(place, 0 if at_once else places.wait)
            return self._made(place)
        except BaseException:
            if place.run is not None:  # It was made, and nobody gets it.
                factory._left.append((place.run, place.number))
            if places is not None:
                places.give_back(place)
            raise

    def at_once(self) -> EntityManager:
        """A manager for one block, which isn't waited for."""
        return self.created(Place(True), at_once=True)

    def _made(self, place: Place) -> EntityManager:
        factory = self._factory
        if factory._left:
            self._close_left()
        is_begun = place.is_block and factory.program.begins
        self._ask(place, is_begun)
        assert place.run is not None
        return EntityManager(place.run, place.number, place, is_begun)

    def go_on(self, manager: EntityManager) -> None:
        """Creates a manager of a run that is over again, in that which is on. Its place, which was
        given back as that began, is waited for."""
        factory, place = self._factory, manager._place
        if place.run is not factory._run:  # Else an interrupt came behind this.
            place.run = None  # So a run that begins meanwhile takes no place of it.
        if factory._places is not None:
            factory._places.keep(place)
        if place.run is None:
            self._ask(place, False)
        assert place.run is not None
        manager._go_over(place.run, place.number)

    def _ask(self, place: Place, is_begun: bool) -> None:
        """Has the program create a manager at a place, in the run that is on."""
        factory = self._factory
        while True:
            run = factory._run
            try:
                number = factory.ask_manager(run, is_begun)
                place.run, place.number = run, number  # First, so that it isn't left open.
                run.managers = number
                return
            except Restarted:  # While it waited.
                if run is factory._run:
                    raise
            except Limit:  # Of managers.
                # Of a server's managers others may have some. (Who waits holds no lock.)
                wait = 0.0 if factory._is_ahead() else self.wait
                if not factory.program.turn(wait):
                    raise

    def _close_left(self) -> None:
        """Closes the managers that nobody has; what these haven't committed is gone."""
        factory = self._factory
        with factory._lock:
            while factory._left:
                run, number = factory._left[0]
                lines = [line_of(call, {"em": str(number)}) for call in ("rollback", "close")]
                with suppress(KarzhoulError):
                    factory.ask_lines(run, lines)
                run.opened.pop(number, None)
                factory._left.remove((run, number))
