"""What is done at the counter, each in one transaction, and what is asked there."""

from __future__ import annotations

from datetime import date
from decimal import Decimal
from typing import Any, Callable, List, NamedTuple, Optional, Type, TypeVar

from karzhoul import Entity, EntityManager, EntityManagerFactory, LockModeType

from .entities import (
    BARRED_FROM, LOAN_PERIOD, MOST_EXTENSIONS, Copy, CopyState, Fine, Loan, Member, Reservation,
    ReservationState, Title,
)

E = TypeVar("E", bound=Entity)
T = TypeVar("T")


class LibraryError(Exception):
    """What the rules of the library don't allow, in words for who asked for it."""


class NotThere(LibraryError):
    """What was asked for isn't there."""


class ChangedMeanwhile(LibraryError):
    """A form was filled in over an older state than the one that stands."""


class BroughtBack(NamedTuple):
    """What came of a copy that was brought back."""

    loan: int
    fine: Optional[Decimal]
    held_for: Optional[str]


def found(manager: EntityManager, entity: Type[E], key: Any) -> E:
    """The object of this key; `NotThere` where there is none."""
    thing = manager.find(entity, key)
    if thing is None:
        raise NotThere(f"there is no {entity.__name__.lower()} {key}")
    return thing


class Library:
    """The service, for any number of threads. Each of its calls finds what it works on anew, so it
    can be done again where another one's commit came first.
    """

    def __init__(
        self, app: EntityManagerFactory, today: Callable[[], date] = date.today
    ) -> None:
        self.app = app
        self.today = today

    def read(self, work: Callable[[EntityManager], T]) -> T:
        """What work reads, in a transaction of its own."""
        return self.app.retry(work)

    def lend(self, member: int, barcode: str) -> int:
        """Lends a copy to a member; the number of the loan."""

        def work(manager: EntityManager) -> int:
            reader, copy = found(manager, Member, member), found(manager, Copy, barcode)
            # Two counters that lend to one member at a time count her loans one after the other.
            manager.lock(reader, LockModeType.OPTIMISTIC_FORCE_INCREMENT)
            self._may_borrow(manager, reader)
            self._collect(manager, reader, copy)
            copy.state = CopyState.ON_LOAN
            today = self.today()
            loan = Loan(member=reader, copy=copy, lent=today, due=today + LOAN_PERIOD)
            manager.persist(loan)
            return loan.id

        return self.app.retry(work)

    @staticmethod
    def _may_borrow(manager: EntityManager, reader: Member) -> None:
        if reader.barred:
            raise LibraryError(f"{reader.name} is barred")
        if reader.owes >= BARRED_FROM:
            raise LibraryError(f"{reader.name} owes {reader.owes}: fines are paid first")
        held = manager.one(
            "SELECT COUNT(l) FROM Loan l WHERE l.member = :reader AND l.returned IS NULL",
            reader=reader,
        )
        if held >= reader.most_loans:
            raise LibraryError(f"{reader.name} has {held} loans, and may have no more")

    @staticmethod
    def _collect(manager: EntityManager, reader: Member, copy: Copy) -> None:
        """Refuses a copy that this member can't have now, and ends the hold of one that she can."""
        if copy.reading_room:
            raise LibraryError(f"{copy.barcode} stays in the reading room")
        if copy.state is CopyState.HELD:
            hold = manager.one(
                "SELECT r FROM Reservation r WHERE r.held = :copy AND r.state = :ready",
                Reservation, copy=copy, ready=ReservationState.READY,
            )
            if hold.member is not reader:
                raise LibraryError(f"{copy.barcode} is held for another reader")
            hold.state, hold.held, hold.held_until = ReservationState.COLLECTED, None, None
        elif copy.state is not CopyState.ON_SHELF:
            raise LibraryError(f"{copy.barcode} is {copy.state.value}")

    def bring_back(self, barcode: str) -> BroughtBack:
        """Takes a copy back: a late one costs a fine, and one that is waited for is held."""

        def work(manager: EntityManager) -> BroughtBack:
            copy = found(manager, Copy, barcode)
            loan = manager.one_or_none(
                "SELECT l FROM Loan l WHERE l.copy = :copy AND l.returned IS NULL", Loan, copy=copy
            )
            if loan is None:
                raise LibraryError(f"{barcode} is not on loan")
            loan.returned = self.today()
            if loan.days_late(loan.returned):
                loan.fine = Fine(
                    loan=loan, member=loan.member, amount=loan.fine_due(loan.returned)
                )
            next_reader = self._release(manager, copy)
            return BroughtBack(loan.id, loan.fine and loan.fine.amount, next_reader)

        return self.app.retry(work)

    def _release(self, manager: EntityManager, copy: Copy) -> Optional[str]:
        """Holds a copy for who waits for it longest, whose name it tells, or shelves it."""
        # Who reserves the title meanwhile raises its version, and is seen at the next attempt.
        manager.lock(copy.title, LockModeType.OPTIMISTIC)
        waiting = manager.first(
            "SELECT r FROM Reservation r WHERE r.title = :title AND r.state = :waiting",
            Reservation, title=copy.title, waiting=ReservationState.WAITING,
        )
        if waiting is None:
            copy.state = CopyState.ON_SHELF
            return None
        waiting.hold(copy, self.today())
        return str(waiting.member.name)

    def extend(self, loan: int) -> date:
        """Lends a copy for another period; the day on which it is due then."""

        def work(manager: EntityManager) -> date:
            lent = found(manager, Loan, loan)
            title = lent.copy.title
            manager.lock(title, LockModeType.OPTIMISTIC)
            if lent.returned:
                raise LibraryError(f"{lent.copy.barcode} was brought back on {lent.returned}")
            if lent.days_late(self.today()):
                raise LibraryError(f"{lent.copy.barcode} was due on {lent.due}")
            if lent.extensions == MOST_EXTENSIONS:
                raise LibraryError(f"a loan is extended {MOST_EXTENSIONS} times at most")
            if any(each.state is ReservationState.WAITING for each in title.reservations):
                raise LibraryError(f"another reader waits for {title.name}")
            lent.extensions += 1
            lent.due += LOAN_PERIOD
            return lent.due

        return self.app.retry(work)

    def reserve(self, member: int, title: int) -> int:
        """Has the next copy held for a member, one that stands on a shelf at once; the number of
        the reservation.
        """

        def work(manager: EntityManager) -> int:
            reader, wanted = found(manager, Member, member), found(manager, Title, title)
            # It raises the version of the title, and locks its copies: so none is brought back, and
            # no other one is reserved, in a transaction that doesn't see this one.
            manager.lock(wanted, LockModeType.OPTIMISTIC_FORCE_INCREMENT)
            for copy in wanted.copies:
                manager.lock(copy, LockModeType.OPTIMISTIC)
            open_states = (ReservationState.WAITING, ReservationState.READY)
            if any(
                each.member is reader and each.state in open_states for each in wanted.reservations
            ):
                raise LibraryError(f"{reader.name} has reserved {wanted.name} already")
            reservation = Reservation(member=reader, title=wanted)
            for copy in wanted.copies:
                if copy.state is CopyState.ON_SHELF and not copy.reading_room:
                    reservation.hold(copy, self.today())
                    break
            manager.persist(reservation)
            return reservation.id

        return self.app.retry(work)

    def cancel(self, reservation: int) -> None:
        """Gives a reservation up; the copy that was held for it goes to the next reader."""

        def work(manager: EntityManager) -> None:
            given_up = found(manager, Reservation, reservation)
            if given_up.state in (ReservationState.COLLECTED, ReservationState.CANCELLED):
                raise LibraryError(f"reservation {reservation} is {given_up.state.value}")
            copy, given_up.state = given_up.held, ReservationState.CANCELLED
            given_up.held, given_up.held_until = None, None
            if copy is not None:
                self._release(manager, copy)

        self.app.retry(work)

    def pay(self, fine: int, amount: Decimal) -> Decimal:
        """Takes money for a fine; what is left to be paid."""

        def work(manager: EntityManager) -> Decimal:
            owed = found(manager, Fine, fine)
            if not 0 < amount <= owed.left:
                raise LibraryError(f"{owed.left} is left to be paid, and not {amount}")
            owed.paid += amount
            return owed.left

        return self.app.retry(work)

    def correct(
        self, title: int, version: int, name: str, published: Optional[int], subjects: List[str]
    ) -> None:
        """Gives a title what a form says that was filled in over this version of it."""

        def work(manager: EntityManager) -> None:
            stored = found(manager, Title, title)
            if stored.version != version:
                raise ChangedMeanwhile(f"{stored.name} was changed by somebody else meanwhile")
            stored.name, stored.published, stored.subjects = name, published, subjects

        self.app.retry(work)
