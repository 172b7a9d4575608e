"""What the library keeps: nine entities, whose numbers are in karzhoul.lock.json beside it."""

from __future__ import annotations

import enum
import unicodedata
from datetime import date, datetime, timedelta, timezone
from decimal import Decimal
from typing import List, Optional

from karzhoul import (
    Entity, generated, json_text, key, many_to_many, many_to_one, money, one_to_many, one_to_one,
    validates, version,
)

LOAN_PERIOD = timedelta(days=28)
HOLD_PERIOD = timedelta(days=7)
MOST_EXTENSIONS = 2
FINE_A_DAY = Decimal("0.20")
MOST_FINE = Decimal("10.00")
BARRED_FROM = Decimal("5.00")


def folded(text: str) -> str:
    """The words of a text without case, accents and marks, each with one blank before it."""
    decomposed = unicodedata.normalize("NFKD", text.casefold())
    letters = [letter for letter in decomposed if not unicodedata.combining(letter)]
    words = "".join(letter if letter.isalnum() else " " for letter in letters).split()
    return "".join(f" {word}" for word in words)


class Role(enum.Enum):
    """What somebody of the staff does."""

    CLERK = "clerk"
    LIBRARIAN = "librarian"


class CopyState(enum.Enum):
    """Where a copy is."""

    ON_SHELF = "on the shelf"
    ON_LOAN = "on loan"
    HELD = "held for a reader"
    LOST = "lost"


class ReservationState(enum.Enum):
    """How far a reservation is."""

    WAITING = "waiting"
    READY = "ready to be collected"
    COLLECTED = "collected"
    CANCELLED = "cancelled"


class Record(Entity, abstract=True):
    """What all entities have whose key is a number."""

    id: int = generated()
    version: int = version()


class Stamped:
    """Knows when it was stored first."""

    created: Optional[datetime] = None

    def pre_persist(self) -> None:
        self.created = datetime.now(timezone.utc)


class Branch(Record):
    name: str
    city: str
    copies: List["Copy"] = one_to_many("branch")


class Author(Record):
    name: str
    titles: List["Title"] = many_to_many("authors")


class Title(Record):
    """A work, of which the branches have copies."""

    name: str
    published: Optional[int] = None
    subjects: List[str] = json_text()
    words: str = ""
    """Those of the name and the authors, by which it is searched and sorted."""
    authors: List[Author] = many_to_many()
    copies: List["Copy"] = one_to_many("title")
    reservations: List["Reservation"] = one_to_many("title")

    @validates("name")
    def with_words(self, value: str) -> str:
        name = " ".join(value.split())
        if not folded(name):
            raise ValueError("a title needs a name")
        return name

    def pre_persist(self) -> None:
        self.words = folded(" ".join([self.name, *(author.name for author in self.authors)]))

    def pre_update(self) -> None:
        self.pre_persist()


class Copy(Entity):
    barcode: str = key()
    version: int = version()
    title: Title = many_to_one()
    branch: Branch = many_to_one()
    state: CopyState = CopyState.ON_SHELF
    reading_room: bool = False
    """Whether it is read in the library, and never lent."""
    loans: List["Loan"] = one_to_many("copy")


class Member(Stamped, Record):
    name: str
    email: str
    joined: date
    barred: bool = False
    loans: List["Loan"] = one_to_many("member")
    reservations: List["Reservation"] = one_to_many("member")
    fines: List["Fine"] = one_to_many("member")

    most_loans = 5

    @validates("email")
    def with_a_host(self, value: str) -> str:
        name, at, host = value.strip().rpartition("@")
        if not (name and at and "." in host):
            raise ValueError(f"{value!r} is no address of electronic mail")
        return f"{name}@{host.lower()}"

    @property
    def owes(self) -> Decimal:
        return sum((fine.left for fine in self.fines), Decimal(0))


class Staff(Member):
    """Who works at a branch, and borrows as a member does."""

    role: Role
    branch: Branch = many_to_one()

    most_loans = 20


class Loan(Record):
    member: Member = many_to_one()
    copy: Copy = many_to_one()
    lent: date
    due: date
    returned: Optional[date] = None
    extensions: int = 0
    fine: Optional["Fine"] = one_to_one("loan", cascade="all")

    def days_late(self, today: date) -> int:
        return max(((self.returned or today) - self.due).days, 0)

    def fine_due(self, today: date) -> Decimal:
        return min(FINE_A_DAY * self.days_late(today), MOST_FINE)


class Reservation(Stamped, Record):
    member: Member = many_to_one()
    title: Title = many_to_one()
    state: ReservationState = ReservationState.WAITING
    held: Optional[Copy] = many_to_one()
    held_until: Optional[date] = None

    def hold(self, copy: Copy, today: date) -> None:
        copy.state = CopyState.HELD
        self.state = ReservationState.READY
        self.held, self.held_until = copy, today + HOLD_PERIOD


class Fine(Record):
    loan: Loan = one_to_one()
    member: Member = many_to_one()
    amount: Decimal = money(2)
    paid: Decimal = money(2, default=Decimal(0))

    @property
    def left(self) -> Decimal:
        return self.amount - self.paid
