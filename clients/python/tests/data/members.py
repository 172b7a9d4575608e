"""Members of a library and their loans, as the README has them."""

from __future__ import annotations

from datetime import date
from decimal import Decimal
from enum import Enum
from typing import List

import karzhoul
from karzhoul import Entity, generated, key, many_to_one, money, one_to_many, version


class State(Enum):
    OPEN = "open"
    BACK = "back"


class Member(Entity):
    id: int = generated()
    version: int = version()
    name: str
    joined: date | None = None
    loans: list["Loan"] = one_to_many("member", cascade="all", orphan_removal=True)

    def is_barred(self, today: date) -> bool:
        return any(loan.state is State.OPEN and loan.due < today for loan in self.loans)


class Loan(Entity):
    number: int = key()
    member: Member = many_to_one()
    due: date
    fee: Decimal = money(2)
    state: State = State.OPEN


def lend(app: karzhoul.EntityManagerFactory, name: str, due: date) -> Member:
    """Stores a member with a loan."""
    with app.begin() as manager:
        member = Member(name=name)
        manager.persist(member)
        loan = Loan(number=1, member=member, due=due, fee=Decimal("1.50"))
        member.loans.append(loan)
    return member


def overdue(app: karzhoul.EntityManagerFactory, day: date) -> List[str]:
    """Who has a loan that was due before a day."""
    with app.begin() as manager:
        text = "SELECT l.member.name FROM Loan l WHERE l.due < :day AND l.state = :state"
        return manager.scalars(text, day=day, state=State.OPEN)
