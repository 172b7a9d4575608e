"""A library to try it with: the same one each time."""

from __future__ import annotations

import random
from datetime import date, timedelta
from typing import List

from karzhoul import Entity, EntityManager, EntityManagerFactory

from .entities import (
    LOAN_PERIOD, Author, Branch, Copy, CopyState, Loan, Member, Role, Staff, Title,
)

FIRST = "Ada Bela Cy Dora Edo Fina Gyula Hanne Iris Jan".split()
LAST = "Adler Brontë Čapek Durand Eliot Fønss Groß Høeg".split()
WHAT = "Garden River Winter Island Letter Mirror Harbour Orchard".split()
WHOSE = "the Clockmaker,the Sea,a Stranger,my Aunt,the North,Sisters,Łódź,the Bees".split(",")
SUBJECTS = "novel travel history nature".split()


def fill(app: EntityManagerFactory, today: date) -> bool:
    """Stores it, and answers True; does nothing where the store has branches already."""

    def work(manager: EntityManager) -> bool:
        if manager.first("SELECT b FROM Branch b") is not None:
            return False
        with app.pipeline():
            _fill(manager, today)
        return True

    return app.retry(work)


def _fill(manager: EntityManager, today: date) -> None:
    chance = random.Random(72)
    branches = [Branch(name=name, city="Ghent") for name in ("Main library", "Harbour", "South")]
    members = _members(chance, today, branches)
    copies = _copies(manager, chance, branches)
    loans = _loans(chance, today, members, copies)
    made: List[Entity] = [*branches, *members, *copies, *loans]
    manager.persist_all(made)


def _members(chance: random.Random, today: date, branches: List[Branch]) -> List[Member]:
    names = [f"{first} {last}" for last in LAST for first in FIRST]
    made: List[Member] = []
    for place, name in enumerate(names):
        mail = f"{name.split()[0].lower()}.{place}@example.org"
        joined = today - timedelta(days=chance.randrange(60, 3000))
        if place % 16 == 0:
            role = Role.LIBRARIAN if place % 32 == 0 else Role.CLERK
            branch = branches[place // 16 % len(branches)]
            made.append(Staff(name=name, email=mail, joined=joined, role=role, branch=branch))
        else:
            made.append(Member(name=name, email=mail, joined=joined))
    return made


def _copies(
    manager: EntityManager, chance: random.Random, branches: List[Branch]
) -> List[Copy]:
    authors = [Author(name=f"{chance.choice(FIRST)} {last}") for last in LAST]
    titles = [
        Title(
            name=f"The {what} of {whose}", published=chance.randrange(1850, 2020),
            authors=chance.sample(authors, chance.choice((1, 1, 1, 2))),
            subjects=chance.sample(SUBJECTS, 2),
        )
        for what in WHAT for whose in WHOSE
    ]
    manager.persist_all(authors)
    manager.persist_all(titles)
    made = [
        (title, branch)
        for title in titles for branch in chance.sample(branches, chance.choice((1, 2, 3)))
    ]
    return [
        Copy(barcode=f"B{place:05}", title=title, branch=branch, reading_room=place % 20 == 0)
        for place, (title, branch) in enumerate(made, 1)
    ]


def _loans(
    chance: random.Random, today: date, members: List[Member], copies: List[Copy]
) -> List[Loan]:
    lendable = [copy for copy in copies if not copy.reading_room]
    made = []
    for member, copy in zip(chance.sample(members, 40), chance.sample(lendable, 40)):
        lent = today - timedelta(days=chance.randrange(1, 50))
        copy.state = CopyState.ON_LOAN
        made.append(Loan(member=member, copy=copy, lent=lent, due=lent + LOAN_PERIOD))
    return made
