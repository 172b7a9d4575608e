"""Readers with addresses and unique cards, and copies with keys of two parts."""

from __future__ import annotations

from typing import List, Optional
from uuid import UUID, uuid4

import karzhoul
from karzhoul import (
    Embedded, Entity, NotUnique, embedded, field, generated, key, many_to_many, many_to_one,
)


class Address(Embedded):
    street: Optional[str] = None
    city: str


class Reader(Entity, unique=("name", "home.city")):
    id: int = generated()
    name: str
    card: UUID = field(default_factory=uuid4, unique=True)
    notes: str = field(default="", init=False)
    home: Address = embedded()
    work: Optional[Address] = None


class Copy(Entity):
    isbn: str = key()
    number: int = key()
    holder: Optional[Reader] = many_to_one(default=None)
    wanted_by: List[Reader] = many_to_many()


def move(app: karzhoul.EntityManagerFactory, reader: int, city: str) -> bool:
    """Whether a reader has moved to a city, where no other one has the name."""
    try:
        with app.begin() as manager:
            found = manager.get_reference(Reader, reader)
            found.home = found.home.replace(city=city)
    except NotUnique as refused:
        print(refused)
        return False
    return True


def held_in(manager: karzhoul.EntityManager, city: str) -> List[Copy]:
    """The copies that readers of a city have."""
    text = "SELECT c FROM Copy c WHERE c.holder.home.city = :city ORDER BY c.isbn, c.number"
    return manager.query(text, Copy, city=city)
