"""Many objects that are brought over to other classes: by few calls, of which the log tells."""

from __future__ import annotations

import contextlib
import io
import logging
from decimal import Decimal
from typing import Any, Iterator, List
from unittest import mock

import karzhoul
from karzhoul.cli.telling import telling
from karzhoul.store.program import Program

from ..classed import ClassesTest
from ..support import needs_program

FIRST = """
class Tag(Entity):
    name: str = key()

class Ticket(Entity):
    id: int = generated()
    version: int = version()
    name: str
    price: Decimal | None = money(2)
    tags: list[Tag] = many_to_many()

class Pass(Ticket):
    days: int = 1
"""
COUNT = 240
UUIDS = "from uuid import uuid4\n"


@needs_program
class Many(ClassesTest):
    def setUp(self) -> None:
        super().setUp()
        it = self.module(FIRST)
        with self.open(it) as app, app.begin() as manager:
            tag = it.Tag(name="new")
            manager.persist(tag)
            for number in range(COUNT):
                kind = it.Pass if number % 3 else it.Ticket
                price = None if number == 7 else Decimal(number - 100) / 10
                ticket = kind(name=f"n{number}", price=price)
                ticket.tags.append(tag)
                manager.persist(ticket)

    @contextlib.contextmanager
    def brought_over(self, old: str, new: str, *, most: int) -> Iterator[Any]:
        """The classes with another text, which a store is opened with by so many exchanges with the
        program at most; and what is logged."""
        self.assertIn(old, FIRST)
        sent: List[int] = []
        replies = Program.replies

        def counting(program: Program, *given: Any) -> Any:
            sent.append(1)
            return replies(program, *given)

        with self.assertLogs("karzhoul", logging.INFO) as logged, mock.patch.object(Program, "replies", counting):
            app = self.open(UUIDS + FIRST.replace(old, new))
        self.assertLess(len(sent), most)
        self.logged = [each.getMessage() for each in logged.records]
        with app, app.begin() as manager:
            yield manager

    def test_money_of_fewer_digits(self) -> None:
        with self.brought_over("money(2)", "money(1)", most=40) as manager:
            found = manager.query("SELECT t.price, t.version FROM Ticket t ORDER BY t.id")
            self.assertEqual(list(map(list, found)), [[None if number == 7 else Decimal(number - 100) / 10, 0] for number in range(COUNT)])
        self.assertEqual(self.logged, [
            "Ticket.price: what is stored as money(2) becomes money(1)", "Ticket.price: 238 of 238 objects",
        ])

    def test_a_default_of_its_own_for_each(self) -> None:
        with self.brought_over("    name: str\n    price", "    name: str\n    mark: UUID = field(default_factory=uuid4)\n    price", most=40) as manager:
            self.assertEqual(len(set(manager.query("SELECT t.mark FROM Ticket t"))), COUNT)
        self.assertEqual(self.logged, ["Ticket.mark: 240 objects get its default", "Ticket.mark: 240 of 240 objects"])

    def test_one_default_for_all(self) -> None:
        with self.brought_over("    name: str\n    price", "    name: str\n    mark: int = 5\n    price", most=40) as manager:
            self.assertEqual(list(manager.query("SELECT DISTINCT t.mark FROM Ticket t")), [5])
        self.assertEqual(self.logged, ["Ticket.mark: 240 objects get its default"])

    def test_a_list_that_is_dropped(self) -> None:
        front, back = FIRST.partition("class Ticket(Entity):")[2].partition("    tags: list[Tag] = many_to_many()\n")[::2]
        old = f"class Ticket(Entity):{front}    tags: list[Tag] = many_to_many()\n"
        self.assertIn(back, FIRST)
        with self.brought_over(old, f"class Ticket(Entity, dropped=('tags',)):{front}", most=40) as manager:
            manager.remove(manager.get_reference("Tag", "new"))
        self.assertEqual(self.logged, ["Ticket.tags: what is stored as list becomes dropped"])

    def test_what_is_unique(self) -> None:
        with self.brought_over("    name: str\n    price", "    name: str = field(unique=True)\n    price", most=60) as manager:
            manager.get_reference("Ticket", 1).name = "n1"
            with self.assertRaises(karzhoul.NotUnique):
                manager.flush()
            manager.transaction().rollback()
        self.assertEqual(self.logged, ["Ticket.name is unique: 240 objects have got their keys"])


class Telling(ClassesTest):
    def test_a_command_tells_it_on_standard_error(self) -> None:
        said, logger = io.StringIO(), logging.getLogger("karzhoul")
        before = logger.level, list(logger.handlers)
        with contextlib.redirect_stderr(said), telling():
            logger.info("Ticket.price: %s of %s objects", "1,000", "2,000", extra={"objects": 2_000})
            logger.info("Ticket.price: %s of %s objects", 999, 999, extra={"objects": 999})
            logger.info("of nobody knows how many")
            logger.debug("a line")
        logger.info("no more")
        self.assertEqual(said.getvalue(), "karzhoul: Ticket.price: 1,000 of 2,000 objects\n")
        self.assertEqual((logger.level, list(logger.handlers)), before)
