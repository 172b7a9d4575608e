"""Many lines at a time, played by a stub: what is sent, in which order, and what comes of its
replies."""

from __future__ import annotations

import unittest
from typing import Iterable, List

import karzhoul

from ..support import PERSONS, played

NEW = '> {"call":"new","entity":"Order"}\n< {"events":[],"ok":{"object":1}}\n'
MANAGER = '> {"call":"createEntityManager"}\n< {"events":[],"ok":1}\n'
NULL = '{"events":[],"ok":null}'
REFUSED = '{"error":{"name":"IllegalArgument","no":6,"why":"type"},"events":[]}'


def sets(amounts: Iterable[int], refused: Iterable[int] = ()) -> str:
    """The lines that set the first object's amount, of which these are refused."""
    wrong = set(refused)
    line = '> {{"call":"set","object":1,"name":"amount","value":{}}}\n< {}\n'
    return "".join(line.format(amount, REFUSED if amount in wrong else NULL) for amount in amounts)


def find(key: int, reply: str) -> str:
    """The line that finds an order, with its reply."""
    return f'> {{"call":"find","em":1,"entity":"Order","key":[{key}]}}\n< {reply}\n'


class Pipelines(unittest.TestCase):
    def test_refusals_among_many_lines(self) -> None:
        wrong = [3, 64, 65, 199]
        with played(NEW + sets(range(200), wrong) + sets([7]), PERSONS) as app:
            order = app.new("Order")
            with self.assertRaises(karzhoul.IllegalArgument) as raised:
                with app.pipeline():
                    for amount in range(200):
                        order.amount = amount
            refused: List[karzhoul.KarzhoulError] = [raised.exception, *raised.exception.later]
            lines = [each.line for each in refused if isinstance(each, karzhoul.Refused)]
            self.assertEqual(
                lines,
                [
                    f'{{"call":"set","object":1,"name":"amount","value":{amount}}}'
                    for amount in wrong
                ],
            )
            order.amount = 7

    def test_events_of_many_lines(self) -> None:
        persists = "".join(
            f'> {{"call":"new","entity":"Order"}}\n< {{"events":[],"ok":{{"object":{number}}}}}\n'
            for number in range(1, 101)
        ) + "".join(
            f'> {{"call":"persist","em":1,"object":{number}}}\n'
            f'< {{"events":[["PrePersist",{number}]],"ok":null}}\n'
            for number in range(1, 101)
        )
        with played(MANAGER + persists, PERSONS) as app:
            told: List[object] = []
            app.listen(lambda event: told.append(event.object))
            em = app.create_entity_manager()
            made = app.new_many("Order", [{}] * 100)
            with app.pipeline():
                for order in made:
                    em.persist(order)
            self.assertEqual(told, made)

    def test_a_closed_program_takes_no_line(self) -> None:
        with played(NEW, PERSONS) as app:
            order = app.new("Order")
            app.close()
            with app.pipeline():
                with self.assertRaises(karzhoul.ProgramEnded):
                    order.amount = 1

    def test_a_close_within_a_pipeline_hands_in_what_was_told(self) -> None:
        with played(NEW + sets(range(70)), PERSONS) as app:
            order = app.new("Order")
            with app.pipeline():
                for amount in range(70):
                    order.amount = amount
                app.close()

    def test_a_program_that_ends_among_many_lines(self) -> None:
        with played(
            NEW + sets(range(100), [3]) + sets([100]).replace(f"< {NULL}", "! 4"), PERSONS
        ) as app:
            order = app.new("Order")
            with self.assertRaises(karzhoul.ProgramEnded) as raised:
                with app.pipeline():
                    for amount in range(200):
                        order.amount = amount
            self.assertEqual(raised.exception.status, 4)
            with self.assertRaises(karzhoul.ProgramEnded):
                order.amount = 1


class Answers(unittest.TestCase):
    def test_objects_nulls_events_and_refusals(self) -> None:
        script = [find(key, f'{{"events":[],"ok":{{"object":{key}}}}}') for key in range(100)]
        script[50] = find(50, NULL)
        script[51] = find(51, '{"events":[["PostLoad",7]],"ok":{"object":7}}')
        script[99] = find(99, REFUSED)
        numbers = [key for key in range(99) if key not in (50, 51)]
        shown = ",".join(
            f'{{"entity":"Order","relations":[],"values":[{key},null]}}' for key in numbers
        )
        asked = f'> {{"call":"values","objects":{numbers}}}\n< {{"events":[],"ok":[{shown}]}}\n'
        with played(MANAGER + "".join(script[:99]) + asked + script[99], PERSONS) as app:
            told: List[karzhoul.Event] = []
            em = app.create_entity_manager()
            app.listen(told.append)
            found = em.find_many("Order", range(99))
            self.assertIsNone(found[50])
            self.assertIs(found[51], found[7])
            self.assertEqual([event.object for event in told], [found[7]])
            self.assertEqual(
                [repr(each) for each in found[97:]], ["<Order number=97>", "<Order number=98>"]
            )
            with self.assertRaises(karzhoul.IllegalArgument) as raised:
                em.find_many("Order", [99])
            self.assertEqual(
                raised.exception.line, '{"call":"find","em":1,"entity":"Order","key":[99]}'
            )

    def test_a_reply_that_is_none(self) -> None:
        for reply in (
            '{"events":[],"ok":{"object":01}}', '{"events":[],"ok":{"object":}}', '{"events":[]}',
            "nothing", '{"events":[],"ok":{"object":1}',
        ):
            with self.subTest(reply), played(MANAGER + find(1, reply), PERSONS) as app:
                with self.assertRaises(ValueError):
                    app.create_entity_manager().find("Order", 1)


if __name__ == "__main__":
    unittest.main()
