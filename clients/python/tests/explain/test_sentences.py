"""What a refusal says as a text, as in a log: the sentence, where explaining it asks the program
nothing."""

from __future__ import annotations

import logging
import pickle
import unittest
from typing import Any, Callable, Dict, List, Tuple, Type

import karzhoul

from ..support import PERSONS, ProgramTest, counted, needs_program, played


@needs_program
class Sentences(ProgramTest):
    def says(
        self, told: str, call: Callable[..., Any], *given: Any,
        kind: Type[karzhoul.Refused] = karzhoul.Refused, **named: Any
    ) -> karzhoul.Refused:
        """Has a call be refused, in these words, be they told at once or asked for."""
        with self.assertRaises(kind) as raised:
            call(*given, **named)
        refused = raised.exception
        with counted(self.app) as sent:
            self.assertEqual((str(refused), refused.explain()), (told, told))
        self.assertEqual(sent, [])
        self.assertEqual(str(pickle.loads(pickle.dumps(refused))), told)
        return refused

    def test_queries(self) -> None:
        self.says(
            "1:10: FORM: did you mean FROM? [IllegalArgument(syntax)]", self.em.query,
            "SELECT p FORM Person p",
        )
        refused = self.says(
            "1:10: nmae: Person has no member nmae: did you mean 'name'? "
            "[IllegalArgument(typing)]",
            self.em.query, "SELECT p.nmae FROM Person p",
        )
        self.assertEqual((refused.word, refused.detail), ("IllegalArgument(typing)", "typing"))
        self.says(
            "1:39: :name: the parameter 'name' isn't given: did you mean 'nam'? "
            "[IllegalArgument(parameter)]\n1:1: the query: the query has no parameter 'nam': did "
            "you mean 'name'? [IllegalArgument(parameter)]",
            self.em.query, "SELECT p FROM Person p WHERE p.name = :name", nam="a",
        )

    def test_queries_that_are_explained(self) -> None:
        """As those that are asked: the program judges them by words of its own."""
        cases: List[Tuple[str, Dict[str, Any], str]] = [
            ("SELECT p FORM Person p", {}, "1:10: FORM: did you mean FROM? [IllegalArgument(syntax)]"),
            ("SELECT p.nmae FROM Person p", {}, "1:10: nmae: Person has no member nmae: did you mean "
             "'name'? [IllegalArgument(typing)]"),
            ("SELECT p FROM Person p WHERE p.name = :name", {},
             "1:39: :name: the parameter 'name' isn't given [IllegalArgument(parameter)]"),
            ("SELECT p FROM Person p", {"n": 1},
             "1:1: the query: the query has no parameter 'n' [IllegalArgument(parameter)]"),
            ("DELETE FROM Person p", {}, "The text is no statement for this call: a SELECT is asked by "
             "query, an UPDATE or DELETE is done by execute_update."),
        ]
        for text, given, told in cases:
            with self.subTest(text):
                refused = self.says(told, self.em.explain, text, **given)
                with self.assertRaises(type(refused)) as raised:
                    self.em.query(text, **given)
                self.assertEqual(str(raised.exception), told)

    def test_a_text_that_the_program_alone_refuses(self) -> None:
        text = "SELECT p FROM Person p"
        lines = {
            '{"call":"createEntityManager"}': '{"events":[],"ok":1}',
            f'{{"call":"query","em":1,"text":"{text}"}}':
                '{"error":{"name":"IllegalArgument","no":6,"why":"syntax"},"events":[]}',
        }
        script = "".join(f"> {line}\n< {reply}\n" for line, reply in lines.items())
        with played(script, PERSONS) as app:
            with self.assertRaises(karzhoul.IllegalArgument) as raised:
                app.create_entity_manager().query(text)
        self.assertEqual(
            str(raised.exception),
            "the program can't read the text, in which the client finds nothing wrong: it may be older "
            "than what the text has; 'karzhoul --version' tells which one is started",
        )

    def test_names_values_and_keys(self) -> None:
        person = self.Person(name="Ada")
        self.says("there is no entity 'Persn': did you mean 'Person'?", self.em.find, "Persn", 1)
        self.says("Person.name is a text, and not 7", self.app.set, person, "name", 7)
        self.says("Person.id is a whole number, and not '1'", self.em.find, "Person", "1")
        self.says(
            "Person has no member 'nmae' of that sort: did you mean 'name'?", self.app.set, person,
            "nmae", "a",
        )

    def test_long_values_are_not_told_whole(self) -> None:
        """As in a log."""
        long = "x" * 60_000
        query = f"SELECT p FROM Person p WHERE p.id = '{long[:16_000]}'"
        calls: List[Tuple[str, Callable[[], Any]]] = [
            ("a whole number", lambda: self.app.set(self.Order(), "amount", long)),
            ("a whole number", lambda: self.em.find("Order", long)),
            ("[IllegalArgument(typing)]", lambda: self.em.query(query)),
        ]
        for word, call in calls:
            with self.assertRaises(karzhoul.IllegalArgument) as raised:
                call()
            told = str(raised.exception)
            self.assertLess(len(told), 600)
            self.assertIn("characters) ..", told)
            self.assertIn(word, told)

    def test_limits(self) -> None:
        person = self.Person(name="Ada")
        self.says(
            "a text or bytes have at most 65,535 bytes", self.app.set, person, "name", "x" * 65_536,
            kind=karzhoul.TextLimit,
        )
        self.says(
            "1:1: the query: the text has 16,407 bytes, and 16,384 are the most [Limit]",
            self.em.query, f"SELECT p FROM Person p{' ' * 16_385}", kind=karzhoul.QueryLimit,
        )

    def test_what_means_the_same_whatever_is_stored(self) -> None:
        self.says("A query for a single result found none.", self.em.one, "SELECT p FROM Person p")
        self.says(
            "The manager's transaction is not open: begin one first.", self.em.transaction().commit
        )
        self.says("column 9: there is no call 'x'", self.app.send_line, '{"call":"x"}')

    def test_a_transaction_that_was_marked_before(self) -> None:
        self.em.transaction().begin()
        with self.assertRaises(karzhoul.IllegalArgument):
            self.em.find("Persn", 1)
        line = '{"call":"find","em":1,"entity":"Persn","key":[1]}'
        self.says(
            "the transaction could only roll back, since this was refused: "
            f"IllegalArgument(entity) of {line}",
            self.em.transaction().commit, kind=karzhoul.Rollback,
        )

    def test_what_is_asked_for_stays_a_word(self) -> None:
        with self.assertRaises(karzhoul.Rollback) as raised, self.em.transaction():
            self.em.persist(self.Place(at=(1, "a", b"")))
        self.assertEqual(str(raised.exception), "Rollback(Persistence(null))")
        self.assertIn("label is null", raised.exception.explain())

    def test_what_is_said_is_of_the_moment_of_the_refusal(self) -> None:
        person = self.Person()
        refused = self.says("Person.name is a text, and not 7", self.app.set, person, "name", 7)
        self.app.close()
        self.assertEqual(str(refused), "Person.name is a text, and not 7")

    def test_in_a_log(self) -> None:
        with self.assertLogs("service", logging.ERROR) as log:
            try:
                self.em.find("Persn", 1)
            except karzhoul.Refused as refused:
                logging.getLogger("service").error("refused: %s", refused)
        wanted = "ERROR:service:refused: there is no entity 'Persn': did you mean 'Person'?"
        self.assertEqual(log.output, [wanted])

    def test_statistics_count_by_the_word(self) -> None:
        for name in ("Persn", "Ordr"):
            with self.assertRaises(karzhoul.Refused):
                self.em.find(name, 1)
        self.assertEqual(dict(self.app.statistics().refusals), {"IllegalArgument(entity)": 2})

    def test_a_text_that_this_client_can_t_read_is_refused_all_the_same(self) -> None:
        with self.assertRaises(karzhoul.IllegalArgument):
            self.em.query(f"SELECT p FROM Person p WHERE {'NOT ' * 3000}p.nmae = 'a'")
        self.assertEqual(self.em.query("SELECT p FROM Person p"), [])


if __name__ == "__main__":
    unittest.main()
