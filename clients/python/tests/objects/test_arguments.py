"""What callers hand in by mistake, and the words that say what to hand in."""

from __future__ import annotations

import json
import os
import tempfile
import threading
import unittest
from functools import partial
from pathlib import Path
from typing import Any, Iterator, List, Type

import karzhoul
from ..support import PERSONS, PROGRAM, ProgramTest, needs_program, played

MANAGER = '> {"call":"createEntityManager"}\n< {"events":[],"ok":1}\n'


class Played(unittest.TestCase):
    """What is refused here is never sent: the stub takes no call but the manager's."""

    def refused(self, kind: Type[Exception], words: str, call: Any) -> None:
        with played(MANAGER, PERSONS) as app:
            manager = app.create_entity_manager()
            with self.assertRaises(kind) as caught:
                call(app, manager)
        self.assertIn(words, str(caught.exception))

    def test_an_entity_by_a_wrong_name(self) -> None:
        for name, words in (
            ("Persn", "there is no entity 'Persn': did you mean 'Person'?"),
            ("X", "there are Person, Place, Order"),
        ):
            self.refused(KeyError, words, lambda app, _, name=name: app.entity(name))
            self.refused(KeyError, words, lambda app, _, name=name: app.new(name))
            self.refused(KeyError, words, lambda app, _, name=name: app.new_many(name, [{}]))
        self.refused(
            TypeError, "by its name or its class, and not by 7", lambda app, _: app.entity(7)
        )

    def test_a_class_for_a_query(self) -> None:
        words = "a query is a text, as 'SELECT e FROM Person e', and not the class alone"
        for call in ("query", "query_single", "execute_update"):
            self.refused(
                TypeError,
                words,
                lambda app, manager, call=call: getattr(manager, call)(app.entity("Person")),
            )
        self.refused(
            TypeError,
            "a query is a text, and no bytes",
            lambda _, manager: manager.query(b"SELECT"),
        )

    def test_parameters_in_anothers_place(self) -> None:
        words = "parameters are handed in by name: query(text, params={..})"
        self.refused(
            TypeError, words, lambda _, manager: manager.query("SELECT p FROM Person p", {"n": 1})
        )
        self.refused(
            TypeError,
            "params is a dict",
            lambda _, manager: manager.query("SELECT p FROM Person p", params=[1]),
        )
        self.refused(
            TypeError,
            "the result class is an entity's, or another one as int, and not 7",
            lambda _, manager: manager.query("SELECT p FROM Person p", 7),
        )

    def test_a_parameter_that_has_the_name_of_a_number_of_rows(self) -> None:
        text = "SELECT p FROM Person p WHERE p.name = :max"
        words = "no str: a parameter :max is handed in by params={'max': ..}"
        for name in ("query", "one", "scalars"):
            self.refused(
                TypeError, words, lambda _, em, name=name: getattr(em, name)(text, max="Ada")
            )
        words = "first= is a number of rows, and no bool"
        self.refused(TypeError, words, lambda _, manager: manager.query(text, first=True))

    def test_a_parameter_that_has_the_name_of_another_word(self) -> None:
        for name, sort in (("end_program_after", "seconds"), ("timeout", "seconds")):
            self.refused(
                TypeError,
                f"{name}= is a number of {sort}, and no str: a parameter :{name} is handed in by "
                f"params={{'{name}': ..}}",
                lambda _, em, name=name: em.query("SELECT p FROM Person p", **{name: "a"}),
            )
        text = "SELECT p FROM Person p WHERE p.name = :result_class"
        self.refused(
            TypeError, "a parameter :result_class is handed in by params={'result_class': ..}",
            lambda _, manager: manager.query(text, result_class="Ada"),
        )
        for call in ("query", "one", "first", "one_or_none", "scalars", "explain"):
            self.refused(
                TypeError, "a query is a text, as 'SELECT p FROM Person p', and none is given",
                lambda _, manager, call=call: getattr(manager, call)(),
            )

    def test_a_callback_that_does_nothing(self) -> None:
        def generator(_: karzhoul.Event) -> Iterator[None]:
            yield

        async def coroutine(_: karzhoul.Event) -> None:
            pass

        words = "is a coroutine or a generator, and does nothing when it is called"
        for callback in (generator, coroutine, partial(generator)):
            self.refused(TypeError, words, lambda app, _, it=callback: app.listen(it))
        self.refused(
            TypeError, "a callback is a function of an event, and not 3",
            lambda app, _: app.listen(3),
        )

    def test_names_of_parameters(self) -> None:
        for name in (1.5, True, None):
            words = f"a text for its name, or a number for ?1, and not {name!r}"
            self.refused(
                TypeError,
                words,
                lambda _, manager, name=name: manager.query(
                    "SELECT p FROM Person p", params={name: 1}
                ),
            )

    def test_a_parameter_by_its_number(self) -> None:
        asked = (
            '> {"call":"query","em":1,"text":"SELECT ?1","params":{"1":7}}\n'
            '< {"events":[],"ok":[7]}\n'
        )
        with played(MANAGER + asked, PERSONS) as app:
            self.assertEqual(app.create_entity_manager().query("SELECT ?1", params={1: 7}), [7])


class Mappings(unittest.TestCase):
    def test_a_pipe_is_read_once_and_the_program_gets_a_file(self) -> None:
        with tempfile.TemporaryDirectory() as place:
            pipe = Path(place, "pipe")
            os.mkfifo(pipe)
            writing = threading.Thread(
                target=lambda: pipe.write_text(json.dumps(PERSONS), encoding="utf-8"), daemon=True
            )
            writing.start()
            with played("", str(pipe)) as app:
                self.assertEqual(app.mapping, PERSONS)
            writing.join(10)
            self.assertFalse(writing.is_alive())

    def test_an_open_pipe_by_its_number(self) -> None:
        reading, writing = os.pipe()
        self.addCleanup(os.close, reading)
        with os.fdopen(writing, "w", encoding="utf-8") as file:
            json.dump(PERSONS, file)
        with played("", f"/dev/fd/{reading}") as app:
            self.assertEqual(app.mapping, PERSONS)


@needs_program
class Served(ProgramTest):
    def test_parameters_that_are_called_text_and_self(self) -> None:
        asked = "SELECT p.name FROM Person p WHERE p.name = :text OR p.name = :self"
        given: Any = {"text": "Ada", "self": "Bob"}
        with self.app.begin() as manager:
            for name in ("Ada", "Bob", "Eve"):
                manager.persist(self.Person(name=name))
            self.assertEqual(manager.query(asked, **given), ["Ada", "Bob"])
            self.assertEqual(manager.scalars(asked, **given), ["Ada", "Bob"])
            self.assertEqual(manager.first(asked, **given), "Ada")
            self.assertEqual(list(manager.iterate(asked, **given)), ["Ada", "Bob"])
            self.assertEqual(list(manager.page(asked, 1, 1, **given)), ["Ada"])
            same: Any = {"text": "Eve", "self": "Eve"}
            self.assertEqual(manager.one(asked, **same), "Eve")
            self.assertEqual(manager.one_or_none(asked, **same), "Eve")
            self.assertEqual(manager.explain(asked, **given), ["looks at all of Person"])
            deleted = "DELETE FROM Person p WHERE p.name = :text OR p.name = :self"
            self.assertEqual(manager.execute_update(deleted, **given), 2)
            # A text may be said by its name, as it always could.
            self.assertEqual(manager.query(text="SELECT p.name FROM Person p"), ["Eve"])
            found = manager.one_or_none(
                text="SELECT p.name FROM Person p WHERE p.name = :name", name="Eve"
            )
            self.assertEqual(found, "Eve")

    def test_a_parameter_by_its_number(self) -> None:
        person = self.committed(name="Ada")
        found: List[karzhoul.Entity] = self.em.query(
            "SELECT p FROM Person p WHERE p.id = ?1", params={1: person.id}
        )
        self.assertEqual(found, [person])

    def test_a_mapping_of_a_pipe(self) -> None:
        reading, writing = os.pipe()
        self.addCleanup(os.close, reading)
        with os.fdopen(writing, "w", encoding="utf-8") as file:
            json.dump(PERSONS, file)
        with karzhoul.open(f"/dev/fd/{reading}", program=PROGRAM) as app:
            self.assertEqual(app.new("Person", name="Ada").name, "Ada")


if __name__ == "__main__":
    unittest.main()
