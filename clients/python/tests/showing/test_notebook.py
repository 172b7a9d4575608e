"""What a notebook shows, and what an interrupt leaves there."""

from __future__ import annotations

import importlib.util
import os
import subprocess
import sys
import unittest
from typing import Any, Dict
from xml.etree import ElementTree

import karzhoul

from ..support import HERE, PROGRAM, needs_program
from ..explain.test_explaining import UNIT

needs_ipython = unittest.skipUnless(
    importlib.util.find_spec("IPython"), "there is no IPython: a notebook's formatter isn't tried"
)
# What a kernel does: it runs cells one after the other, and an interrupt ends the cell alone.
_KERNEL = """
import os, signal, sys, threading, time
sys.path.insert(0, {folder!r})
import karzhoul
CELLS = [
    '''app = karzhoul.open({mapping!r}, program={program!r})
Person = app.entity("Person")
manager = app.create_entity_manager()
with manager.transaction():
    manager.persist_all([Person(name=f"p{{n}}") for n in range(200)])
transaction = manager.transaction().begin()
manager.persist(Person(name="not committed"))''',
    '''late(0.3)
manager.query_single("SELECT COUNT(p) FROM Person p, Person q, Person r "
    "WHERE p.name < q.name AND q.name < r.name")''',
    '''print(manager.query("SELECT COUNT(p) FROM Person p"))
transaction.commit()''',
    '''late(0.2)
time.sleep(30)''',
    '''print(len(app.create_entity_manager().query("SELECT p FROM Person p")))
app.close()''',
]
def late(seconds):
    # As the interrupt of a notebook, which comes from outside.
    main = threading.main_thread().ident
    threading.Timer(seconds, signal.pthread_kill, (main, signal.SIGINT)).start()
space = dict(karzhoul=karzhoul, late=late, time=time)
for cell in CELLS:
    try:
        exec(cell, space)
    except KeyboardInterrupt:
        print("interrupted")
"""


def cells(page: str) -> Any:
    """The texts of a table's cells by its rows; the table is well formed."""
    table = ElementTree.fromstring(page)
    return [["".join(cell.itertext()) for cell in row] for row in table.iter("tr")]


@needs_program
class Shown(unittest.TestCase):
    def setUp(self) -> None:
        self.app = karzhoul.open(UNIT, program=PROGRAM)
        self.addCleanup(self.app.close)
        self.Person, self.Order = self.app.entity("Person"), self.app.entity("Order")
        self.em = self.app.create_entity_manager()
        with self.em.transaction():
            ada = self.Person(name="<Ada> & co")
            orders = [self.Order(number=number, person=ada) for number in (7, 8)]
            self.em.persist_all([ada, self.Person(name="Bob"), *orders])

    def test_an_object(self) -> None:
        before = self.app.statistics().made
        found = self.app.create_entity_manager().get_reference("Person", 1)
        wanted = [
            ["id", "1"], ["version", "0"], ["name", "<Ada> & co"], ["desk", "Desk"],
            ["orders", "Order *"],
        ]
        self.assertEqual(cells(found._repr_html_()), wanted)
        self.assertEqual(self.app.statistics().made, before + 1, "a relation was loaded")
        self.assertEqual(cells(self.Person()._repr_html_())[0], ["id", "null"])

    def test_rows_of_objects(self) -> None:
        rows = self.em.query("SELECT p FROM Person p ORDER BY p.id")
        wanted = [["id", "version", "name"], ["1", "0", "<Ada> & co"], ["2", "0", "Bob"]]
        self.assertEqual(cells(rows._repr_html_()), wanted)
        self.assertIn("<caption>Person: 2 rows</caption>", rows._repr_html_())

    def test_rows_of_items(self) -> None:
        text = "SELECT o.number AS no, o.person, o.person.desk FROM Order o ORDER BY o.number"
        rows = self.em.query("SELECT o.number AS no, o.person FROM Order o ORDER BY o.number")
        wanted = [["no", "person"], ["7", "Person 1"], ["8", "Person 1"]]
        self.assertEqual(cells(rows._repr_html_()), wanted)
        self.assertEqual(cells(rows[0]._repr_html_()), wanted[:2])
        self.assertEqual(cells(self.em.query(text)._repr_html_())[0], ["no", "person", "desk"])
        rows = self.em.query("SELECT p.name FROM Person p ORDER BY p.id")
        self.assertEqual(cells(rows._repr_html_()), [["name"], ["<Ada> & co"], ["Bob"]])
        rows = self.em.query("SELECT p.name FROM Person p WHERE p.id > 7")
        self.assertEqual(cells(rows._repr_html_()), [["name"]])

    def test_pages_and_collections(self) -> None:
        page = self.em.page("SELECT p FROM Person p", 1, 1, total=True)
        self.assertIn("<caption>Person: 1 row, page 1 of 2</caption>", page._repr_html_())
        orders = self.app.create_entity_manager().get_reference("Person", 1).orders
        self.assertEqual(cells(orders._repr_html_()), [["number"], ["7"], ["8"]])

    def test_many_rows_are_not_all_shown(self) -> None:
        with self.em.transaction():
            self.em.persist_all([self.Person(name="a" * 1000) for _ in range(150)])
        shown = self.em.query("SELECT p FROM Person p")._repr_html_()
        self.assertEqual(len(cells(shown)), 101)
        self.assertIn("152 rows, the first 100 are shown", shown)
        self.assertLess(len(shown), 40_000)

    def test_where_nothing_can_be_asked(self) -> None:
        person = self.em.get_reference("Person", 1)
        rows = self.em.query("SELECT p FROM Person p ORDER BY p.id")
        with self.app.pipeline():
            self.app.set(person, "name", "Eve")
            self.assertIn("#", person._repr_html_())
            self.assertIn("Person #", rows._repr_html_())
            self.assertIsNone(person.orders._repr_html_())
            self.assertIsNotNone(self.app._calls, "what was kept is still kept")
        self.app.close()
        self.assertIn("#", person._repr_html_())
        self.assertIn("Person #", rows._repr_html_())

    def test_the_diagram(self) -> None:
        page = ElementTree.fromstring(self.app._repr_html_())
        self.assertEqual((page.tag, page.get("class")), ("div", "karzhoul"))
        texts = {each.text for each in page.iter("{http://www.w3.org/2000/svg}text")}
        self.assertTrue({"Person", "Order", "Item", "Desk"} <= texts)

    @needs_ipython
    def test_the_formatter_of_a_notebook(self) -> None:
        formatter = importlib.import_module("IPython.core.formatters").DisplayFormatter()
        person = self.em.get_reference("Person", 1)
        rows = self.em.query("SELECT p.id, p.name FROM Person p")
        for shown in (person, rows, rows[0], person.orders, self.app):
            data: Dict[str, Any] = formatter.format(shown)[0]
            self.assertEqual(data["text/html"], shown._repr_html_())


@needs_program
class Interrupted(unittest.TestCase):
    def test_the_session_goes_on(self) -> None:
        told = _KERNEL.format(folder=str(HERE.parent), mapping=UNIT, program=PROGRAM)
        ran = subprocess.run(
            [sys.executable, "-c", told], capture_output=True, text=True, timeout=100,
            env={**os.environ, "PYTHONDONTWRITEBYTECODE": "1"},
        )
        self.assertEqual(ran.stderr, "")
        self.assertEqual(ran.stdout.split("\n"), ["interrupted", "[201]", "interrupted", "201", ""])


if __name__ == "__main__":
    unittest.main()
