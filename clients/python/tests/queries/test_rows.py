"""Rows with names, lists as parameters, pages, and rows by the key, over the program."""

from __future__ import annotations

import copy
import pickle
import unittest
from typing import Any, Callable, List
from unittest import mock

import karzhoul
from karzhoul.queries.rewriting import counting, with_lists
from karzhoul.queries.rows import Names, Row, Rows

from ..support import ORDERS, ManagerTest, counted, needs_program


def named(text: str) -> Any:
    """A row of a query's text, whose items are their places."""
    names = Names(text)
    return Row(range(len(names.fields)), names)


class Items(unittest.TestCase):
    def test_an_item_has_its_as_name_or_its_path(self) -> None:
        row = named("SELECT o.person.name, o.amount AS price, p total, p, COUNT( o ) FROM Order o")
        self.assertEqual(row._fields, ("name", "price", "total", "p", "COUNT( o )"))
        self.assertEqual((row.name, row.price, row.total, row.p), (0, 1, 2, 3))
        self.assertEqual((row["o.person.name"], row["o.amount"], row["COUNT( o )"]), (0, 1, 4))
        self.assertEqual((row["amount"], row[1], row[-1], row[1:3]), (1, 1, 4, [1, 2]))

    def test_a_name_of_several_items(self) -> None:
        row = named("SELECT p.name, q.name, q.id AS id, p.id FROM Person p, Person q")
        self.assertEqual(row._fields, ("p.name", "q.name", "id", "p.id"))
        self.assertEqual((row["p.name"], row["q.name"], row.id, row["p.id"]), (0, 1, 2, 3))
        with self.assertRaisesRegex(AttributeError, "several items have the name 'name'"):
            row.name
        self.assertEqual(named("SELECT p.name, p.name FROM Person p")["p.name"], 0)

    def test_a_name_that_no_item_has(self) -> None:
        row = named("SELECT p.name, p.id FROM Person p")
        with self.assertRaisesRegex(AttributeError, "did you mean 'name'"):
            row.nmae
        with self.assertRaisesRegex(KeyError, "there are name, id"):
            row["zzz"]
        self.assertFalse(hasattr(row, "zzz"))

    def test_a_row_is_a_list(self) -> None:
        row = named("SELECT p.name, p.id FROM Person p")
        self.assertEqual(row, [0, 1])
        self.assertEqual(repr(row), "[0, 1]")
        self.assertIsInstance(row, list)
        self.assertEqual(row._asdict(), {"name": 0, "id": 1})
        self.assertEqual((row.index(1), row.count(0), row.copy()), (1, 1, [0, 1]))
        row.append(2)
        self.assertEqual(len(row), 3)
        self.assertLessEqual({"name", "id", "append"}, set(dir(row)))

    def test_an_item_whose_name_lists_have(self) -> None:
        row = named("SELECT p.index, p.sort FROM Person p")
        self.assertEqual((row.index, row.sort, row.count(1)), (0, 1, 1))

    def test_a_row_can_be_copied_and_pickled(self) -> None:
        row = named("SELECT p.index, p.id FROM Person p")
        for made in (copy.copy(row), copy.deepcopy(row), pickle.loads(pickle.dumps(row))):
            self.assertEqual((made, made.index, made.id), ([0, 1], 0, 1))
        rows = pickle.loads(pickle.dumps(Rows([row], row._names)))
        self.assertEqual((rows[0].id, rows._fields), (1, ("index", "id")))

    def test_a_text_that_this_client_does_not_know(self) -> None:
        self.assertEqual(Names("SELECT something new").fields, ())


class Lists(unittest.TestCase):
    def test_a_list_becomes_its_values(self) -> None:
        text = "SELECT p FROM Person p WHERE p.id IN :ids AND p.name NOT IN (:a, :names)"
        wanted = (
            "SELECT p FROM Person p WHERE p.id IN (:ids_1, :ids_2)"
            " AND p.name NOT IN (:a, :names_1)"
        )
        given = {"ids": (1, 2), "names": {"x"}, "a": "y"}
        values = {"ids_1": 1, "ids_2": 2, "names_1": "x", "a": "y"}
        self.assertEqual(with_lists(text, given), (wanted, values))

    def test_names_that_are_taken(self) -> None:
        text = "SELECT p FROM Person p WHERE p.id IN (?1) AND p.name = :_1_1"
        said, values = with_lists(text, {"1": [7], "_1_1": "x"})
        self.assertEqual(values, {"__1_1": 7, "_1_1": "x"})
        self.assertIn("IN (:__1_1)", said)

    def test_what_is_no_list(self) -> None:
        text = "SELECT p FROM Person p WHERE p.name IN (:a)"
        for value in ("abc", b"abc", bytearray(b"a"), None, 7):
            self.assertEqual(with_lists(text, {"a": value}), (text, {"a": value}))

    def test_a_list_that_stands_elsewhere(self) -> None:
        for text in ("p.id = :ids", "p.id IN (:ids) AND p.id = :ids", "p.id IN (1 + :ids)"):
            with self.assertRaisesRegex(TypeError, "'ids' is a list, which stands behind IN alone"):
                with_lists(f"SELECT p FROM Person p WHERE {text}", {"ids": [1]})
        with self.assertRaisesRegex(TypeError, "no parameter 'id': did you mean 'ids'"):
            with_lists("SELECT p FROM Person p WHERE p.id IN :ids", {"id": [1]})

    def test_a_list_that_is_too_long(self) -> None:
        with self.assertRaisesRegex(ValueError, "a list of 3,000 values .* 16,384 are the most"):
            with_lists("SELECT p FROM Person p WHERE p.id IN :ids", {"ids": range(3000)})

    def test_a_text_that_is_no_query(self) -> None:
        self.assertEqual(with_lists("SELECT", {"a": [1], "b": 2}), ("SELECT", {"b": 2}))


class Counts(unittest.TestCase):
    def test_what_is_counted_by_its_rows(self) -> None:
        for text in (
            "SELECT DISTINCT p.name FROM Person p",
            "SELECT COUNT(p) FROM Person p",
            "SELECT p.name FROM Person p GROUP BY p.name",
            "SELECT p.name FROM Person p GROUP BY p.name HAVING p.name > 'a'",
            "DELETE FROM Person p",
            "SELECT",
        ):
            self.assertIsNone(counting(text), text)
        self.assertEqual(
            counting("SELECT o.person.name FROM Order o WHERE (o.number = 1) ORDER BY o.number"),
            "SELECT COUNT(o) FROM Order o WHERE (o.number = 1)"
            " AND (o.person.name IS NULL OR o.person.name IS NOT NULL)",
        )


TEXTS = (
    "SELECT o FROM Order o",
    "SELECT o.number FROM Order AS o WHERE o.number > 0 OR o.amount = 2",
    "SELECT o.number, o.person.name FROM Order o",
    "SELECT o.number nr FROM Order o WHERE o.person.name = 'b' OR o.number < 0",
    "SELECT p, o.number FROM Person p JOIN p.orders o",
    "SELECT p.name, o FROM Person p LEFT JOIN p.orders o ON o.amount = 1",
    "SELECT o.number, p.name FROM Order o LEFT JOIN o.person p WHERE p.name IS NULL OR p.id > 1",
    "SELECT p.id, q.id FROM Person p, Person q WHERE p.name <> q.name",
    "SELECT p FROM Person p WHERE EXISTS (SELECT o FROM p.orders o WHERE o.amount = 3)",
    "SELECT o.number + 1 FROM Order o WHERE (o.number IN :some) OR (o.number = 5)",
    "SELECT o.number FROM Order o WHERE o.number NOT IN :none AND o.number IN (:some, 17, -3)",
)


@needs_program
class Pages(ManagerTest):
    """The persons a to d, of whom d has no order, and orders with the numbers -7 to 19, the last of
    which is nobody's."""

    mapping = ORDERS

    def setUp(self) -> None:
        super().setUp()
        persons = self.app.new_many("Person", [{"name": name} for name in "abcd"])
        rows: List[Any] = [{"number": n, "amount": n % 4, "person": persons[n % 3]} for n in range(-7, 19)]
        orders = self.app.new_many("Order", [*rows, {"number": 19}])
        with self.em.transaction():
            self.em.persist_all([*persons, *orders])

    def given(self, text: str) -> Any:
        return {name: value for name, value in GIVEN.items() if f":{name}" in text}

    def test_pages_have_the_rows_in_their_order(self) -> None:
        for text in TEXTS:
            wanted = self.em.query(text, **self.given(text))
            for size in (1, 3, len(wanted), 100):
                found: List[Any] = []
                number, has_next = 0, True
                while has_next:
                    number += 1
                    page = self.em.page(text, number, size, total=True, **self.given(text))
                    self.assertEqual((page.total, page.number, page.size), (len(wanted), number, size))
                    self.assertEqual((page.pages, page.has_previous), (-(-len(wanted) // size), number > 1))
                    found, has_next = found + page, page.has_next
                self.assertEqual((found, number), (wanted, page.pages), text)

    def test_a_total_of_groups_and_of_what_is_distinct(self) -> None:
        for text in (
            "SELECT DISTINCT o.amount FROM Order o",
            "SELECT o.amount, COUNT(o) AS n FROM Order o GROUP BY o.amount ORDER BY n DESC",
        ):
            page = self.em.page(text, 2, 2, total=True)
            self.assertEqual(page, self.em.query(text)[2:4])
            self.assertEqual((page.total, page.has_next), (5, True))
        self.assertIsNone(self.em.page(TEXTS[0], 1, 2).total)
        self.assertIsNone(self.em.page(TEXTS[0], 1, 2).pages)

    def test_a_page_and_its_total_are_of_one_moment(self) -> None:
        before = self.app.turn or 0
        self.em.page(TEXTS[0], 1, 5, total=True)
        self.assertEqual((self.app.turn or 0) - before, 1)

    def test_pages_beyond_the_rows(self) -> None:
        page = self.em.page("SELECT p FROM Person p", 3, 2, self.app.entity("Person"))
        self.assertEqual((page, page.has_next, page.has_previous), ([], False, True))
        for number, size in ((0, 1), (1, 0), (-1, 5)):
            with self.assertRaises(ValueError):
                self.em.page("SELECT p FROM Person p", number, size)

    def test_rows_by_the_key(self) -> None:
        for text in TEXTS:
            wanted = self.em.query(text, **self.given(text))
            for size in (1, 2, 3, 10, 1000):
                self.assertEqual(list(self.em.iterate(text, size, **self.given(text))), wanted, text)

    def test_rows_by_the_key_have_names(self) -> None:
        rows = list(self.em.iterate("SELECT o.number AS nr, o.amount FROM Order o", 5))
        self.assertEqual((rows[0].nr, rows[0].amount, rows[0]._fields), (-7, 1, ("nr", "amount")))
        with self.assertRaises(TypeError):
            list(self.em.iterate("SELECT o.number FROM Order o", 5, "Person"))

    def test_rows_by_the_key_are_asked_for_in_parts(self) -> None:
        with counted(self.app) as sent:
            rows = self.em.iterate("SELECT o.number FROM Order o", 10)
            self.assertEqual([next(rows) for _ in range(10)], list(range(-7, 3)))
            self.assertEqual(len(sent), 1)
            # What is stored meanwhile before the last row moves none, and what comes behind is found.
            with self.em.transaction():
                self.em.execute_update("DELETE FROM Order o WHERE o.number < 0 OR o.number = 4")
            self.assertEqual(list(rows), [3, *range(5, 20)])

    def test_what_has_no_rows_by_the_key(self) -> None:
        for text in (
            "SELECT DISTINCT o.amount FROM Order o",
            "SELECT o.amount FROM Order o GROUP BY o.amount",
            "SELECT o FROM Order o ORDER BY o.amount",
            "DELETE FROM Order o",
            "SELECT",
        ):
            with self.assertRaises(ValueError):
                self.em.iterate(text, 5)
        with self.assertRaises(KeyError):
            self.em.iterate("SELECT o FROM Nobody o", 5)
        with self.assertRaises(ValueError):
            self.em.iterate("SELECT o FROM Order o", 0)


GIVEN = {"some": [1, 3, 5, 99], "none": ()}


@needs_program
class Asked(ManagerTest):
    """Ada has the orders 1 and 2."""

    mapping = ORDERS

    def setUp(self) -> None:
        super().setUp()
        self.person = self.app.new("Person", name="Ada")
        self.orders = self.app.new_many("Order", [{"number": n, "amount": 5} for n in (1, 2)])
        with self.em.transaction():
            self.em.persist_all([self.person, *self.orders])

    def test_parameters_by_keyword(self) -> None:
        text = "SELECT o.number FROM Order o WHERE o.amount = :a AND o.number = ?1"
        self.assertEqual(self.em.query(text, a=5, params={1: 2}), [2])
        self.assertEqual(self.em.query_single("SELECT o FROM Order o WHERE o = :o", o=self.orders[1]), self.orders[1])
        with self.em.transaction():
            self.assertEqual(self.em.execute_update("UPDATE Order o SET o.amount = :x", x=7), 2)
        with self.assertRaisesRegex(TypeError, "'a' is given twice"):
            self.em.query(text, a=5, params={"a": 6})
        with self.assertRaisesRegex(TypeError, "handed in by params="):
            self.em.query(text, parms={"a": 6})

    def test_lists(self) -> None:
        text = "SELECT o.number FROM Order o WHERE o.number"
        for said, numbers, wanted in (
            ("IN :n", [2, 3], [2]),
            ("IN (:n)", (1, 2), [1, 2]),
            ("NOT IN :n", {2}, [1]),
            ("IN (7, :n)", range(2, 5), [2]),
            ("IN :n", [], []),
            ("NOT IN (:n)", [], [1, 2]),
        ):
            self.assertEqual(self.em.query(f"{text} {said}", n=numbers), wanted, said)
        self.assertEqual(self.em.query("SELECT p FROM Person p WHERE NOT p.name IN :n", n=[]), [self.person])
        self.assertEqual(self.em.query("SELECT o FROM Order o WHERE o IN :all", all=self.orders), self.orders)

    def test_one_row(self) -> None:
        text = "SELECT p.name, p.version AS v FROM Person p WHERE p.id = :id"
        self.assertEqual(self.em.one(text, id=1).name, "Ada")
        self.assertEqual(self.em.query_single(text, id=1).v, 0)
        self.assertIsNone(self.em.one_or_none(text, id=9))
        with self.assertRaises(karzhoul.NoResult):
            self.em.one(text, id=9)
        calls: List[Callable[[str], Any]] = [self.em.one, self.em.one_or_none]
        for call in calls:
            with self.assertRaises(karzhoul.NonUniqueResult):
                call("SELECT o FROM Order o")

    def test_the_first_row(self) -> None:
        text = "SELECT o.number, o.amount FROM Order o ORDER BY o.number DESC"
        with counted(self.app) as sent:
            self.assertEqual(self.em.first(text).number, 2)
        self.assertIn(b'"max":1', sent[0])
        self.assertIsNone(self.em.first("SELECT p FROM Person p WHERE p.id = 9"))

    def test_scalars(self) -> None:
        self.assertEqual(self.em.scalars("SELECT o.number, o.amount FROM Order o"), [1, 2])
        self.assertEqual(self.em.scalars("SELECT o.number FROM Order o", max=1), [1])

    def test_rows(self) -> None:
        rows = self.em.query("SELECT o.number, o.amount FROM Order o")
        self.assertEqual((rows._fields, rows.scalars(), rows.first().amount), (("number", "amount"), [1, 2], 5))
        self.assertEqual(rows.all(), [[1, 5], [2, 5]])
        with self.assertRaises(karzhoul.NonUniqueResult):
            rows.one()
        none = self.em.query("SELECT o.number, o.amount FROM Order o WHERE o.number = 9")
        self.assertEqual((none.first(), none.one_or_none(), none._fields), (None, None, ("number", "amount")))
        with self.assertRaises(karzhoul.NoResult):
            none.one()
        self.assertEqual(self.em.query("SELECT p FROM Person p").one(), self.person)

    def test_names_are_read_where_one_is_asked_for(self) -> None:
        with mock.patch("karzhoul.jpql.statements.statement_of", side_effect=AssertionError):
            rows = self.em.query("SELECT o.number, o.amount FROM Order o")
            self.assertEqual(rows[0][0], 1)


if __name__ == "__main__":
    unittest.main()
