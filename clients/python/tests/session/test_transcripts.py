"""Worked examples of all calls, played by a stub: the client sends exactly their lines, and gives
what their replies say.

The files data/*.txt have the lines of an example with the replies to them.
"""

from __future__ import annotations

import json
import re
import unittest
from typing import Any, Callable, Dict, Type

import karzhoul
from karzhoul import FlushModeType, LockModeType
from karzhoul.wire.lines import CALLS

from ..support import HERE, examples, played, present

Factory = karzhoul.EntityManagerFactory


def persons_and_orders() -> Any:
    """The mapping of persons and their orders, the first of the worked mappings."""
    return json.loads("\n".join(next(examples("mappings")).given))


def transcript(name: str) -> str:
    return (HERE / "data" / f"{name}.txt").read_text(encoding="utf-8")


class Transcripts(unittest.TestCase):
    def play(
        self,
        name: str,
        example: Callable[[Factory, karzhoul.EntityManager], None],
        mapping: Any = None,
    ) -> None:
        with played(transcript(name), mapping or persons_and_orders()) as app:
            example(app, app.create_entity_manager())
            # The stub ends where a line is left that wasn't sent, or one came that it doesn't have.
            with self.assertRaises(karzhoul.ProgramEnded) as raised:
                app.send_line('{"call":"the end"}')
            self.assertIn("and not nothing", str(raised.exception))

    def refuses(self, kind: Type[karzhoul.Refused], call: Callable[..., Any], *given: Any) -> Any:
        with self.assertRaises(kind) as raised:
            call(*given)
        return raised.exception

    def test_collections(self) -> None:
        def example(app: Factory, em: karzhoul.EntityManager) -> None:
            Person, Order = app.entity("Person"), app.entity("Order")
            told = []
            app.listen(lambda event: told.append((event.kind.value, event.object)))
            person = Person()
            first = Order(number=10, amount=5, person=person)
            second = Order(number=11, amount=7, person=person)
            person.orders.append(first)
            person.orders += [second, first]
            with em.transaction():
                em.persist(person)
            self.assertEqual(told[:3], [("PrePersist", each) for each in (person, first, second)])
            self.assertEqual(person.orders, [first, second, first])
            person.orders.remove(first)
            person.orders.remove(first)
            with em.transaction():
                em.flush()
                self.assertIsNone(em.find(Order, 10))
            self.assertIs(em.contains(first), False)
            with self.assertRaises(ValueError):
                person.orders.remove(first)

        self.play("collections", example)

    def test_locks(self) -> None:
        def example(app: Factory, em: karzhoul.EntityManager) -> None:
            Person = app.entity("Person")
            person = Person(name="Ada")
            with em.transaction():
                em.persist(person)
            with em.transaction():
                em.lock(person, LockModeType.READ)
                em.lock(person, LockModeType.WRITE)
            self.assertEqual(person.version, 1)
            person.name = "X"
            em.refresh(person)
            self.assertEqual(person.name, "Ada")
            self.assertIs(em.get_reference(Person, 1), person)
            self.refuses(karzhoul.EntityNotFound, em.get_reference, Person, 2)
            em.detach(person)
            self.assertEqual(
                self.refuses(karzhoul.IllegalArgument, em.refresh, person).detail, "state"
            )
            transaction = em.transaction().begin()
            transaction.set_rollback_only()
            self.refuses(karzhoul.Rollback, transaction.commit)

        self.play("locks", example)

    def test_queries(self) -> None:
        def example(app: Factory, em: karzhoul.EntityManager) -> None:
            Person = app.entity("Person")
            first = Person()
            transaction = em.transaction().begin()
            em.set_flush_mode(FlushModeType.COMMIT)
            em.persist(first)
            self.assertEqual(em.query("SELECT COUNT(p) FROM Person p"), [0])
            em.set_flush_mode(FlushModeType.AUTO)
            self.assertEqual(em.query("SELECT COUNT(p) FROM Person p"), [1])
            second = Person()
            em.persist(second)
            refused = self.refuses(
                karzhoul.NonUniqueResult, em.query_single, "SELECT p FROM Person p"
            )
            self.assertEqual([event.object for event in refused.events], [second])
            transaction.commit()
            self.refuses(
                karzhoul.NoResult, em.query_single, "SELECT p FROM Person p WHERE p.id = 9"
            )

        self.play("queries", example)

    def test_merge(self) -> None:
        def example(app: Factory, em: karzhoul.EntityManager) -> None:
            Person = app.entity("Person")
            person = Person(name="Ada")
            with em.transaction():
                em.persist(person)
            detached = Person(id=1, name="Eve")
            with em.transaction():
                self.assertIs(em.merge(detached), person)
            self.assertEqual(person.version, 1)
            stale = Person(id=1, version=0)
            transaction = em.transaction().begin()
            self.refuses(karzhoul.OptimisticLock, em.merge, stale)
            self.refuses(karzhoul.Rollback, transaction.commit)

        self.play("merge", example)

    def test_relations(self) -> None:
        def example(app: Factory, em: karzhoul.EntityManager) -> None:
            A, B = app.entity("A"), app.entity("B")
            one, two = A(), B()
            one.id = 1
            two.k = {"x": 2, "y": "a"}
            one.bs.extend([two, two])
            one.b = two
            with em.transaction():
                em.persist(two)
                em.persist(one)
            em.clear()
            found = present(em, B, (2, "a"))
            owner = found.a
            self.assertIs(type(owner), A)
            self.assertEqual(found.owners, [owner])
            second = A(id=5)
            second.b = found
            transaction = em.transaction().begin()
            em.persist(second)
            self.assertEqual(self.refuses(karzhoul.Persistence, em.flush).detail, "unique")
            self.refuses(karzhoul.Rollback, transaction.commit)

        self.play(
            "relations",
            example,
            json.loads((HERE / "data" / "relations.json").read_text(encoding="utf-8")),
        )

    def test_listeners(self) -> None:
        def example(app: Factory, em: karzhoul.EntityManager) -> None:
            first, second = app.new("Person", name="Ada"), app.new("Person", name="Bob")
            with em.transaction():
                em.persist(first)
                em.persist(second)
            transaction = em.transaction().begin()
            first.name = "A2"
            second.name = None
            refused = self.refuses(karzhoul.Listener, em.flush)
            self.assertEqual(refused.detail, "require name")
            self.assertEqual(
                [(event.object, event.ran) for event in refused.events],
                [(first, ("bump", "need", "seen")), (second, ("bump", "need"))],
            )
            self.assertIsNone(app.get(first, "hits"))
            self.refuses(karzhoul.Rollback, transaction.commit)

        self.play("listeners", example)

    def test_remove(self) -> None:
        def example(app: Factory, em: karzhoul.EntityManager) -> None:
            Person, Order = app.entity("Person"), app.entity("Order")
            person = Person()
            orders = [
                Order(number=number, amount=amount, person=person)
                for number, amount in ((10, 5), (11, 7))
            ]
            person.orders.extend([*orders, orders[0]])
            with em.transaction():
                em.persist(person)
            self.assertEqual(person.orders[:2], orders)
            em.clear()
            removed = []
            app.listen(
                lambda event: removed.append(event.object), karzhoul.LifecycleEvent.POST_REMOVE
            )
            again = present(em, Person, 1)
            with em.transaction():
                em.remove(again)
            self.assertIs(removed[0], again)
            self.assertEqual([type(each) for each in removed], [Person, Order, Order])

        self.play("remove", example)

    def test_statements(self) -> None:
        text = "UPDATE Person p SET p.name = :n WHERE p = :p"
        lines: Dict[str, str] = {
            '{"call":"createEntityManager"}': "1",
            '{"call":"new","entity":"Person"}': '{"object":1}',
            f'{{"call":"executeUpdate","em":1,"text":"{text}",'
            '"params":{"n":{"hex":"00ff"},"p":{"object":1}}}': "1",
            '{"call":"query","em":1,"text":"SELECT p, p.name FROM Person '
            'p","params":{},"first":0,"max":2}': (
                '[[{"object":1},"Ada"],[null,{"hex":"0a"}]]'
            ),
            '{"call":"close","em":1}': "null",
        }
        script = "".join(f'> {line}\n< {{"events":[],"ok":{ok}}}\n' for line, ok in lines.items())
        with played(script, persons_and_orders()) as app:
            Person = app.entity("Person")
            with app.create_entity_manager() as em:
                person = Person()
                self.assertEqual(em.execute_update(text, params={"n": b"\0\xff", "p": person}), 1)
                params: Dict[str, Any] = {}
                text = "SELECT p, p.name FROM Person p"
                rows = em.query(text, Person, params=params, first=0, max=2)
                self.assertEqual(rows[1], [None, b"\x0a"])
                self.assertIs(rows[0][0], person)
                self.assertEqual(rows[0][1], "Ada")


class Lines(unittest.TestCase):
    def test_every_call_is_played(self) -> None:
        files = "".join(path.read_text(encoding="utf-8") for path in (HERE / "data").glob("*.txt"))
        tests = HERE / "session"
        here = "".join(
            (tests / name).read_text(encoding="utf-8")
            for name in ("test_transcripts.py", "test_calls.py")
        )
        played_calls = set(re.findall(r'"call":"(\w+)"', files + here))
        self.assertEqual(set(CALLS) - played_calls - {"rollback"}, set())
        self.assertIn(".rollback()", here)


if __name__ == "__main__":
    unittest.main()
