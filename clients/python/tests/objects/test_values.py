"""Objects are read by one line, and what was read is asked for again where it may have changed, and
there alone. Whatever is called, an attribute is what the program answers at that moment."""

from __future__ import annotations

import os
import random
import signal
import sys
import tempfile
import threading
import time
import unittest
import warnings
from pathlib import Path
from typing import Any, Callable, Dict, List, Optional, Sequence
from unittest import mock

import karzhoul
from karzhoul import Entity, FlushModeType, LifecycleEvent, LockModeType
from karzhoul.objects import shown
from karzhoul.refusals import KarzhoulError
from karzhoul.session.reading import Reader

from ..steps import interrupted_at_step
from ..support import ORDERS, PROGRAM, ManagerTest, counted, needs_program, present

# How many random calls are compared; 20,000 take a minute.
CALLS = int(os.environ.get("KARZHOUL_CALLS", "3000"))


def said(line: bytes) -> str:
    """The name of a line's call."""
    return line[9 : line.find(b'"', 9)].decode()


@needs_program
class Asked(ManagerTest):
    """Which lines are sent for what is read."""

    mapping = ORDERS

    def setUp(self) -> None:
        super().setUp()
        self.Person, self.Order = self.app.entity("Person"), self.app.entity("Order")
        with self.app.begin() as manager:
            for name in ("Ada", "Bob"):
                person = self.Person(name=name)
                manager.persist(person)
            for number in range(10, 15):
                manager.persist(self.Order(number=number, amount=number, person=person))

    def asked_by(self, work: Callable[[], object]) -> List[str]:
        """The calls that are made for work."""
        with counted(self.app) as sent:
            work()
        return [said(line) for line in sent]

    def test_an_object_that_was_found_is_read_by_one_line(self) -> None:
        ada = present(self.em, self.Person, 1)
        self.assertEqual(
            self.asked_by(lambda: (ada.id, ada.version, ada.name, repr(ada))), ["values"]
        )
        self.assertEqual((ada.id, ada.version, ada.name, repr(ada)), (1, 0, "Ada", "<Person id=1>"))
        self.assertEqual(self.asked_by(lambda: [ada.name for _ in range(100)]), [])

    def test_the_rows_of_a_query_are_read_by_one_line(self) -> None:
        def read() -> None:
            rows = self.em.query("SELECT p, o FROM Order o JOIN o.person p")
            self.assertEqual(
                [(p.name, o.number, o.amount) for p, o in rows],
                [("Bob", number, number) for number in range(10, 15)],
            )

        self.assertEqual(self.asked_by(read), ["query", "values"])

    def test_many_rows_are_read_by_a_few_lines(self) -> None:
        with self.app.begin() as manager:
            rows = [{"number": number} for number in range(100, 2600)]
            manager.persist_all(self.app.new_many("Order", rows))

        def read() -> None:
            rows = self.em.query("SELECT o FROM Order o WHERE o.number >= 100")
            self.assertEqual([order.number for order in rows], list(range(100, 2600)))

        self.assertEqual(self.asked_by(read), ["query"] + ["values"] * 3)

    def test_rows_that_lead_to_several_objects_are_made_at_once(self) -> None:
        with self.app.begin() as manager:
            eve = self.Person(name="Eve")
            manager.persist(eve)
            manager.persist(self.Order(number=20, amount=20, person=eve))
            manager.persist(self.Order(number=21))

        def read() -> None:
            rows = self.em.query("SELECT o FROM Order o")
            self.assertEqual([order.amount for order in rows], [*range(10, 15), 20, None])

        with mock.patch.object(Reader, "show", side_effect=AssertionError):
            self.assertEqual(self.asked_by(read), ["query", "values"])
        [last] = self.em.query("SELECT o FROM Order o WHERE o.number = 20")
        self.assertEqual(last.person.name, "Eve")

    def test_a_row_that_is_set_leaves_the_others_as_they_were_read(self) -> None:
        rows = self.em.query("SELECT o FROM Order o")
        rows[1].amount = 99
        self.assertEqual(self.asked_by(lambda: [it.amount for it in (rows[0], *rows[2:])]), [])
        self.assertEqual(self.asked_by(lambda: getattr(rows[1], "amount")), ["values"])
        self.assertEqual([it.amount for it in rows], [10, 99, 12, 13, 14])

    def test_members_of_a_collection_are_read_by_one_line(self) -> None:
        orders = present(self.em, self.Person, 2).orders
        read = self.asked_by(lambda: [order.amount for order in orders])
        self.assertEqual(read, ["get", "values"])
        self.assertEqual(self.asked_by(lambda: [order.amount for order in orders]), [])

    def test_rows_that_were_read_before_are_read_by_one_line(self) -> None:
        held = [self.em.query("SELECT o FROM Order o") for _ in range(2)]

        def work() -> None:
            for rows in held:
                self.assertEqual([order.amount for order in rows], list(range(10, 15)))

        self.assertEqual(self.asked_by(work), ["values"])
        found = self.em.find_many(self.Order, range(10, 15))
        held.append(self.em.query("SELECT o FROM Order o"))
        self.assertEqual(self.asked_by(work), ["values"])
        self.em.transaction().begin()
        self.em.flush()  # Now each is read for itself, lest 1,000 be read for one, again and again.
        self.assertEqual(self.asked_by(lambda: getattr(found[0], "amount")), ["values"])
        self.assertEqual(self.asked_by(work), ["values"] * 4)

    def test_many_objects_are_read_by_one_line(self) -> None:
        found: List[Any] = self.em.find_many(self.Order, range(10, 15))
        read: List[Any] = []

        def work() -> None:
            read.extend(self.app.get_many(found, "amount"))

        self.assertEqual((self.asked_by(work), read), (["values"], list(range(10, 15))))
        found[0].amount = 1
        read.clear()
        self.assertEqual((self.asked_by(work), read), (["values"], [1, 11, 12, 13, 14]))

    def test_calls_that_change_nothing_have_nothing_asked(self) -> None:
        ada = present(self.em, self.Person, 1)
        ada.name
        with self.app.create_entity_manager() as other:
            bob = present(other, self.Person, 2)
            with other.transaction():  # Another manager's calls.
                bob.name = "Cy"
                other.flush()
                other.refresh(bob)
        self.em.find(self.Order, 10)
        self.em.contains(bob)
        self.em.transaction().begin()
        self.app.new("Person").name = "Eve"
        list(ada.orders)
        self.em.clear()
        self.assertEqual(self.asked_by(lambda: ada.name), [])

    def test_calls_that_may_change_it_have_it_asked_again(self) -> None:
        ada, bob = (present(self.em, self.Person, key) for key in (1, 2))
        self.em.transaction().begin()
        for work in (
            lambda: self.app.set(ada, "name", "Cy"), lambda: setattr(ada, "name", "Dan"),
            lambda: self.em.refresh(bob), self.em.flush,
            lambda: self.em.query("SELECT o FROM Order o"),
            lambda: self.em.persist(self.app.new("Person")),
            lambda: self.app.send_line('{"call":"createEntityManager"}'),
            self.em.transaction().commit,
        ):
            ada.name
            work()
            self.assertEqual(self.asked_by(lambda: ada.name), ["values"])
        self.assertEqual((ada.name, ada.version, bob.version), ("Dan", 1, 0))

    def test_a_line_of_one_s_own(self) -> None:
        ada = present(self.em, self.Person, 1)
        for place, line in enumerate((
            '{"call":"get","object":%d,"name":"name","call":"set","value":"A0"}',
            ' {"call":"set","object":%d,"name":"name","value":"A1"}',
            '{"object":%d,"call":"set","name":"name","value":"A2"}',
            '{"call":"\\u0073et","object":%d,"name":"name","value":"A3"}',
        )):
            ada.name
            try:
                self.app.send_line(line % ada._karzhoul_number)
            except karzhoul.BadLine:
                continue
            self.assertEqual(ada.name, f"A{place}")
        self.assertEqual(ada.name, self.app.ask(
            "get", object=str(ada._karzhoul_number), name='"name"'
        ))

    def test_what_is_kept_in_a_pipeline_is_read(self) -> None:
        ada, bob = (present(self.em, self.Person, key) for key in (1, 2))
        ada.name, bob.name
        with counted(self.app) as sent, self.app.pipeline():
            ada.name = "Cy"
            self.assertEqual((bob.name, sent), ("Bob", []))
            self.assertEqual(ada.name, "Cy")
        with self.app.pipeline():
            for person in (ada, bob):
                person.name = f"{person.name}!"
        self.assertEqual((ada.name, bob.name), ("Cy!", "Bob!"))

    def test_an_embedded_id_and_bytes(self) -> None:
        mapping: Any = {
            "revision": 1,
            "entities": [
                {
                    "name": "Scan", "table": 1, "embedded": "at",
                    "key": [{"name": "row", "type": "int"}, {"name": "tag", "type": "bytes"}],
                    "attributes": [
                        {"name": "image", "type": "bytes", "column": 1},
                        {"name": "text", "type": "text", "column": 2},
                    ],
                },
                {
                    "name": "Page", "extends": "Scan",
                    "attributes": [{"name": "number", "type": "int", "column": 3}],
                },
            ],
        }
        told = '{"hex":"00"}]},{"entity":"Page","values":['
        with karzhoul.open(mapping, program=PROGRAM) as app:
            em = app.create_entity_manager()
            with em.transaction():
                em.persist(app.new("Scan", at=(1, b"\0"), image=b"\xff", text=told))
                em.persist(app.new("Page", at=(2, b""), image=None, text='"', number=-(2**63)))
            em.clear()
            with counted(app) as sent:
                first, second = em.query("SELECT s FROM Scan s")
                self.assertEqual((tuple(first.at), first.image), ((1, b"\0"), b"\xff"))
                self.assertEqual(first.text, told)
                self.assertEqual((second.at.row, second.at.tag, second.text), (2, b"", '"'))
                self.assertEqual((second.image, second.number), (None, -(2**63)))
                self.assertEqual(first.at, (1, b"\0"))
            self.assertEqual([said(line) for line in sent], ["query", "values"])
            self.assertEqual([type(it).__name__ for it in (first, second)], ["Scan", "Page"])

    def test_once_the_program_has_ended_nothing_is_read(self) -> None:
        ada = present(self.em, self.Person, 1)
        ada.name
        self.app.close()
        with self.assertRaises(karzhoul.ProgramEnded):
            ada.name

    def test_a_program_that_dies(self) -> None:
        ada = present(self.em, self.Person, 1)
        ada.name
        os.kill(self.app.program.pid, signal.SIGKILL)
        with self.assertRaises(karzhoul.ProgramEnded):
            self.em.find(self.Person, 2)
        with self.assertRaises(karzhoul.ProgramEnded):
            ada.name

    def test_a_restart(self) -> None:
        with tempfile.TemporaryDirectory() as place:
            with karzhoul.open(ORDERS, Path(place, "app.db"), program=PROGRAM) as app:
                with app.begin() as manager:
                    ada = app.new("Person", name="Ada")
                    manager.persist(ada)
                ada.name
                app.restart()
                with self.assertRaises(karzhoul.Restarted):
                    ada.name
                with self.assertRaises(karzhoul.Restarted):
                    app.get(ada, "name")
                bob = app.new("Person", name="Bob")
                self.assertEqual(bob.name, "Bob")
                with self.assertRaises(karzhoul.Restarted):
                    ada.name


@needs_program
class Between(ManagerTest):
    """What comes between a line that asks for values and the moment that an object has them."""

    mapping = ORDERS

    def setUp(self) -> None:
        super().setUp()
        with self.app.begin() as manager:
            manager.persist(self.app.new("Person", name="Ada"))

    def test_a_signal_s_handler_that_sets_it(self) -> None:
        # At each step of the reading at which a handler may run.
        foresight = self.app.entity("Person")._karzhoul_foresight
        for at in range(1, 100):
            self.em.clear()
            for _ in range(3):
                foresight.note(False)  # So that she isn't read with her find.
            ada = present(self.em, "Person", 1)
            if not self.read_with(at, lambda: ada.name, lambda: setattr(ada, "name", f"A{at}")):
                break
            self.assertEqual(ada.name, f"A{at}")
        self.assertGreater(at, 10)

    def test_a_signal_s_handler_that_sets_what_is_read_with_its_find(self) -> None:
        foresight = self.app.entity("Person")._karzhoul_foresight
        for at in range(1, 100):
            self.em.clear()
            for _ in range(3):
                foresight.note(True)

            def change() -> None:
                present(self.em, "Person", 1).name = f"A{at}"

            found: List[Any] = []
            work = lambda: found.append(present(self.em, "Person", 1))  # noqa: E731
            if not self.read_with(at, work, change):
                break
            self.assertEqual(found[0].name, f"A{at}")
            self.assertIs(present(self.em, "Person", 1), found[0])
        self.assertGreater(at, 10)

    def test_a_find_that_is_interrupted_refuses_nothing(self) -> None:
        person = self.app.entity("Person")
        for at in range(1, 100):
            for _ in range(3):
                person._karzhoul_foresight.note(True)
            if not interrupted_at_step(at, lambda: self.em.find(person, 9)):
                break
            self.assertIsNone(self.em.find(person, 9))
        self.assertGreater(at, 10)
        self.assertEqual(self.app.statistics().refusals, {})

    def test_who_listens_while_a_find_waits_hears_of_it(self) -> None:
        foresight = self.app.entity("Person")._karzhoul_foresight
        for _ in range(3):
            foresight.note(True)
        told: List[Any] = []
        finding = threading.Thread(target=present, args=(self.em, "Person", 1))
        with self.app._lock:
            finding.start()
            time.sleep(0.2)
            self.app.listen(lambda event: told.append(event.kind), LifecycleEvent.POST_LOAD)
        finding.join()
        self.assertEqual(told, [LifecycleEvent.POST_LOAD])

    def test_a_signal_s_handler_that_sets_what_a_query_finds(self) -> None:
        text = "SELECT p FROM Person p"
        for at in range(1, 100):
            self.em.clear()

            def change() -> None:
                present(self.em, "Person", 1).name = f"A{at}"

            found: List[Any] = []
            if not self.read_with(at, lambda: found.extend(self.em.query(text)), change):
                break
            self.assertEqual(found[0].name, f"A{at}")
        self.assertGreater(at, 10)

    def test_an_interrupt_of_what_changes_it(self) -> None:
        ada = present(self.em, "Person", 1)

        def interrupt() -> None:
            raise KeyboardInterrupt

        for at in range(1, 100):
            ada.name
            name = f"A{at}"
            try:
                if not self.read_with(at, lambda: setattr(ada, "name", name), interrupt):
                    break
            except KeyboardInterrupt:
                pass
            read = ada.name
            number = str(ada._karzhoul_number)
            self.assertEqual(read, self.app.ask("get", object=number, name='"name"'))
        self.assertGreater(at, 10)

    def read_with(self, at: int, work: Callable[[], object], handler: Callable[[], object]) -> bool:
        """Does work, within which a handler is called at a step of this number, as of a signal, but
        where that is refused; whether work has as many."""
        left, package = at, str(Path(karzhoul.__file__).parent)
        ran = False

        def profile(frame: Any, event: str, _: object) -> None:
            nonlocal left, ran
            if event not in ("call", "c_return") or ran:
                return
            if not frame.f_code.co_filename.startswith(package + os.sep):
                return
            left -= 1
            if left == 0:
                ran = True
                sys.setprofile(None)
                try:
                    handler()
                except RuntimeError:
                    left = 1  # Within a call that waits: at the next step.
                    ran = False
                    sys.setprofile(profile)

        sys.setprofile(profile)
        try:
            work()
        finally:
            sys.setprofile(None)
        return ran

    def test_another_thread_that_sets_it(self) -> None:
        order = self.app.new("Order", number=1, amount=0)
        with self.em.transaction():
            self.em.persist(order)
        done, wrong = [0], []
        is_over = threading.Event()

        def read() -> None:
            while not is_over.is_set():
                least = done[0]
                amount = order.amount
                if not least <= amount <= done[0] + 1:
                    wrong.append((least, amount))

        readers = [threading.Thread(target=read) for _ in range(2)]
        for reader in readers:
            reader.start()
        for amount in range(1, 1500):
            order.amount = amount
            done[0] = amount
        is_over.set()
        for reader in readers:
            reader.join()
        self.assertEqual((wrong, order.amount), ([], 1499))


WOVEN: Dict[str, Any] = {
    "revision": 1,
    "entities": [
        {
            "name": "Node", "table": 1, "key": [{"name": "id", "type": "int"}], "generated": True,
            "version": {"name": "version", "column": 1},
            "attributes": [
                {"name": "name", "type": "text", "column": 2},
                {"name": "loads", "type": "int", "column": 3},
                {"name": "writes", "type": "int", "column": 4},
            ],
            "relations": [
                {
                    "name": "parent", "kind": "manyToOne", "target": "Node", "column": 5,
                    "cascade": ["PERSIST", "MERGE", "REFRESH"],
                },
                {
                    "name": "children", "kind": "oneToMany", "target": "Node", "mappedBy": "parent",
                    "cascade": ["ALL"], "orphanRemoval": True,
                },
            ],
            "listeners": [
                {"name": "loaded", "events": ["PostLoad"]},
                {
                    "name": "written",
                    "events": [
                        "PrePersist", "PreUpdate", "PreRemove", "PostPersist", "PostUpdate",
                        "PostRemove",
                    ],
                },
            ],
        },
        {
            "name": "Leaf", "extends": "Node",
            "attributes": [{"name": "green", "type": "int", "column": 6}],
        },
        {
            "name": "Tag", "table": 2, "key": [{"name": "code", "type": "int"}],
            "attributes": [{"name": "label", "type": "text", "column": 1}],
            "relations": [
                {
                    "name": "nodes", "kind": "manyToMany", "target": "Node", "joinTable": 3,
                    "cascade": ["ALL"],
                }
            ],
        },
    ],
    "functions": [
        {"name": "loaded", "make": "count", "attribute": "loads"},
        {"name": "written", "make": "count", "attribute": "writes"},
    ],
}


class Walk:
    """Random calls over a few managers and the objects that they hand out."""

    MANAGERS, OBJECTS = 3, 24

    def __init__(self, app: karzhoul.EntityManagerFactory, seed: int) -> None:
        self.app, self.random = app, random.Random(seed)
        self.managers = [app.create_entity_manager() for _ in range(self.MANAGERS)]
        self.objects: List[Any] = []
        self.codes = 0
        # A new object that is given another one has the client hear of what is persisted from then on.
        self.versions: Sequence[Optional[int]] = range(100) if app._events.callbacks else (None, 0)

    def hold(self, found: Any) -> None:
        """Holds the objects of an answer, a few in all."""
        for each in found if isinstance(found, list) else [found]:
            if isinstance(each, list):
                self.hold(list(each))
            elif isinstance(each, Entity) and each not in self.objects:
                self.objects.append(each)
        while len(self.objects) > self.OBJECTS:
            self.objects.pop(self.random.randrange(len(self.objects)))

    def step(self) -> str:
        """One call, or a few; what it was."""
        name = self.random.choice(self.STEPS)
        try:
            self.hold(getattr(self, name)(self.random.choice(self.managers)))
        except (KarzhoulError, LookupError, karzhoul.WrongValue):
            pass
        return name

    def any(self, *kinds: str) -> Any:
        """An object of one of these classes, which is made where none is held."""
        held = [it for it in self.objects if not kinds or type(it).__name__ in kinds]
        return self.random.choice(held) if held else self.app.new(kinds[0] if kinds else "Node")

    def node(self) -> Any:
        return self.any("Node", "Leaf")

    def new(self, _: Any) -> Any:
        self.codes += 1
        name, values = self.random.choice(
            (("Node", {"name": "new"}), ("Leaf", {"green": 1}), ("Tag", {"code": self.codes}))
        )
        return self.app.new(name, **values)  # type: ignore[arg-type]

    def set(self, _: Any) -> None:
        it = self.any()
        name = self.random.choice(list(type(it)._karzhoul_places))
        value: Any = "text" if name in ("name", "label") else self.random.randrange(100)
        self.app.set(it, name, self.random.choice(self.versions) if name == "version" else value)

    def set_by_its_attribute(self, _: Any) -> None:
        it = self.any()
        setattr(it, "label" if type(it).__name__ == "Tag" else "name", str(self.random.random()))

    def link(self, _: Any) -> None:
        self.node().parent = self.random.choice((None, self.node()))

    def add(self, _: Any) -> None:
        self.random.choice((self.node().children, self.any("Tag").nodes)).append(self.node())

    def take_out(self, _: Any) -> None:
        members = self.random.choice((self.node().children, self.any("Tag").nodes))
        if len(members):
            members.remove(self.random.choice(members))

    def look(self, _: Any) -> Any:
        it = self.node()
        return [it.parent, *it.children]

    def look_at_a_tag(self, _: Any) -> Any:
        return list(self.any("Tag").nodes)

    def begin(self, em: Any) -> None:
        em.transaction().begin()

    def commit(self, em: Any) -> None:
        em.transaction().commit()

    def rollback(self, em: Any) -> None:
        if self.random.random() < 0.3:
            em.transaction().rollback()

    def flush(self, em: Any) -> None:
        em.flush()

    def persist(self, em: Any) -> None:
        em.persist(self.any())

    def remove(self, em: Any) -> None:
        em.remove(self.any())

    def refresh(self, em: Any) -> None:
        em.refresh(self.any())

    def merge(self, em: Any) -> Any:
        return em.merge(self.any())

    def detach(self, em: Any) -> None:
        em.detach(self.any())

    def clear(self, em: Any) -> None:
        if self.random.random() < 0.2:
            em.clear()

    def lock(self, em: Any) -> None:
        em.lock(self.node(), self.random.choice(list(LockModeType)))

    def find(self, em: Any) -> Any:
        return em.find(self.random.choice(("Node", "Leaf")), self.random.randrange(1, 30))

    def find_a_tag(self, em: Any) -> Any:
        return em.find("Tag", self.random.randrange(1, self.codes + 2))

    def find_many(self, em: Any) -> Any:
        return em.find_many("Node", range(1, 6))

    def refer(self, em: Any) -> Any:
        return em.get_reference("Node", self.random.randrange(1, 30))

    def query(self, em: Any) -> Any:
        return em.query("SELECT n, n.parent FROM Node n WHERE n.id < 9")

    def query_single(self, em: Any) -> Any:
        return em.query_single("SELECT n FROM Node n WHERE n.id = 2")

    def update(self, em: Any) -> None:
        em.execute_update("UPDATE Node n SET n.loads = 7 WHERE n.id = 3")

    def set_mode(self, em: Any) -> None:
        em.set_flush_mode(self.random.choice(list(FlushModeType)))

    def set_rollback_only(self, em: Any) -> None:
        if self.random.random() < 0.2:
            em.transaction().set_rollback_only()

    def close(self, em: Any) -> None:
        if self.random.random() < 0.2:
            em.close()  # Refused where its transaction is open.
            self.managers[self.managers.index(em)] = self.app.create_entity_manager()

    def pipeline(self, em: Any) -> None:
        with self.app.pipeline():
            for _ in range(3):
                self.set_by_its_attribute(em)
            em.persist(self.any())

    def line(self, _: Any) -> None:
        self.app.send_line(
            f'{{"object":{self.any()._karzhoul_number},"call":"set","name":"name","value":"raw"}}'
        )

    STEPS = [
        name for name in tuple(vars())
        if not name.startswith("_") and name not in ("hold", "step", "any", "node", "MANAGERS",
                                                      "OBJECTS")
    ] + ["begin", "persist", "commit", "flush"]


def differences(app: karzhoul.EntityManagerFactory, objects: List[Any]) -> List[Any]:
    """Where attributes aren't what the program answers when it is asked for each of them."""
    lines, read = [], []
    for it in objects:
        for name in type(it)._karzhoul_places:
            read.append((it._karzhoul_number, name, getattr(it, name)))
            lines.append(it._karzhoul_run.get_line(it, name))
    answers = app.ask_lines(None, lines)
    return [(it, answer) for it, answer in zip(read, answers) if it[2] != answer]


def walked(seed: int, calls: int, callback: Optional[Callable[[Any], None]] = None) -> str:
    """Walks so many calls and compares a few objects after each; the first difference."""
    with warnings.catch_warnings(), karzhoul.open(WOVEN, program=PROGRAM) as app:
        warnings.simplefilter("ignore", RuntimeWarning)  # Of managers that are closed early.
        if callback is not None:
            app.listen(callback)
        walk, steps = Walk(app, seed), []
        for number in range(calls):
            steps.append(walk.step())
            if number % 400 == 399:  # So that the context stays small.
                for em in walk.managers:
                    em.clear()
            few = walk.random.sample(walk.objects, min(4, len(walk.objects)))
            if found := differences(app, few):
                return f"seed {seed}, call {number}: {found} after {steps[-5:]}"
    return ""


@needs_program
class Lockstep(unittest.TestCase):
    def test_attributes_are_what_the_program_answers(self) -> None:
        self.assertEqual(walked(1, CALLS), "")

    def test_with_callbacks_that_change_objects(self) -> None:
        def touch(event: karzhoul.Event) -> None:
            if isinstance(event.of, Entity) and "name" in type(event.of)._karzhoul_places:
                if random.random() < 0.3:
                    event.object.name = event.kind.value

        self.assertEqual(walked(2, CALLS // 3, touch), "")

    def test_a_line_that_is_overlooked_is_found(self) -> None:
        for name in ("set", "persist", "refresh", "flush", "commit", "merge", "query", "remove"):
            with self.subTest(name), mock.patch.dict(
                shown._CHANGES, {b'{"call":"' + name.encode(): None}
            ):
                self.assertTrue(any(walked(seed, 2000) for seed in range(1, 6)))


if __name__ == "__main__":
    unittest.main()
