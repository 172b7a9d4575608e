"""Values that are unique: no two stored objects have one, whatever way they come to it."""

from __future__ import annotations

import json
import pickle
import random
import subprocess
import sys
from contextlib import suppress
from typing import Any, Callable, Dict, List

import karzhoul
from karzhoul import FlushModeType, LifecycleEvent, NotBroughtOver, NotUnique
from karzhoul.classes.changes import make
from karzhoul.showing.tables import tables

from ..classed import ClassesTest
from ..support import HERE, PROGRAM, needs_program

MODULE = """
class Member(Entity, unique=("first", "last")):
    id: int = generated()
    version: int = version()
    email: str | None = field(unique=True, default=None)
    first: str | None = None
    last: str | None = None
    desk: Optional["Desk"] = one_to_one(default=None, orphan_removal=True, cascade="all")
    heard: ClassVar[list[str]] = []

    def pre_update(self) -> None:
        self.heard.append(f"{self.email}")

class Company(Member):
    vat: Decimal | None = money(2, unique=True, default=None)

class Desk(Entity):
    number: int = key()
    label: str = field(unique=True)

class Title(Entity):
    id: int = generated()
    name: str

class Copy(Entity, unique=[("title", "number")]):
    id: int = generated()
    title: Title = many_to_one(cascade="persist")
    number: int
"""


class UniqueTest(ClassesTest):
    """The classes above, over a store."""

    def setUp(self) -> None:
        super().setUp()
        self.models = self.module(MODULE)
        self.app = self.open(self.models)

    def make(self, *emails: Any) -> List[Any]:
        made = [self.models.Member(email=each) for each in emails]
        with self.app.begin() as manager:
            manager.persist_all(made)
        return made

    def members(self, manager: karzhoul.EntityManager, *keys: int) -> List[Any]:
        return manager.find_many("Member", keys)

    def emails(self) -> List[Any]:
        with self.app.begin() as manager:
            return manager.scalars("SELECT m.email, m.id FROM Member m ORDER BY m.id")

    def refused(self, work: Callable[[karzhoul.EntityManager], object]) -> NotUnique:
        """The refusal of work, of which nothing is stored."""
        before = self.emails()
        with self.assertRaises(NotUnique) as raised:
            with self.app.begin() as manager:
                work(manager)
        self.assertEqual(self.emails(), before)
        return raised.exception

    def keys(self) -> int:
        with self.app.begin() as manager:
            return int(manager.one("SELECT COUNT(k) FROM KarzhoulUnique k"))


@needs_program
class OneValue(UniqueTest):
    def test_a_value_that_is_stored_is_refused_with_both_objects(self) -> None:
        self.make("ada", "bob")
        refused = self.refused(lambda it: it.persist(self.models.Member(email="ada")))
        self.assertEqual(str(refused), "Member.email is unique, and <Member id=3> and "
                         "<Member id=1> would both have 'ada'")
        self.assertEqual((refused.entity, refused.attributes, refused.values),
                         ("Member", ("email",), ("ada",)))
        self.assertFalse(refused.is_raced)
        self.assertEqual(str(pickle.loads(pickle.dumps(refused))), str(refused))

    def test_two_new_ones(self) -> None:
        def both(manager: karzhoul.EntityManager) -> None:
            manager.persist_all([self.models.Member(email="ada") for _ in range(2)])

        self.assertIn("<Member id=2> and <Member id=1>", str(self.refused(both)))

    def test_none_is_no_value(self) -> None:
        self.make(None, None, "ada", None)
        self.assertEqual(self.emails(), [None, None, "ada", None])

    def test_a_change_to_a_value_that_is_stored(self) -> None:
        self.make("ada", "bob")
        refused = self.refused(lambda it: setattr(it.find("Member", 1), "email", "bob"))
        self.assertIn("<Member id=1> and <Member id=2> would both have 'bob'", str(refused))

    def test_the_transaction_goes_on_after_a_refusal(self) -> None:
        self.make("ada")
        with self.app.begin() as manager:
            made = self.models.Member(email="ada")
            manager.persist(made)
            with self.assertRaises(NotUnique):
                manager.flush()
            with self.assertRaises(NotUnique):  # A query flushes too.
                manager.query("SELECT m FROM Member m")
            made.email = "bob"
        self.assertEqual(self.emails(), ["ada", "bob"])

    def test_what_goes_back_after_a_refusal_keeps_its_values(self) -> None:
        def back(_: karzhoul.EntityManager, bob: Any) -> None:
            bob.email, bob.first = "bob", "b"

        self.make("ada")
        with self.app.begin() as manager:
            manager.persist(self.models.Member(email="bob", first="b", last="b"))
        for go in (back, karzhoul.EntityManager.refresh, karzhoul.EntityManager.detach):
            with self.subTest(go.__name__):
                with self.app.begin() as manager:
                    bob = manager.get_reference("Member", 2)
                    bob.first = "new"  # The names come first, and are free.
                    bob.email = "ada"
                    with self.assertRaises(NotUnique):
                        manager.flush()
                    go(manager, bob)
                self.assertEqual(self.emails(), ["ada", "bob"])
                for one in ({"email": "bob"}, {"first": "b", "last": "b"}):
                    self.refused(lambda it: it.persist(self.models.Member(**one)))

    def test_what_is_left_over_a_refusal_is_free_once_it_is_stored(self) -> None:
        self.make("ada", "bob")
        with self.app.begin() as manager:
            bob = manager.get_reference("Member", 2)
            for email in ("eve", "ada", "ida"):
                bob.email = email
                with suppress(NotUnique):
                    manager.flush()
        self.assertEqual((self.emails(), self.keys()), (["ada", "ida"], 2))
        self.make("bob", "eve")

    def test_a_swap_a_move_and_a_chain_in_one_flush(self) -> None:
        self.make("ada", "bob", "eve")
        with self.app.begin() as manager:
            one, two, three = self.members(manager, 1, 2, 3)
            one.email, two.email, three.email = two.email, three.email, one.email
        self.assertEqual(self.emails(), ["bob", "eve", "ada"])
        with self.app.begin() as manager:
            one, two = self.members(manager, 1, 2)
            one.email, two.email = None, "bob"
        self.assertEqual(self.emails(), [None, "bob", "ada"])
        self.assertEqual(self.keys(), 2)
        self.refused(lambda it: it.persist(self.models.Member(email="bob")))
        self.make("eve")

    def test_remove_and_insert_in_one_flush_and_in_two(self) -> None:
        self.make("ada", "bob")
        for at, email in ((1, "ada"), (2, "bob")):
            with self.app.begin() as manager:
                manager.remove(manager.get_reference("Member", at))
                if at == 2:
                    manager.flush()
                manager.persist(self.models.Member(email=email))
        self.assertEqual(self.emails(), ["ada", "bob"])
        self.refused(lambda it: it.persist(self.models.Member(email="bob")))

    def test_values_back_and_forth_over_flushes(self) -> None:
        self.make("ada", "bob")
        with self.app.begin() as manager:
            one, two = self.members(manager, 1, 2)
            for email in ("eve", "ada", None, "ada", "eve"):
                one.email = email
                manager.flush()
            two.email = "ada"
            manager.flush()
            manager.remove(one)
            manager.flush()
            manager.persist(self.models.Member(email="eve"))
        self.assertEqual(self.emails(), ["ada", "eve"])
        self.assertEqual(self.keys(), 2)

    def test_a_removed_object_that_is_persisted_again_keeps_its_value(self) -> None:
        self.make("ada")
        with self.app.begin() as manager:
            ada = manager.get_reference("Member", 1)
            manager.remove(ada)
            manager.persist(ada)
            with self.assertRaises(NotUnique):
                other = self.models.Member(email="ada")
                manager.persist(other)
                manager.flush()
            manager.detach(other)
        self.refused(lambda it: it.persist(self.models.Member(email="ada")))

    def test_what_is_rolled_back_takes_nothing(self) -> None:
        with self.assertRaises(ZeroDivisionError):
            with self.app.begin() as manager:
                manager.persist(self.models.Member(email="ada"))
                manager.flush()
                1 // 0
        self.make("ada")
        self.assertEqual(self.emails(), ["ada"])

    def test_what_is_let_go_takes_nothing(self) -> None:
        with self.app.begin() as manager:
            for is_detached in (True, False):
                made = self.models.Member(email="ada")
                manager.persist(made)
                manager.detach(made) if is_detached else manager.clear()
            manager.persist(self.models.Member(email="ada"))
        self.assertEqual(self.emails(), ["ada"])

    def test_what_is_persisted_outside_of_a_transaction(self) -> None:
        self.make("ada")
        with self.app.create_entity_manager() as manager:
            made = self.models.Member(email="ada")
            manager.persist(made)
            with self.assertRaises(NotUnique), manager.transaction():
                pass
            made = self.models.Member(email="bob")
            manager.persist(made)
            with manager.transaction():
                pass
            with manager.transaction():
                made.email = "eve"
        self.assertEqual(self.emails(), ["ada", "eve"])

    def test_a_query_in_the_mode_commit_flushes_nothing(self) -> None:
        self.make("ada")
        with self.assertRaises(NotUnique), self.app.begin() as manager:
            manager.set_flush_mode(FlushModeType.COMMIT)
            manager.persist(self.models.Member(email="ada"))
            self.assertEqual(manager.scalars("SELECT m.email FROM Member m"), ["ada"])
        with self.app.begin() as manager:
            manager.set_flush_mode(FlushModeType.COMMIT)
            one = manager.get_reference("Member", 1)
            one.email = "bob"
            manager.persist(self.models.Member(email="ada"))
            self.assertEqual(manager.scalars("SELECT m.email FROM Member m"), ["ada"])
        self.assertEqual(self.emails(), ["bob", "ada"])

    def test_a_merge(self) -> None:
        [ada, _] = self.make("ada", "bob")
        ada.email = "bob"
        self.refused(lambda it: it.merge(ada))
        ada.email = "eve"
        with self.app.begin() as manager:
            manager.merge(ada)
        self.refused(lambda it: it.merge(self.models.Member(email="eve")))
        with self.app.begin() as manager:
            manager.merge(self.models.Member(email="ada"))
        self.assertEqual(self.emails(), ["eve", "bob", "ada"])

    def test_a_merge_of_what_another_commit_has_changed(self) -> None:
        with self.app.begin() as manager:
            manager.persist(self.models.Desk(number=1, label="a"))
        with self.app.begin() as manager:
            old = manager.get_reference("Desk", 1)
            old.label = "b"
        with self.app.begin() as manager:
            manager.get_reference("Desk", 1).label = "c"
        with self.app.begin() as manager:
            manager.merge(old)
            manager.persist(self.models.Desk(number=2, label="c"))
        with self.app.begin() as manager:
            self.assertEqual(manager.scalars("SELECT d.label FROM Desk d ORDER BY d.number"),
                             ["b", "c"])

    def test_cascades_and_orphans(self) -> None:
        with self.app.begin() as manager:
            manager.persist(self.models.Member(desk=self.models.Desk(number=1, label="a")))
        other = self.models.Member(desk=self.models.Desk(number=2, label="a"))
        self.refused(lambda it: it.persist(other))
        with self.app.begin() as manager:  # The orphan isn't read before the flush removes it.
            manager.get_reference("Member", 1).desk = self.models.Desk(number=3, label="a")
        with self.app.begin() as manager:
            manager.remove(manager.get_reference("Member", 1))
        with self.app.begin() as manager:
            manager.persist(self.models.Desk(number=4, label="a"))

    def test_bulk_statements(self) -> None:
        self.make("ada", "bob")
        with self.app.begin() as manager:
            with self.assertRaisesRegex(
                ValueError, "UPDATE sets Member.email, which is unique, (.|\n)*"
                r"for it in manager.query\(\"SELECT m FROM Company m\"\):\n +it.email = .."
            ):
                manager.execute_update("UPDATE Company m SET m.email = 'eve'")
            with self.assertRaisesRegex(ValueError, r"SELECT m FROM Member m WHERE m.id < 3\""):
                manager.execute_update("UPDATE Member m SET m.email = NULL WHERE m.id < 3 ")
            where = (
                "WHERE (EXISTS (SELECT d FROM Desk d WHERE m.desk = d) OR m.id < 3) AND 0 < m.id"
            )
            with self.assertRaises(ValueError) as raised:
                manager.execute_update(f"UPDATE Member m SET m.email = 'x' {where}")
            self.assertIn(f'"SELECT m FROM Member m {where}"', str(raised.exception))
            manager.execute_update("UPDATE Member m SET m.desk = NULL")
            self.assertEqual(
                manager.execute_update("DELETE FROM Member m WHERE m.email = 'ada'"), 1
            )
            manager.persist(self.models.Member(email="ada"))
            manager.execute_update("DELETE FROM Member m WHERE m.email = 'bob'")
        self.assertEqual(self.emails(), ["ada"])
        self.make("bob")
        with self.app.begin() as manager:
            manager.execute_update("DELETE FROM Member m")
        self.app.close()
        self.app = self.open(self.models)
        self.assertEqual(self.keys(), 0)

    def test_a_long_value_and_one_with_quotes(self) -> None:
        long = "é" * 30_000
        self.make(long, "it's \"so\"")
        self.refused(lambda it: it.persist(self.models.Member(email=long)))
        self.refused(lambda it: it.persist(self.models.Member(email="it's \"so\"")))
        self.make(long + "e")


@needs_program
class SeveralValues(UniqueTest):
    def test_of_one_hierarchy(self) -> None:
        self.make("ada")
        refused = self.refused(lambda it: it.persist(self.models.Company(email="ada")))
        self.assertIn("<Company id=2> and <Member id=1>", str(refused))
        vat = self.models.Decimal("1.5")
        with self.app.begin() as manager:
            manager.persist(self.models.Company(vat=vat))
        refused = self.refused(lambda it: it.persist(
            self.models.Company(vat=self.models.Decimal("1.50"))))
        self.assertIn("Company.vat is unique", str(refused))
        self.assertIn("Decimal('1.50')", str(refused))

    def test_together(self) -> None:
        def members(*names: Any) -> List[Any]:
            return [self.models.Member(first=first, last=last) for first, last in names]

        with self.app.begin() as manager:
            manager.persist_all(members(
                ("Ada", "L"), ("Ada", "K"), ("Ada", None), ("Ada", None), (None, "L"), (None, None)
            ))
        refused = self.refused(lambda it: it.persist_all(members(("Ada", "K"))))
        self.assertEqual(str(refused), "Member.first and last are unique together, and <Member "
                         "id=7> and <Member id=2> would both have 'Ada' and 'K'")

    def test_with_a_link_to_what_a_cascade_persists(self) -> None:
        title = self.models.Title(name="Emma")
        with self.app.begin() as manager:
            manager.persist_all([self.models.Copy(title=title, number=it) for it in (1, 2)])
        with self.assertRaises(NotUnique) as raised, self.app.begin() as manager:
            title = manager.get_reference("Title", 1)
            manager.persist(self.models.Copy(title=title, number=2))
        self.assertIn("<Title id=1> and 2", str(raised.exception))
        other = self.models.Title(name="Emma")
        with self.app.begin() as manager:
            manager.persist(self.models.Copy(title=other, number=2))


@needs_program
class Raced(UniqueTest):
    def both(self) -> List[karzhoul.EntityManager]:
        made = [self.app.create_entity_manager() for _ in range(2)]
        for each in made:
            self.addCleanup(each.close)
            each.transaction().begin()
        return made

    def test_two_transactions_that_take_one_value_meet_at_the_commit(self) -> None:
        one, two = self.both()
        one.persist(self.models.Member(email="ada"))
        two.persist(self.models.Member(email="ada"))
        one.transaction().commit()
        with self.assertRaises(NotUnique) as raised:
            two.transaction().commit()
        self.assertEqual(str(raised.exception), "Member.email is unique, and <Member id=2> and "
                         "<Member id=1> would both have 'ada', which another commit took first")
        self.assertTrue(raised.exception.is_raced)
        self.assertIsInstance(raised.exception.__cause__, karzhoul.Rollback)
        self.assertFalse(two.transaction().is_active)
        self.assertEqual(self.emails(), ["ada"])

    def test_a_key_that_a_delete_has_left(self) -> None:
        self.make("ada")
        with self.app.begin() as manager:
            manager.execute_update("DELETE FROM Member m")
        one, two = self.both()
        one.persist(self.models.Member(email="ada"))
        two.persist(self.models.Member(email="ada"))
        one.transaction().commit()
        with self.assertRaises(NotUnique):
            two.transaction().commit()
        self.assertEqual(self.emails(), ["ada"])

    def test_a_value_that_is_left_and_taken_by_two(self) -> None:
        self.make("ada", "bob", "eve")
        one, two = self.both()
        one.get_reference("Member", 1).email = None
        one.get_reference("Member", 2).email = "ada"
        two.get_reference("Member", 3).email = "ada"
        with self.assertRaises(NotUnique) as raised:
            two.transaction().commit()  # Which sees it at Member 1.
        self.assertIn("<Member id=3> and <Member id=1>", str(raised.exception))
        one.transaction().commit()
        two.transaction().rollback()
        self.assertEqual(self.emails(), [None, "ada", "eve"])

    def test_retry_and_attempts_do_the_work_again(self) -> None:
        times: List[int] = []

        def named(manager: karzhoul.EntityManager) -> str:
            count = manager.one("SELECT COUNT(m) FROM Member m")
            times.append(count)
            name = f"member {count}"
            manager.persist(self.models.Member(email=name))
            if len(times) in (1, 3):
                self.make(name)
            return name

        self.assertEqual(self.app.retry(named), "member 1")
        self.assertEqual(times, [0, 1])
        with self.app.create_entity_manager() as manager:
            for attempt in manager.attempts(3):
                with attempt:
                    named(manager)
        self.assertEqual(self.emails()[1:], ["member 1", "member 2", "member 3"])

    def test_a_manager_that_lasts_takes_again_what_others_have_left(self) -> None:
        with self.app.create_entity_manager() as manager:
            with manager.transaction():
                made = self.models.Member(email="ada")
                manager.persist(made)
            for other in ("bob", "eve"):
                with self.app.begin() as between:
                    between.persist(self.models.Member(email=other))
                    between.get_reference("Member", 1).email = f"no {other}"
                with manager.transaction():
                    manager.refresh(made)
                    made.email = "ada"
            with manager.transaction():
                manager.persist(self.models.Member(email="no eve"))
        self.assertEqual(self.emails(), ["ada", "bob", "eve", "no eve"])

    def test_no_manager_is_needed_to_tell_it(self) -> None:
        managers = self.both()
        managers += [self.app.create_entity_manager() for _ in range(14)]
        for each in managers[:2]:
            each.persist(self.models.Member(email="ada"))
        managers[0].transaction().commit()
        with self.assertRaises(NotUnique):
            managers[1].transaction().commit()
        for each in managers[2:]:
            each.close()

    def test_other_refusals_stay_as_they_are(self) -> None:
        self.make("ada")
        one, two = self.both()
        one.get_reference("Member", 1).first = "A"
        two.get_reference("Member", 1).email = "bob"
        one.transaction().commit()
        with self.assertRaises(karzhoul.Rollback) as raised:
            two.transaction().commit()
        self.assertIsInstance(raised.exception.cause, karzhoul.OptimisticLock)


@needs_program
class AtRandom(UniqueTest):
    """Changes at random, beside a dictionary of the values by the keys of their objects."""

    def test_changes_beside_a_dictionary(self) -> None:
        chance, refused, most = random.Random(7), 0, 0
        stored: Dict[int, Any] = {}
        for _ in range(40):
            now = dict(stored)
            try:
                with self.app.begin() as manager:
                    for _ in range(chance.randint(1, 7)):
                        self.change(manager, chance, now)
            except NotUnique:
                self.assertTrue(doubled(now))
                refused += 1
            else:
                self.assertFalse(doubled(now))
                stored, most = now, max(most, len(now))
            with self.app.begin() as manager:
                rows = manager.query("SELECT m.id, m.email FROM Member m")
                self.assertEqual({key: email for key, email in rows}, stored)
        self.assertGreater(min(refused, most), 3)
        self.app.close()
        self.app = self.open(self.models)
        self.assertEqual(self.keys(), len([it for it in stored.values() if it is not None]))

    def change(
        self, manager: karzhoul.EntityManager, chance: random.Random, now: Dict[int, Any]
    ) -> None:
        """Makes a change of the objects and of the dictionary."""
        value, way = chance.choice([None, *"abcdefghij"]), chance.randrange(8)
        key = chance.choice([*now]) if now else 0
        if way < 3 or not now:
            made: Any = self.models.Member(email=value)
            manager.persist(made)
            now[made.id] = value
        elif way < 5:
            self.members(manager, key)[0].email = value
            now[key] = value
        elif way == 5:
            manager.remove(self.members(manager, key)[0])
            del now[key]
        elif doubled(now):
            with self.assertRaises(NotUnique):
                manager.flush()
        elif way == 6:
            manager.flush()
        else:
            manager.execute_update("DELETE FROM Member m WHERE m.id = :key", key=key)
            del now[key]


def doubled(values: Dict[int, Any]) -> bool:
    """Whether a value is there twice."""
    given = [it for it in values.values() if it is not None]
    return len(given) > len(set(given))


@needs_program
class Hidden(UniqueTest):
    def test_callbacks_hear_nothing_of_keys(self) -> None:
        heard: List[str] = []
        self.app.listen(lambda it: heard.append(f"{it.kind.value} {type(it.object).__name__}"))
        self.make("ada")
        with self.app.begin() as manager:
            manager.get_reference("Member", 1).email = "bob"
        with self.app.begin() as manager:
            manager.remove(manager.get_reference("Member", 1))
        self.assertEqual({each.split()[1] for each in heard}, {"Member"})
        self.assertEqual(len([it for it in heard if it.startswith("PreUpdate")]), 1)
        self.assertEqual(self.models.Member.heard, ["bob"])

    def test_statistics_count_no_keys(self) -> None:
        before = self.app.statistics().objects
        self.make("ada", "bob")
        with self.app.begin() as manager:
            one, two = self.members(manager, 1, 2)
            one.email, two.email = "eve", "ada"
        with self.app.begin() as manager:
            manager.remove(manager.get_reference("Member", 1))
        more = {name: count - before[name] for name, count in self.app.statistics().objects.items()}
        self.assertEqual(more, {"loaded": 3, "inserted": 2, "changed": 2, "removed": 1})

    def test_what_callbacks_set_is_unique(self) -> None:
        def fill(event: Any) -> None:
            if isinstance(event.object, self.models.Member) and event.object.email is None:
                event.object.email = "nobody"

        self.app.listen(fill, LifecycleEvent.PRE_PERSIST)
        self.make(None)
        self.refused(lambda it: it.persist(self.models.Member()))

    def test_tables_the_diagram_and_objects_show_no_keys(self) -> None:
        self.make("ada")
        shown = {each.entity.name: each.columns for each in tables(self.app)}
        self.assertEqual(set(shown), {"Member", "Company", "Desk", "Title", "Copy"})
        self.assertEqual(shown["Member"], ["id", "version", "email", "first", "last", "desk"])
        self.assertNotIn("nique", self.app._repr_html_())
        with self.app.begin() as manager:
            one = manager.get_reference("Member", 1)
            self.assertNotIn("nique", one._repr_html_())
            self.assertFalse(hasattr(one, "_unique_6"))


STORED = """
class Member(Entity):
    id: int = generated()
    version: int = version()
    email: str | None = None
    fee: Decimal = money(2, default=Decimal(0))
"""


@needs_program
class Changed(ClassesTest):
    """A constraint that comes and goes over a store."""

    def store(self, *emails: Any) -> None:
        module = self.module(STORED)
        with self.open(module) as app, app.begin() as manager:
            manager.persist_all([module.Member(email=it) for it in emails])

    def unique(self, text: str = STORED, old: str = "email: str | None = None",
               new: str = "email: str | None = field(default=None, unique=True)") -> Any:
        self.assertIn(old, text)
        return self.open(self.module(text.replace(old, new)))

    def refused(self, app: Any, email: str) -> None:
        with self.assertRaises(NotUnique), app.begin() as manager:
            manager.persist(app.new("Member", email=email))

    def test_one_over_a_store_with_data(self) -> None:
        self.store("ada", None, "bob", None)
        with self.unique() as app:
            self.refused(app, "ada")
            with app.begin() as manager:
                manager.persist(app.new("Member", email="eve"))
        lock = self.lock.read_text()
        with self.unique() as app:
            self.refused(app, "eve")
            self.refused(app, "bob")
        self.assertEqual(self.lock.read_text(), lock)

    def test_one_that_the_store_breaks(self) -> None:
        self.store("ada", "bob", "ada", "ada")
        before = self.lock.read_text()
        with self.assertRaises(NotBroughtOver) as raised:
            self.unique()
        self.assertEqual(str(raised.exception), "Member.email is to be unique, and 3 objects have "
                         "'ada': Member id=1 and Member id=3, ... Give them other values first")
        self.assertEqual(self.lock.read_text(), before)
        with self.open(STORED) as app, app.begin() as manager:
            self.assertEqual(manager.one("SELECT COUNT(m) FROM Member m WHERE m.version = 0"), 4)

    def test_one_that_is_taken_away_and_comes_back(self) -> None:
        self.store("ada")
        self.unique().close()
        with self.open(STORED) as app, app.begin() as manager:
            manager.persist(app.new("Member", email="ada"))
            self.assertEqual(manager.one("SELECT COUNT(k) FROM KarzhoulUnique k"), 0)
        with self.assertRaisesRegex(NotBroughtOver, "2 objects have 'ada'"):
            self.unique()
        with self.open(STORED) as app, app.begin() as manager:
            manager.get_reference("Member", 2).email = "bob"
        with self.unique() as app:
            self.refused(app, "bob")

    def test_a_renamed_attribute(self) -> None:
        self.store("ada")
        self.unique().close()
        renamed = 'mail: str | None = field(default=None, unique=True, was="email")'
        with self.unique(new=renamed) as app:
            with self.assertRaisesRegex(NotUnique, "Member.mail is unique"), app.begin() as manager:
                manager.persist(app.new("Member", mail="ada"))

    def test_values_in_another_form(self) -> None:
        fee = "fee: Decimal = money(2, default=Decimal(0))"
        first = self.module(STORED.replace(fee, "fee: Decimal = money(2, unique=True)"))
        with self.open(first) as app, app.begin() as manager:
            manager.persist(first.Member(fee=first.Decimal("1.5")))
        with self.unique(old=fee, new="fee: Decimal = money(4, unique=True)") as app:
            with self.assertRaises(NotUnique), app.begin() as manager:
                manager.persist(app.new("Member", fee=first.Decimal("1.5")))
            with app.begin() as manager:
                manager.persist(app.new("Member", fee=first.Decimal("0.015")))

    def test_a_default_that_fills_what_was_none(self) -> None:
        self.store("ada", None)
        self.unique().close()
        filled = 'email: str = field(default="nobody", unique=True)'
        with self.unique(new=filled) as app:
            self.refused(app, "nobody")
        self.unique().close()
        with self.open(STORED) as app, app.begin() as manager:
            manager.persist_all([app.new("Member"), app.new("Member")])
        with self.assertRaisesRegex(NotBroughtOver, "3 objects have 'nobody'"):
            self.unique(new=filled)

    def test_the_clients_own_names_are_no_entities(self) -> None:
        with self.assertRaisesRegex(karzhoul.DeclarationError, "the client keeps for itself"):
            self.open("class KarzhoulUnique(Entity):\n    id: int = generated()\n")

    def test_a_dump_keeps_what_is_unique(self) -> None:
        self.store("ada", "bob")
        text = STORED.replace("email: str | None = None",
                              "email: str | None = field(default=None, unique=True)")
        module = self.module(text)
        self.open(module).close()
        file, dump = self.folder / "mapping.json", self.folder / "dump.jsonl"
        file.write_text(json.dumps(make(module, self.lock).mapping))
        words = [sys.executable, "-m", "karzhoul"]
        more = ["--mapping", str(file), "--program", str(PROGRAM)]
        told = subprocess.run([*words, "dump", str(self.db), *more], check=True,
                              capture_output=True, cwd=HERE.parent).stdout
        dump.write_bytes(told)
        self.db.unlink()
        subprocess.run([*words, "load", str(self.db), str(dump), *more], check=True,
                       capture_output=True, cwd=HERE.parent)
        with self.open(module) as app:
            self.refused(app, "bob")
            with app.begin() as manager:
                manager.get_reference("Member", 1).email = "eve"
                manager.persist(app.new("Member", email="ada"))

    def test_wrong_ones_are_told(self) -> None:
        for unique, words in (
            ('"mail"', "'mail', which is no attribute"), ('"id"', "which is the key"),
            ('"version"', "which is no value and no link"), ('("email", "email")', "twice"),
            ('["email", ("email",)]', "twice"),
        ):
            text = STORED.replace("(Entity)", f"(Entity, unique={unique})")
            with self.assertRaisesRegex(karzhoul.DeclarationError, words):
                self.open(text)
