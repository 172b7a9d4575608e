"""Objects of the classes that a user wrote: their attributes, methods and queries."""

from __future__ import annotations

import json
import os
import signal
import subprocess
from datetime import date, datetime, timezone
from decimal import Decimal
from pathlib import Path
from typing import Any, Callable, List
from unittest import mock
from uuid import UUID

import karzhoul
from karzhoul import WrongValue
from karzhoul.classes.binding import _OPEN, Binding

from ..classed import ClassesTest
from ..support import HERE, needs_program
from ..test_types import MYPY, needs_mypy

LIBRARY = '''
class State(Enum):
    OPEN = 1
    BACK = 2

class Color(Enum):
    RED = "r"
    BLUE = "b"

class Stamped:
    """A mixin: it has attributes, and no table."""
    made: date = date(2026, 1, 1)

    def age(self, today: date) -> int:
        return (today - self.made).days

class Person(Entity, abstract=True):
    """An entity of which there are no objects."""
    id: int = generated()
    version: int = version()
    name: str

    @validates("name")
    def _stripped(self, name: str) -> str:
        if not name.strip():
            raise ValueError("a name is not empty")
        return name.strip()

class Member(Stamped, Person):
    joined: date | None = None
    loans: List["Loan"] = one_to_many("member", cascade="all", orphan_removal=True)
    heard: ClassVar[list[str]] = []

    def is_barred(self) -> bool:
        return any(loan.state is State.OPEN for loan in self.loans)

    @property
    def initial(self) -> str:
        return self.name[:1]

    @initial.setter
    def initial(self, value: str) -> None:
        self.name = value + self.name[1:]

    def post_persist(self) -> None:
        self.heard.append(f"persisted {self.name}")

    def pre_update(self) -> None:
        self.heard.append(f"to be updated {self.name}")

    def post_load(self) -> None:
        self.heard.append(f"loaded {self.name}")

class Company(Member):
    vat: str

    def is_barred(self) -> bool:
        return super().is_barred() and not self.vat.startswith("BE")

class Loan(Entity):
    number: int = key()
    member: Member = many_to_one()
    due: date
    fee: Decimal = money(2)
    state: State = State.OPEN
    color: Color = by_value(default=Color.RED)
    is_lost: bool = False
    at: datetime | None = None
    left: timedelta | None = None
    tags: list[str] = json_text(default=[])

class Token(Entity):
    id: UUID = key()
    day: date

    def __init__(self, id: UUID) -> None:
        super().__init__(id=id, day=date(2026, 1, 5))
'''


@needs_program
class Objects(ClassesTest):
    def setUp(self) -> None:
        super().setUp()
        self.it = self.module(LIBRARY)
        self.app = self.open(self.it)
        with self.app.begin() as manager:
            ada = self.it.Member(name=" Ada ", joined=date(2026, 1, 2))
            firm = self.it.Company(name="Firm", vat="BE1", made=date(2020, 1, 1))
            manager.persist(ada)
            manager.persist(firm)
            for number, due, fee in ((1, date(2026, 1, 5), "1.50"), (2, date(2026, 2, 1), "0.25")):
                loan = self.it.Loan(number=number, member=ada, due=due, fee=Decimal(fee))
                ada.loans.append(loan)
        self.it.Member.heard.clear()

    # ---- objects

    def test_methods_properties_mixins_and_inheritance(self) -> None:
        with self.app.begin() as manager:
            ada, firm = manager.find(self.it.Member, 1), manager.find(self.it.Member, 2)
            self.assertEqual((ada.name, ada.initial, ada.is_barred()), ("Ada", "A", True))
            self.assertEqual((firm.is_barred(), firm.age(date(2020, 1, 11))), (False, 10))
            self.assertIsInstance(firm, self.it.Company)
            self.assertIsInstance(firm, self.it.Person)
            self.assertIsInstance(firm, self.it.Stamped)
            self.assertNotIsInstance(ada, self.it.Company)
            ada.initial = "I"
            self.assertEqual(ada.name, "Ida")
            self.assertEqual(repr(ada), "<Member id=1>")

    def test_validators_see_each_value(self) -> None:
        with self.app.begin() as manager:
            ada = manager.find(self.it.Member, 1)
            ada.name = "  Bob "
            self.assertEqual(ada.name, "Bob")
            with self.assertRaisesRegex(ValueError, "a name is not empty"):
                ada.name = " "
            with self.assertRaisesRegex(ValueError, "a name is not empty"):
                self.it.Member(name="")
            [eve] = self.app.new_many(self.it.Member, [{"name": " Eve"}])
            self.assertEqual(eve.name, "Eve")

    def test_methods_hear_of_events(self) -> None:
        with self.app.begin() as manager:
            manager.persist(self.it.Member(name="Eve"))
        with self.app.begin() as manager:
            manager.find(self.it.Member, 1).name = "Bob"
        self.assertEqual(
            self.it.Member.heard, ["persisted Eve", "loaded Ada", "to be updated Bob"]
        )

    def test_a_constructor_of_ones_own(self) -> None:
        with self.app.begin() as manager:
            manager.persist(self.it.Token(UUID(int=7)))
        with self.app.begin() as manager:
            token = manager.find(self.it.Token, UUID(int=7))
            self.assertEqual((token.id, token.day), (UUID(int=7), date(2026, 1, 5)))
            self.assertIsNone(manager.find("Token", UUID(int=8)))
            self.assertEqual(manager.find_many("Token", [UUID(int=7)]), [token])
            with self.assertRaisesRegex(WrongValue, "the key of Token is a UUID, and 7 is no UUID"):
                manager.find(self.it.Token, 7)

    def test_what_is_missing_or_unknown_is_told(self) -> None:
        with self.assertRaisesRegex(TypeError, "Loan takes member, fee, and none is given"):
            self.it.Loan(number=3, due=date(2026, 1, 5))
        with self.assertRaisesRegex(AttributeError, "did you mean 'name'"):
            self.it.Member(nam="Eve")
        with self.app.begin() as manager:
            with self.assertRaisesRegex(AttributeError, "did you mean 'joined'"):
                manager.find(self.it.Member, 1).joind = 5

    def test_values_of_another_type_are_refused_as_they_are_assigned(self) -> None:
        with self.app.begin() as manager:
            loan = manager.find(self.it.Loan, 1)
            wrong = {
                "due": datetime(2026, 1, 5), "fee": 1.5, "state": "OPEN", "is_lost": 1,
                "at": datetime(2026, 1, 5), "left": 5, "tags": ("a",), "number": "1",
            }
            for name, value in wrong.items():
                for assign in (setattr, self.app.set):
                    with self.assertRaises(WrongValue) as raised:
                        assign(loan, name, value)
                    told = str(raised.exception)
                    self.assertTrue(told.startswith(f"Loan.{name} is "), told)
                    self.assertIn(repr(value), told)
            with self.assertRaisesRegex(WrongValue, "Loan.due is a date, and never None"):
                loan.due = None
            with self.assertRaisesRegex(WrongValue, "Loan.member is a Member, and never None"):
                loan.member = None
            with self.assertRaisesRegex(WrongValue, r"write Decimal\('1.10'\)"):
                loan.fee = 1.5
            self.assertEqual(loan.due, date(2026, 1, 5))

    def test_what_is_set_by_name_and_read_of_many(self) -> None:
        with self.app.begin() as manager:
            loans = manager.query("SELECT l FROM Loan l")
            self.app.set(loans[0], "fee", Decimal("9.99"))
            self.assertEqual(self.app.get(loans[0], "fee"), Decimal("9.99"))
            self.assertEqual(self.app.get_many(loans, "due"), [date(2026, 1, 5), date(2026, 2, 1)])

    def test_a_store_has_the_forms_of_the_table(self) -> None:
        with self.app.begin() as manager:
            loan = manager.find(self.it.Loan, 1)
            loan.at, loan.tags = datetime(2026, 1, 5, 9, tzinfo=timezone.utc), ["a"]
        self.app.close()
        asked = "SELECT l.due, l.fee, l.state, l.color, l.is_lost, l.at, l.tags FROM Loan l"
        with self.raw(self.it) as raw, raw.begin() as manager:
            self.assertEqual(manager.query(asked).first(), [
                "2026-01-05", 150, "OPEN", "r", 0, "2026-01-05T09:00:00.000000Z", '["a"]',
            ])

    # ---- what is open

    def test_a_class_that_is_open_nowhere_or_twice(self) -> None:
        with self.open(self.it, in_memory=True) as other:
            with self.assertRaisesRegex(RuntimeError, r"open in 2 stores: app.new\(Member, ..\)"):
                self.it.Member(name="Eve")
            eve = other.new(self.it.Member, name="Eve")
            self.assertIsInstance(eve, self.it.Member)
        self.assertEqual(self.it.Member(name="Eve").name, "Eve")
        self.app.close()
        with self.assertRaisesRegex(RuntimeError, r"open in no store: karzhoul.open\(\[Member"):
            self.it.Member(name="Eve")

    # ---- queries

    def rows(self, text: str, **given: Any) -> List[Any]:
        with self.app.begin() as manager:
            return list(manager.query(text, **given))

    def test_parameters_are_of_the_type_of_what_they_are_compared_with(self) -> None:
        state, color = self.it.State, self.it.Color
        asked = "SELECT l.number FROM Loan l WHERE "
        told: List[Any] = [
            ("l.due < :it", date(2026, 2, 1), [1]), (":it <= l.due", date(2026, 2, 1), [2]),
            ("l.fee > :it", Decimal("0.25"), [1]), ("l.fee + :it > 1", Decimal("0.80"), [1, 2]),
            ("l.state = :it", state.OPEN, [1, 2]), ("l.state IN :it", [state.BACK], []),
            ("l.state IN (:it)", state.OPEN, [1, 2]), ("l.color = :it", color.RED, [1, 2]),
            ("l.due BETWEEN :it AND :it", date(2026, 1, 5), [1]),
            ("COALESCE(l.at, :it) = :it", datetime(2026, 1, 5, tzinfo=timezone.utc), [1, 2]),
            ("l.is_lost = :it", True, []), ("l.member.joined = :it", date(2026, 1, 2), [1, 2]),
            ("l.member.name = :it", "Ada", [1, 2]), ("l.due = :it OR l.number = 2", None, [2]),
            ("EXISTS (SELECT k FROM Loan k WHERE k.fee > :it AND k = l)", Decimal("1"), [1]),
        ]
        for condition, value, numbers in told:
            with self.subTest(condition=condition):
                self.assertEqual(self.rows(f"{asked}{condition}", it=value), numbers)

    def test_a_query_that_is_wrong_is_told_where_a_parameter_fits_nothing(self) -> None:
        for asked, told in (
            ("SELECT l FROM Loan l WHERE l.duee < :it", "1:30: duee: Loan has no member duee"),
            ("SELECT l AS member FROM Loan l WHERE l.due < :it", "1:13: member: .* a keyword"),
        ):
            with self.subTest(asked), self.assertRaisesRegex(
                TypeError, f"the parameter 'it': .*, and no date; and the query is wrong: {told}"
            ):
                self.rows(asked, it=date(2026, 1, 5))
        with self.assertRaisesRegex(TypeError, "and no date: over classes a parameter has the type of"):
            self.rows("SELECT l FROM Loan l WHERE LENGTH(:it) > 0", it=date(2026, 1, 5))

    def test_literals_are_so_too(self) -> None:
        asked = "SELECT l.number FROM Loan l WHERE "
        told = {
            "l.due < '2026-01-31'": [1], "l.fee > 1": [1], "l.fee = '0.25'": [2],
            "l.fee > -1": [1, 2], "l.state = 'OPEN'": [1, 2], "l.is_lost = FALSE": [1, 2],
            "l.is_lost = 1": [], "l.color = 'r'": [1, 2], "l.fee * 2 > 1": [1],
            "l.at IS NULL AND l.fee IN (1, '1.50')": [1], "COALESCE(l.at, '2026-01-05T09:30:00Z')"
            " = '2026-01-05T10:30:00+01:00'": [1, 2],
        }
        for condition, numbers in told.items():
            with self.subTest(condition=condition):
                self.assertEqual(self.rows(asked + condition), numbers)

    def test_what_is_found_is_of_the_type_of_its_path(self) -> None:
        told = {
            "SELECT l.due, l.fee, l.state, l.number FROM Loan l WHERE l.number = 1":
                [[date(2026, 1, 5), Decimal("1.50"), self.it.State.OPEN, 1]],
            "SELECT MAX(l.due), MIN(l.fee), SUM(l.fee), COUNT(l) FROM Loan l":
                [[date(2026, 2, 1), Decimal("0.25"), Decimal("1.75"), 2]],
            "SELECT l.fee * 2 FROM Loan l WHERE l.number = 1": [Decimal("3.00")],
            "SELECT l.at FROM Loan l": [None, None],
            "SELECT l.due FROM Member m JOIN m.loans l ORDER BY l.due DESC":
                [date(2026, 2, 1), date(2026, 1, 5)],
            "SELECT l.state, COUNT(l) FROM Loan l GROUP BY l.state "
            "HAVING MIN(l.due) < '2026-01-06'":
                [[self.it.State.OPEN, 2]],
        }
        for text, rows in told.items():
            with self.subTest(text=text):
                self.assertEqual(self.rows(text), rows)
        with self.app.begin() as manager:
            self.assertEqual(manager.one("SELECT l.due FROM Loan l WHERE l.number = 1", date),
                             date(2026, 1, 5))
            self.assertEqual(list(manager.iterate("SELECT l.due FROM Loan l", 1)),
                             [date(2026, 1, 5), date(2026, 2, 1)])
            page = manager.page("SELECT l.fee FROM Loan l", 1, 1, total=True)
            self.assertEqual((list(page), page.total), ([Decimal("1.50")], 2))

    def test_a_key_of_another_type_is_a_wrong_value(self) -> None:
        with self.app.begin() as manager:
            for call in (manager.find, manager.get_reference):
                with self.assertRaisesRegex(karzhoul.WrongValue, "key of Loan is a whole number, "
                                            "and 'one' is no int"):
                    call(self.it.Loan, "one")

    def test_keys_of_a_type_are_walked_through(self) -> None:
        with self.app.begin() as manager:
            for number in range(5):
                manager.persist(self.it.Token(UUID(int=number)))
            found = list(manager.iterate("SELECT t.id, t.day FROM Token t", 2))
            self.assertEqual([row[0].int for row in found], [0, 1, 2, 3, 4])

    def test_updates(self) -> None:
        with self.app.begin() as manager:
            count = manager.execute_update(
                "UPDATE Loan l SET l.fee = l.fee + '0.25', l.state = :s, l.is_lost = TRUE "
                "WHERE l.due > :d", s=self.it.State.BACK, d=date(2026, 1, 6),
            )
            self.assertEqual(count, 1)
        with self.app.begin() as manager:
            loan = manager.find(self.it.Loan, 2)
            self.assertEqual((loan.fee, loan.state, loan.is_lost),
                             (Decimal("0.50"), self.it.State.BACK, True))

    def test_what_is_not_of_the_type_is_refused(self) -> None:
        asked = "SELECT l FROM Loan l WHERE "
        told: List[Any] = [
            ("l.due = :it", "2026-01-05", "'it', as Loan.due, is a date, and '2026-01-05' is no"),
            ("l.fee > :it", 1.5, r"write Decimal\('1.10'\)"),
            ("l.fee > '1.234' AND l.number = :it", 1, "Loan.fee is a Decimal of 2 digits"),
            ("l.fee = l.number + :it", 1, "they can't be compared"),
            ("l.due = :it OR l.at = :it", date(2026, 1, 5), "take two"),
            ("l.fee * l.fee = :it", Decimal(1), "may be multiplied by whole numbers alone"),
            ("l.state = 'SHUT' AND l.number = :it", 1, "'SHUT' is none of State: 'OPEN', 'BACK'"),
        ]
        for condition, value, words in told:
            with self.subTest(condition=condition), self.assertRaisesRegex(ValueError, words):
                self.rows(asked + condition, it=value)


@needs_program
class Example(ClassesTest):
    """The classes of the README."""

    def test_it_runs(self) -> None:
        it = self.example("members.py")
        with self.open(it) as app:
            it.lend(app, "Ada", date(2026, 1, 5))
            self.assertEqual(it.overdue(app, date(2026, 1, 6)), ["Ada"])
            self.assertEqual(it.overdue(app, date(2026, 1, 5)), [])
            with app.begin() as manager:
                self.assertTrue(manager.find(it.Member, 1).is_barred(date(2026, 1, 6)))

    @needs_mypy
    def test_a_type_checker_takes_it_without_stubs_and_refuses_what_is_wrong(self) -> None:
        self.example("members.py")
        (self.folder / "use.py").write_text(
            "from members import *\n"
            "def use(loan: Loan) -> None:\n"
            "    loan.due = 5\n"
            "    reveal_type(loan.member.loans)\n"
        )
        cache = str(self.folder / "cache")
        words = [MYPY, "--strict", "--python-version", "3.11", "--cache-dir", cache]
        place = {**os.environ, "MYPYPATH": f"{HERE.parent}:{self.folder}"}
        told = subprocess.run(
            [*words, str(self.folder / "members.py"), str(self.folder / "use.py")], env=place,
            capture_output=True, text=True,
        ).stdout
        self.assertIn("members.Loan]", told)
        self.assertRegex(told, "use.py:3: error: Incompatible types in assignment")
        self.assertIn("Found 1 error in 1 file (checked 2 source files)", told)

    def test_embedded_values_keys_and_what_is_unique(self) -> None:
        it = self.example("readers.py")
        with self.open(it) as app:
            with app.begin() as manager:
                ada = it.Reader(name="Ada", home=it.Address(city="Ghent"))
                other = it.Reader(name="Ada", home=it.Address(city="Bruges"))
                copy = it.Copy(isbn="a", number=2, holder=ada)
                manager.persist_all([ada, other, copy, it.Copy(isbn="a", number=1, holder=ada)])
            self.assertEqual([it.move(app, 1, city) for city in ("Bruges", "Aalst")], [False, True])
            with app.begin() as manager:
                self.assertEqual([copy.number for copy in it.held_in(manager, "Aalst")], [1, 2])
                self.assertEqual(manager.get_reference(it.Copy, ("a", 2)).holder.name, "Ada")

    @needs_mypy
    def test_a_type_checker_takes_these_too(self) -> None:
        self.assertEqual(self.checked("readers", (
            "from readers import *\n"
            "def use(reader: Reader, copy: Copy) -> None:\n"
            "    reader.home = 5\n"
            "    reader.home = None\n"
            "    copy.number = 'a'\n"
            "    copy.wanted_by[0].work = reader.home\n"
            "    print(reader.home.city + 1)\n"
        )), [3, 4, 5, 7])

    def checked(self, name: str, use: str) -> List[int]:
        """The lines of a use of an example that mypy refuses, which takes the example itself."""
        self.example(f"{name}.py")
        (self.folder / "use.py").write_text(use)
        words = [MYPY, "--strict", "--python-version", "3.11", "--cache-dir",
                 str(self.folder / "cache")]
        place = {**os.environ, "MYPYPATH": f"{HERE.parent}:{self.folder}"}
        told = subprocess.run(
            [*words, str(self.folder / f"{name}.py"), str(self.folder / "use.py")], env=place,
            capture_output=True, text=True,
        ).stdout
        lines = [line.split(":") for line in told.splitlines() if " error: " in line]
        self.assertEqual({Path(line[0]).name for line in lines}, {"use.py"}, told)
        return [int(line[1]) for line in lines]

    def test_the_readme_has_it(self) -> None:
        text = (HERE / "data" / "members.py").read_text()
        classes = text[text.index("class Member") : text.index("def lend")].strip()
        indented = "\n".join(f"    {line}".rstrip() for line in classes.splitlines())
        self.assertIn(indented, (HERE.parent / "README.md").read_text())


@needs_program
class Alone(ClassesTest):
    """A mapping by hand goes on as it is."""

    def test_a_mapping_by_hand_has_no_lock(self) -> None:
        with self.assertRaisesRegex(TypeError, "lock= is the file of the numbers of classes"):
            karzhoul.open({"revision": 1, "entities": []}, lock=self.lock)

    def test_a_store_in_memory_leaves_the_lock(self) -> None:
        with self.open("class A(Entity):\n    id: int = generated()\n", in_memory=True) as app:
            self.assertEqual(app.entity("A").__name__, "A")
        self.assertFalse(self.lock.exists())

    def test_two_of_one_number_are_told(self) -> None:
        text = "class A(Entity):\n    id: int = generated()\n    a: str\n    b: str\n"
        self.open(text).close()
        self.lock.write_text(self.lock.read_text().replace('"column": 2', '"column": 1'))
        with self.assertRaisesRegex(ValueError, "A.a and A.b have one number, 1"):
            self.open(text)


LOOKED = """
class Rank(Enum):
    LOW = 1
    HIGH = 2

class Named(Entity, abstract=True):
    id: int = generated(index=True)
    name: str = field(index=True)

class Title(Named):
    price: Decimal = money(2, index=True)
    rank: Rank = by_value(default=Rank.LOW, index=True)
    since: datetime | None = naive(default=None, index=True)
    shelf: str = typed(str.lower, str.upper, default="A", index=True)
    plain: str = ""

class Volume(Title):
    number: int = field(default=1, index=True)

class Shelf(Entity):
    code: str = key(index=True)
"""


@needs_program
class LookedUp(ClassesTest):
    def told_by(self, work: Callable[[], object]) -> List[str]:
        """What the program is told to look up."""
        with self.assertLogs("karzhoul", "DEBUG") as logs:
            work()
        lines = [record.getMessage().partition(" -> ") for record in logs.records]
        found = [(json.loads(line), reply) for line, _, reply in lines if '"index"' in line]
        for _, reply in found:
            self.assertTrue(reply.startswith('{"events":[],"ok":null}'), reply)
        return [f"{line['entity']}.{line['name']}" for line, _ in found]

    def test_what_is_to_be_looked_up_is_told_when_a_program_is_started(self) -> None:
        it = self.module(LOOKED)
        whole = [
            "Title.id", "Title.name", "Title.price", "Title.rank", "Title.since", "Title.shelf",
            "Volume.number", "Shelf.code",
        ]
        self.assertEqual(self.told_by(lambda: self.open(it)), whole)
        [app] = _OPEN[it.Title]
        with app.begin() as manager:
            manager.persist(it.Volume(name="b", price=Decimal("2.50")))
            manager.persist(it.Title(name="a", price=Decimal("1.50"), rank=it.Rank.HIGH))
        self.assertEqual(self.told_by(app.restart), [])  # The program keeps what it was told.
        os.kill(app.program.pid, signal.SIGKILL)
        with self.assertRaises(karzhoul.ProgramEnded):
            app.create_entity_manager()
        self.assertEqual(self.told_by(app.reopen), whole)
        with app.begin() as manager:
            dear = manager.query("SELECT t.name FROM Title t WHERE t.price > :p", p=Decimal(2))
            named = manager.query("SELECT t.name FROM Title t ORDER BY t.name")
            self.assertEqual((dear, named), (["b"], ["a", "b"]))

    def test_a_program_that_looks_nothing_up_is_opened_all_the_same(self) -> None:
        with mock.patch.object(Binding, "index_lines", return_value=[b'{"call":"seek"}'] * 2):
            app = self.open(LOOKED)
        with app.begin() as manager:
            self.assertEqual(manager.query("SELECT t FROM Title t"), [])


MADE = """
from uuid import uuid4

class Ticket(Entity):
    id: int = generated()
    code: UUID = field(default_factory=uuid4, unique=True)
    made: datetime = field(init=False)
    state: str = field(default="open", init=False)
    day: date = field(default_factory=lambda: date(2026, 1, 5))

    def pre_persist(self) -> None:
        self.made = datetime(2026, 1, 5, tzinfo=timezone.utc)
"""


@needs_program
class Made(ClassesTest):
    """Attributes that the constructor makes, or doesn't take."""

    def test_what_is_made_for_each_object(self) -> None:
        it = self.module(MADE)
        with self.open(it) as app:
            with app.begin() as manager:
                one, two = it.Ticket(), it.Ticket(day=date(2026, 1, 6))
                manager.persist_all([one, two])
            self.assertNotEqual(one.code, two.code)
            self.assertEqual((one.day.day, two.day.day, one.made.day, one.state), (5, 6, 5, "open"))
            for name in ("made", "state"):
                with self.assertRaisesRegex(TypeError, f"Ticket takes no {name}, which is init"):
                    it.Ticket(**{name: "x"})
            one.state = "shut"
        with self.assertRaisesRegex(ValueError, "default or default_factory, and not both"):
            karzhoul.field(default=1, default_factory=int)

    def test_many_are_made_as_each_is(self) -> None:
        it = self.module(MADE + """
class Seat(Entity):
    row: int = key()
    name: str
    rank: int = 3

class Pass(Entity):
    id: int = generated()
    said: str

    def __init__(self, number: int) -> None:
        self.said = f"pass {number}"
""")
        with self.open(it) as app, app.begin() as manager:
            one, two = app.new_many(it.Ticket, [{}, {"day": date(2026, 1, 6)}])
            self.assertNotEqual(one.code, two.code)
            self.assertEqual((one.day.day, two.day.day, one.state), (5, 6, "open"))
            seats = app.new_many(it.Seat, [{"row": 1, "name": "a"}, {"row": 2, "name": "b",
                                                                     "rank": 4}])
            self.assertEqual([seat.rank for seat in seats], [3, 4])
            passes = app.new_many(it.Pass, [{"number": 7}, {"number": 8}])
            self.assertEqual([each.said for each in passes], ["pass 7", "pass 8"])
            manager.persist_all([one, two, *seats, *passes])
            with self.assertRaisesRegex(TypeError, "Seat takes name, and none is given"):
                app.new_many(it.Seat, [{"row": 3}])
            with self.assertRaisesRegex(TypeError, "Ticket takes no state, which is init=False"):
                app.new_many(it.Ticket, [{"state": "shut"}])

    def test_one_that_is_new_over_a_store_is_made_for_each_object(self) -> None:
        first = "class Ticket(Entity):\n    id: int = generated()\n"
        with self.open(first) as app, app.begin() as manager:
            manager.persist_all([app.new("Ticket") for _ in range(3)])
        it = self.module(MADE.replace("made: datetime", "made: datetime | None"))
        with self.open(it) as app, app.begin() as manager:
            codes = manager.scalars("SELECT t.code FROM Ticket t")
            self.assertEqual(len(set(codes)), 3)
            self.assertEqual(manager.query("SELECT t.state FROM Ticket t"), ["open"] * 3)


@needs_program
class Named(ClassesTest):
    def test_an_attribute_may_be_called_as_a_parameter_is(self) -> None:
        it = self.module(
            "class Thing(Entity):\n    id: int = generated()\n    kind: str\n    given: str = ''\n"
        )
        app = self.open(it)
        made = [it.Thing(kind="a", given="b"), app.new(it.Thing, kind="a"),
                app.entity("Thing")(kind="a")]
        self.assertEqual(
            [(each.kind, each.given) for each in made], [("a", "b"), ("a", ""), ("a", "")]
        )
