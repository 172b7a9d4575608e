"""Classes that change over a store: each change opens it, brings it over, or is refused with what
to do, and what was stored before is never lost."""

from __future__ import annotations

import json
from typing import Any, List, Type, Union

import karzhoul
from karzhoul import DeclarationError, NotBroughtOver

from ..classed import ClassesTest
from ..support import needs_program

FIRST = """
class State(Enum):
    OPEN = "open"
    SHUT = "shut"

class Member(Entity):
    id: int = generated()
    name: str
    fax: str | None = None
    age: int = 0
    joined: date | None = None
    fee: Decimal = money(2, default=Decimal("1.50"))
    state: State = State.OPEN

class Company(Member):
    vat: str | None = None

class Loan(Entity):
    number: int = key()
    member: Member = many_to_one()
    note: str | None = None
"""
STORED = {"name": "Ada", "fax": "12", "age": 36, "vat": "BE1", "note": "late"}


@needs_program
class Changed(ClassesTest):
    """A change of the classes above, over a store that has objects of them."""

    def setUp(self) -> None:
        super().setUp()
        module = self.module(FIRST)
        with self.open(module) as app, app.begin() as manager:
            ada = module.Member(name="Ada", fax="12", age=36, joined=module.date(2026, 1, 5))
            firm = module.Company(name="Firm", vat="BE1", state=module.State.SHUT)
            for each in (ada, firm, module.Loan(number=1, member=ada, note="late")):
                manager.persist(each)
        self.before = self.lock.read_text()

    def changed(self, *changes: str, more: str = "") -> karzhoul.EntityManagerFactory:
        """Opens the classes with lines of theirs replaced, in pairs."""
        text = FIRST + more
        for old, new in zip(changes[::2], changes[1::2]):
            self.assertIn(old, text)
            text = text.replace(old, new)
        return self.open(text)

    def told(self, asked: str, *changes: str, more: str = "") -> List[Any]:
        """The rows of a query, after a change."""
        with self.changed(*changes, more=more) as app, app.begin() as manager:
            return list(manager.query(asked))

    def refused(
        self, kind: Union[Type[DeclarationError], Type[NotBroughtOver]], words: str,
        *changes: str, more: str = "",
    ) -> None:
        """The change is refused in these words, and the store and the lock are as before."""
        with self.assertRaises(kind) as raised:
            self.changed(*changes, more=more)
        for each in words.split(" .. "):
            self.assertIn(each, str(raised.exception))
        self.assertIsInstance(raised.exception, karzhoul.KarzhoulError)
        self.assertTrue(raised.exception.__suppress_context__ or not raised.exception.__context__)
        self.assertEqual(self.lock.read_text(), self.before)
        self.assertEqual(self.told("SELECT m.name, m.fax, m.age FROM Member m WHERE m.id = 1"),
                         [["Ada", "12", 36]])

    # ---- what opens

    def test_nothing_changes_the_lock_where_nothing_is_changed(self) -> None:
        self.changed().close()
        self.assertEqual(self.lock.read_text(), self.before)

    def test_attributes_in_another_order(self) -> None:
        rows = self.told(
            "SELECT m.name, m.age FROM Member m WHERE m.id = 1",
            "    age: int = 0\n", "", "    name: str\n", "    age: int = 0\n    name: str\n",
        )
        self.assertEqual(rows, [["Ada", 36]])
        self.assertEqual(self.lock.read_text(), self.before)

    def test_a_new_attribute_that_may_be_none(self) -> None:
        change = ("age: int = 0", "age: int = 0\n    mail: str | None = None")
        self.assertEqual(self.told("SELECT m.mail FROM Member m", *change), [None, None])

    def test_a_new_required_attribute_has_its_default_in_objects_of_before(self) -> None:
        change = ("age: int = 0", "age: int = 0\n    level: int = 3")
        self.assertEqual(self.told("SELECT m.level FROM Member m", *change), [3, 3])
        self.assertEqual(self.told("SELECT m.level FROM Member m WHERE m.level = 3", *change),
                         [3, 3])

    def test_a_second_and_a_third_one(self) -> None:
        self.told("SELECT m.name FROM Member m", "age: int = 0", "age: int = 0\n    one: int = 1")
        self.told("SELECT m.name FROM Member m", "age: int = 0",
                  "age: int = 0\n    one: int = 1\n    two: bool = True")
        rows = self.told(
            "SELECT m.one, m.two, m.three FROM Member m", "age: int = 0",
            "age: int = 0\n    one: int = 1\n    two: bool = True\n"
            "    three: Decimal = money(2, default=Decimal('0.50'))",
        )
        self.assertEqual([list(map(str, row)) for row in rows], [["1", "True", "0.50"]] * 2)

    def test_a_new_required_one_of_a_subclass(self) -> None:
        change = ("vat: str | None = None", 'vat: str | None = None\n    seat: str = "Ghent"')
        self.assertEqual(self.told("SELECT c.seat FROM Company c", *change), ["Ghent"])

    def test_a_renamed_attribute(self) -> None:
        change = ("fax: str | None = None", 'phone: str | None = field(default=None, was="fax")')
        self.assertEqual(self.told("SELECT m.phone FROM Member m WHERE m.id = 1", *change), ["12"])
        self.assertEqual(self.told("SELECT m.phone FROM Member m WHERE m.id = 1", *change), ["12"])

    def test_names_that_are_swapped(self) -> None:
        changes = ("name: str", 'name: str = field(was="fax")',
                   "fax: str | None = None", 'fax: str | None = field(default=None, was="name")')
        self.refused(NotBroughtOver, "Member.name may not be None, and is in 1 stored: Company id=2",
                     *changes)
        changes = (changes[0], changes[1].replace("was", 'default="-", was'), *changes[2:])
        for _ in range(2):
            self.assertEqual(self.told("SELECT m.name, m.fax FROM Member m", *changes),
                             [["12", "Ada"], ["-", "Firm"]])

    def test_a_renamed_link(self) -> None:
        change = ("member: Member = many_to_one()", 'by: Member = many_to_one(was="member")')
        self.assertEqual(self.told("SELECT l.by.name FROM Loan l", *change), ["Ada"])

    def test_a_renamed_key(self) -> None:
        change = ("number: int = key()", "no: int = key()")
        self.assertEqual(self.told("SELECT l.no FROM Loan l", *change), [1])

    def test_a_renamed_class(self) -> None:
        change = ("class Loan(Entity)", 'class Lending(Entity, was="Loan")')
        self.assertEqual(self.told("SELECT l.note FROM Lending l", *change), ["late"])

    def test_a_renamed_class_that_others_extend_and_lead_to(self) -> None:
        change = ("class Member(Entity)", 'class Reader(Entity, was="Member")',
                  "Company(Member)", "Company(Reader)", "member: Member", "member: Reader")
        self.assertEqual(self.told("SELECT l.member.name FROM Loan l", *change), ["Ada"])
        self.assertEqual(self.told("SELECT c.vat FROM Company c", *change), ["BE1"])

    def test_a_renamed_subclass(self) -> None:
        change = ("class Company(Member)", 'class Firm(Member, was="Company")')
        self.assertEqual(self.told("SELECT f.vat FROM Firm f", *change), ["BE1"])

    def test_a_dropped_attribute_keeps_its_values_and_comes_back_with_them(self) -> None:
        gone = ("    fax: str | None = None\n", "")
        self.assertEqual(self.told("SELECT m.name FROM Member m", *gone), ["Ada", "Firm"])
        self.assertEqual(self.told("SELECT m.fax FROM Member m"), ["12", None])

    def test_new_objects_may_be_stored_where_a_required_one_was_dropped(self) -> None:
        text = FIRST.replace("    age: int = 0\n", "")
        module = self.module(text)
        with self.open(module) as app, app.begin() as manager:
            manager.persist(module.Member(name="Eve"))
            self.assertFalse(hasattr(module.Member(name="Bob"), "age"))
        rows = self.told("SELECT m.name, m.age FROM Member m")
        self.assertEqual(rows, [["Ada", 36], ["Firm", 0], ["Eve", 0]])

    def test_a_dropped_number_is_given_to_no_other(self) -> None:
        gone = json.loads(self.before)["entities"]["Member"]["members"]["fax"]["column"]
        self.changed("    fax: str | None = None\n", "").close()
        self.changed(
            "    fax: str | None = None\n", '    phone: str | None = field(default=None, was="")\n'
        ).close()
        members = json.loads(self.lock.read_text())["entities"]["Member"]["members"]
        self.assertNotIn(gone, [each["column"] for each in members.values()])
        self.assertEqual(self.told("SELECT m.fax FROM Member m WHERE m.id = 1"), ["12"])

    def test_a_dropped_class_with_a_table(self) -> None:
        loan = FIRST[FIRST.index("class Loan") :]
        self.assertEqual(self.told("SELECT m.name FROM Member m", loan, ""), ["Ada", "Firm"])
        self.assertEqual(self.told("SELECT l.note FROM Loan l"), ["late"])

    def test_a_dropped_subclass(self) -> None:
        firm = FIRST[FIRST.index("class Company") : FIRST.index("class Loan")]
        self.assertEqual(self.told("SELECT l.member.name FROM Loan l", firm, ""), ["Ada"])
        self.assertEqual(self.told("SELECT c.vat FROM Company c"), ["BE1"])

    def test_a_dropped_link(self) -> None:
        gone = ("    member: Member = many_to_one()\n", "")
        self.assertEqual(self.told("SELECT l.note FROM Loan l", *gone), ["late"])
        self.assertEqual(self.told("SELECT l.member.name FROM Loan l"), ["Ada"])

    def test_a_new_class_and_a_new_list_to_it(self) -> None:
        change = ("age: int = 0", 'age: int = 0\n    books: list["Book"] = many_to_many()')
        more = "\nclass Book(Entity):\n    title: str = key()\n"
        asked = "SELECT m.name FROM Member m WHERE m.books IS EMPTY"
        self.assertEqual(self.told(asked, *change, more=more), ["Ada", "Firm"])

    def test_a_new_inverse_side(self) -> None:
        change = ("age: int = 0", 'age: int = 0\n    loans: list["Loan"] = one_to_many("member")')
        rows = self.told("SELECT l.note FROM Member m JOIN m.loans l", *change)
        self.assertEqual(rows, ["late"])

    def test_one_that_may_be_none_now(self) -> None:
        rows = self.told("SELECT m.age FROM Member m", "age: int = 0", "age: int | None = None")
        self.assertEqual(rows, [36, 0])

    def test_one_that_is_required_now_and_has_a_default(self) -> None:
        rows = self.told(
            "SELECT m.fax FROM Member m", "fax: str | None = None", 'fax: str = "none"'
        )
        self.assertEqual(rows, ["12", "none"])

    def test_an_attribute_that_moved_up(self) -> None:
        change = ("    vat: str | None = None", "    pass", "    age: int = 0",
                  "    age: int = 0\n    vat: str | None = None")
        self.assertEqual(self.told("SELECT m.vat FROM Member m", *change), [None, "BE1"])

    def test_an_attribute_that_moved_to_a_mixin(self) -> None:
        change = ("    fax: str | None = None\n", "", "class Member(Entity)",
                  "class Reached:\n    fax: str | None = None\n\nclass Member(Reached, Entity)")
        self.assertEqual(self.told("SELECT m.fax FROM Member m", *change), ["12", None])

    def test_a_link_that_is_taken_out_keeps_what_it_leads_to(self) -> None:
        with self.changed("    member: Member = many_to_one()\n", "") as app:
            with self.assertRaisesRegex(karzhoul.Rollback, "reference"):
                with app.begin() as manager:
                    manager.remove(manager.get_reference("Member", 1))

    # ---- what is brought over

    def test_what_is_said_to_be_dropped_goes_for_good(self) -> None:
        gone = ("class Loan(Entity)", 'class Loan(Entity, dropped=("member",))',
                "    member: Member = many_to_one()\n", "")
        for _ in range(2):
            self.assertEqual(self.told("SELECT l.note FROM Loan l", *gone), ["late"])
        with self.changed(*gone) as app, app.begin() as manager:
            manager.remove(manager.get_reference("Member", 1))
        back = ("member: Member = many_to_one()",
                "member: Member | None = many_to_one(default=None)")
        self.assertEqual(self.told("SELECT l.note FROM Loan l WHERE l.member IS NULL", *back),
                         ["late"])

    def test_one_that_is_dropped_comes_back_and_is_dropped_again(self) -> None:
        gone = ("class Member(Entity)", 'class Member(Entity, dropped="fax")',
                "    fax: str | None = None\n", "")
        self.changed(*gone).close()
        self.assertEqual(self.told("SELECT m.fax FROM Member m"), [None, None])
        with self.changed() as app, app.begin() as manager:
            manager.get_reference("Member", 1).fax = "13"
        self.assertEqual(self.told("SELECT m.fax FROM Member m"), ["13", None])
        self.changed(*gone).close()
        self.assertEqual(self.told("SELECT m.fax FROM Member m"), [None, None])

    def test_money_of_more_digits(self) -> None:
        change = ("money(2,", "money(4,")
        rows = self.told("SELECT m.fee FROM Member m", *change)
        self.assertEqual(list(map(str, rows)), ["1.5000", "1.5000"])
        rows = self.told("SELECT m.fee FROM Member m", *change)
        self.assertEqual(list(map(str, rows)), ["1.5000", "1.5000"])

    def test_money_of_more_digits_that_is_required_now(self) -> None:
        """The default is of the new scale, and isn't brought over with what is stored."""
        required = 'fee: Decimal = money(2, default=Decimal("1.50"))'
        with self.changed(required, "fee: Decimal | None = money(2)") as app:
            with app.begin() as manager:
                manager.one("SELECT m FROM Member m WHERE m.id = 1").fee = None
        rows = self.told("SELECT m.fee FROM Member m", "money(2,", "money(4,")
        self.assertEqual(list(map(str, rows)), ["1.5000", "1.5000"])

    def test_money_of_fewer_digits(self) -> None:
        rows = self.told("SELECT m.fee FROM Member m", "money(2,", "money(1,")
        self.assertEqual(list(map(str, rows)), ["1.5", "1.5"])

    def test_a_day_that_is_a_text_now(self) -> None:
        rows = self.told(
            "SELECT m.joined FROM Member m", "joined: date | None", "joined: str | None"
        )
        self.assertEqual(rows, ["2026-01-05", None])

    def test_an_enum_of_more(self) -> None:
        rows = self.told(
            "SELECT m.name FROM Member m WHERE m.state = 'SHUT'",
            '    SHUT = "shut"', '    SHUT = "shut"\n    LOST = "lost"',
        )
        self.assertEqual(rows, ["Firm"])

    # ---- what is refused in words

    def test_money_of_too_few_digits(self) -> None:
        self.refused(NotBroughtOver, "Member.fee is stored as money(2) .. Member id=1 .. more "
                     "digits than 0", "money(2,", "money(0,", 'Decimal("1.50")', 'Decimal("1")')

    def test_an_attribute_that_may_be_renamed(self) -> None:
        self.refused(DeclarationError, 'Member.phone is new, and fax is gone .. was="fax"',
                     "    fax: str | None", "    phone: str | None")

    def test_a_class_that_may_be_renamed(self) -> None:
        self.refused(DeclarationError, 'Lending is new and has the attributes of Loan .. '
                     'was="Loan"', "class Loan(Entity)", "class Lending(Entity)")

    def test_one_that_is_required_now_without_a_default(self) -> None:
        self.refused(NotBroughtOver, "Member.fax may not be None, and is in 1 stored: Company id=2",
                     "fax: str | None = None", "fax: str")

    def test_a_new_required_one_without_a_default(self) -> None:
        self.refused(NotBroughtOver, "Member.level may not be None, and is in 2 stored .. default",
                     "age: int = 0", "age: int = 0\n    level: int")

    def test_another_type(self) -> None:
        self.refused(DeclarationError, "Member.age is stored as text, and was stored as int .. "
                     'was=""', "age: int = 0", 'age: str = "0"')

    def test_a_text_that_is_a_day_now(self) -> None:
        self.refused(NotBroughtOver, "Member.fax is stored as text, and is date now .. "
                     "Member id=1 has '12', which is no date", "fax: str | None",
                     "fax: date | None")

    def test_a_day_that_is_a_moment_now(self) -> None:
        self.refused(NotBroughtOver, "Member.joined is stored as date, and is datetime now",
                     "joined: date", "joined: datetime")

    def test_a_number_that_is_a_truth_now(self) -> None:
        self.refused(NotBroughtOver, "Member.age is stored as int, and is bool now .. has 36",
                     "age: int = 0", "age: bool = False")

    def test_another_key(self) -> None:
        self.refused(DeclarationError, "Loan.number is a key of text, and was one of int: a key stays as it "
                     "is. Take the change back, or bring the store over by karzhoul migrate",
                     "number: int", "number: str")

    def test_a_key_that_is_generated_now(self) -> None:
        self.refused(DeclarationError, "Loan.number is a key of int, generated, and was one of int",
                     "number: int = key()", "number: int = generated()")

    def test_a_version_that_is_new(self) -> None:
        self.refused(DeclarationError, "Loan has a version where it had none",
                     "number: int = key()", "number: int = key()\n    v: int = version()")

    def test_a_class_that_extends_another_one(self) -> None:
        self.refused(DeclarationError, "Company extended Member before",
                     "class Company(Member):", "class Company(Entity):\n    id: int = generated()")

    def test_a_link_that_leads_elsewhere(self) -> None:
        more = "\nclass Book(Entity):\n    title: str = key()\n"
        self.refused(DeclarationError, "Loan.member leads to Book, and led to Member",
                     "member: Member", 'member: "Book"', more=more)

    def test_an_enum_of_fewer(self) -> None:
        self.refused(NotBroughtOver, "Company id=2 has 'SHUT', which is none of State: 'OPEN'",
                     '    SHUT = "shut"\n', "")

    def test_an_enum_of_fewer_that_no_object_has(self) -> None:
        self.changed('    SHUT = "shut"', '    SHUT = "shut"\n    LOST = "lost"').close()
        self.assertEqual(self.told("SELECT m.name FROM Member m WHERE m.state = 'SHUT'"), ["Firm"])

    def test_a_class_that_is_split(self) -> None:
        more = (
            "\nclass Address(Entity):\n    id: int = generated()\n    street: str\n"
            "    of: Member = one_to_one()\n"
        )
        with self.changed("    fax: str | None = None\n", "", more=more) as app:
            with app.begin() as manager:
                Address, Member = app.entity("Address"), app.entity("Member")
                ada = manager.get_reference(Member, 1)
                manager.persist(Address(street="Rue", of=ada))
        rows = self.told("SELECT a.street, a.of.fax FROM Address a", more=more)
        self.assertEqual(rows, [["Rue", "12"]])

    def test_an_enum_whose_names_are_values_of_others(self) -> None:
        text = ("\nclass W(Enum):\n    A = 'B'\n    B = 'A'\n"
                "\nclass Thing(Entity):\n    id: int = generated()\n    v: W{}\n")
        by_value = self.module(text.format(" = by_value()"))
        self.lock, self.db = self.folder / "things.json", self.folder / "things.db"
        with self.open(by_value) as app, app.begin() as manager:
            manager.persist(by_value.Thing(v=by_value.W.A))
        told = r"Thing\.v is stored as enum .* the same texts, each of another member\. Take by_value"
        with self.assertRaisesRegex(NotBroughtOver, told):
            self.open(text.format(""))
        with self.open(by_value) as app, app.begin() as manager:
            self.assertIs(manager.one("SELECT t FROM Thing t").v, by_value.W.A)
