"""Lists of many to many: of one side, of both, and of two that know nothing of each other.

EclipseLink 2.7 over H2 stores, reads, refuses and counts the same in the steps of `Lists` that
change lists of both sides, of one and of their own class, and remove what is in a list and what has
one.
"""

from __future__ import annotations

from typing import Any, Callable, List

import karzhoul
from karzhoul import DeclarationError

from ..classed import ClassesTest
from ..support import needs_program

MODULE = """
class Tag(Entity):
    name: str = key()

class Title(Entity):
    id: int = generated()
    version: int = version()
    name: str
    tags: list[Tag] = many_to_many(cascade="all")
    authors: list["Author"] = many_to_many()
    readers: list["Author"] = many_to_many()

class Author(Entity):
    id: int = generated()
    version: int = version()
    name: str
    titles: list[Title] = many_to_many("authors")
    read: list[Title] = many_to_many()
    friends: list["Author"] = many_to_many()
    friend_of: list["Author"] = many_to_many("friends")

class Laureate(Author):
    year: int
    prized: list[Title] = many_to_many()
"""

OWNED = """
class Member(Entity):
    id: int = generated()
    name: str
    loans: list["Loan"] = one_to_many("member", cascade="all", orphan_removal=True)

class Loan(Entity):
    id: int = generated()
    member: Member = many_to_one()
"""


@needs_program
class WrongMembers(ClassesTest):
    def test_what_is_no_list_and_no_member_is_refused_before_anything_is_added(self) -> None:
        it = self.module(OWNED)
        with self.open(it, in_memory=True).begin() as manager:
            member = it.Member(name="Ada")
            loan = it.Loan(member=member)
            manager.persist(member)
            for value, words in (
                (5, "5 is no list"), ("ab", "'ab' is no list"), ({1: 2}, "{1: 2} is no list"), (None, "None is no list"), (loan, "<Loan id=None> is no list"),
                ([loan, 5], "5 is no Loan"), ([None], "None is no Loan"),
            ):
                with self.subTest(words), self.assertRaises(karzhoul.WrongValue) as raised:
                    it.Member(name="Bob", loans=value)
                self.assertEqual(str(raised.exception), f"Member.loans is a list of Loan, and {words}")
                with self.assertRaises(karzhoul.WrongValue):
                    member.loans = value
                self.assertEqual(list(member.loans), [])
            changes: List[Callable[[], Any]] = [
                lambda: member.loans.append("x"), lambda: member.loans.extend(["x"]), lambda: member.loans.insert(0, "x"), lambda: member.loans.remove("x"),
            ]
            for change in changes:
                with self.assertRaisesRegex(karzhoul.WrongValue, "^Member.loans is a list of Loan, and 'x' is no Loan$"):
                    change()


@needs_program
class Orphans(ClassesTest):
    """What README says of a member that moves between two lists that remove orphans."""

    def setUp(self) -> None:
        super().setUp()
        self.it = self.module(OWNED)
        self.app = self.open(self.it, in_memory=True)
        with self.app.begin() as manager:
            ada, bob = self.it.Member(name="Ada"), self.it.Member(name="Bob")
            manager.persist_all([ada, bob, self.it.Loan(member=ada)])

    def members(self, manager: karzhoul.EntityManager) -> List[Any]:
        return list(manager.find_many("Member", [1, 2]))

    def loans(self) -> List[Any]:
        with self.app.begin() as manager:
            return list(manager.query("SELECT l.member.name FROM Loan l"))

    def test_by_remove_and_append_it_is_removed(self) -> None:
        with self.app.begin() as manager:
            ada, bob = self.members(manager)
            loan = ada.loans[0]
            ada.loans.remove(loan)
            bob.loans.append(loan)
            loan.member = bob
        self.assertEqual(self.loans(), [])

    def test_by_its_own_side_it_moves(self) -> None:
        for is_read in (False, True):
            with self.app.begin() as manager:
                ada, bob = self.members(manager)
                if is_read:
                    self.assertEqual((len(ada.loans), len(bob.loans)), (0, 1))
                manager.get_reference("Loan", 1).member = ada if is_read else bob
            self.assertEqual(self.loans(), ["Ada" if is_read else "Bob"])


@needs_program
class Lists(ClassesTest):
    def setUp(self) -> None:
        super().setUp()
        self.it = self.module(MODULE)
        self.app = self.open(self.it)
        it = self.it
        with self.app.begin() as manager:
            emma, anna = it.Title(name="Emma"), it.Title(name="Anna")
            jane, leo = it.Author(name="Jane"), it.Laureate(name="Leo", year=1901)
            manager.persist_all([emma, anna, jane, leo])

    def ask(self, text: str, **params: Any) -> List[Any]:
        with self.app.begin() as manager:
            return [list(it) if isinstance(it, list) else it
                    for it in manager.query(text, **params)]

    def objects(self, manager: karzhoul.EntityManager) -> List[Any]:
        return [*manager.find_many("Title", (1, 2)), *manager.find_many("Author", (1, 2))]

    def names(self, kind: str, key: int, name: str) -> List[str]:
        """The names of what a list has in another manager."""
        with self.app.begin() as manager:
            return [it.name for it in getattr(manager.get_reference(kind, key), name)]

    def test_one_of_both_sides_is_stored_by_its_owner(self) -> None:
        with self.app.begin() as manager:
            emma, anna, jane, leo = self.objects(manager)
            emma.authors = [leo, jane]
            anna.authors.append(jane)
            anna.authors.append(jane)
        self.assertEqual(self.names("Author", 1, "titles"), ["Emma", "Anna"])
        self.assertEqual(self.names("Author", 2, "titles"), ["Emma"])
        self.assertEqual(self.names("Title", 1, "authors"), ["Jane", "Leo"])
        with self.app.begin() as manager:
            emma, anna, jane, leo = self.objects(manager)
            leo.titles.append(anna)  # The other side, which is stored by none.
            emma.authors.remove(jane)
        self.assertEqual(self.names("Author", 2, "titles"), ["Emma"])
        self.assertEqual(self.names("Author", 1, "titles"), ["Anna"])
        self.assertEqual(self.ask("SELECT a.name, t.name FROM Author a JOIN a.titles t "
                                  "ORDER BY a.name"), [["Jane", "Anna"], ["Leo", "Emma"]])

    def test_two_lists_of_their_own_know_nothing_of_each_other(self) -> None:
        with self.app.begin() as manager:
            emma, anna, jane, leo = self.objects(manager)
            emma.readers = [jane, leo]
            jane.read = [anna]
            leo.prized = [emma]
        self.assertEqual(self.names("Title", 1, "readers"), ["Jane", "Leo"])
        self.assertEqual(self.names("Title", 2, "readers"), [])
        self.assertEqual(self.names("Author", 1, "read"), ["Anna"])
        self.assertEqual(self.names("Author", 2, "prized"), ["Emma"])
        self.assertEqual(self.names("Title", 1, "authors"), [])

    def test_a_list_of_its_own_class(self) -> None:
        with self.app.begin() as manager:
            _, _, jane, leo = self.objects(manager)
            jane.friends = [leo, jane]
        self.assertEqual(self.names("Author", 1, "friends"), ["Jane", "Leo"])
        self.assertEqual(self.names("Author", 2, "friends"), [])
        self.assertEqual(self.names("Author", 2, "friend_of"), ["Jane"])
        self.assertEqual(self.names("Author", 1, "friend_of"), ["Jane"])

    def test_a_cascade_and_a_merge(self) -> None:
        it = self.it
        with self.app.begin() as manager:
            emma = manager.get_reference("Title", 1)
            emma.tags = [it.Tag(name="b"), it.Tag(name="a")]
        self.assertEqual(self.names("Title", 1, "tags"), ["a", "b"])
        with self.app.begin() as manager:
            emma = manager.get_reference("Title", 1)
            emma.tags.remove(emma.tags[0])
            list(emma.authors)
        emma.tags.append(it.Tag(name="c"))
        with self.app.begin() as manager:
            manager.merge(emma)
        self.assertEqual(self.names("Title", 1, "tags"), ["b", "c"])
        self.assertEqual(self.ask("SELECT t.name FROM Tag t"), ["a", "b", "c"])
        with self.app.begin() as manager:
            manager.remove(manager.get_reference("Title", 1))
        self.assertEqual(self.ask("SELECT t.name FROM Tag t"), ["a"])

    def test_a_change_raises_the_version_of_the_owner_alone(self) -> None:
        with self.app.begin() as manager:
            emma, _, jane, _ = self.objects(manager)
            emma.authors = [jane]
        self.assertEqual(self.ask("SELECT t.version FROM Title t ORDER BY t.id"), [1, 0])
        self.assertEqual(self.ask("SELECT a.version FROM Author a"), [0, 0])

    def test_queries_over_both_sides(self) -> None:
        with self.app.begin() as manager:
            emma, _, jane, leo = self.objects(manager)
            emma.authors = [jane]
            leo.prized = [emma]
            for text, names in (
                ("SELECT t.name FROM Title t WHERE :it MEMBER OF t.authors", ["Emma"]),
                ("SELECT t.name FROM Title t WHERE SIZE(t.authors) = 0 AND :it = :it", ["Anna"]),
                ("SELECT a.name FROM Author a WHERE a.titles IS EMPTY AND a <> :it", ["Leo"]),
                ("SELECT l.name FROM Laureate l JOIN l.prized t WHERE :it MEMBER OF t.authors",
                 ["Leo"]),
            ):
                with self.subTest(text=text):
                    self.assertEqual(manager.query(text, it=jane), names)

    def test_what_is_in_a_list_stays_and_an_owner_goes_with_its_list(self) -> None:
        with self.app.begin() as manager:
            emma, _, jane, _ = self.objects(manager)
            emma.authors, jane.read = [jane], [emma]
        with self.assertRaises(karzhoul.Rollback), self.app.begin() as manager:
            manager.remove(manager.get_reference("Author", 1))
        with self.app.begin() as manager:
            emma, _, jane, _ = self.objects(manager)
            emma.authors, jane.read = [], []
            manager.remove(jane)
        self.assertEqual(self.names("Title", 1, "authors"), [])

    def test_a_list_that_is_taken_out_and_comes_back(self) -> None:
        with self.app.begin() as manager:
            emma, anna, jane, leo = self.objects(manager)
            emma.readers, anna.readers = [jane, leo], [jane]
        self.app.close()
        without = MODULE.replace('    readers: list["Author"] = many_to_many()\n', "")
        with self.open(without) as app, app.begin() as manager:
            manager.get_reference("Title", 1).name = "Emma."
        with self.open(without) as app:
            with self.assertRaises(karzhoul.Rollback), app.begin() as manager:
                manager.remove(manager.get_reference("Author", 2))
            with app.begin() as manager:
                manager.remove(manager.get_reference("Title", 2))
        self.app = self.open(MODULE)
        self.assertEqual(self.names("Title", 1, "readers"), ["Jane", "Leo"])

    def test_a_list_that_is_let_go(self) -> None:
        with self.app.begin() as manager:
            emma, _, jane, leo = self.objects(manager)
            emma.readers = [jane, leo]
        self.app.close()
        without = MODULE.replace('    readers: list["Author"] = many_to_many()\n', "")
        let_go = without.replace("class Title(Entity)", "class Title(Entity, dropped=('readers',))")
        with self.open(let_go) as app, app.begin() as manager:
            manager.remove(manager.get_reference("Author", 2))
        self.app = self.open(MODULE)
        self.assertEqual(self.names("Title", 1, "readers"), [])


@needs_program
class Gone(ClassesTest):
    def test_a_class_that_is_taken_out_and_comes_back(self) -> None:
        plain = "class A(Entity):\n    id: int = generated()\n"
        more = "class B(Entity):\n    id: int = generated()\n    a: A = many_to_one()\n"
        more += "    others: list[A] = many_to_many()\n"
        with self.open(plain + more) as app, app.begin() as manager:
            one, two, three = app.new("A"), app.new("A"), app.new("A")
            manager.persist_all([one, two, three, app.new("B", a=one, others=[two])])
        with self.open(plain) as app:
            for key in (1, 2):
                with self.assertRaises(karzhoul.Rollback), app.begin() as manager:
                    manager.remove(manager.get_reference("A", key))
            with app.begin() as manager:
                manager.remove(manager.get_reference("A", 3))
        with self.open(plain + more) as app, app.begin() as manager:
            [b] = manager.query("SELECT b FROM B b")
            self.assertEqual((b.a.id, [it.id for it in b.others]), (1, [2]))


class Wrong(ClassesTest):
    def test_wrong_ones_are_told(self) -> None:
        head = "class A(Entity):\n    id: int = generated()\n    b: list['B'] = {}\n"
        head += "class B(Entity):\n    id: int = generated()\n    a: {} = {}\n    c: str = ''\n"
        plain, to_b = "many_to_many()", 'many_to_many("a")'
        for mine, kind, its, words in (
            (to_b, "list[A]", 'many_to_many("b")', "mapped by B.a, which is no many_to_many"),
            (to_b, "list['B']", plain, "A.b is mapped by B.a, which leads to B"),
            ('many_to_many("c")', "list[A]", plain, "mapped by B.c, which is no many_to_many"),
            ('many_to_many("d")', "list[A]", plain, "mapped by B.d, which is no many_to_many"),
            (to_b, "A", "many_to_one()", "mapped by B.a, which is no many_to_many"),
            ('one_to_many("a")', "list[A]", plain, "mapped by B.a, which is no many_to_one"),
            (plain, "A", plain, 'B.a is a many_to_many: write it as list["Loan"]'),
            ('many_to_many(cascade="al")', "list[A]", plain, "cascades 'al'"),
        ):
            with self.subTest(words=words):
                with self.assertRaises(DeclarationError) as raised:
                    self.open(head.format(mine, kind, its))
                self.assertIn(words, str(raised.exception))
