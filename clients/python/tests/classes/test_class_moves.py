"""Attributes that move to another class of their hierarchy: each goes with its values, or is refused
before anything is touched."""

from __future__ import annotations

from typing import Any, List

from karzhoul import NotBroughtOver

from ..support import needs_program
from .test_class_renaming import Renamings, was

TEXT = "str | None = None"


def classes(base: str = "", club: str = "", firm: str = "") -> str:
    """A class and two that extend it, with these attributes."""
    lines = [f"    {each}\n" for each in (base, club or "pass", firm or "pass")]
    return (f"\nclass Person(Entity):\n    id: int = generated()\n{lines[0] if base else ''}"
            f"\nclass Club(Person):\n{lines[1]}\nclass Firm(Person):\n{lines[2]}")


@needs_program
class Moves(Renamings):
    def fill(self, text: str, **firm: str) -> None:
        """Stores a club, whose code is C, and a firm."""
        module = self.module(text)
        with self.open(module) as app, app.begin() as manager:
            manager.persist_all([module.Club(code="C"), module.Firm(**firm)])

    def found(self, text: str, asked: str) -> List[Any]:
        with self.open(text) as app, app.begin() as manager:
            return list(manager.query(asked))

    def test_two_of_one_name_that_go_to_the_class_above(self) -> None:
        self.fill(classes("", f"code: {TEXT}", f"code: {TEXT}"), code="F")
        for base in (f"code: {TEXT}", f"mark: {was('code')}"):
            self.refuse(classes(base), "would be Club.code and Firm.code, each with values of its own",
                        'by another name, with was="code" there, or let it go by dropped=("code",)', "karzhoul migrate")
        kept = classes(f"code: {TEXT}", "", f"own: {was('code')}")
        for _ in range(2):
            self.assertEqual(self.found(kept, "SELECT p.code FROM Person p ORDER BY p.id"),
                             ["C", None])
        self.assertEqual(self.found(kept, "SELECT f.own FROM Firm f"), ["F"])

    def test_one_of_two_that_is_let_go(self) -> None:
        self.fill(classes("", f"code: {TEXT}", f"code: {TEXT}"), code="F")
        after = classes(f"code: {TEXT}").replace("Club(Person)", 'Club(Person, dropped=("code",))')
        self.assertEqual(self.found(after, "SELECT p.code FROM Person p ORDER BY p.id"), [None, "F"])

    def test_one_that_goes_to_the_class_above(self) -> None:
        self.fill(classes("", f"code: {TEXT}", f"mark: {TEXT}"))
        self.assertEqual(self.found(classes(f"code: {TEXT}", "", f"mark: {TEXT}"),
                                    "SELECT p.code FROM Person p ORDER BY p.id"), ["C", None])

    def test_one_that_goes_to_two_classes(self) -> None:
        self.fill(classes(f"code: {TEXT}"), code="F")
        self.refuse(classes("", f"code: {TEXT}", f"code: {TEXT}"),
                    "Firm.code would be Person.code, and so would Club.code: leave it where it was")
        self.refuse(classes("", f"code: {TEXT}", f"mark: {was('code')}"),
                    "Firm.mark would be Person.code, and so would Club.code")
        self.assertEqual(self.found(classes(f"code: {TEXT}"), "SELECT p.code FROM Person p ORDER BY p.id"),
                         ["C", "F"])

    def test_one_whose_class_has_it_by_another_name(self) -> None:
        self.fill(classes("", f"code: {TEXT}", ""))
        after = classes(f"code: {TEXT}", f"mark: {was('code')}")
        self.assertEqual(self.found(after, "SELECT c.mark, c.code FROM Club c"), [["C", None]])

    def test_one_that_goes_to_the_class_below(self) -> None:
        above, below = classes(f"code: {TEXT}"), classes("", f"code: {TEXT}")
        module = self.module(above)
        with self.open(module) as app, app.begin() as manager:
            manager.persist_all([module.Person(code="P"), module.Person(code="Q"), module.Person(),
                                 module.Club(code="C"), module.Firm(code="F")])
        self.refuse(below, "Person.code is stored in 2 of Person, and Club alone has code now",
                    "Firm.code is stored in 1 of Firm", "leave it in Person", kind=NotBroughtOver)
        with self.open(above) as app, app.begin() as manager:
            manager.execute_update("UPDATE Person p SET p.code = NULL WHERE p.code <> 'C'")
        self.assertEqual(self.found(below, "SELECT c.code FROM Club c"), ["C"])

    def test_one_that_went_to_the_class_above_and_is_taken_back(self) -> None:
        above, below = classes(f"code: {TEXT}"), classes("", f"code: {TEXT}")
        self.fill(below)
        before = self.lock.read_bytes()
        module = self.module(above)
        with self.open(module) as app, app.begin() as manager:
            manager.persist(module.Person(code="P"))
        for lock in (self.lock.read_bytes(), before):
            self.lock.write_bytes(lock)
            self.refuse(below, "Person.code is stored in 1 of Person", kind=NotBroughtOver)

    def test_two_classes_that_swap_their_names_again(self) -> None:
        text = ("\nclass {}(Entity{}):\n    id: int = generated()\n    code: " + TEXT +
                "\n\nclass {}({}{}):\n    mark: " + TEXT + "\n")
        module = self.module(text.format("A", "", "B", "A", ""))
        with self.open(module) as app, app.begin() as manager:
            manager.persist_all([module.A(code="a"), module.B(code="b")])
        self.open(text.format("B", ", was='A'", "A", "B", ", was='B'")).close()
        for back in (text.format("A", "", "B", "A", ""),
                     text.format("A", ", was='B'", "B", "A", ", was='A'")):
            self.refuse(back, "A extended B before, and extends Entity now: it swapped its name with B",
                        "by a third name, in three openings")
        for names in (("B", "", "C", "B", ", was='A'"), ("A", ", was='B'", "C", "A", ""),
                      ("A", "", "B", "A", ", was='C'")):
            self.open(text.format(*names)).close()
        self.assertEqual(self.found(text.format("A", "", "B", "A", ""), "SELECT b.code FROM B b"), ["b"])
