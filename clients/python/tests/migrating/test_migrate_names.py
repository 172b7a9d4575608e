"""`karzhoul migrate .. --from`: a was= is carried out as at an opening, or refused in words before
anything is written."""

from __future__ import annotations

from pathlib import Path
from typing import Any, List

from ..carried import cells
from ..classed import HEAD, ClassesTest
from ..classes.test_class_renaming import was
from ..support import needs_program
from .test_migrate import Migrated, forget, imported

TEXT = "str | None = None"
ANEW = "    version: int = version()\n"
"""What the lock refuses where there was none, so that it begins anew."""


def classes(*person: str, head: str = "Person(Entity)", more: str = "") -> str:
    """A class of these attributes, and one of no more than a key."""
    lines = "".join(f"    {each}\n" for each in person)
    return (f"\nclass {head}:\n    id: int = generated()\n{lines}"
            f"\nclass Note(Entity):\n    id: int = generated()\n{more}")


BEFORE = classes(f"name: {TEXT}", f"alias: {TEXT}", f"code: {TEXT}")
SWAPPED = f"name: {was('alias')}", f"alias: {was('name')}", f"code: {TEXT}"


@needs_program
class Names(Migrated):
    """A store of a person, whose attributes have values of their own names."""

    def setUp(self) -> None:
        ClassesTest.setUp(self)
        self.old, self.mapping = self.folder / "karzhoul_before.py", self.folder / "before.json"
        self.stands(BEFORE)
        module = self.module(BEFORE)
        with self.open(module) as app, app.begin() as manager:
            manager.persist(module.Person(name="N", alias="A", code="C"))
        self.told_of_before()

    def stands(self, text: str) -> None:
        """These are the classes of before."""
        self.old.write_text(HEAD + text)

    def told_of_before(self) -> None:
        """Has a mapping tell of the classes of before."""
        forget()
        self.assertEqual(self.ran("mapping", self.old, "-o", self.mapping)[0], 0)
        self.before, self.before_lock = cells(self.db), self.lock.read_text()

    def changed(self, text: str) -> Path:
        file = self.folder / "karzhoul_after.py"
        file.write_text(HEAD + text)
        forget()
        return file

    def becomes(self, text: str, asked: str, wanted: Any) -> List[str]:
        """What a run tells that gives a query these rows, whichever way the old side is named."""
        self.is_as_before()
        store = self.db.read_bytes()
        for before in (self.mapping, self.old):
            status, out, err = self.migrated(self.changed(text), before=before)
            self.assertEqual((status, err), (0, ""), out)
            with self.open(imported(self.folder / "karzhoul_after.py")) as app:
                with app.begin() as manager:
                    self.assertEqual(list(manager.query(asked)), wanted)
            self.db.write_bytes(store)
            self.lock.write_text(self.before_lock)
            for left in self.folder.glob("app.db.before*"):
                left.unlink()
        return out.splitlines()

    def is_refused(self, text: str, *told: str) -> None:
        """A run is refused in these words, and nothing has changed."""
        for before in (self.mapping, self.old):
            status, out, err = self.migrated(self.changed(text), before=before)
            self.assertEqual(status, 1, out)
            for each in told:
                self.assertIn(each, err)
            self.is_as_before()

    ASKED = "SELECT p.name, p.alias, p.code FROM Person p"

    def test_two_that_change_their_names_with_each_other(self) -> None:
        for more in ("", ANEW):
            told = self.becomes(classes(*SWAPPED, more=more), self.ASKED, [["A", "N", "C"]])
            self.assertIn("  alias is name now", told)
            self.assertIn("  name is alias now", told)

    def test_three_that_turn(self) -> None:
        turned = f"name: {was('alias')}", f"alias: {was('code')}", f"code: {was('name')}"
        self.becomes(classes(*turned, more=ANEW), self.ASKED, [["A", "C", "N"]])

    def test_a_swap_that_is_done_stays_so(self) -> None:
        self.stands(classes(*SWAPPED))
        with self.open(classes(*SWAPPED)):
            pass
        self.told_of_before()
        self.becomes(classes(*SWAPPED, more=ANEW), self.ASKED, [["A", "N", "C"]])

    def test_a_swap_that_another_store_has_by_the_lock(self) -> None:
        store = self.db.read_bytes()
        with self.open(classes(*SWAPPED)):
            pass
        self.db.write_bytes(store)
        self.before, self.before_lock = cells(self.db), self.lock.read_text()
        after = self.changed(classes(*SWAPPED, more=ANEW))
        status, out, err = self.migrated(after, before=self.old)
        self.assertEqual(status, 4, out)
        self.assertIn("Person.name is number 1.2 in karzhoul.lock.json, and app.db has alias there: the "
                      "lock isn't the one", err.replace(f"{self.folder}/", ""))
        self.is_as_before()
        status, _, err = self.migrated(after)
        self.assertEqual((status, err), (0, ""))
        with self.open(imported(self.folder / "karzhoul_after.py")) as app, app.begin() as manager:
            self.assertEqual(list(manager.query(self.ASKED)), [["A", "N", "C"]])

    def test_two_classes_that_change_their_names_with_each_other(self) -> None:
        after = BEFORE.replace("Person(Entity)", 'Note(Entity, was="Person")').replace(
            "Note(Entity):", 'Person(Entity, was="Note"):')
        told = self.becomes(after, "SELECT n.name FROM Note n", ["N"])
        self.assertIn("Person: 1 object, which become Note", told)

    def test_a_class_and_its_attributes_by_other_names(self) -> None:
        after = classes(*SWAPPED, more=ANEW, head='Human(Entity, was="Person")')
        self.becomes(after, self.ASKED.replace("Person", "Human"), [["A", "N", "C"]])

    def test_one_beside_a_name_that_stands(self) -> None:
        after = classes(f"name: {was('alias')}", f"alias: {TEXT}", f"code: {TEXT}", more=ANEW)
        self.is_refused(after, 'Person.name has was="alias", and alias is still there, with its values',
                        "bring_over_Person(old) of a module")
        self.is_refused(classes(f"name: {was('alias')}", f"code: {TEXT}", more=ANEW),
                        "Person.name goes, with 1 object: --drop Person.name")
        after = classes(f"name: {was('code')}", f"alias: {was('code')}", more=ANEW)
        self.is_refused(after, 'Person.name has was="code", and so has alias: take it away from one')

    def test_a_class_beside_a_name_that_stands(self) -> None:
        after = classes(f"name: {TEXT}", more=ANEW + (
            '\nclass Human(Entity, was="Person"):\n    id: int = generated()\n'))
        self.is_refused(after, 'Human has was="Person", and Person is still there')

    def test_a_swap_once_more(self) -> None:
        for text in (classes(*SWAPPED), BEFORE):
            with self.open(text):
                pass
        self.told_of_before()
        self.is_refused(classes(*SWAPPED, more=ANEW),
                        'Person.name has was="alias" again, and was renamed so before: take was= away')

    def test_two_that_go_to_the_class_above(self) -> None:
        marked = "".join(f"\nclass {it}(Note):\n    mark: {TEXT}\n" for it in ("Club", "Firm"))
        self.stands(BEFORE + marked)
        module = self.module(BEFORE + marked)
        with self.open(module) as app, app.begin() as manager:
            manager.persist_all([module.Club(mark="C"), module.Firm(mark="F")])
        self.told_of_before()
        after = BEFORE + f"    mark: {TEXT}\n" + marked.replace(f"mark: {TEXT}", "pass")
        self.becomes(after, "SELECT n.mark FROM Note n ORDER BY n.id", ["C", "F"])
