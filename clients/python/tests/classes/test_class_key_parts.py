"""The parts of keys: their values go by their places, and so another order is refused, and another
name is said by was=."""

from __future__ import annotations

import json
from typing import Any, List

from ..support import needs_program
from karzhoul import NotBroughtOver
from .test_class_renaming import Renamings

PLAIN = "\nclass Seat(Entity):\n    {}\n    {}\n"
INNER = "\nclass Pl(Embedded):\n    {}\n    {}\n\nclass Seat(Entity):\n    {} = key({})\n"
ROW, COL = "row: int = key()", "col: int = key()"


def inner(one: str = "row: int", two: str = "col: int", at: str = "at: Pl", was: str = "") -> str:
    return INNER.format(one, two, at, was)


@needs_program
class KeyParts(Renamings):
    def fill(self, text: str = PLAIN.format(ROW, COL), **values: Any) -> None:
        """Stores a seat in row 1 and column 2."""
        module = self.module(text)
        with self.open(module) as app, app.begin() as manager:
            made = values or {"row": 1, "col": 2}
            if "Pl" in text:
                made = {"at": module.Pl(**made)}
            manager.persist(module.Seat(**made))

    def found(self, text: str, asked: str) -> List[Any]:
        with self.open(text) as app, app.begin() as manager:
            return list(manager.query(f"SELECT {asked} FROM Seat s"))

    def test_another_order_is_refused(self) -> None:
        self.fill()
        self.refuse(PLAIN.format(COL, ROW), "Seat has the key col, row, and the lock has row, col",
                    "the parts of a key stay in their order: write row first")
        self.assertEqual(self.found(PLAIN.format(ROW, COL), "s.row, s.col"), [[1, 2]])

    def test_another_order_in_an_embedded_id_is_refused(self) -> None:
        self.fill(inner())
        self.refuse(inner("col: int", "row: int"), "at.col, at.row, and the lock has at.row, at.col")
        self.assertEqual(self.found(inner(), "s.at.row, s.at.col"), [[1, 2]])

    def test_a_lock_of_before_gets_the_names(self) -> None:
        self.fill()
        lock = json.loads(self.lock.read_text())
        del lock["entities"]["Seat"]["key"]["parts"]
        self.lock.write_text(json.dumps(lock))
        self.open(PLAIN.format(ROW, COL)).close()
        self.refuse(PLAIN.format(COL, ROW), "write row first")

    def test_renamed_parts(self) -> None:
        self.fill()
        line = PLAIN.format("line: int = key(was='row')", COL)
        before = self.lock.read_bytes()
        for _ in range(2):
            self.assertEqual(self.found(line, "s.line, s.col"), [[1, 2]])
        self.assertEqual(self.found(PLAIN.format("line: int = key()", COL), "s.line, s.col"), [[1, 2]])
        self.lock.write_bytes(before)
        self.refuse(PLAIN.format(ROW, COL), "Seat.row is number 1.key1", "has line there",
                    kind=NotBroughtOver)

    def test_renamed_parts_of_an_embedded_id(self) -> None:
        self.fill(inner())
        line = inner("line: int = field(was='row')")
        self.assertEqual(self.found(line, "s.at.line, s.at.col"), [[1, 2]])
        place = inner("line: int", at="place: Pl", was="was='at'")
        for _ in range(2):
            self.assertEqual(self.found(place, "s.place.line, s.place.col"), [[1, 2]])

    def test_names_that_nobody_says(self) -> None:
        self.fill()
        for word in ("", "was='nonsense'", "was=''"):
            self.refuse(PLAIN.format(f"line: int = key({word})", COL),
                        'Seat.line is in the place of row in the key (the lock has row, col)',
                        'was="row"')
        self.refuse(PLAIN.format("row: int = key(was='col')", "col: int = key(was='row')"),
                    'Seat.row has was="col", which is another part of the key', "Take was= away")

    def test_names_that_are_swapped_in_their_places(self) -> None:
        self.fill()
        after = PLAIN.format("col: int = key(was='row')", "row: int = key(was='col')")
        for _ in range(2):
            self.assertEqual(self.found(after, "s.col, s.row"), [[1, 2]])
