"""What the tests share: the program, mappings, and a stub that plays a program by a transcript."""

from __future__ import annotations

import contextlib
import os
import re
import shutil
import subprocess
import sys
import tempfile
import unittest
from pathlib import Path
from typing import Any, Dict, Iterator, List, NamedTuple, Optional
from unittest import mock

import karzhoul
from karzhoul.store.program import Exchange

HERE = Path(__file__).resolve().parent
TOP = HERE.parents[2]
DATA = TOP / "crates" / "jpa_examples" / "data"
FLAT = TOP / "tests" / "mappings" / "flat.json"
ORDERS = TOP / "tests" / "mappings" / "persons.json"
STUB = HERE / "stub.py"

sys.path.append(str(TOP / "tests"))
from model.reading import STAGES  # noqa: E402

SERVES_REVISION_2 = "mapping revision 2" not in STAGES
"""Whether the program serves mappings of revision 2."""
needs_revision_2 = unittest.skipUnless(
    SERVES_REVISION_2, "the program serves no mapping of revision 2 yet"
)


def tested_program() -> Optional[str]:
    """The program that is tested: the one that KARZHOUL_PROGRAM names, else the one that runs in
    this clone without a build."""
    named = os.environ.get("KARZHOUL_PROGRAM")
    if named:
        return shutil.which(named)
    words = [str(TOP / "tools" / "program"), "--any"]
    return (
        subprocess.run(
            words, stdin=subprocess.DEVNULL, capture_output=True, text=True
        ).stdout.rstrip("\n")
        or None
    )


PROGRAM = tested_program()
needs_program = unittest.skipUnless(
    PROGRAM, "no program runs without a build: run ./jpa --proved once, or set KARZHOUL_PROGRAM"
)


def package_elsewhere(place: str) -> Path:
    """A copy of the package in this folder, as a clone has it, but in no clone: so it starts the
    program that KARZHOUL_PROGRAM names."""
    folder = Path(place, "clients", "python")
    shutil.copytree(
        HERE.parent / "karzhoul", folder / "karzhoul", ignore=shutil.ignore_patterns("__pycache__")
    )
    return folder


PERSONS: Dict[str, Any] = {
    "revision": 1,
    "entities": [
        {
            "name": "Person", "table": 1, "key": [{"name": "id", "type": "int"}], "generated": True,
            "version": {"name": "version", "column": 1},
            "attributes": [{"name": "name", "type": "text", "column": 2}],
        },
        {
            "name": "Place",
            "table": 7,
            "key": [
                {"name": "row", "type": "int"}, {"name": "shelf", "type": "text"},
                {"name": "tag", "type": "bytes"},
            ],
            "embedded": "at",
            "attributes": [
                {"name": "label", "type": "text", "column": 3, "required": True},
                {"name": "scan", "type": "bytes", "column": 4},
                {"name": "mood", "type": "text", "column": 5, "converter": "mood"},
            ],
        },
        {
            "name": "Order",
            "table": 2,
            "key": [{"name": "number", "type": "int"}],
            "attributes": [{"name": "amount", "type": "int", "column": 1}],
        },
    ],
    "functions": [{"name": "mood", "make": "table", "pairs": [["glad", 1], ["sad", 2]]}],
}
"""Entities as every program serves them."""


class FolderTest(unittest.TestCase):
    """A test in a folder of its own."""

    def setUp(self) -> None:
        place = tempfile.TemporaryDirectory()
        self.addCleanup(place.cleanup)
        self.place = Path(place.name)


class ManagerTest(unittest.TestCase):
    """A test over a program of its own, with its store in memory, and a manager."""

    mapping: Any

    def opened(self) -> karzhoul.EntityManagerFactory:
        """The factory of the test."""
        return karzhoul.open(self.mapping, program=PROGRAM)

    def setUp(self) -> None:
        self.app = self.opened()
        self.addCleanup(self.app.close)
        self.em = self.app.create_entity_manager()


class ProgramTest(ManagerTest):
    """A test over the entities of every program."""

    mapping = PERSONS

    def setUp(self) -> None:
        super().setUp()
        self.Person = self.app.entity("Person")
        self.Place = self.app.entity("Place")
        self.Order = self.app.entity("Order")

    def committed(self, **values: Any) -> Any:
        """A person with these values, committed."""
        person = self.Person(**values)
        with self.em.transaction():
            self.em.persist(person)
        return person


def present(manager: karzhoul.EntityManager, entity: Any, key: Any) -> Any:
    """The object of a key, which is found."""
    found = manager.find(entity, key)
    assert found is not None, f"there is no {entity} {key}"
    return found


@contextlib.contextmanager
def counted(app: karzhoul.EntityManagerFactory) -> Iterator[List[bytes]]:
    """The lines that are sent in the block."""
    sent: List[bytes] = []
    replies = app.program.replies

    def counting(calls: Exchange, timeout: Optional[float] = None) -> List[bytes]:
        sent.extend(calls.lines)
        return replies(calls, timeout)

    with mock.patch.object(app.program, "replies", counting):
        yield sent


@contextlib.contextmanager
def played(transcript: str, mapping: Any) -> Iterator[karzhoul.EntityManagerFactory]:
    """A stub that takes the lines after `>` and answers those after `<`."""
    with tempfile.TemporaryDirectory() as place:
        path = Path(place, "transcript")
        path.write_text(transcript, encoding="utf-8")
        before = os.environ.get("KARZHOUL_TRANSCRIPT")
        os.environ["KARZHOUL_TRANSCRIPT"] = str(path)
        try:
            app = karzhoul.open(mapping, program=STUB)
        finally:
            if before is None:
                del os.environ["KARZHOUL_TRANSCRIPT"]
            else:
                os.environ["KARZHOUL_TRANSCRIPT"] = before
        with app:
            yield app


class Example(NamedTuple):
    """A worked example of crates/jpa_examples/data."""

    kind: str
    title: str
    rows: List[str]
    given: List[str]
    wanted: List[str]


def examples(name: str) -> Iterator[Example]:
    """The worked examples of a file."""
    for block in re.split(r"\n\n+", (DATA / name).read_text(encoding="utf-8").strip("\n")):
        head, *lines = block.split("\n")
        marked = {mark: [line[2:] for line in lines if line[:1] == mark] for mark in "=><"}
        kind, _, title = head.partition(" ")
        yield Example(kind, title, marked["="], marked[">"], marked["<"])


def long_text(lines: List[str]) -> str:
    """The text of lines of which `FIRST..LAST PIECE` stands for its piece once for each number, in
    place of each `#`."""
    text = ""
    for line in lines:
        found = re.fullmatch(r"(-?\d+)\.\.(-?\d+) (.*)", line)
        pieces = (
            [found[3].replace("#", str(n)) for n in range(int(found[1]), int(found[2]) + 1)]
            if found
            else [line]
        )
        text += "".join(pieces)
    return text
