"""What clients of a server do while it is killed: they lend copies and take them back, and note
what came of each transaction. And what must stand in the store then.

Each transaction has a mark of its own. One that lends a copy raises its count, makes a loan and an
entry of that mark; one that takes a copy back marks its loan, and makes an entry. So half of one
would show.
"""
from __future__ import annotations

import json
import os
import random
import threading
import time
from pathlib import Path
from typing import Any, Dict, List, Set, Tuple

import karzhoul

COPIES, PATIENCE = 40, 600
MAPPING: Dict[str, Any] = {
    "revision": 1,
    "entities": [
        {
            "name": "Copy", "table": 1, "key": [{"name": "number", "type": "int"}],
            "version": {"name": "version", "column": 1},
            "attributes": [
                {"name": "lent", "type": "int", "column": 2},
                {"name": "holder", "type": "text", "column": 3},
            ],
        },
        {
            "name": "Loan", "table": 2, "key": [{"name": "id", "type": "int"}], "generated": True,
            "version": {"name": "version", "column": 1},
            "attributes": [
                {"name": "mark", "type": "text", "column": 2},
                {"name": "ordinal", "type": "int", "column": 3},
                {"name": "back", "type": "text", "column": 4},
            ],
            "relations": [
                {"name": "copy", "kind": "manyToOne", "target": "Copy", "column": 5,
                 "required": True},
            ],
        },
        {
            "name": "Entry", "table": 3, "key": [{"name": "id", "type": "int"}], "generated": True,
            "attributes": [
                {"name": "mark", "type": "text", "column": 1},
                {"name": "of", "type": "text", "column": 2},
            ],
        },
    ],
}
"""What is served."""
# What is noted of a mark: stored, surely not stored, or perhaps.
STORED, LOST, OPEN = "stored", "lost", "open"


def lend(app: karzhoul.EntityManagerFactory, manager: karzhoul.EntityManager, mark: str,
         number: int) -> None:
    """Lends a copy, or takes it back where it is lent."""
    copy: Any = manager.find("Copy", number)
    holder, entry = copy.holder, app.new("Entry", mark=mark)
    manager.persist(entry)
    if holder is None:
        copy.holder, copy.lent = mark, copy.lent + 1
        manager.persist(app.new("Loan", mark=mark, ordinal=copy.lent, copy=copy))
    else:
        loan: Any = manager.one("SELECT l FROM Loan l WHERE l.mark = :mark", mark=holder)
        loan.back, entry.of, copy.holder = mark, holder, None


class Client:
    """Threads of one process that lend and take back, until they are told to end."""

    def __init__(self, address: str, notes: Path, name: str, over: Path) -> None:
        """With the file of their notes, and the file whose being there tells them to end."""
        self._app = _connected(address)
        self._notes = os.open(notes, os.O_WRONLY | os.O_CREAT | os.O_APPEND)
        self._name, self._over = name, over

    def run(self, threads: int) -> None:
        """Runs so many threads to their end."""
        running = [threading.Thread(target=self._work, args=(at,)) for at in range(threads)]
        for each in running:
            each.start()
        for each in running:
            each.join()
        self._app.close()

    def _work(self, thread: int) -> None:
        chance, count = random.Random(f"{self._name}/{thread}"), 0
        while not self._over.exists():
            count += 1
            mark = f"{self._name}-{thread}-{count}"
            word = self._tried(mark, 1 + chance.randrange(COPIES))
            # One write is whole, also where the process is killed then.
            os.write(self._notes, f"{word} {mark}\n".encode())

    def _tried(self, mark: str, number: int) -> str:
        """What came of a transaction."""
        try:
            with self._app.begin() as manager:
                lend(self._app, manager, mark, number)
            return STORED
        except karzhoul.ProgramEnded as ended:
            self._reopen()
            return OPEN if ended.may_be_stored else LOST
        except (karzhoul.Refused, karzhoul.NoFreeManager, karzhoul.Restarted):
            return LOST

    def _reopen(self) -> None:
        while not self._over.exists():
            try:
                self._app.reopen()
                return
            except karzhoul.KarzhoulError:
                time.sleep(0.2)


def _connected(address: str) -> karzhoul.EntityManagerFactory:
    """Connects to a server, which may be starting."""
    until = time.monotonic() + PATIENCE
    while True:
        try:
            return karzhoul.connect(address, threads=True, wait=PATIENCE)
        except karzhoul.Disconnected:
            if time.monotonic() > until:
                raise
        time.sleep(0.2)


def filled(db: Path, program: str) -> None:
    """Makes a store of copies that nobody has."""
    with karzhoul.open(MAPPING, db, program=program) as app, app.begin() as manager:
        for copy in app.new_many("Copy", [{"number": 1 + at, "lent": 0} for at in range(COPIES)]):
            manager.persist(copy)


def noted(folder: Path) -> Dict[str, Set[str]]:
    """The marks that clients noted, by what came of them."""
    told: Dict[str, Set[str]] = {STORED: set(), LOST: set(), OPEN: set()}
    for file in folder.glob("notes-*"):
        for line in file.read_text().splitlines():
            word, mark = line.split(" ")
            told[word].add(mark)
    return told


def faults(db: Path, program: str, told: Dict[str, Set[str]]) -> List[str]:
    """What is wrong in a store, after what clients noted."""
    with karzhoul.open(MAPPING, db, program=program) as app, app.begin() as manager:
        entries = dict(manager.query("SELECT e.mark, e.of FROM Entry e"))
        count = manager.one("SELECT COUNT(e) FROM Entry e")
        text = "SELECT l.mark, l.ordinal, l.back, c.number FROM Loan l JOIN l.copy c"
        loans = manager.query(text)
        copies = manager.query("SELECT c.number, c.lent, c.holder FROM Copy c")
    found = [f"{mark} is confirmed, and isn't there" for mark in told[STORED] - set(entries)]
    found += [f"{mark} is told to be lost, and is there" for mark in told[LOST] & set(entries)]
    if count != len(entries):
        found.append(f"of {count} entries {len(entries)} marks are different")
    lent = {mark for mark, of in entries.items() if of is None}
    backs = {of: mark for mark, of in entries.items() if of is not None}
    if len(backs) != len(entries) - len(lent):
        found.append("a loan was taken back twice")
    found += [f"half of {it}" for it in lent ^ {mark for mark, *_ in loans}]
    found += [f"half of {back or backs.get(mark)}" for mark, _, back, _ in loans
              if backs.get(mark) != back]
    return found + _faults_of_copies(copies, loans)


def _faults_of_copies(
    copies: List[Tuple[int, int, Any]], loans: List[Tuple[str, int, Any, int]]
) -> List[str]:
    found: List[str] = []
    for number, lent, holder in copies:
        own = sorted((ordinal, mark, back) for mark, ordinal, back, of in loans if of == number)
        if [it[0] for it in own] != list(range(1, lent + 1)):
            found.append(f"copy {number} was lent {lent} times, by {[it[0] for it in own]}")
        are_lent = [mark for _, mark, back in own if back is None]
        if are_lent != ([] if holder is None else [holder]) or are_lent[:1] != [
            mark for _, mark, back in own[-1:] if back is None
        ]:
            found.append(f"copy {number} is lent to {holder}, by {are_lent}")
    return found


def mapping_file(folder: Path) -> Path:
    """The mapping, as a file."""
    file = folder / "mapping.json"
    file.write_text(json.dumps(MAPPING))
    return file
