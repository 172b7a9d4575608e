"""What the tests of `dump` and `load` share: the commands over files, a store, and its cells."""

from __future__ import annotations

import contextlib
import io
import json
import sqlite3
from pathlib import Path
from typing import Any, Iterator, List, Tuple

import karzhoul
from karzhoul.cli.command import main

from .support import HERE, PROGRAM, FolderTest

CARRIED = HERE / "data" / "carried.json"


def cells(db: Path) -> List[Tuple[Any, ...]]:
    """The cells of a store."""
    with contextlib.closing(sqlite3.connect(db)) as store:
        return list(store.execute("SELECT t, hex(r), c, hex(v) FROM cell ORDER BY t, r, c"))


class Carrying(FolderTest):
    """A test in a folder of its own, over a mapping that stands there."""

    mapping: Any = json.loads(CARRIED.read_text(encoding="utf-8"))

    def setUp(self) -> None:
        super().setUp()
        self.db, self.other = self.place / "app.db", self.place / "other.db"
        self.written("mapping.json", json.dumps(self.mapping))

    def written(self, name: str, text: str) -> str:
        """Writes a file of the folder."""
        path = self.place / name
        path.write_bytes(text.encode())
        return str(path)

    def ran(self, command: str, *words: Any) -> Tuple[int, str, str]:
        """A command's status and what it prints."""
        own = ["--program", str(PROGRAM), "--mapping", str(self.place / "mapping.json")]
        out, err = io.StringIO(), io.StringIO()
        with contextlib.redirect_stdout(out), contextlib.redirect_stderr(err):
            status = main([command, *own, *map(str, words)])
        return status, out.getvalue(), err.getvalue().replace(f"{self.place}/", "")

    def dumped(self, db: Path, *words: str) -> str:
        """What a dump prints, which must end well."""
        status, out, err = self.ran("dump", db, *words)
        self.assertEqual((status, err), (0, ""))
        return out

    def loaded(self, db: Path, text: str, *words: str) -> str:
        """What a load of a text prints, which must end well."""
        status, out, err = self.ran("load", db, self.written("file", text), *words)
        self.assertEqual((status, err), (0, ""))
        return out

    def refused(self, db: Path, text: str, *words: str) -> List[str]:
        """What a load of a text tells, which must be stopped by a row."""
        status, out, err = self.ran("load", db, self.written("file", text), *words)
        self.assertEqual((status, out), (1, ""), err)
        return [line.partition("karzhoul: ")[2] for line in err.splitlines()]

    @contextlib.contextmanager
    def opened(self, db: Path) -> Iterator[karzhoul.EntityManagerFactory]:
        """The unit over a file."""
        with karzhoul.open(self.mapping, db, program=PROGRAM) as app:
            yield app

    def stored(self) -> None:
        """A store that has something of each sort, in several versions, with gaps between keys."""
        with self.opened(self.db) as app, app.create_entity_manager() as em:
            Order, Person, Clerk = map(app.entity, ("Order", "Person", "Clerk"))
            Spot, Tag = app.entity("Spot"), app.entity("Tag")
            with em.transaction():
                tags = [Tag(code=bytes([n])) for n in range(9)]
                spots = [Spot(at=(n - 2, f"s{n},\"é\n")) for n in range(5)]
                ada, gone, eve = Person(name="Ada"), Person(), Clerk(name="", room=7)
                orders = [Order(customer=eve), Order(customer=ada), Order(customer=ada)]
                for each in (*tags, *spots, ada, gone, eve, *orders):
                    em.persist(each)
                em.detach(gone)
                for place, spot in enumerate(spots):
                    spot.r1, spot.r2 = spots[(place + 1) % 5], spots[0]
                    for name in ("r3", "r4", "r5", "r6", "r7"):
                        setattr(spot, name, tags[place + int(name[1:]) - 3])
                spots[1].r8, spots[2].r9 = ada, tags[8]
                orders[0].status, orders[0].weight, orders[0].seal = "shipped", -7, b""
                orders[0].before, orders[0].spot = orders[2], spots[3]
                orders[1].like, orders[2].like = [orders[0], orders[2]], [orders[2]]
                orders[1].spots, ada.last = spots[:2], orders[1]
            for version in range(3):
                with em.transaction():
                    eve.name = f"Eve {version}"
                    spots[0].label, spots[3].label = f"v{version}", f"w{version // 2}"
            with em.transaction():
                em.execute_update("UPDATE Spot s SET s.version = 70 WHERE s.at.row = 0")
                em.execute_update("UPDATE Order o SET o.version = -5 WHERE o.id = 3")
                em.persist(Person(name="gone"))
            with em.transaction():
                em.remove(em.query_single("SELECT p FROM Person p WHERE p.name = 'gone'"))
