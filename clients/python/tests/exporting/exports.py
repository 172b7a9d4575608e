"""What the tests of `export` and `import` share: the commands, and classes with a store."""

from __future__ import annotations

import contextlib
import io
import resource
import sqlite3
from datetime import date, datetime, time, timedelta, timezone
from decimal import Decimal
from pathlib import Path
from types import ModuleType
from typing import Any, Iterator, List, Tuple
from uuid import UUID

from karzhoul.cli.command import main

from ..classed import HEAD, ClassesTest
from ..support import PROGRAM

LIBRARY = """
class State(Enum):
    OPEN = "open"
    SHUT = "shut"

class Level(Enum):
    LOW = 1
    HIGH = 5

class Address(Embedded):
    street: Optional[str] = None
    city: str

class Member(Entity):
    id: int = generated()
    version: int = version()
    name: str
    email: Optional[str] = field(default=None, unique=True)
    home: Optional[Address] = embedded()
    joined: Optional[date] = None
    seen: Optional[datetime] = None
    local: Optional[datetime] = naive(default=None)
    hour: Optional[time] = None
    took: Optional[timedelta] = None
    fee: Decimal = money(2, default=Decimal("1.50"))
    state: State = State.OPEN
    level: Level = by_value(default=Level.LOW)
    ident: Optional[UUID] = None
    extra: Optional[dict] = json_text(default=None)
    isLost: bool = False
    photo: Optional[bytes] = None
    loans: List["Loan"] = one_to_many("member")

class Company(Member):
    vat: Optional[str] = field(default=None, unique=True)
    order: Optional[int] = None

class Book(Entity, unique=("title", "number")):
    isbn: str = key()
    number: int = key()
    title: str

class Loan(Entity):
    number: int = key()
    member: Member = many_to_one()
    book: Optional[Book] = one_to_one()
    before: Optional["Loan"] = many_to_one()
    more: List[Book] = many_to_many()
"""
MOST = Decimal("92233720368547758.07")
EXTRA = {"b": [1, 2, "é\\t\t\n"], "a": None}


class Exporting(ClassesTest):
    """A folder with the classes of a library, and the commands over it."""

    def setUp(self) -> None:
        super().setUp()
        self.models = self.folder / "library.py"
        self.models.write_text(HEAD + LIBRARY)
        self.out, self.sql = self.folder / "out.db", self.folder / "out.sql"

    def ran(self, *words: Any) -> Tuple[int, str, str]:
        """A command's status and what it prints."""
        out, err = io.StringIO(), io.StringIO()
        with contextlib.redirect_stdout(out), contextlib.redirect_stderr(err):
            status = main([*map(str, words), "--program", str(PROGRAM)])
        return status, out.getvalue(), err.getvalue().replace(f"{self.folder}/", "")

    def done(self, *words: Any) -> str:
        """What a command prints, which must end well."""
        status, out, err = self.ran(*words)
        self.assertEqual((status, err), (0, ""))
        return out.replace(f"{self.folder}/", "")

    def stopped(self, *words: Any) -> str:
        """What a command tells that must be stopped, and leaves the folder as it was."""
        before = {it.name: it.read_bytes() for it in self.folder.glob("[!_]*") if it.is_file()}
        status, out, err = self.ran(*words)
        self.assertNotEqual(status, 0, out)
        self.assertEqual(out, "")
        after = {it.name: it.read_bytes() for it in self.folder.glob("[!_]*") if it.is_file()}
        logs = {name for name in after if name.endswith("-wal")}
        self.assertEqual({name: it for name, it in after.items() if name not in logs},
                         {name: it for name, it in before.items() if name not in logs})
        self.assertEqual([it for it in self.folder.glob("*.importing")], [])
        return err

    def library(self) -> ModuleType:
        """The classes, with a store of them: members of each sort of value, companies, books and
        loans that lead to each other."""
        self.classes = module = self._imported(self.models)
        with self.open(module) as app, app.begin() as manager:
            Member, Company = module.Member, module.Company
            ada = Member(
                name="Ada", email="a@x", home=module.Address(city="Ghent"),
                joined=date(2026, 1, 5), seen=datetime(2026, 1, 5, 9, 30, tzinfo=timezone.utc),
                local=datetime(1, 1, 1), hour=time(9, 30), took=timedelta(days=-3), fee=MOST,
                ident=UUID(int=7), extra=EXTRA, isLost=True, photo=b"\0\1\\",
            )
            bob = Company(name="Bo\tb\\\n\r'\"é", vat="V1", fee=Decimal("-0.05"), order=-(2**63))
            eve = Member(name="", joined=date(1999, 12, 31), level=module.Level.HIGH,
                         state=module.State.SHUT, fee=Decimal("0.00"))
            books = [module.Book(isbn=isbn, number=number, title=title) for isbn, number, title in
                     (("a", 10, "Emma"), ("a", 2, ""), ("é", -1, "Emma"), ("", 0, "\\N"))]
            loans = [module.Loan(number=number, member=member) for number, member in
                     ((1, ada), (-2, bob), (3, ada), (2**63 - 1, eve))]
            loans[0].book, loans[1].book = books[0], books[2]
            loans[0].before, loans[2].before, loans[3].before = loans[3], loans[0], loans[3]
            loans[0].more, loans[3].more = books, books[1:3]
            for each in (ada, bob, eve, *books, *loans):
                manager.persist(each)
            manager.flush()
            ada.fee = Decimal("2.25")
            gone = Member(name="gone")
            manager.persist(gone)
            manager.flush()
            manager.remove(gone)
        return module


def rows_of(db: Path, text: str) -> List[Tuple[Any, ...]]:
    """What a query over a file of SQLite finds."""
    with contextlib.closing(sqlite3.connect(db)) as store:
        return list(store.execute(text))


@contextlib.contextmanager
def files_of_at_most(size: int) -> Iterator[None]:
    """Has files of this process and its programs be no larger, as a full disk does."""
    before = resource.getrlimit(resource.RLIMIT_FSIZE)
    resource.setrlimit(resource.RLIMIT_FSIZE, (size, before[1]))
    try:
        yield
    finally:
        resource.setrlimit(resource.RLIMIT_FSIZE, before)
