"""What each database makes of names, types and values."""

from __future__ import annotations

from typing import Any, Callable, Dict, List, Optional, Sequence

from ..classes.types import Iso, Json, Money, Plainly, StoredType, Truth, Unfit, Unique
from ..records.records import Value
from .javaforms import JavaForm
from .tables import Table

Make = Callable[[Any], Any]
_LONGEST_NAME = 63
_SYSTEM_COLUMNS = ("tableoid", "xmin", "cmin", "xmax", "cmax", "ctid")


def quoted(name: str) -> str:
    """A name that may be a word of the language, or have large letters."""
    escaped = name.replace('"', '""')
    return f'"{escaped}"'


class Dialect:
    """A database that tables are written for."""

    name = ""

    def type_of(self, kind: StoredType) -> str:
        """The type of a column of such values."""
        raise NotImplementedError

    def note_of(self, kind: StoredType) -> str:
        """What is to be known of such a column that its type doesn't say."""
        if kind.form == "timedelta":
            return "microseconds"
        return ""

    def maker(self, kind: StoredType) -> Optional[Make]:
        """What makes a value for the database of one that is stored, null apart; None where it is
        the same. Its `Unfit` says why a value doesn't go."""
        raise NotImplementedError

    def faults(self, tables: Sequence[Table]) -> List[str]:
        """The names that the database doesn't take, a line each."""
        raise NotImplementedError


class SQLite(Dialect):
    """Values are as a store has them: SQLite has no decimal numbers, no truth values and no days
    of its own."""

    name = "sqlite"
    _PLAIN = {"int": "INTEGER", "text": "TEXT", "bytes": "BLOB"}

    def type_of(self, kind: StoredType) -> str:
        if isinstance(kind, JavaForm):
            return kind.sql
        if isinstance(kind, Truth):
            return "BOOLEAN"
        if isinstance(kind, Iso):
            return {"date": "DATE", "time": "TIME"}.get(kind.kind.__name__, "TIMESTAMP")
        if isinstance(kind, Unique):
            return "CHAR(36)"
        return self._PLAIN[kind.stored]

    def note_of(self, kind: StoredType) -> str:
        if isinstance(kind, Money):
            return f"whole numbers: the value times 10 to the power of {kind.scale}"
        return super().note_of(kind)

    def maker(self, kind: StoredType) -> Optional[Make]:
        if isinstance(kind, Plainly):
            return None
        if isinstance(kind, JavaForm):
            return kind.made

        def checked(value: Value) -> Value:
            kind.from_stored(value)
            return value

        return checked

    def faults(self, tables: Sequence[Table]) -> List[str]:
        return [
            f"{it.entity} would be the table {it.name}, a name that SQLite keeps for itself: give "
            f"it another one by --name"
            for it in tables if it.name.lower().startswith("sqlite_")
        ]


class PostgreSQL(Dialect):
    """PostgreSQL, of version 12 and later."""

    name = "postgresql"
    # The order of its texts is that of a store.
    _PLAIN = {"int": "bigint", "text": 'text COLLATE "C"', "bytes": "bytea"}
    _TYPES: Dict[str, str] = {
        "date": "date", "time": "time", "datetime": "timestamptz", "datetime naive": "timestamp",
    }

    def type_of(self, kind: StoredType) -> str:
        if isinstance(kind, JavaForm):
            return kind.sql
        if isinstance(kind, Truth):
            return "boolean"
        if isinstance(kind, Iso):
            return self._TYPES[kind.form]
        if isinstance(kind, Money):
            return f"numeric({max(19, kind.scale)},{kind.scale})"
        if isinstance(kind, Unique):
            return "uuid"
        return "json" if isinstance(kind, Json) else self._PLAIN[kind.stored]

    def maker(self, kind: StoredType) -> Optional[Make]:
        if isinstance(kind, JavaForm):
            return _then_copied(kind)
        if isinstance(kind, Truth):
            return lambda value: "t" if kind.from_stored(value) else "f"
        if isinstance(kind, Money):
            return lambda value: format(kind.from_stored(value), "f")
        if kind.stored == "bytes":
            return lambda value: f"\\\\x{value.hex()}"
        if kind.stored == "int":
            return None if isinstance(kind, Plainly) else _checking(kind, str)
        return _copied if isinstance(kind, Plainly) else _checking(kind, _copied)

    def faults(self, tables: Sequence[Table]) -> List[str]:
        return [
            f"{place} would be {what} {name}, {why}: give it another one by --name {place}=NAME"
            for table in tables for place, what, name in _named(table)
            for why in _why_not(what, name)
        ]


def _checking(kind: StoredType, then: Make) -> Make:
    def checked(value: Value) -> Any:
        kind.from_stored(value)
        return then(value)

    return checked


def _then_copied(kind: JavaForm) -> Make:
    return lambda value: _copied(str(kind.made(value)))


_ESCAPES = str.maketrans({"\\": "\\\\", "\t": "\\t", "\n": "\\n", "\r": "\\r"})


def _copied(value: str) -> str:
    """A text as COPY has it."""
    if "\0" in value:
        raise Unfit("has U+0000, which PostgreSQL can't hold in a text")
    return value.translate(_ESCAPES)


def _named(table: Table) -> List[List[str]]:
    place = table.entity if table.pair is None else f"{table.entity}.{table.pair}"
    return [[place, "the table", table.name],
            *([it.place, "the column", it.name] for it in table.columns)]


def _why_not(what: str, name: str) -> List[str]:
    if len(name.encode()) > _LONGEST_NAME:
        return [f"a name of {len(name.encode())} bytes, and PostgreSQL cuts those of more than "
                f"{_LONGEST_NAME}"]
    if what == "the column" and name in _SYSTEM_COLUMNS:
        return ["a name that PostgreSQL keeps for itself"]
    return []


DIALECTS: Dict[str, Dialect] = {it.name: it for it in (SQLite(), PostgreSQL())}
