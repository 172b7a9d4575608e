"""The columns of classes by their numbers, and the names by which a store has them: a number whose
name is another one is of another lock."""

from __future__ import annotations

import sqlite3
from contextlib import suppress
from pathlib import Path
from typing import Any, Dict, Iterator, List, Mapping, NamedTuple, Optional, Set, Tuple

from ..store.migration import opened_to_read
from .declared import Declared, Model
from .lock import FORMS_TABLE, Lock, Record, root_of
from .mapping import gone_name
from .renaming import AGAIN, words_of, written
from .types import StoredType

DROPPED = "dropped"
"""The form of a column whose values are let go."""


class Column(NamedTuple):
    """A column or a list, with the form that it is to have: `link`, `list`, `dropped`, or that of a
    type."""

    at: str
    """The name that a store has it by: its table and its number, of a list the number of its own.
    """
    entity: Declared
    name: str
    form: str
    type: Optional[StoredType] = None
    was: str = ""
    """What it was called, where its class has it no more."""


def columns(model: Model, lock: Lock) -> Iterator[Column]:
    """Those of a model, with those whose values go."""
    for entity in model.values():
        record, table = lock["entities"][entity.name], _table(lock, entity.name)
        for name, stored in record["members"].items():
            kind = entity.members[name].type
            form = "list" if "table" in stored else "link" if kind is None else kind.form
            yield Column(_at(table, stored), entity, name, form, kind)
        for each in record.get("gone", ()):
            if each.get("cleared"):
                yield Column(
                    _at(table, each), entity, gone_name(each), DROPPED, was=str(each["name"])
                )


def _table(lock: Lock, name: str) -> int:
    return int(lock["entities"][root_of(lock, name)]["table"])


def _at(table: int, stored: Record) -> str:
    return str(stored["table"]) if "table" in stored else f"{table}.{stored['column']}"


# ---- names

_NAME = "name "


class Place(NamedTuple):
    """A table or a column that a lock has, with its name, and those that it had."""

    at: str
    said: str
    """It as a user writes it, with its class."""
    name: str
    record: Record
    others: Set[str]
    """The names of others that there are beside it."""

    @property
    def row(self) -> str:
        """What the store's row of its name has as its key, beside the row of its form."""
        return _NAME + self.at

    def is_of(self, name: str) -> bool:
        """Whether it is what a store has by a name: so its class says, or the lock, where there is
        none of that name any more."""
        return name in (self.name, self.record.get("says")) or (
            name in self.record.get("was", ()) and name not in self.others
        )


def places(model: Model, lock: Lock) -> Iterator[Place]:
    """All tables that a lock has, and the columns and parts of keys of the classes of a
    model."""
    classes = set(model)
    for name, record in lock["entities"].items():
        if "table" in record:
            yield Place(str(record["table"]), name, name, record, classes)
    for entity in model.values():
        record, table = lock["entities"][entity.name], _table(lock, entity.name)
        members = set(entity.members)
        for name, stored in _named(record):
            said = f"{entity.name}.{words_of(name)}"
            yield Place(_at(table, stored), said, name, stored, members)
        parts = record.get("key", {}).get("parts", ())
        names = {part["name"] for part in parts}
        for at, part in enumerate(parts):
            said = f"{entity.name}.{words_of(part['name'])}"
            yield Place(_key_at(table, at), said, part["name"], part, names)


def _key_at(table: int, place: int) -> str:
    return f"{table}.key{place + 1}"


def _named(record: Record) -> Iterator[Tuple[str, Record]]:
    yield from record["members"].items()
    for each in record.get("gone", ()):
        yield each["name"], each


def other_names(
    model: Model, lock: Lock, stored: Mapping[str, str], file: str, store: str
) -> List[str]:
    """What a store has by other names than the lock, each with what to do."""
    faults: List[str] = []
    for each in places(model, lock):
        name = stored.get(each.row, each.name)
        if not each.is_of(name):
            there = words_of(name)
            faults.append(
                f"{each.said} is number {each.at} in {file}, and {store} has {there} there: the lock "
                "isn't the one that the store was last opened with. Take that one; or where "
                f"{each.said} is to have what {there} has, give it was=\"{written(each.name, name)}\""
            )
        elif stored.get(each.row) == each.name and each.record.get("again"):
            was = written(each.name, each.record["says"])
            faults.append(
                f"{each.said} has was=\"{was}\" again, and "
                + AGAIN.format(where=f", also in {store}")
            )
    return faults


def unknown(lock: Lock, stored: Mapping[str, str], file: str, store: str) -> List[str]:
    """What a store has and a lock doesn't know, told with what to do; nothing where it knows all."""
    known = set(_numbers(lock))
    numbers = dict.fromkeys(at[len(_NAME) :] if at.startswith(_NAME) else at for at in stored)
    odd = [words_of(stored.get(_NAME + at, f"number {at}")) for at in numbers if at not in known]
    if not odd:
        return []
    told = f"{', '.join(odd[:3])}{', ..' if len(odd) > 3 else ''}"
    return [f"{store} has what {file} doesn't know ({told}): it was last opened with another lock, "
            "mostly a newer one. Take that, as from the version control, and open again; nothing "
            "is lost"]


def _numbers(lock: Lock) -> Iterator[str]:
    for name, record in lock["entities"].items():
        table = _table(lock, name)
        yield str(table)
        told = [it for _, it in _named(record)]
        for each in [*told, *record.get("unique", {}).values()]:
            yield _at(table, each)
        for at in range(len(record["key"]["type"].split(", ")) if "key" in record else 0):
            yield _key_at(table, at)


_HOLDERS = (
    "SELECT mark.v, COUNT(*) FROM cell held JOIN cell mark ON mark.t = held.t AND mark.r = held.r "
    "WHERE held.t = ? AND held.c = ? AND mark.c = 0 GROUP BY mark.v ORDER BY mark.v"
)


def misplaced(model: Model, lock: Lock, db: Path) -> List[str]:
    """What objects in a store that can't be opened hold and only a class below theirs, or beside it,
    has now, told with what to do."""
    faults: List[str] = []
    kinds = {record["mark"]: name for name, record in lock["entities"].items()}
    with suppress(sqlite3.Error, UnicodeDecodeError), opened_to_read(db) as connection:
        for entity in filter(lambda it: it.parent, model.values()):
            table = _table(lock, entity.name)
            for name, stored in lock["entities"][entity.name]["members"].items():
                held = connection.execute(_HOLDERS, (table, stored.get("column")))
                for kind, count in ((kinds.get(_text(mark), ""), count) for mark, count in held):
                    if kind and not _is_below(lock, kind, entity.name):
                        said = words_of(name)
                        faults.append(
                            f"{kind}.{said} is stored in {count:,} of {kind}, and {entity.name} alone "
                            f"has {said} now, so that they would lose it: leave it in {kind}, or set "
                            "it to None in these first, by the classes and the lock of before; "
                            "nothing is lost"
                        )
    return faults


def _is_below(lock: Lock, name: str, above: str) -> bool:
    """Whether a class is another one or extends it."""
    while name != above and "extends" in lock["entities"][name]:
        name = lock["entities"][name]["extends"]
    return name == above


def stored_forms(db: Path) -> Dict[str, str]:
    """What a store that can't be opened says of its columns, as it stands in the file; nothing where
    it can't be read."""
    asked = f"SELECT r, v FROM cell WHERE t = {FORMS_TABLE} AND c = 1"
    with suppress(sqlite3.Error, UnicodeDecodeError), opened_to_read(db) as connection:
        return {_text(row[:-2]): _text(value) for row, value in connection.execute(asked)}
    return {}


def _text(cell: Any) -> str:
    return bytes(cell)[1:].decode()
