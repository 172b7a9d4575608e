"""The tables that annotated classes of Java say: `karzhoul.jpa.tool.Main mapping --tables` writes them
into a file, with the mapping of what is stored."""

from __future__ import annotations

import argparse
import json
from dataclasses import dataclass, field
from datetime import timezone, tzinfo
from pathlib import Path
from typing import Any, Dict, List, Mapping, Optional, Tuple

from ..mapping.given import WrongMapping
from ..mapping.linter import lint
from ..migrating.sides import Side
from .dialects import Dialect
from .javaforms import POSTGRESQL, Times, form_of
from .naming import AS_MAPPED, Names, collisions
from .tables import CLASS, KEY, LINK, OWNER, TARGET, VALUE, VERSION, Column, Foreign, Table, Unique

HELD, PLACE = "held", "place"
_SORTS = {"class": CLASS, "key": KEY, "version": VERSION, "value": VALUE, "link": LINK, "owner": OWNER,
          "member": TARGET, HELD: HELD, PLACE: PLACE}
Place = Tuple[str, str]
"""An entity and a member of it."""


@dataclass
class Said:
    """A table, with what is said of it. `sources` are the members that a column has, by its place
    among the columns: those of classes beside each other may share one."""

    table: Table
    written: Mapping[str, Any]
    sources: List[List[Place]] = field(default_factory=list)

    @property
    def rows(self) -> Optional[str]:
        """The entity whose objects are its rows, where that is a collection's."""
        return self.written.get("rows")

    @property
    def pairs(self) -> Optional[str]:
        """The list whose pairs, or whose rows, it has."""
        return self.written.get("list")


@dataclass
class Generator:
    """Where keys are counted: by a row of a table, or by a sequence."""

    said: Mapping[str, Any]
    table: Optional[Table] = None
    sequence: Optional[str] = None


class Annotated:
    """The tables of a file, for one database. `faults` are what stands in their way, a line each."""

    def __init__(self, side: Side, said: Mapping[str, Any], dialect: Dialect, times: Times) -> None:
        self.side, self._said, self._times = side, said, times
        self._names = Names(AS_MAPPED, {})
        self.faults: List[str] = []
        self.tables = [self._table(it) for it in said["tables"]]
        self.generators = [self._generator(it) for it in said["generators"]]
        for it in self.tables:
            self._lead(it)
        self.faults += collisions("table", [(f"table {at}", it.name) for at, it in enumerate(self.all)])
        self.faults += dialect.faults(self.all)

    @property
    def all(self) -> List[Table]:
        """The tables, with those that count keys."""
        counting = {it.table.name: it.table for it in self.generators if it.table is not None}
        return [*(it.table for it in self.tables), *counting.values()]

    @property
    def description(self) -> str:
        """What a store says of itself that these classes wrote."""
        return str(self._said["description"])

    def _name(self, said: str) -> str:
        """A name as the database has it that a provider writes: quoted where the classes quote it,
        and else in the letters of the database's own."""
        if len(said) > 2 and said[0] == said[-1] == '"':
            return said[1:-1]
        return said.lower() if self._times.database == POSTGRESQL else said

    # ---- tables

    def _table(self, said: Mapping[str, Any]) -> Said:
        table = Table(self._name(said["name"]), said["entity"], said.get("list"))
        found = Said(table, said)
        for each in said["columns"]:
            place = f"{said['name']}.{each['name']}"
            kind = form_of(each["type"], self._times)
            if kind is None:
                self.faults.append(f"{place}: what is stored as '{each['type']}' isn't written")
                continue
            sources = [(entity, member) for entity, member in each.get("of", ())]
            of = sources[0] if sources else (said["entity"], "")
            table.columns.append(Column(
                self._name(each["name"]), _SORTS[each["is"]], place, of[0], of[1],
                each.get("part", 0), kind, kind, each["required"], self._is_counted(said, each),
            ))
            found.sources.append(sources)
        if found.rows is not None:
            table.has_key = False
        for unique in said["unique"]:
            columns = tuple(map(self._name, unique["columns"]))
            table.uniques.append(Unique(
                self._names.constraint("uq", table.name, *columns), columns, tuple(unique["marks"])
            ))
        return found

    def _is_counted(self, table: Mapping[str, Any], column: Mapping[str, Any]) -> bool:
        return column["is"] == KEY and any(
            it["is"] == "identity" and it["entity"] == table["entity"] for it in self._said["generators"]
        )

    def _lead(self, said: Said) -> None:
        table = said.table
        for each in said.written["leads"]:
            columns = tuple(map(self._name, each["columns"]))
            is_led = columns == table.key[: len(columns)] or any(
                columns == it.columns for it in table.uniques if not it.marks
            )
            table.foreign.append(Foreign(
                self._names.constraint("fk", table.name, *columns),
                None if is_led else self._names.constraint("ix", table.name, *columns),
                columns, self._name(each["table"]), tuple(map(self._name, each["targets"])),
            ))

    # ---- keys that are counted

    def _generator(self, said: Mapping[str, Any]) -> Generator:
        if said["is"] == "row":
            return Generator(said, self._counting(said["table"], said["key"], said["value"]))
        if said["is"] == "sequence" and self._times.database == POSTGRESQL:
            return Generator(said, sequence=self._name(said["name"]))
        if said["is"] == "sequence":
            self.faults.append(f"{said['name']} is a sequence, and SQLite has none: let a table count, "
                               "by GenerationType.TABLE")
        return Generator(said)

    def _counting(self, name: str, key: str, value: str) -> Table:
        """A table that counts keys."""
        text, number = (form_of(it, self._times) for it in ("text", "integer 64"))
        assert text is not None and number is not None
        table = Table(self._name(name), name)
        for column, sort, kind in ((key, KEY, text), (value, VALUE, number)):
            table.columns.append(Column(
                self._name(column), sort, f"{name}.{column}", name, column, type=kind, check=kind,
                is_required=True,
            ))
        return table


def annotated(said: argparse.Namespace, dialect: Dialect) -> Annotated:
    """The tables that a file says; a `WrongMapping` where it is no such file."""
    data = Path(said.tables).read_bytes()
    try:
        written = json.loads(data)
        mapping: Dict[str, Any] = written["mapping"]
        side = Side(said.tables, mapping, mapping)
        times = Times(dialect.name, _zone(said.zone or written["zone"]), said.round)
        findings = lint(json.dumps(mapping).encode()).findings
        if findings:
            raise WrongMapping("\n".join(f"{said.tables}: {finding}" for finding in findings))
        return Annotated(side, written, dialect, times)
    except (ValueError, LookupError, TypeError) as fault:
        raise WrongMapping(
            f"{said.tables} has no tables of Java's classes, as 'java .. karzhoul.jpa.tool.Main mapping "
            f"--unit NAME --tables' writes them: {fault!r}"
        ) from fault


def _zone(name: str) -> tzinfo:
    try:
        from zoneinfo import ZoneInfo

        return ZoneInfo(name)
    except (ImportError, LookupError, ValueError, OSError):
        if name in ("Z", "UTC", "GMT", "Etc/UTC"):
            return timezone.utc
        raise WrongMapping(f"there is no time zone {name} on this machine: name another one by "
                           "--zone, or install tzdata") from None
