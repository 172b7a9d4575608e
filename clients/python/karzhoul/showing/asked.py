"""Statements of queries as they are typed at the prompt, and what they find as a table."""

from __future__ import annotations

import re
from typing import Any, Dict, List, Mapping, NamedTuple, Optional, Sequence

from ..explain.texts import value_text
from ..jpql.check import check
from ..mapping.unit import EntityDescription, Member, MemberKind
from ..objects.entities import Entity
from ..queries.rows import Names
from ..session.factory import EntityManagerFactory
from .tables import grid

STATEMENTS = ("SELECT", "UPDATE", "DELETE")
KEYWORDS = (
    *STATEMENTS, "DISTINCT", "FROM", "WHERE", "GROUP BY", "HAVING", "ORDER BY", "INNER", "LEFT",
    "JOIN", "ON", "AS", "AND", "OR", "NOT", "BETWEEN", "IN", "LIKE", "ESCAPE", "IS", "NULL",
    "EMPTY", "MEMBER OF", "EXISTS", "TYPE", "SET", "ASC", "DESC", "COUNT", "SUM", "MIN", "MAX",
    "LENGTH", "CONCAT", "SUBSTRING", "LOCATE", "ABS", "MOD", "SIZE", "COALESCE", "NULLIF",
)
_TAIL = re.compile(r'\s+(:\w+|first|max)=("(?:[^"\\]|\\.)*"|[^\s"]\S*)\s*\Z')
# How many members of a collection are told.
_MOST_MEMBERS = 20


class Statement(NamedTuple):
    """A statement, and the words behind it: `:name=value`, `first=0` and `max=10`."""

    text: str
    words: List[str]

    @property
    def is_select(self) -> bool:
        """Whether it finds rows."""
        return self.text[:6].upper() == "SELECT"


def statement_of(line: str) -> Optional[Statement]:
    """The statement that a line is; None where it is none."""
    text = line.strip()
    words: List[str] = []
    if text.partition(" ")[0].upper() not in STATEMENTS:
        return None
    text = text.rstrip("; \t")
    while found := _TAIL.search(text):
        name, before = found[1], text[: found.start()]
        if name.startswith(":") and not re.search(rf"{name}\b", before):
            break  # It is a comparison.
        words.insert(0, f"{name}={found[2]}")
        text = before.rstrip("; \t")
    return Statement(text, words)


def mistakes_in(statement: Statement, described: Mapping[str, EntityDescription]) -> List[str]:
    """What the client's own check finds in a statement: the line, the column, the word and why."""
    given = {word[1:].partition("=")[0]: None for word in statement.words if word[0] == ":"}
    return [str(finding) for finding in check(statement.text, described, given)]


def titles_of(text: str, count: int) -> List[str]:
    """What the items of a SELECT are called, as `rows` names them; by their places where that can't
    be told."""
    titles = list(Names(text).fields)
    return titles if len(titles) == count else [str(place + 1) for place in range(count)]


# ---- answers


class Teller:
    """Tells objects and rows as lines of text."""

    def __init__(
        self, app: EntityManagerFactory, described: Mapping[str, EntityDescription]
    ) -> None:
        self._app, self._described = app, described

    def table(self, text: str, rows: Sequence[Any]) -> List[str]:
        """What a SELECT found. Where a row is an object, it is shown with its values."""
        if not rows:
            return ["no rows"]
        objects = [row for row in rows if isinstance(row, Entity)]
        count = f"{len(rows)} row" + ("" if len(rows) == 1 else "s")
        if objects and all(row is None or isinstance(row, Entity) for row in rows):
            return [*self._objects(rows), count]
        listed = [row if isinstance(row, list) else [row] for row in rows]
        names = self._names([item for row in listed for item in row])
        cells = [[names.get(id(item), item) for item in row] for row in listed]
        return [*grid(titles_of(text, len(listed[0])), cells), count]

    def _objects(self, rows: Sequence[Optional[Entity]]) -> List[str]:
        kinds = (MemberKind.KEY, MemberKind.VERSION, MemberKind.ATTRIBUTE)
        columns: Dict[str, None] = {}
        values: Dict[int, Dict[str, Any]] = {}
        for name, objects in _by_class(rows).items():
            members = [each for each in self._described[name].members if each.kind in kinds]
            columns.update(dict.fromkeys(member.name for member in members))
            for member in members:
                for each, value in zip(objects, self._app.get_many(objects, member.name)):
                    values.setdefault(each._karzhoul_number, {})[member.name] = value
        cells = [
            [f"#{row._karzhoul_number} {type(row).__name__}"]
            + [values[row._karzhoul_number].get(column, "") for column in columns]
            if row is not None
            else [None] * (1 + len(columns))
            for row in rows
        ]
        return grid(["", *columns], cells)

    def members(self, entity: Entity) -> List[str]:
        """An object with all its members, those of relations too, which are loaded."""
        described = self._described[type(entity).__name__]
        told = [(member.name, self._member(entity, member)) for member in described.members]
        width = max(len(name) for name, _ in told)
        head = self._names([entity])[id(entity)]
        return [head, *(f"  {name:<{width}}  {value}" for name, value in told)]

    def _member(self, entity: Entity, member: Member) -> str:
        value = self._app.get(entity, member.name)
        items = value if isinstance(value, list) else [value]
        shown = items[:_MOST_MEMBERS]
        names = self._names(shown)
        words = ", ".join(names.get(id(item), value_text(item)) for item in shown)
        more = f", and {len(items) - len(shown)} more" if len(items) > len(shown) else ""
        return f"[{words}{more}]" if isinstance(value, list) else words

    def _names(self, items: Sequence[Any]) -> Dict[int, str]:
        """What objects are called, by their identity as objects of Python."""
        names: Dict[int, str] = {}
        for name, objects in _by_class(items).items():
            parts = [part.name for part in self._described[name].key]
            keys = zip(*(self._app.get_many(objects, part) for part in parts))
            for each, key in zip(objects, keys):
                words = ", ".join(map(value_text, key))
                names[id(each)] = f"#{each._karzhoul_number} {name} {words}"
        return names


def _by_class(items: Sequence[Any]) -> Dict[str, List[Entity]]:
    objects = dict.fromkeys(item for item in items if isinstance(item, Entity))
    found: Dict[str, List[Entity]] = {}
    for each in objects:
        found.setdefault(type(each).__name__, []).append(each)
    return found


# ---- completion


def words_within(
    statement: str, text: str, described: Mapping[str, EntityDescription]
) -> List[str]:
    """The words that may stand at the end of a statement that is being typed: entities, keywords,
    and behind the dot of a variable the members of its entity."""
    head, dot, _ = text.rpartition(".")
    if not dot:
        spelled = KEYWORDS if text.isupper() else [word.lower() for word in KEYWORDS]
        return [*described, *spelled]
    pattern = rf"(\w+)\s+(?:AS\s+)?{re.escape(head.partition('.')[0])}\b"
    found = [each for each in re.findall(pattern, statement, re.IGNORECASE) if each in described]
    known = [described[found[0]]] if found and "." not in head else list(described.values())
    return [f"{head}.{member.name}" for entity in known for member in entity.members]
