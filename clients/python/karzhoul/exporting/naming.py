"""The names of tables, columns and constraints."""

from __future__ import annotations

import hashlib
import re
from typing import Dict, List, Mapping, Sequence, Tuple

from ..mapping.meant import meant
from ..refusals import Misused

AS_MAPPED, SNAKE = "mapping", "snake"
_LONGEST = 60
"""How many bytes the name of a constraint or an index has at most: databases cut longer ones."""


def snake(name: str) -> str:
    """A name in small letters, with a line between its words: `order_line` for `OrderLine`."""
    parted = re.sub(r"([A-Z]+)([A-Z][a-z])", r"\1_\2", name)
    return re.sub(r"([a-z0-9])([A-Z])", r"\1_\2", parted).lower()


class Names:
    """How tables and columns are named. `given` are names that the user gives, by `Entity` or
    `Entity.member`; one of these that names nothing is a `Misused`, told by `check`."""

    def __init__(self, style: str, given: Mapping[str, str]) -> None:
        self._style, self._given = style, given
        self._used: Dict[str, None] = {}
        self._known: Dict[str, None] = {}
        self._constraints: Dict[str, None] = {}

    def of(self, place: str, name: str) -> str:
        """The name of a table or a column, which is this one in the mapping's words."""
        self._known[place] = None
        if place in self._given:
            self._used[place] = None
            return self._given[place]
        return self.styled(name)

    def styled(self, name: str) -> str:
        """A name in the style that was asked for."""
        flat = name.replace(".", "_")
        return snake(flat) if self._style == SNAKE else flat

    def constraint(self, *parts: str) -> str:
        """A name of its own for a constraint or an index, of what it is about."""
        name = "_".join(parts)
        if len(name.encode()) > _LONGEST or name.lower() in self._constraints:
            digest = hashlib.sha256(name.encode()).hexdigest()[:8]
            cut = name.encode()[: _LONGEST - 9].decode(errors="ignore")
            name = f"{cut}_{digest}"
        self._constraints[name.lower()] = None
        return name

    def check(self) -> None:
        """Refuses a given name that is none of a table or a column."""
        for place in self._given:
            if place not in self._used:
                raise Misused(f"--name {place}: there is no such table or column"
                              f"{meant(place, list(self._known))}")


def given_names(words: Sequence[str]) -> Dict[str, str]:
    """The names of `--name Loan.book=book_no`; else a `Misused`."""
    found: Dict[str, str] = {}
    for word in words:
        place, sign, name = word.partition("=")
        if not sign or not place or not name or "\0" in name or '"' in name:
            raise Misused(f"--name {word}: write it as Entity=NAME or Entity.member=NAME")
        found[place] = name
    return found


def collisions(what: str, named: Sequence[Tuple[str, str]]) -> List[str]:
    """A line for each two places whose names are one, as databases look at names."""
    first: Dict[str, str] = {}
    found: List[str] = []
    for place, name in named:
        other = first.setdefault(name.lower(), place)
        if other != place:
            found.append(f"{other} and {place} would both be the {what} {name}: give one of them "
                         f"another name, as --name {place}=ANOTHER")
    return found
