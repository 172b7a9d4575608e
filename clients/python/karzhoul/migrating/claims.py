"""Which class and which member of before each new one goes on with: of classes by the rule of their
openings (`classes.renaming`), of a mapping by hand by its name, or by its place."""

from __future__ import annotations

from typing import Any, Dict, List, NamedTuple, Optional

from ..classes import lock as locks
from ..classes.renaming import Claim, Record, refused
from ..records.records import Shape
from .sides import Side

_SOURCE = "source"
"""Of a record, the name of what it is of on the old side."""


class Sources(NamedTuple):
    """What the members of a class go on with, by name, and why some can't."""

    found: Dict[str, str]
    refused: Dict[str, str]


class Names:
    """The names of two sides. `matches` are the new classes of old ones, `refused` says why others
    can't go on with what their was= says."""

    def __init__(self, old: Side, new: Side) -> None:
        self.old, self.new = old, new
        self._lock = _lock_of_before(old, new)
        self.matches: Dict[str, str] = {}
        self.refused: List[str] = []
        self._match_classes()

    # ---- classes

    def _match_classes(self) -> None:
        marks = {_mark(self.old, name): name for name in self.old.shapes}
        known: Dict[str, Record] = {}
        for mark, name in marks.items():
            record = self._lock["entities"].get(name, {})
            known[name] = {**(record if record.get("mark") == mark else {}), _SOURCE: name}
        model = self.new.made.model if self.new.made else {}
        claims = [_claim(it.name, it.was, known) for it in model.values()]
        unmet = refused(claims)
        self.refused = [f"{name} {why}" for name, why in unmet.items()]
        self.matches = {source: name for name, source in _met(claims, unmet).items()}
        for name in self.new.shapes:
            for each in (name, marks.get(_mark(self.new, name), "")) if name not in model else ():
                if each in known and each not in self.matches:
                    self.matches[each] = name
                    break

    # ---- members

    def sources(self, before: Shape, after: Shape) -> Sources:
        """What the members of a class go on with of another one."""
        known = self._known(before)
        names = [*after.values, *after.links, *after.pairs]
        members = self.new.class_members(after.name)
        claims = [_claim(it, members[it].field.was, known) for it in names if it in members]
        unmet = refused(claims)
        found = _met(claims, unmet)
        places = self._places(before)
        said = said_of(self.new, after)
        for name in names:
            each = said.get(name, {})
            if name in members or "since" in each:
                continue
            place = places.get(each.get("was", each.get("column")), "")
            source = name if name in known else "" if place in names else place
            if source in known and source not in found.values():
                found[name] = source
        return Sources(found, unmet)

    def _known(self, before: Shape) -> Dict[str, Record]:
        """The members of a class of before, with what the lock of before knows of their names."""
        said = said_of(self.old, before)
        known: Dict[str, Record] = {}
        for name in (*before.values, *before.links, *before.pairs, *(it.name for it in before.key)):
            records = (self._lock["entities"].get(each, {}).get("members", {}).get(name)
                       for each in before.chain)
            record: Record = next(filter(None, records), {})
            is_of = _number(record) == _number(said.get(name, {}))
            known[name] = {**(record if is_of else {}), _SOURCE: name}
        return known

    def _places(self, before: Shape) -> Dict[Any, str]:
        """The members of before by their columns, where both sides are mappings."""
        if self.old.made or self.new.made:
            return {}
        said = said_of(self.old, before)
        return {each["column"]: name for name, each in said.items() if "column" in each}


def _lock_of_before(old: Side, new: Side) -> locks.Lock:
    """The lock of the classes of before, else the one that stands where the new ones have theirs:
    what its numbers say of others than those of the old side isn't known."""
    if old.made is not None:
        return old.made.lock
    return locks.parsed(new.made.before, new.made.file) if new.made else locks.empty()


def _claim(name: str, was: Optional[str], known: Dict[str, Record]) -> Claim:
    said = was if was and was != name else ""
    return Claim(name, said, known.get(name), known.get(said))


def _met(claims: List[Claim], unmet: Dict[str, str]) -> Dict[str, str]:
    """What claims that can be met go on with, by their names."""
    return {it.name: str(it.record[_SOURCE]) for it in claims
            if it.record is not None and it.name not in unmet}


def _mark(side: Side, name: str) -> str:
    entity = next(each for each in side.mapping["entities"] if each["name"] == name)
    return str(entity.get("discriminator", name))


def _number(record: Record) -> Any:
    """The number that a lock or a mapping gives a member."""
    return record.get("column", record.get("table", record.get("joinTable")))


def said_of(side: Side, shape: Shape) -> Dict[str, Dict[str, Any]]:
    """What a mapping says of each member of a class."""
    entities = {each["name"]: each for each in side.mapping["entities"]}
    return {
        each["name"]: each for name in shape.chain for sort in ("attributes", "relations")
        for each in entities[name].get(sort, ())
    }
