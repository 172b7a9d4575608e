"""What is unique of the new classes, as it is looked at before anything is stored."""

from __future__ import annotations

from typing import Any, Dict, List, Tuple

from ..classes.unique import Constraint, Uniques
from ..records.records import Key, named
from .bringing import Brought
from .plans import Led
from .sides import Side
from .writing import Leads


class Singles:
    """The values of the new objects that are to be unique. `faults` are those that two have."""

    def __init__(self, side: Side, bringer: Leads) -> None:
        self.faults: List[str] = []
        self._bringer = bringer
        self._uniques = Uniques(side.made.model, side.made.lock) if side.made else None
        self._taken: Dict[str, Tuple[str, Key]] = {}
        # Those that lead to what may not have been read yet.
        self._late: List[Tuple[Constraint, Brought, List[Any]]] = []

    def add(self, each: Brought) -> None:
        """Takes a new object."""
        for constraint in self._uniques.of(each.shape.name) if self._uniques else ():
            parts = [_part(each, member.name) for member in constraint.members]
            if any(isinstance(part, Led) for part in parts):
                self._late.append((constraint, each, parts))
            else:
                self._take(constraint, each, parts)

    def finish(self) -> None:
        """Looks at those that were kept, once all objects are there."""
        for constraint, each, parts in self._late:
            self._take(constraint, each, [self._now(part) for part in parts])

    def _now(self, part: Any) -> Any:
        if not isinstance(part, Led):
            return part
        now = self._bringer.now(part)
        return list(now[1]) if isinstance(now, tuple) else None

    def _take(self, constraint: Constraint, each: Brought, parts: List[Any]) -> None:
        key = constraint.key(parts)
        own = each.shape.name, each.key
        if key is not None and (other := self._taken.setdefault(key, own)) is not own:
            values = ", ".join(
                repr(part) if member.type is None else repr(member.type.from_stored(part))
                for member, part in zip(constraint.members, parts)
            )
            self.faults.append(
                f"{constraint.entity}.{', '.join(constraint.names)} is to be unique, and {each} "
                f"and {named(*other)} have {values}"
            )


def _part(each: Brought, name: str) -> Any:
    """What a new object has by the name of a member."""
    if name in each.links:
        return each.links[name]
    if name in each.values:
        return each.values[name]
    return dict(zip((it.name for it in each.shape.key), each.key))[name]
