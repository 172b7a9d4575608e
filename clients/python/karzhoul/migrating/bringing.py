"""The new objects of each old one."""

from __future__ import annotations

from dataclasses import dataclass, field
from typing import Any, Dict, Iterator, List, Mapping, Optional, Sequence, Set, Tuple, Union

from ..mapping.meant import meant
from ..classes.embedded import Embedded
from ..classes.types import StoredType
from ..classes.types import Unfit as UnfitValue
from ..classes.values import WrongValue
from ..records.records import Key, Record, Shape, Unfit, Value, fitting, key_fitting, named
from ..mapping.unit import Member
from .forms import plain_type
from .names import check_whole, flattened
from .olds import Old, OldStore, Reference
from .plans import FUNCTION, ClassPlan, Led, Part, Plan, matched
from .sides import Side

MOST_FAULTS = 10


@dataclass
class Brought:
    """A new object, whose relations may still lead to objects of before."""

    shape: Shape
    key: Key
    version: int = 0
    values: Dict[str, Value] = field(default_factory=dict)
    links: Dict[str, Optional[Led]] = field(default_factory=dict)
    pairs: Dict[str, List[Led]] = field(default_factory=dict)
    is_added: bool = False
    """Whether it is of another class than its old one becomes."""

    def __str__(self) -> str:
        return named(self.shape.name, self.key)


class _Wrong(Exception):
    """What is wrong with a new object."""


Gives = Tuple[Optional[str], Mapping[str, Any]]
_WAYS = (
    "a dict of members, None where the object goes, or a list of these, in which "
    "(\"Class\", {..}) is another new object"
)


class Bringer:
    """Makes the new objects. `faults` are what was wrong with some, `moved` what the keys of
    hierarchies have become where that isn't the same, and `lost` counts what goes untold."""

    def __init__(self, plan: Plan, store: OldStore) -> None:
        self._plan, self._store, self._new = plan, store, plan.new
        self.faults: List[str] = []
        self.lost: Dict[str, int] = {}
        self._plans: Dict[Tuple[str, str], ClassPlan] = {}
        self._makers: Dict[Tuple[str, str], _Maker] = {}
        self._moved: Dict[str, Dict[Key, Optional[Tuple[str, Key]]]] = {
            top: {} for top in _moving(plan)
        }

    # ---- what relations lead to

    def now(self, led: Led) -> Union[None, bool, Tuple[str, Key]]:
        """The hierarchy and the key of what a relation leads to; False where that object is gone,
        and None where it hasn't been read yet."""
        if not led.is_old:
            return self._new.shapes[led.entity].top, led.key
        top = self._store.shapes[led.entity].top
        moved = self._moved.get(top)
        if moved is not None:
            return (moved[led.key] or False) if led.key in moved else None
        after = self._plan.classes[led.entity].new
        assert after is not None
        return after.top, led.key

    # ---- objects

    def brought(self, record: Record) -> Iterator[Brought]:
        """The new objects of an old one; what is wrong with them is among the faults."""
        plan = self._plan.classes[record.entity]
        made: List[Brought] = []
        try:
            for entity, given in self._given(plan, record):
                made.append(self._made(plan, record, entity, given, not made))
        except _Wrong as why:
            self.faults.append(f"{record}: {why}")
            made = []
        self._count_lost(plan, record)
        moved = self._moved.get(plan.old.top)
        if moved is not None:
            own = next((each for each in made if not each.is_added), None)
            moved[record.key or ()] = None if own is None else (own.shape.top, own.key)
        yield from made

    def _given(self, plan: ClassPlan, record: Record) -> Iterator[Gives]:
        """What a function gives of an object: the class, None for the one that it becomes, and the
        members."""
        if plan.function is None:
            if plan.new is not None:
                yield None, {}
            return
        name = f"{FUNCTION}{record.entity}"
        try:
            said = plan.function(Old(record, self._store))
        except Exception as fault:  # Of a function that isn't ours.
            raise _Wrong(f"{name} raises {type(fault).__name__}: {fault}") from fault
        for each in said if isinstance(said, list) else [said]:
            if isinstance(each, tuple) and len(each) == 2 and isinstance(each[1], Mapping):
                yield str(getattr(each[0], "__name__", each[0])), each[1]
            elif isinstance(each, Mapping):
                yield None, each
            elif each is not None:
                raise _Wrong(f"{name} gives {each!r}, and is to give {_WAYS}")

    def _count_lost(self, plan: ClassPlan, record: Record) -> None:
        if plan.function is not None:
            return
        own = plan.old.name
        if plan.new is None:
            self.lost[own] = self.lost.get(own, 0) + 1
        for name in plan.gone:
            held = (record.values.get(name), record.links.get(name), record.pairs.get(name) or None)
            if held != (None, None, None):
                self.lost[f"{own}.{name}"] = self.lost.get(f"{own}.{name}", 0) + 1

    def _made(
        self, plan: ClassPlan, record: Record, entity: Optional[str], given: Mapping[str, Any],
        is_first: bool,
    ) -> Brought:
        if entity is None and plan.new is None:
            raise _Wrong(f"there is no class that {record.entity} becomes: say which, as "
                         "(\"Class\", {..})")
        if entity is not None and entity not in self._new.shapes:
            raise _Wrong(f"there is no class {entity}{meant(entity, self._new.shapes)}")
        own = self._own(plan, entity) if is_first or entity is None else None
        shape = own.new if own is not None else self._new.shapes[str(entity)]
        assert shape is not None
        made = Brought(shape, (), is_added=own is None)
        maker = self._maker(shape, own)
        told = maker.told(given)
        made.key = maker.key(told, record.key if own is not None and not own.key else None)
        made.version = record.version or 0 if own is not None and shape.version else 0
        maker.fill(made, told, record)
        return made

    def _maker(self, shape: Shape, plan: Optional[ClassPlan]) -> _Maker:
        place = (plan.old.name if plan is not None else "", shape.name)
        if place not in self._makers:
            self._makers[place] = _Maker(self._new, shape, plan)
        return self._makers[place]

    def _own(self, plan: ClassPlan, entity: Optional[str]) -> Optional[ClassPlan]:
        """What becomes of an object that is of this class now, where that is its hierarchy's."""
        if entity is None or (plan.new is not None and plan.new.name == entity):
            return plan
        top = self._plan.classes[plan.old.top].new
        shape = self._new.shapes[entity]
        if top is None or shape.top != top.top:
            return None
        place = (plan.old.name, entity)
        if place not in self._plans:
            self._plans[place] = matched(self._plan, plan.old, shape)
        return self._plans[place]


Told = Mapping[str, Any]
"""What a function gives of a new object, by the names of the mapping."""


class _Maker:
    """Makes new objects of one class, of old ones that become it by one plan, or of what functions
    tell alone."""

    def __init__(self, side: Side, shape: Shape, plan: Optional[ClassPlan]) -> None:
        self._side, self._shape = side, shape
        self._known = (*(it.name for it in shape.key), *shape.values, *shape.links, *shape.pairs)
        self._members = side.class_members(shape.name)
        self._wholes = {name: it for name, it in self._members.items() if it.kind is not None}
        self._keys = [(it, self._kind(it)) for it in shape.key]
        parts = {part.name: part for part in plan.parts()} if plan is not None else {}
        self._values, self._links, self._pairs = (
            [(name, member, parts.get(name, Part(name))) for name, member in members.items()]
            for members in (shape.values, shape.links, shape.pairs)
        )
        self._required = [
            name for name, member, _ in (*self._values, *self._links) if member.is_required
        ]

    def told(self, given: Mapping[str, Any]) -> Told:
        """What is given, by the names of the mapping."""
        if not given:
            return {}
        try:
            found = dict(flattened(given, self._members, self._known))
        except UnfitValue as why:
            raise _Wrong(str(why)) from None
        for name in found:
            if name not in self._known:
                told = [*self._members, *(self._said(each) for each in self._known)]
                raise _Wrong(f"{self._shape.name} has no {name!r} that is stored"
                             f"{meant(name, told)}")
        return found

    def _said(self, name: str) -> str:
        return self._side.shown(self._shape.name, name)

    def key(self, told: Told, kept: Optional[Key]) -> Key:
        """Its key, of which a function tells all parts, or none where it is kept."""
        missing = [it.name for it, _ in self._keys if it.name not in told]
        if not missing:
            return tuple(self._value(it, told[it.name]) for it, _ in self._keys)
        if kept is None or len(missing) < len(self._keys):
            raise _Wrong(f"its {' and '.join(map(self._said, missing))}, of the key of "
                         f"{self._shape.name}, isn't told")
        for (part, kind), value in zip(self._keys, kept):
            try:
                kind.from_stored(value)
            except UnfitValue as why:
                raise _Wrong(f"{self._said(part.name)} {why}") from None
        return kept

    def fill(self, made: Brought, told: Told, record: Record) -> None:
        """Gives a new object its members."""
        for name, member, part in self._values:
            made.values[name] = (
                self._value(member, told[name]) if name in told else self._got(part, record)
            )
        for name, member, part in self._links:
            made.links[name] = (
                self._led(member, told[name]) if name in told else self._got(part, record)
            )
        for name in self._required:
            if made.values.get(name) is None and made.links.get(name) is None:
                raise _Wrong(f"{self._said(name)} is required, and null")
        for name, member, part in self._pairs:
            found = (
                [self._led(member, each) for each in told[name]] if name in told
                else self._got(part, record)
            )
            made.pairs[name] = list(found or ())
        try:
            check_whole(self._wholes, made.values)
        except WrongValue as why:
            raise _Wrong(str(why)) from None

    def _got(self, part: Part, record: Record) -> Any:
        """What a member is to be of which no function tells."""
        if part.missing:
            raise _Wrong(f"{self._said(part.name)} isn't told")
        if part.get is None:
            return None
        try:
            return part.get(record)
        except (UnfitValue, ValueError) as why:
            raise _Wrong(f"{self._said(part.name)} {why}") from None

    def _kind(self, member: Member) -> StoredType:
        return self._side.types.get((self._shape.name, member.name)) or plain_type(member.type)

    def _value(self, member: Member, value: Any) -> Value:
        kind = self._side.types.get((self._shape.name, member.name))
        try:
            if value is None or kind is None:
                return fitting(value, member.type, self._said(member.name))
            return kind.to_stored(value)
        except Unfit as why:
            raise _Wrong(str(why)) from None
        except UnfitValue as why:
            raise _Wrong(f"{self._said(member.name)} is to be {value!r}, which {why}") from None

    def _led(self, member: Member, value: Any) -> Optional[Led]:
        if value is None:
            return None
        if isinstance(value, Reference):
            return Led(True, value.entity, value.parts)
        shape = self._side.shapes[member.type]
        if isinstance(value, Embedded):
            value = tuple(value._values().values())
        parts: Sequence[Any] = value if isinstance(value, (tuple, list)) else (value,)
        kinds = [self._side.types.get((member.type, it.name)) for it in shape.key]
        if len(parts) == len(kinds):
            parts = [self._plain(kind, part) for kind, part in zip(kinds, parts)]
        try:
            return Led(False, member.type, key_fitting(parts, shape, member.name))
        except Unfit as why:
            raise _Wrong(str(why)) from None

    @staticmethod
    def _plain(kind: Optional[StoredType], value: Any) -> Any:
        """A part of a key as it is stored, also where it is given so."""
        try:
            return value if kind is None else kind.to_stored(value)
        except UnfitValue:
            return value


def _moving(plan: Plan) -> List[str]:
    """The hierarchies of before whose objects may have other keys, or become nothing, or become
    objects of several hierarchies."""
    found: Dict[str, Set[str]] = {}
    moving: Dict[str, None] = {}
    for each in plan.classes.values():
        top = each.old.top
        found.setdefault(top, set()).add(each.new.top if each.new else "")
        if each.function is not None or each.key or each.new is None or len(found[top]) > 1:
            moving[top] = None
    return list(moving)
