"""What becomes of each class: where the members of the new one come from, what goes, and what only
a function can tell."""

from __future__ import annotations

from dataclasses import dataclass, field
from types import ModuleType
from typing import Any, Callable, Collection, Dict, Iterator, List, Mapping, NamedTuple, Optional

from ..mapping.meant import meant
from ..classes.declared import Member as ClassMember
from ..classes.fields import MISSING
from ..mapping.converters import value_of
from ..records.records import Key, Record, Shape, Value
from ..mapping.unit import OWN_MEMBERS, Member
from .claims import Names, said_of
from .forms import conversion, keeps, plain_type
from .sides import Side

FUNCTION = "bring_over_"
"""The beginning of the name of a function for a class of before."""
Get = Callable[[Record], Any]


@dataclass
class Part:
    """A member of a new class: what gives it of an old record, in words where it changes, and
    why that can't be told."""

    name: str
    get: Optional[Get] = None
    words: str = ""
    missing: str = ""


@dataclass
class ClassPlan:
    """What becomes of the objects of one class; without a new one they go."""

    old: Shape
    new: Optional[Shape]
    values: List[Part] = field(default_factory=list)
    links: List[Part] = field(default_factory=list)
    pairs: List[Part] = field(default_factory=list)
    key: str = ""
    """Why a key can't be kept."""
    key_named: str = ""
    """What a key that is kept is called now, where that is another name."""
    gone: List[str] = field(default_factory=list)
    """The members of before that no member takes."""
    function: Optional[Callable[..., Any]] = None

    def parts(self) -> Iterator[Part]:
        """All members of the new class."""
        for parts in (self.values, self.links, self.pairs):
            yield from parts

    def faults(self) -> Iterator[str]:
        """What must be told, and isn't."""
        if self.function is not None or self.new is None:
            return
        way = f"{FUNCTION}{self.old.name}(old) of a module, named by --with, is to give it"
        for why in [self.key, *(part.missing for part in self.parts())]:
            if why:
                yield f"{why}: {way}"

    def told(self) -> Iterator[str]:
        """Lines for a reader: what changes."""
        for part in self.parts():
            if part.words and not part.name.startswith(OWN_MEMBERS):
                yield part.words
        if self.key or self.key_named:
            yield self.key or self.key_named
        if self.function is not None:
            yield f"{FUNCTION}{self.old.name} gives what is said there"


@dataclass
class Plan:
    """What becomes of a store."""

    old: Side
    new: Side
    classes: Dict[str, ClassPlan]
    added: List[str]
    """The new classes that no class of before becomes."""
    drops: Collection[str]
    """What may be lost: classes, and `Class.member`."""
    names: Names
    """What goes on with what."""

    def faults(self) -> List[str]:
        """What must be told, and isn't, or is told of nothing."""
        found = [*self.names.refused, *(
            why for each in self.classes.values() for why in each.faults())]
        known = [*self.classes, *(
            f"{it.old.name}.{self.old.shown(it.old.name, name)}" for it in self.classes.values()
            for name in it.gone
        )]
        for drop in self.drops:
            if drop not in known:
                there = meant(drop, known)
                found.append(f"--drop {drop}: nothing of this name goes{there}")
        return found


def planned(old: Side, new: Side, functions: Optional[ModuleType], drops: Collection[str]) -> Plan:
    """What becomes of a store of the one side on the other."""
    names = Names(old, new)
    classes = {name: ClassPlan(shape, None) for name, shape in old.shapes.items()}
    for name, target in names.matches.items():
        classes[name] = _Matched(names, old.shapes[name], new.shapes[target]).plan()
    for name, function in _functions(functions, old.shapes).items():
        classes[name].function = function
    added = [name for name in new.shapes if name not in names.matches.values()]
    return Plan(old, new, classes, added, drops, names)


def matched(plan: Plan, before: Shape, after: Shape) -> ClassPlan:
    """What becomes of objects of one class that are of another one now."""
    return _Matched(plan.names, before, after).plan()


def _functions(
    module: Optional[ModuleType], shapes: Mapping[str, Shape]
) -> Dict[str, Callable[..., Any]]:
    """The functions of a module by the classes of before that they are for."""
    found: Dict[str, Callable[..., Any]] = {}
    for name, each in vars(module).items() if module else ():
        if name.startswith(FUNCTION):
            entity = name[len(FUNCTION):]
            if entity not in shapes:
                raise KeyError(f"{name}: there is no class {entity} of before"
                               f"{meant(entity, shapes)}")
            found[entity] = each
    if module is not None and not found:
        raise KeyError(f"{module.__name__} has no function of the name {FUNCTION}CLASS")
    return found


# ---- which member becomes which


class _Matched:
    """A class of before, and the one that it becomes."""

    def __init__(self, names: Names, before: Shape, after: Shape) -> None:
        self._old, self._new, self._before, self._after = names.old, names.new, before, after
        self._matches = names.matches
        self._members = self._new.class_members(after.name)
        self._said = said_of(self._new, after)
        self._sources, self._refused = names.sources(before, after)

    def plan(self) -> ClassPlan:
        before, after = self._before, self._after
        made = ClassPlan(before, after, key=self._key(), key_named=self._key_named())
        made.values = [self._value(each) for each in after.values.values()]
        made.links = [self._link(each) for each in after.links.values()]
        made.pairs = [self._pair(each) for each in after.pairs.values()]
        for part in made.parts():
            if part.name in self._refused:
                part.get, part.words = None, ""
                part.missing = (f"{after.name}.{self._new.shown(after.name, part.name)} "
                                f"{self._refused[part.name]}")
        held = [*before.values, *before.links, *before.pairs]
        made.gone = [name for name in held if name not in self._sources.values()]
        return made

    def _key(self) -> str:
        was, own = (
            [(side.shown(shape.name, it.name), self._type(side, shape, it)) for it in shape.key]
            for side, shape in ((self._old, self._before), (self._new, self._after))
        )
        if len(was) == len(own) and all(keeps(a[1], b[1]) for a, b in zip(was, own)):
            return ""
        told = [" and ".join(f"{name}, {kind.what}" for name, kind in parts)
                for parts in (was, own)]
        return f"{self._after.name}: its key was {told[0]}, and is {told[1]}"

    def _key_named(self) -> str:
        was, own = (
            " and ".join(side.shown(shape.name, it.name) for it in shape.key)
            for side, shape in ((self._old, self._before), (self._new, self._after))
        )
        return "" if was == own else f"{was} is {own} now"

    @staticmethod
    def _type(side: Side, shape: Shape, member: Member) -> Any:
        return side.types.get((shape.name, member.name)) or plain_type(member.type)

    # ---- values

    def _value(self, member: Member) -> Part:
        part, before = Part(member.name), self._before
        source = self._sources.get(member.name)
        name = self._new.shown(self._after.name, member.name)
        own = self._type(self._new, self._after, member)
        what = f"{self._after.name}.{name}"
        if source is None:
            return self._new_value(part, member, own)
        part.words = self._renamed(source, member)
        if source in before.values or source not in (*before.links, *before.pairs):
            old = before.values.get(source) or next(it for it in before.key if it.name == source)
            was = self._type(self._old, before, old)
            convert = conversion(was, own)
            if convert is None:
                part.missing = f"{what} was {was.what}, and is {own.what}"
            elif was.form != own.form:
                part.words = f"{name} is {own.form}, and was {was.form}"
            part.get = _converted(_value_of(before, source), convert)
        elif source in before.links and self._is_key_of(before.links[source].type, own, self._old):
            part.get, part.words = _key_of(source), f"{name} is the key that its link led to"
        else:
            part.missing = f"{what} was a relation, and is {own.what}"
        return part

    def _renamed(self, source: str, member: Member) -> str:
        if source == member.name:
            return ""
        name = self._new.shown(self._after.name, member.name)
        return f"{self._old.shown(self._before.name, source)} is {name} now"

    def _new_value(self, part: Part, member: Member, own: Any) -> Part:
        declared = self._members.get(part.name)
        default: Value = None
        if declared is not None and declared.default not in (MISSING, None):
            default = own.to_stored(declared.default)
        elif "default" in self._said.get(part.name, {}):
            default = value_of(self._said[part.name]["default"])
        name = self._new.shown(self._after.name, part.name)
        part.words = f"{name} is new, " + ("and null" if default is None else f"with {default!r}")
        part.get = _always(default)
        if default is None and member.is_required:
            part.missing = f"{self._after.name}.{name} is new, and required"
        return part

    def _is_key_of(self, entity: str, kind: Any, side: Side) -> bool:
        key = side.shapes[entity].key
        return len(key) == 1 and self._type(side, side.shapes[entity], key[0]).form == kind.form

    # ---- relations

    def _leads_on(self, old: Member, new: Member) -> bool:
        """Whether what a relation led to is what the new one leads to."""
        target = self._matches.get(old.type)
        shapes = self._new.shapes
        return target is not None and shapes[target].top == shapes[new.type].top

    def _link(self, member: Member) -> Part:
        name, before = member.name, self._before
        part, source = Part(name), self._sources.get(name)
        what = f"{self._after.name}.{name}"
        if source is None:
            part.get, part.words = _always(None), f"{name} is new, and leads to nothing"
            if member.is_required:
                part.missing = f"{what} is new, and required"
            return part
        part.words = self._renamed(source, member)
        old = before.links.get(source) or before.pairs.get(source)
        if old is not None and self._leads_on(old, member):
            part.get = _link_of(old.type, source) if source in before.links else _single(
                old.type, source)
            if source in before.pairs:
                part.words = f"{name} was a list, of one at most, and is a link"
        elif source in before.values and self._is_key_of(
            member.type, self._type(self._old, before, before.values[source]), self._new
        ):
            part.get = _to_key(member.type, source)
            part.words = f"{name} leads to the {member.type} of the key that it was"
        else:
            part.missing = f"{what} leads to {member.type}, and was something else"
        return part

    def _pair(self, member: Member) -> Part:
        name, before = member.name, self._before
        part, source = Part(name, _always(())), self._sources.get(name)
        if source is None:
            part.words = f"{name} is new, and empty"
            return part
        part.words = self._renamed(source, member)
        old = before.links.get(source) or before.pairs.get(source)
        if old is None or not self._leads_on(old, member):
            part.missing = (f"{self._after.name}.{name} is a list of {member.type}, and was "
                            "something else")
        elif source in before.links:
            part.get, part.words = _listed(old.type, source), f"{name} was a link, and is a list"
        else:
            part.get = _pairs_of(old.type, source)
        return part


# ---- what a record gives


class Led(NamedTuple):
    """What a relation leads to: an object of before, or of now, by its class and its key."""

    is_old: bool
    entity: str
    key: Key


def _always(value: Any) -> Get:
    return lambda record: value


def _value_of(shape: Shape, name: str) -> Get:
    if name in shape.values:
        return lambda record: record.values.get(name)
    place = [part.name for part in shape.key].index(name)
    return lambda record: (record.key or ())[place]


def _converted(get: Get, convert: Optional[Callable[[Value], Value]]) -> Get:
    def converted(record: Record) -> Any:
        value = get(record)
        return value if value is None or convert is None else convert(value)

    return get if convert is None else converted


def _key_of(name: str) -> Get:
    return lambda record: None if record.links[name] is None else (record.links[name] or ())[0]


def _link_of(entity: str, name: str) -> Get:
    def link(record: Record) -> Any:
        key = record.links[name]
        return None if key is None else Led(True, entity, key)

    return link


def _single(entity: str, name: str) -> Get:
    def single(record: Record) -> Any:
        keys = record.pairs[name]
        if len(keys) > 1:
            raise ValueError(f"has {len(keys)} of before, and leads to one")
        return Led(True, entity, keys[0]) if keys else None

    return single


def _to_key(entity: str, name: str) -> Get:
    def to_key(record: Record) -> Any:
        value = record.values.get(name)
        return None if value is None else Led(False, entity, (value,))

    return to_key


def _pairs_of(entity: str, name: str) -> Get:
    return lambda record: [Led(True, entity, key) for key in record.pairs[name]]


def _listed(entity: str, name: str) -> Get:
    def listed(record: Record) -> Any:
        key = record.links[name]
        return [] if key is None else [Led(True, entity, key)]

    return listed
