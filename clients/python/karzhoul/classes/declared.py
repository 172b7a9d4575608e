"""What classes declare: entities, with their members as they are written."""

from __future__ import annotations

import re
from dataclasses import dataclass, field as member, replace
from types import ModuleType
from typing import Any, ClassVar, Dict, Iterable, Iterator, List, Optional, Tuple, Type, Union

from ..objects.entities import Entity
from ..mapping.unit import OWN_ENTITIES
from . import types
from .annotations import Annotated, Scope, Unread, own_annotations
from .embedded import Embedded, Part, check_optional, is_embedded, parts_of
from .faults import DeclarationError, Faults
from .fields import MISSING, Field
from .stored import stored_type
from .values import WrongValue

Given = Union[ModuleType, Iterable[type]]
_NAME = re.compile(r"[A-Za-z_][A-Za-z0-9_]{0,63}")
TO_ONE, TO_MANY = ("many_to_one", "one_to_one"), ("one_to_many", "many_to_many")
KINDS = {
    "many_to_one": "manyToOne", "one_to_one": "oneToOne", "one_to_many": "oneToMany",
    "many_to_many": "manyToMany",
}
CALLBACKS = {
    "pre_persist": "PrePersist", "post_persist": "PostPersist", "pre_update": "PreUpdate",
    "post_update": "PostUpdate", "pre_remove": "PreRemove", "post_remove": "PostRemove",
    "post_load": "PostLoad",
}
"""The methods that hear of events, and the events (3.5)."""


@dataclass(frozen=True)
class Member:
    """An attribute of an entity, or a part of one that is embedded, by its name in the mapping.
    `writer` is the class that writes it, an entity or a mixin."""

    name: str
    writer: type
    field: Field
    is_optional: bool
    type: Optional[types.StoredType] = None
    """None of a relation, and of an embedded value."""
    target: str = ""
    kind: Optional[Type[Embedded]] = None
    """The class of an embedded value."""
    parts: Tuple[Member, ...] = ()
    """What an embedded value is of."""
    path: str = ""
    """The name of a part as queries have it, as `address.city`."""
    part: Optional[Part] = None

    @property
    def said(self) -> str:
        """Its name as a user writes it."""
        return self.path or self.name

    def leaves(self) -> Iterator[Member]:
        """What is stored of it: of an embedded value each part."""
        for part in self.parts:
            yield from part.leaves()
        if self.kind is None:
            yield self

    @property
    def default(self) -> Any:
        """The value of new objects, and of those of before it was required; `MISSING` for none."""
        return self.field.default

    @property
    def is_link(self) -> bool:
        """Whether it leads to one object and is stored."""
        return self.field.sort in TO_ONE and self.field.mapped_by is None


@dataclass
class Declared:
    """An entity as its class declares it, with its own members."""

    name: str
    kind: type
    parent: Optional[str]
    was: Optional[str]
    dropped: Tuple[str, ...]
    members: Dict[str, Member] = member(default_factory=dict)
    unique: List[Tuple[str, ...]] = member(default_factory=list)
    """The names of attributes of which no two objects have the same values together."""

    def of(self, *sorts: str) -> List[Member]:
        """Its members of these sorts."""
        return [each for each in self.members.values() if each.field.sort in sorts]

    def key(self) -> List[Member]:
        """The parts of its key, which those that extend another one don't have."""
        return [leaf for each in self.of("key", "generated") for leaf in each.leaves()]


Model = Dict[str, Declared]
"""Entities by name, in the order in which they were given, superclasses first."""


def declared_by(given: Given) -> Model:
    """What a module's classes declare, or these classes with those that they extend; a
    `DeclarationError` says each line that is wrong, and what to write."""
    faults, found = Faults(), _classes(given)
    known: Dict[str, type] = {}
    for kind in found:
        if kind.__name__ in OWN_ENTITIES:
            faults.add(kind, None, "has a name that the client keeps for itself: give it another")
        if known.setdefault(kind.__name__, kind) is not kind:
            faults.add(kind, None, "has the name of another entity: give it one of its own")
    faults.tell()
    model = {
        name: Declared(name, kind, _parent(kind), *_said(kind)) for name, kind in known.items()
    }
    for entity in model.values():
        for writer in _writers(entity.kind, known.get(entity.parent or "")):
            _Reader(entity, writer, known, faults).read()
        _name_keys(entity)
    faults.tell()
    from .checks import check

    check(model, faults)
    return model


OWN_ID = "_key"
"""The name in the mapping of the embedded id that several attributes are."""


def _name_keys(entity: Declared) -> None:
    """Gives several attributes that are the key together their names as its parts."""
    keys = {name: it for name, it in entity.members.items() if it.field.sort == "key"}
    if len(keys) > 1:
        for name, each in keys.items():
            entity.members[name] = replace(each, name=f"{OWN_ID}.{name}", path=name)


def _classes(given: Given) -> List[type]:
    """The entities that are given, each behind what it extends."""
    listed = list(vars(given).values()) if isinstance(given, ModuleType) else list(given)
    if not isinstance(given, ModuleType):
        for each in listed:
            if not is_entity(each):
                raise TypeError(
                    f"a class of an entity extends karzhoul.Entity, and {each!r} doesn't"
                )
    found: Dict[type, None] = {}
    for kind in listed:
        if is_entity(kind):
            found.update(dict.fromkeys(it for it in kind.__mro__[::-1] if is_entity(it)))
    if not found:
        raise TypeError(f"{given!r} has no entity: a class of one extends karzhoul.Entity")
    return list(found)


def is_entity(kind: Any) -> bool:
    """Whether a class declares an entity."""
    return isinstance(kind, type) and issubclass(kind, Entity) and (
        vars(kind).get("_karzhoul_said") is not None and not vars(kind)["_karzhoul_said"][2]
    )


def _said(kind: type) -> Tuple[Optional[str], Tuple[str, ...]]:
    was, dropped = vars(kind)["_karzhoul_said"][:2]
    return was, ((dropped,) if isinstance(dropped, str) else tuple(dropped))


def _unique_said(kind: type) -> List[Tuple[str, ...]]:
    """The names that a class says to be unique together."""
    said: Any = (vars(kind).get("_karzhoul_said") or (None, (), False, ()))[3]
    if isinstance(said, str):
        said = [said]
    if said and all(isinstance(each, str) for each in said):
        said = [said]
    lists = [[each] if isinstance(each, str) else each for each in said]
    return [tuple(part_name(*each.split(".")) for each in names) for names in lists]


def part_name(*steps: str) -> str:
    """The name in the mapping of a part of an embedded value, as `address__city`."""
    return "__".join(steps)


def _parent(kind: type) -> Optional[str]:
    return next((it.__name__ for it in kind.__mro__[1:] if is_entity(it)), None)


def _writers(kind: type, parent: Optional[type]) -> List[type]:
    """The classes that write the members of an entity that its parent hasn't, mixins first."""
    above = set(parent.__mro__ if parent else Entity.__mro__)
    return [it for it in kind.__mro__[::-1] if it not in above]


class _Reader:
    """Reads what one class writes of an entity's members."""

    def __init__(
        self, entity: Declared, writer: type, known: Dict[str, type], faults: Faults
    ) -> None:
        self._entity, self._writer, self._known, self._faults = entity, writer, known, faults
        self._scope = Scope(writer, known)

    def read(self) -> None:
        """Takes in each member."""
        annotations = own_annotations(self._writer)
        for name, said in vars(self._writer).items():
            if isinstance(said, Field) and name not in annotations:
                self._fault(name, f"has no annotation: write it as {name}: str = ..")
        self._entity.unique += _unique_said(self._writer)
        for name, annotation in annotations.items():
            if name.startswith("_karzhoul"):
                continue
            try:
                told = self._scope.read(annotation)
                if told.kind is not ClassVar:
                    self._take(name, told)
            except (Unread, types.Unfit) as why:
                self._fault(name, str(why))

    def _fault(self, name: str, why: str) -> None:
        self._faults.add(self._writer, name, why)

    def _take(self, name: str, told: Annotated) -> None:
        if not _NAME.fullmatch(name):
            raise Unread("has a name that is not of at most 64 ASCII letters, digits and _")
        said = vars(self._writer).get(name, MISSING)
        field = said if isinstance(said, Field) else Field(default=said)
        if is_embedded(told.kind) and field.sort in ("value", "embedded", "key"):
            made = self._embedded(name, told, field)
        elif field.sort == "embedded":
            raise Unread("is embedded: its class extends karzhoul.Embedded, which "
                         f"{getattr(told.kind, '__name__', told.kind)} doesn't")
        elif field.sort in KINDS:
            made = Member(name, self._writer, field, told.is_optional, target=self._target(
                field, told))
        else:
            kind = stored_type(told, field)
            made = Member(name, self._writer, field, told.is_optional, kind)
            _check_default(made)
        self._keep(made)
        if field.unique:
            self._entity.unique.append((name,))

    def _keep(self, made: Member) -> None:
        """Takes in a member, with what is stored of it where it is embedded."""
        stored = [] if made.field.sort == "key" else [it for it in made.leaves() if it is not made]
        for each in (made, *stored):
            if each.name in self._entity.members:
                raise Unread(f"makes an attribute {each.name}, which there is already")
            if not _NAME.fullmatch(each.name):
                raise Unread(f"makes an attribute {each.name}, a name of more than 64 characters")
            self._entity.members[each.name] = each
            if each is not made and each.field.unique:
                self._entity.unique.append((each.name,))

    def _embedded(self, name: str, told: Annotated, field: Field) -> Member:
        """A value of several attributes."""
        if field.form or field.unique or field.index:
            raise Unread("is an embedded value: write it as embedded(), and the other words in "
                         f"{told.kind.__name__}")
        check_optional(told.kind, told.is_optional)
        _check_default(Member(name, self._writer, field, told.is_optional, kind=told.kind,
                              part=Part(name, field, told.is_optional, None, told.kind)))
        whole = Member(name, self._writer, replace(
            field, sort="key" if field.sort == "key" else "embedded"
        ), told.is_optional, kind=told.kind)
        return replace(whole, parts=self._parts(whole, (name,)))

    def _parts(self, whole: Member, steps: Tuple[str, ...]) -> Tuple[Member, ...]:
        """The parts of a member that is reached by these steps."""
        assert whole.kind is not None
        try:
            found = parts_of(whole.kind)
        except DeclarationError as wrong:
            self._faults.take(wrong)
            return ()
        is_key, made = whole.field.sort == "key", []
        has_own = whole.default is MISSING
        for part in found.values():
            way = (*steps, part.name)
            each = Member(
                ".".join(way) if is_key else part_name(*way), self._writer,
                replace(
                    part.field, default=_default_of(whole, part), was=_was_of(whole, part),
                    sort="key" if is_key else part.field.sort,
                    default_factory=part.field.default_factory if has_own else None,
                ),
                part.is_optional or whole.is_optional, part.type, kind=part.kind,
                path=".".join(way), part=part,
            )
            if is_key and (each.kind is not None or each.is_optional):
                raise Unread(f"is a key, whose parts are values that are never None: "
                             f"{whole.kind.__name__}.{part.name} isn't one")
            made.append(each if each.kind is None else replace(each, parts=self._parts(each, way)))
        return tuple(made)

    def _target(self, field: Field, told: Annotated) -> str:
        """The entity that a relation leads to."""
        kind = told.kind
        if field.sort in TO_MANY:
            if kind is not list or len(told.items) != 1:
                raise Unread(f"is a {field.sort}: write it as list[\"Loan\"] = {field.sort}(..)")
            kind = self._scope.read(told.items[0]).kind
        name = getattr(kind, "__name__", str(kind))
        if self._known.get(name) is not kind:
            raise Unread(
                f"leads to {name}, which is none of the entities: annotate it by an entity's "
                "class, and hand that to karzhoul.open too"
            )
        return name


def _default_of(whole: Member, part: Part) -> Any:
    """The default of a part: that of the whole value, or its own."""
    default = whole.default
    if default is MISSING:
        return part.field.default
    return MISSING if default is None else vars(default)[part.name]


def _was_of(whole: Member, part: Part) -> Optional[str]:
    """The name that a part had in the mapping, where it or the whole value had another one."""
    before, own = whole.field.was, part.field.was
    if before is None and own is None:
        return None
    if "" in (before, own):
        return ""
    return part_name(before or whole.name, own or part.name)


def _check_default(made: Member) -> None:
    if made.default is MISSING or made.default is None and made.is_optional:
        return
    if made.default is None:
        raise Unread("has the default None, and is never None: write it as .. | None = None")
    try:
        if made.type is not None:
            made.type.to_stored(made.default)
        elif made.part is not None:
            made.part.taken(made.default, "it")
    except types.Unfit as why:
        raise Unread(f"has the default {made.default!r}, which {why}") from None
    except WrongValue as why:
        raise Unread(f"has the default {made.default!r}: {why}") from None
