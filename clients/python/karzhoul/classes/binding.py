"""The classes of a factory's objects, each a subclass of the one that its user wrote, with
attributes that take their types alone."""

from __future__ import annotations

from typing import TYPE_CHECKING, Any, Callable, Dict, Iterator, List, Mapping, Optional, Sequence
from typing import Tuple, Type, Union
from weakref import WeakKeyDictionary, WeakSet

from ..objects.entities import Attribute, Entity, Event, check_given, check_names
from ..mapping.indexes import WHY_NOT, Known, index_line
from ..wire.lines import LifecycleEvent
from ..told import shown, with_article
from ..mapping.unit import MemberKind
from . import types
from .checks import chain, member_of
from .declared import CALLBACKS, KINDS, TO_MANY, Declared, Member, Model
from .embedded import Embedded, has_required
from .values import WrongValue, from_stored, to_stored

if TYPE_CHECKING:
    from ..session.factory import EntityManagerFactory

_OPEN: WeakKeyDictionary[type, WeakSet[EntityManagerFactory]] = WeakKeyDictionary()


class TypedAttribute(Attribute):
    """An attribute that takes values of its type, and stores their form."""

    def __init__(self, member: Member, place: Optional[int], of: str) -> None:
        super().__init__(member.name, member.target, place=place)
        self.member, self.place = member, place
        self.said = f"{of}.{member.said}"
        self._validators: List[str] = []
        self.type = member.type
        read = self.fget
        if read is not None and self.type is not None and not self.type.is_plain:
            get: Callable[[Any], Any] = read
            property.__init__(self, lambda it: self.value(get(it)), self.fset)

    def validated_by(self, methods: List[str]) -> None:
        """Has methods of the class see its values before they are set."""
        self._validators = methods

    def line(self, entity: Entity, value: Any) -> bytes:
        """The line that sets it; a `WrongValue` where the value is of another type."""
        for name in self._validators:
            value = getattr(entity, name)(value)
        return super().line(entity, self.stored(value))

    def stored(self, value: Any) -> Any:
        """What is stored of a value."""
        if value is None:
            if self._may_be_none():
                return None
            what = self.type.what if self.type else with_article(str(self.member.target))
            raise WrongValue(f"{self.said} is {what}, and never None: declare it as .. | None "
                             "where it may be")
        return value if self.type is None else to_stored(self.type, value, self.said)

    def _may_be_none(self) -> bool:
        field = self.member.field
        is_given = field.sort in ("generated", "version") or field.mapped_by is not None
        return self.member.is_optional or is_given

    def value(self, stored: Any) -> Any:
        """The value of what is stored."""
        if stored is None or self.type is None:
            return stored
        return from_stored(self.type, stored, self.said)


class EmbeddedAttribute(Attribute):
    """An attribute that is an embedded value, or an embedded id, of which each part is stored."""

    def __init__(self, member: Member, places: Mapping[str, int], of: str) -> None:
        super().__init__(member.name)
        self.member, self.said = member, f"{of}.{member.said}"
        self._validators: List[str] = []
        self._leaves = {
            leaf.name: TypedAttribute(leaf, places[leaf.name], of) for leaf in member.leaves()
        }
        property.__init__(self, self._read, self._assign)

    def validated_by(self, methods: List[str]) -> None:
        """As of a `TypedAttribute`."""
        self._validators = methods

    def _read(self, entity: Entity) -> Any:
        if entity._karzhoul_shown.epoch.is_over:
            return self.of_row(entity._karzhoul_factory.values_of(entity))
        return self.of_row(entity._karzhoul_values)

    def _assign(self, entity: Entity, value: Any) -> None:
        entity._karzhoul_factory.tell_all(entity._karzhoul_run, self.lines(entity, value))

    def of_row(self, row: Sequence[Any]) -> Any:
        """The value that an object of these values has; None where nothing of it is there."""
        stored = {
            name: leaf.value(row[leaf.place])  # type: ignore[index]
            for name, leaf in self._leaves.items()
        }
        return embedded_of(self.member, stored, self.said)

    def lines(self, entity: Entity, value: Any) -> List[bytes]:
        """The lines that set its parts."""
        for name in self._validators:
            value = getattr(entity, name)(value)
        kind, may_be_none = self.member.kind, self.member.is_optional
        if type(value) is not kind and not (value is None and may_be_none):
            assert kind is not None
            none = ", and never None: declare it as .. | None where it may be"
            wrong = none if value is None else f", and {shown(value)} is none"
            raise WrongValue(f"{self.said} is of {kind.__name__}{wrong}")
        return [
            self._leaves[leaf.name].line(entity, part) for leaf, part in parts_with(
                self.member, value)
        ]


def parts_with(member: Member, value: Any) -> Iterator[Tuple[Member, Any]]:
    """What is stored of an embedded value, with what it has there."""
    for part in member.parts:
        assert part.part is not None
        own = None if value is None else vars(value)[part.part.name]
        if part.kind is None:
            yield part, own
        else:
            yield from parts_with(part, own)


def embedded_of(member: Member, values: Mapping[str, Any], what: str) -> Any:
    """The embedded value of its parts, by their names in the mapping. None where it may be None,
    or was not given yet, and all of them are."""
    assert member.kind is not None
    if has_required(member.kind) and all(values[it.name] is None for it in member.leaves()):
        return None
    made: Dict[str, Any] = {}
    for part in member.parts:
        assert part.part is not None
        value = values[part.name] if part.kind is None else embedded_of(part, values, what)
        if value is None and not part.part.is_optional:
            raise WrongValue(f"{what} is of {member.kind.__name__}, and only a part of one is "
                             f"stored: {part.said} is None")
        made[part.part.name] = value
    return member.kind._karzhoul_made(made)


def _part_of_key(part: Member, value: Any, what: str) -> Any:
    assert part.type is not None
    return to_stored(part.type, value, what)


class Binding:
    """The classes of a model, for a factory."""

    def __init__(self, model: Model) -> None:
        self.model = model

    def bound(
        self, name: str, base: Type[Entity], own: Mapping[str, Any]
    ) -> Tuple[type, Tuple[type, ...], Dict[str, Any]]:
        """The metaclass, the bases and the members of an entity's class, which extends the one that
        the user wrote."""
        entity = self.model.get(name)
        if entity is None:
            return type, (base,), dict(own)
        made = {key: each for key, each in own.items() if not isinstance(each, Attribute)}
        for key, member in entity.members.items():
            if member.field.sort in TO_MANY:
                made[key] = own[key]
            elif member.part is None:  # The parts of embedded values are read by these.
                made[key] = self._attribute(entity, key, member, own["_karzhoul_places"])
        made["_karzhoul_stored"] = {
            leaf.name: TypedAttribute(leaf, own["_karzhoul_places"].get(leaf.name), entity.name)
            for member in self._members(entity).values() for leaf in member.leaves()
            if leaf.part is not None or leaf.path
        }
        if len(entity.of("key")) > 1:
            made["_karzhoul_key"] = "", [it.name for it in entity.key()]
        kind = entity.kind
        made.update(
            __doc__=kind.__doc__, __module__=kind.__module__, __qualname__=kind.__qualname__,
            __new__=_new, __setattr__=_set,
            _karzhoul_constructor=Constructor(entity.name, self._members(entity)),
        )
        bases = (kind,) if base is Entity else (kind, base)
        return type(kind), bases, made

    def _attribute(
        self, entity: Declared, said: str, member: Member, places: Mapping[str, int]
    ) -> Attribute:
        made: Union[EmbeddedAttribute, TypedAttribute] = (
            TypedAttribute(member, places.get(member.name), entity.name) if member.kind is None
            else EmbeddedAttribute(member, places, entity.name)
        )
        made.validated_by([
            name for name in dir(entity.kind)
            if said in getattr(getattr(entity.kind, name, None), "_karzhoul_validates", ())
        ])
        return made

    def _members(self, entity: Declared) -> Dict[str, Member]:
        return {
            name: member for each in chain(self.model, entity)
            for name, member in each.members.items() if member.part is None
        }

    def _key(self, name: str) -> List[Member]:
        return chain(self.model, self.model[name])[0].key()

    def keys(self, name: str, keys: List[Any]) -> List[Any]:
        """Keys of an entity as they are stored; a `WrongValue` where one is of another type."""
        if name not in self.model:
            return keys
        parts = self._key(name)
        return [self._stored_key(name, parts, key) for key in keys]

    def _stored_key(self, name: str, parts: Sequence[Member], key: Any) -> Any:
        told = f"the key of {name}"
        kinds = [it.kind for it in chain(self.model, self.model[name])[0].of("key", "generated")]
        if isinstance(key, Embedded) and [type(key)] != kinds:
            named = kinds[0].__name__ if kinds[0] is not None else ", ".join(it.said for it in parts)
            raise WrongValue(f"{told} is {named}, and {shown(key)} is none")
        if len(parts) == 1 and not isinstance(key, (Embedded, list, tuple)):
            return key if key is None else _part_of_key(parts[0], key, told)
        values = list(key._values().values()) if isinstance(key, Embedded) else key
        if not isinstance(values, (list, tuple)) or len(values) != len(parts):
            named = ", ".join(it.said for it in parts)
            raise WrongValue(f"{told} is {named} in a tuple, and not {shown(key)}")
        return tuple(
            each if each is None else _part_of_key(part, each, f"{part.said} in {told}")
            for part, each in zip(parts, values)
        )

    def find_fast(self, leaves: Dict[Union[str, Type[Any]], Tuple[bytes, Type[Entity]]]) -> None:
        """Has classes be found by their keys in less time, where these are whole numbers."""
        for entity in self.model.values():
            known = leaves.get(entity.name)
            forms = [key.type and key.type.form for key in self._key(entity.name)]
            if known is not None and forms == ["int"]:
                leaves[entity.kind] = known
            elif known is not None:
                del leaves[entity.name], leaves[known[1]]

    def index_lines(self) -> List[bytes]:
        """The lines that say which attributes will be looked up: those that are asked for, and each
        that is unique by itself."""
        return [
            index_line(name, said)
            for name, entity in self.model.items()
            for said in dict.fromkeys([
                *(leaf.name for member in entity.members.values() for leaf in member.leaves()
                  if leaf.field.index),
                *(names[0] for names in entity.unique if self._is_looked_up(entity, names)),
            ])
        ]

    def _is_looked_up(self, entity: Declared, names: Sequence[str]) -> bool:
        """Whether what is unique is one value, which objects are asked for by."""
        member = member_of(self.model, entity.name, names[0])
        return len(names) == 1 and member is not None and not _why_not(member)

    def known_members(self) -> Dict[str, Dict[str, Known]]:
        """The members of each entity, by the names by which queries know them."""
        return {
            name: {
                each.said: Known(each.name, _why_not(each))
                for above in chain(self.model, entity) for member in above.members.values()
                for each in (member, *member.leaves())
            }
            for name, entity in self.model.items()
        }

    # ---- what is open

    def opened(self, factory: EntityManagerFactory) -> None:
        """From now on new objects of the classes may be this factory's."""
        for entity in self.model.values():
            _OPEN.setdefault(entity.kind, WeakSet()).add(factory)

    def closed(self, factory: EntityManagerFactory) -> None:
        """No new objects are this factory's."""
        for entity in self.model.values():
            _OPEN.get(entity.kind, WeakSet()).discard(factory)

    # ---- callbacks

    def listen(self, factory: EntityManagerFactory) -> None:
        """Has the methods of classes that are named so hear of events (3.5)."""
        heard = {
            event: name for name, event in CALLBACKS.items()
            if any(callable(getattr(it.kind, name, None)) for it in self.model.values())
        }
        if heard:
            factory.listen(_teller(heard), *map(LifecycleEvent, heard))


def _why_not(member: Member) -> str:
    """Why a member can have no index; nothing where it can."""
    if member.kind is not None:
        return f"is an embedded value: name its parts, as {next(member.leaves()).said}"
    if member.field.sort in KINDS:
        return WHY_NOT[MemberKind.TO_ONE]
    if member.field.sort == "version":
        return WHY_NOT[MemberKind.VERSION]
    return "is JSON, which has no order" if member.field.form == "json" else ""


def _teller(heard: Mapping[str, str]) -> Callable[[Event], None]:
    def tell(event: Event) -> None:
        method = getattr(event.object, heard[event.kind.value], None)
        if method is not None:
            method()

    return tell


def new_of(kind: type, /, *given: Any, **_: Any) -> Any:
    """A new object of the class that a user wrote, of the one store that it is open in."""
    found = list(_OPEN.get(kind, ()))
    if len(found) == 1:
        bound: Any = found[0].entity(kind)
        return bound.__new__(bound, *given)
    name = kind.__name__
    if found:
        raise RuntimeError(
            f"{name} is open in {len(found)} stores: app.new({name}, ..) says in which of them the "
            "object is to be"
        )
    raise RuntimeError(
        f"{name} is open in no store: karzhoul.open([{name}, ..], \"app.db\") opens one, whose "
        "program has the values of objects"
    )


def _new(kind: Type[Any], /, *given: Any, **_: Any) -> Any:
    if given:
        check_given(kind, given)
    return kind._karzhoul_factory.ask_object(None, kind._karzhoul_line, kind)


def _set(entity: Entity, name: str, value: Any) -> None:
    if not hasattr(getattr(type(entity), name, None), "__set__"):
        check_names(type(entity), (name,))  # It would be kept by no store.
    object.__setattr__(entity, name, value)


_TAKEN = ("value", "embedded", "key", "many_to_one", "one_to_one")


class Constructor:
    """What the constructor of a class takes, and what it gives by itself."""

    def __init__(self, name: str, members: Mapping[str, Member]) -> None:
        fields = {said: it.field for said, it in members.items()}
        self._name = name
        self._closed = {said for said, it in fields.items() if not it.init}
        self._fresh = [
            (said, it) for said, it in fields.items() if it.has_default and it.default is not None
        ]
        self._needed = [
            said for said, it in fields.items()
            if not it.has_default and not members[said].is_optional
            and it.init and it.sort in _TAKEN and it.mapped_by is None
        ]

    def filled(self, values: Mapping[str, Any]) -> Dict[str, Any]:
        """The values of a new object, with the defaults of those that aren't given; a `TypeError`
        where one isn't taken, or is missing."""
        for name in self._closed and values:
            if name in self._closed:
                raise TypeError(f"{self._name} takes no {name}, which is init=False: set it then")
        missing = [name for name in self._needed if name not in values]
        if missing:
            raise TypeError(f"{self._name} takes {', '.join(missing)}, and none is given")
        found: Dict[str, Any] = {}
        for name, field in self._fresh:
            if name not in values and (value := field.fresh()) is not None:
                found[name] = value
        found.update(values)
        return found


def fill(entity: Entity, values: Mapping[str, Any]) -> None:
    """Gives a new object its values, and the defaults of those that aren't given: all of them, or
    none where one isn't taken."""
    check_names(type(entity), values)
    lines, later = filling(entity, values)
    entity._karzhoul_factory.tell_all(entity._karzhoul_run, lines)
    for name, value in later.items():
        object.__setattr__(entity, name, value)


def filling(entity: Entity, values: Mapping[str, Any]) -> Tuple[List[bytes], Dict[str, Any]]:
    """The lines that do so, and what is to be set behind them."""
    kind = type(entity)
    constructor: Constructor = kind._karzhoul_constructor  # type: ignore[attr-defined]
    lines: List[bytes] = []
    later: Dict[str, Any] = {}
    for name, value in constructor.filled(values).items():
        attribute: Attribute = getattr(kind, name)
        if attribute.is_viewed:
            later[name] = value
        else:
            lines += attribute.lines(entity, value)
    return lines, later
