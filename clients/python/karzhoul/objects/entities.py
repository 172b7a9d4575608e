"""Objects of entities as objects of Python: their attributes read and write through the program,
which alone holds their values."""

from __future__ import annotations

import sys
from collections.abc import Callable, Iterable, Iterator, Mapping, MutableSequence, Sequence
from functools import partial
from typing import (
    TYPE_CHECKING, Any, ClassVar, Dict, List, NamedTuple, NoReturn, Optional, Tuple, Type, TypeVar,
    Union, overload,
)

from ..classes.fields import (
    by_value, dataclass_transform, embedded, field, generated, json_text, key, many_to_many,
    many_to_one, money, naive, one_to_many, one_to_one, typed, version,
)
from ..told import shown
from ..wire.lines import LifecycleEvent, line_of, text_spelled
from .foresight import Foresight
from .misfits import misfit, no_member, unknown

if TYPE_CHECKING:
    from ..classes.binding import Binding
    from ..session.factory import EntityManagerFactory
    from ..session.managers import EntityManager
    from ..session.runs import Run
    from .shown import Shown

E = TypeVar("E", bound="Entity")
# A text or bytes have at most so many bytes.
_LONGEST = 65_535


# Type checkers take the words as they are written out here.
@dataclass_transform(
    kw_only_default=True, eq_default=False,
    field_specifiers=(
        by_value, embedded, field, generated, json_text, key, many_to_many, many_to_one, money,
        naive, one_to_many, one_to_one, typed, version,
    ),
)
class Entity:
    """An object of an entity. A number of the program is always the same object of Python, as long
    as that is held.

    `EntityManagerFactory.entity` gives the class of an entity: calling it makes a new object, and
    its attributes are the entity's members. The class of a subclass is a subclass.

    A class that extends it declares an entity (`classes`). `was` is the name that it had before,
    one that is `abstract` has no objects and no table, and `dropped` are attributes that it has no
    more, and that none of its new ones is. Of `unique` attributes no two objects have the same
    values together: their names, or several such lists of names.
    """

    __slots__ = (
        "_karzhoul_number", "_karzhoul_run", "_karzhoul_shown", "_karzhoul_values", "__weakref__",
    )
    _karzhoul_number: int
    # The run of the program that knows it by that number.
    _karzhoul_run: Run
    # Its values as they were read last, and for how long they are true.
    _karzhoul_values: Sequence[Any]
    _karzhoul_shown: Shown
    _karzhoul_factory: ClassVar[EntityManagerFactory]
    # The line that makes one.
    _karzhoul_line: ClassVar[bytes]
    # The place of each member that is no relation among the values.
    _karzhoul_places: ClassVar[Mapping[str, int]] = {}
    # The parts of embedded values and of keys, by their names in the mapping.
    _karzhoul_stored: ClassVar[Mapping[str, Attribute]] = {}
    _karzhoul_foresight: ClassVar[Foresight]
    # The attribute that is the key, and the members that are its parts.
    _karzhoul_key: ClassVar[Tuple[str, Sequence[str]]]
    # The attribute that is the version, where there is one.
    _karzhoul_version: ClassVar[str] = ""

    _karzhoul_is_typed: ClassVar[bool] = False
    # Of a class that declares an entity: its name of before, what it dropped, whether it is
    # abstract, and of which attributes no two objects have the same values.
    _karzhoul_said: ClassVar[Optional[Tuple[
        Optional[str], Sequence[str], bool, Sequence[Union[str, Sequence[str]]]
    ]]] = None

    def __init_subclass__(
        cls, *, was: Optional[str] = None, abstract: bool = False, dropped: Sequence[str] = (),
        unique: Sequence[Union[str, Sequence[str]]] = (), **more: Any,
    ) -> None:
        super().__init_subclass__(**more)
        if "_karzhoul_factory" in cls.__dict__:
            return
        # It would make objects of the class above, to which its `__init__` isn't applied.
        if hasattr(cls, "_karzhoul_factory"):
            raise TypeError(f"{cls.__name__}: the class of an entity takes no subclass of your own")
        if not cls._karzhoul_is_typed:  # As those of `stubs` are.
            cls._karzhoul_said = was, dropped, abstract, unique
            if "__new__" not in cls.__dict__:
                cls.__new__ = staticmethod(_new_declared)  # type: ignore[assignment]

    if not TYPE_CHECKING:  # To a type checker a class's own `__init__` says what it takes.

        def __new__(cls, /, *given, **values):
            if given:
                check_given(cls, given)
            if values:
                check_names(cls, values)  # Before anything is made.
            factory = cls._karzhoul_factory
            made = factory.ask_object(None, cls._karzhoul_line, cls)
            assert made is not None
            return made

    def __init__(self, /, **values: Any) -> None:
        if self._karzhoul_said is not None:
            from ..classes.binding import fill

            fill(self, values)
            return
        for name, value in values.items():  # Whose names are checked.
            object.__setattr__(self, name, value)

    def _karzhoul_filling(self, values: Mapping[str, Any]) -> Tuple[List[bytes], Dict[str, Any]]:
        """The lines that give a new object its values, as its constructor does, and what is to be
        set behind them."""
        if self._karzhoul_said is not None:
            from ..classes.binding import filling

            return filling(self, values)
        lines: List[bytes] = []
        later: Dict[str, Any] = {}
        for name, value in values.items():
            attribute = getattr(type(self), name, None)
            if isinstance(attribute, Attribute) and not attribute.is_viewed:
                lines += attribute.lines(self, value)
            else:
                later[name] = value
        return lines, later

    if TYPE_CHECKING:
        # A type checker doesn't know the members.
        def __getattr__(self, name: str) -> Any: ...

        def __setattr__(self, name: str, value: Any) -> None: ...

    else:

        def __setattr__(self, name: str, value: object) -> None:
            try:
                object.__setattr__(self, name, value)
            except AttributeError:
                check_names(type(self), (name,))
                raise

    def __copy__(self: E) -> E:
        return self

    def __deepcopy__(self: E, memo: object) -> E:
        return self

    def __reduce_ex__(self, protocol: object) -> NoReturn:
        kind, key = type(self).__name__, self._karzhoul_key[0] or "key"
        raise TypeError(
            f"an object of {kind} can't be pickled, since its program alone has its values: pickle "
            f"its {key}, by which it is found again, or the values that are needed"
        )

    def __repr__(self) -> str:
        return _named(self, self._karzhoul_factory.key_at_hand(self))

    def _repr_html_(self) -> str:
        from ..showing.notebook import object_html

        return object_html(self)


def _new_declared(kind: Type[Entity], /, *given: Any, **values: Any) -> Any:
    from ..classes.binding import new_of

    return new_of(kind, *given, **values)


def check_given(kind: Type[Entity], given: Sequence[Any]) -> None:
    """Refuses values that have no names, where no constructor of a user's own takes them."""
    if kind.__init__ is Entity.__init__:
        own = (kind._karzhoul_key[0], kind._karzhoul_version)
        names = _attribute_names(kind)
        name = next((it for it in names if it not in own), names[0])
        made = f"{kind.__name__}({name}={shown(given[0])}, ..)"
        raise TypeError(f"{kind.__name__} takes values by their names: write {made}")


def check_names(kind: Type[Entity], names: Iterable[str]) -> None:
    """Refuses names that are no attributes of an entity's class: an `AttributeError` says which is
    meant."""
    for name in names:
        if not isinstance(getattr(kind, name, None), Attribute):
            raise unknown(kind.__name__, name, _attribute_names(kind))


def _attribute_names(kind: Type[Entity]) -> List[str]:
    """The names of the attributes of an entity's class, those of the classes above first."""
    members = [item for each in kind.__mro__[::-1] for item in vars(each).items()]
    return [name for name, member in members if isinstance(member, Attribute)]


def _named(entity: Entity, key: Optional[Sequence[Any]]) -> str:
    """An object with its key, or with its number where the key isn't at hand."""
    name, parts = entity._karzhoul_key
    if key is None:
        told = f"#{entity._karzhoul_number}"
    elif name:
        told = f"{name}={key[0] if parts == [name] else tuple(key)!r}"
    else:  # Several attributes.
        said = [part.rpartition(".")[2] for part in parts]
        told = " ".join(f"{part}={value!r}" for part, value in zip(said, key))
    return f"<{type(entity).__name__} {told}>"


class EmbeddedId:
    """The embedded id of an object, as it is at the moment: its parts are attributes, and
    `tuple(id)` are their values. It is equal to that tuple, and has its hash."""

    __slots__ = ("_karzhoul_parts", "_karzhoul_entity", "_karzhoul_name")

    def __init__(self, parts: Mapping[str, str], entity: Entity, name: str) -> None:
        """With the type of each part."""
        for slot, value in zip(self.__slots__, (parts, entity, name)):
            object.__setattr__(self, slot, value)

    def __getattr__(self, part: str) -> Any:
        entity = self._karzhoul_entity
        return entity._karzhoul_factory.get(entity, self._karzhoul_member(part))

    def __setattr__(self, part: str, value: Any) -> None:
        entity = self._karzhoul_entity
        entity._karzhoul_factory.set(entity, self._karzhoul_member(part), value)

    def _karzhoul_member(self, part: str) -> str:
        """The name of a part as a member of the object."""
        if part in self.__slots__ or part not in self._karzhoul_parts:
            raise unknown("an embedded id", part, self._karzhoul_parts, "part")
        return f"{self._karzhoul_name}.{part}"

    def __reduce__(self) -> Tuple[Any, ...]:
        return EmbeddedId, (self._karzhoul_parts, self._karzhoul_entity, self._karzhoul_name)

    def __iter__(self) -> Iterator[Any]:
        entity, parts = self._karzhoul_entity, self._karzhoul_parts
        members = [self._karzhoul_member(part) for part in parts]
        return iter(entity._karzhoul_factory.get_members(entity, members))

    def __eq__(self, other: object) -> bool:
        if isinstance(other, (EmbeddedId, tuple)):
            return tuple(self) == tuple(other)
        return NotImplemented

    def __hash__(self) -> int:
        return hash(tuple(self))

    def __repr__(self) -> str:
        return (
            f"<{self._karzhoul_name} "
            f"{' '.join(f'{part}={value!r}' for part, value in zip(self._karzhoul_parts, self))}>"
        )

    def _karzhoul_assign(self, given: Union[Mapping[str, Any], Iterable[Any]]) -> None:
        """Sets all parts together, or none."""
        entity, values = self._karzhoul_entity, self._karzhoul_each(given)
        factory, run = entity._karzhoul_factory, entity._karzhoul_run
        lines = {
            part: run.set_line(entity, self._karzhoul_member(part), value)
            for part, value in values
        }
        for part, value in values:
            if not _fits(self._karzhoul_parts[part], value):
                factory.ask_lines(run, [lines[part]])  # It is refused, and no other one is sent.
        factory.tell(run, *lines.values())

    def _karzhoul_each(
        self, given: Union[Mapping[str, Any], Iterable[Any]]
    ) -> List[Tuple[str, Any]]:
        """Each part with its value; a `ValueError` where one is missing or too much."""
        parts = self._karzhoul_parts
        if isinstance(given, Mapping):
            fits, values = set(given) == set(parts), list(given.values())
            names: Sequence[str] = list(given)
        else:
            is_many = isinstance(given, Iterable) and not isinstance(given, (str, bytes, bytearray))
            names, values = parts, list(given) if is_many else [given]
            fits = is_many and len(values) == len(names)
        if not fits:
            raise ValueError(
                f"the embedded id {self._karzhoul_name} takes {', '.join(parts)}, and not {given!r}"
            )
        return list(zip(names, values))


def _fits(kind: str, value: Any) -> bool:
    """Whether the program takes a value for a part of this type."""
    if value is None:
        return True
    if kind == "int":
        return isinstance(value, int)
    if kind == "text":
        return isinstance(value, str) and len(value.encode()) <= _LONGEST
    return isinstance(value, (bytes, bytearray, memoryview)) and len(bytes(value)) <= _LONGEST


class Collection(MutableSequence[E]):
    """The members of a relation to many: a list that is read anew where a call was made since it
    was read.

    The program adds a member at the end, and takes out the first occurrence of one. `append`,
    `extend` and `remove` are these calls; what else a list can do adds the members of the new list,
    and then takes out those of the old one. A refusal on the way leaves the members between the
    two, and none is lost that was there."""

    __slots__ = ("_entity", "_name", "_read", "_turn")

    def __init__(self, entity: Entity, name: str) -> None:
        self._entity, self._name = entity, name
        self._read: List[E] = []
        self._turn: Optional[int] = None

    def _members(self) -> List[E]:
        """The members, which nobody changes. `list(members)` asks for them twice, and reads them
        once."""
        factory = self._entity._karzhoul_factory
        turn = factory.turn
        if turn is None or turn != self._turn:
            self._read = factory.get(self._entity, self._name)
            self._turn = (
                None if turn is None else turn + 1
            )  # Another turn has come where more than this was sent.
        return self._read

    def _karzhoul_assign(self, given: Iterable[E]) -> None:
        # `object.members += [..]` has added them when it assigns.
        if (
            isinstance(given, Collection)
            and given._entity is self._entity
            and given._name == self._name
        ):
            return
        is_list = isinstance(given, Iterable) and not isinstance(given, (str, bytes, Mapping))
        if not is_list:
            raise no_member(self._entity, self._name, given, is_list=True)
        members = list(given)
        for member in members:  # Before any is added.
            if not isinstance(member, Entity):
                raise no_member(self._entity, self._name, member)
        held = self._members()
        self.extend(members)
        for member in held:
            self.remove(member)

    def append(self, member: E) -> None:
        """Adds a member at the end."""
        self._entity._karzhoul_factory.add(self._entity, self._name, member)

    def remove(self, member: E) -> None:
        """Takes out the first occurrence of a member; a `ValueError` where there is none."""
        if not self._entity._karzhoul_factory.take_out(self._entity, self._name, member):
            raise ValueError(f"{member!r} is not in {self!r}")

    def copy(self) -> List[E]:
        """A list of the members."""
        return list(self._members())

    def sort(self, *, key: Any = None, reverse: bool = False) -> None:
        """Puts the members in order."""
        self._change(partial(list.sort, key=key, reverse=reverse))

    def clear(self) -> None:
        """Takes all members out."""
        self._change(list.clear)

    def _change(self, change: Callable[..., Any], *given: Any) -> Any:
        """Has the members of the list that a change makes of them, and answers what it answers."""
        members = list(self._members())
        answer = change(members, *given)
        self._karzhoul_assign(members)
        return answer

    def pop(self, at: int = -1) -> E:
        """Takes out the member at a place, and gives it."""
        return self._change(list.pop, at)  # type: ignore[no-any-return]

    def reverse(self) -> None:
        """Turns the order of the members round."""
        self._change(list.reverse)

    def insert(self, at: int, member: E) -> None:
        """Puts a member before the one at a place."""
        self._change(list.insert, at, member)

    def __setitem__(self, at: Any, member: Any) -> None:
        self._change(list.__setitem__, at, member)

    def __delitem__(self, at: Union[int, slice]) -> None:
        self._change(list.__delitem__, at)

    @overload
    def __getitem__(self, at: int) -> E: ...

    @overload
    def __getitem__(self, at: slice) -> List[E]: ...

    def __getitem__(self, at: Any) -> Any:
        return self._members()[at]

    def __len__(self) -> int:
        return len(self._members())

    def __iter__(self) -> Iterator[E]:
        return iter(self._members())

    def __reversed__(self) -> Iterator[E]:
        return reversed(self._members())

    def __contains__(self, member: object) -> bool:
        return member in self._members()

    def index(self, member: Any, start: int = 0, stop: int = sys.maxsize) -> int:
        """The first place of a member; a `ValueError` where it has none."""
        return self._members().index(member, start, stop)

    def count(self, member: Any) -> int:
        """How often a member is in it."""
        return self._members().count(member)

    def __eq__(self, other: object) -> bool:
        if isinstance(other, (list, Collection)):
            return self._members() == list(other)
        return NotImplemented

    def __repr__(self) -> str:
        return f"<{self._name} of {self._entity!r}>"

    def _repr_html_(self) -> Optional[str]:
        from ..showing.notebook import rows_html

        # In a pipeline nothing is asked.
        is_quiet = self._entity._karzhoul_factory.turn is None
        return None if is_quiet else rows_html(self._members(), [self._name], f"{self!r}")


class Attribute(property):
    """A member as an attribute. A relation has the name of its target; a collection and an embedded
    id are looked at through a view."""

    def __init__(
        self, name: str, target: str = "",
        view: Optional[Callable[[Entity, str], Union[Collection[Any], EmbeddedId]]] = None,
        place: Optional[int] = None,
    ) -> None:
        """With the place among an object's values, where it has one."""
        self.name, self.target, self.is_viewed = name, target, view is not None
        # What stands between an object's number and a value in the line that sets it.
        self.between = f',"name":{text_spelled(name)},"value":'

        def read(it: Entity) -> Any:
            return it._karzhoul_factory.get(it, name) if view is None else view(it, name)

        def assign(it: Entity, value: Any) -> None:
            if view is None:
                it._karzhoul_factory.tell(it._karzhoul_run, self.line(it, value))
            else:
                view(it, name)._karzhoul_assign(value)

        super().__init__(read if place is None else _reader(place), assign)

    def lines(self, entity: Entity, value: Any) -> List[bytes]:
        """The lines that set it, where it is looked at through no view."""
        return [self.line(entity, value)]

    def line(self, entity: Entity, value: Any) -> bytes:
        """The line that sets it."""
        number = entity._karzhoul_number
        try:
            given = entity._karzhoul_run.given(value)
            line = f'{{"call":"set","object":{number}{self.between}{given}}}'.encode()
        except (TypeError, ValueError, OverflowError) as fault:
            raise misfit(fault, f"{type(entity).__name__}.{self.name}", value) from None
        if self.name == entity._karzhoul_version:
            entity._karzhoul_run.versions.give(entity, value)
        return line


def _reader(place: int) -> Callable[[Entity], Any]:
    """What reads the value of this place of an object."""

    def read(it: Entity) -> Any:
        if it._karzhoul_shown.epoch.is_over:
            return it._karzhoul_factory.values_of(it)[place]
        return it._karzhoul_values[place]

    return read


def classes_of(
    factory: EntityManagerFactory, mapping: Mapping[str, Any], binding: Optional[Binding] = None
) -> Dict[str, Type[Entity]]:
    """The class of each entity's objects, by name, with those that a user wrote where there are
    any."""
    declared = {entity["name"]: entity for entity in mapping["entities"]}
    made: Dict[str, Type[Entity]] = {}
    for name in declared:
        _make_class(factory, declared, name, made, binding)
    return {name: made[name] for name in declared}


def _make_class(
    factory: EntityManagerFactory, declared: Mapping[str, Any], name: str,
    made: Dict[str, Type[Entity]], binding: Optional[Binding],
) -> Type[Entity]:
    """The class of an entity, which is a subclass of that of the entity that it extends."""
    if name not in made:
        entity = declared[name]
        base: Type[Entity] = (
            _make_class(factory, declared, entity["extends"], made, binding)
            if "extends" in entity
            else Entity
        )
        places = _places(entity, base._karzhoul_places)
        own: Dict[str, Any] = {it.name: it for it in _attributes(entity, places)}
        own.update(__slots__=(), __doc__=f"An object of the entity {name}.")
        own.update(
            _karzhoul_factory=factory, _karzhoul_places=places,
            _karzhoul_line=line_of("new", {"entity": text_spelled(name)}),
            _karzhoul_foresight=Foresight(),
        )
        if base is Entity:
            own["_karzhoul_key"] = _key(entity)
        if "version" in entity:
            own["_karzhoul_version"] = entity["version"]["name"]
        kind: Any = type
        bases: Tuple[type, ...] = (base,)
        if binding is not None:
            kind, bases, own = binding.bound(name, base, own)
        made[name] = kind(name, bases, own)
    return made[name]


def _key(entity: Mapping[str, Any]) -> Tuple[str, List[str]]:
    """The attribute that is the key of an entity that extends none, and the members that are its
    parts."""
    parts = [part["name"] for part in entity["key"]]
    name = entity.get("embedded")
    return (name, [f"{name}.{part}" for part in parts]) if name else (parts[0], parts)


def _places(entity: Mapping[str, Any], above: Mapping[str, int]) -> Dict[str, int]:
    """The place of each member that is no relation among the values of an object: the key's parts
    come first, then the version, then the attributes, of the superclass first."""
    names = _key(entity)[1] if "key" in entity else []
    names += [entity["version"]["name"]] if "version" in entity else []
    names += [attribute["name"] for attribute in entity.get("attributes", ())]
    return {**above, **{name: place for place, name in enumerate(names, len(above))}}


def _attributes(entity: Mapping[str, Any], places: Mapping[str, int]) -> List[Attribute]:
    """The attributes that an entity itself declares."""
    key = {part["name"]: part["type"] for part in entity.get("key", ())}
    names = [] if "embedded" in entity else list(key)
    names += [entity["version"]["name"]] if "version" in entity else []
    names += [attribute["name"] for attribute in entity.get("attributes", ())]
    made = [Attribute(name, place=places[name]) for name in names]
    if "embedded" in entity:
        made.insert(0, Attribute(entity["embedded"], view=partial(EmbeddedId, key)))
    for relation in entity.get("relations", ()):
        made.append(
            Attribute(
                relation["name"],
                relation["target"],
                Collection if relation["kind"].endswith("ToMany") else None,
            )
        )
    return made


class _Told(NamedTuple):
    kind: LifecycleEvent
    # The number of an object that isn't known.
    of: Union[Entity, int]
    ran: Tuple[str, ...] = ()
    manager: Optional[EntityManager] = None


class Event(_Told):
    """An event of an object's life: its `kind`, the `object`, the names of the listeners and
    callbacks that `ran`, and the `manager` whose call told it: None where that was dropped."""

    __slots__ = ()

    @property
    def due(self) -> Tuple[str, int]:
        """The name of its kind and the number of its object."""
        it = self.of
        return self.kind.value, it._karzhoul_number if isinstance(it, Entity) else it

    @property
    def object(self) -> Entity:
        """The object. A call that is refused gives up the objects that it loaded, and so one of
        these is a `LookupError`."""
        if isinstance(self.of, Entity):
            return self.of
        raise LookupError(
            f"the object of this {self.kind.value} isn't known: the call that loaded it was "
            f"refused or interrupted"
        )
