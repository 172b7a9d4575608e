"""Values of several attributes, which objects have in them (chapter 2.5)."""

from __future__ import annotations

from dataclasses import dataclass
from typing import Any, ClassVar, Dict, Iterable, Mapping, NoReturn, Optional
from typing import Tuple, Type, TypeVar

from ..objects.misfits import unknown
from ..told import shown
from .annotations import Scope, Unread, own_annotations
from .faults import Faults
from .fields import (
    MISSING, Field, by_value, dataclass_transform, embedded, field, json_text, money, naive, typed,
)
from .stored import stored_type
from .types import StoredType, Unfit
from .values import WrongValue, from_stored, to_stored

V = TypeVar("V", bound="Embedded")


@dataclass(frozen=True)
class Part:
    """An attribute of an embedded value: a value, or one that is embedded itself."""

    name: str
    field: Field
    is_optional: bool
    type: Optional[StoredType]
    kind: Optional[Type[Embedded]] = None

    def taken(self, value: Any, what: str) -> Any:
        """A value for it, as it is read again once it is stored."""
        if value is None:
            if self.is_optional:
                return None
            raise WrongValue(f"{what} is {self._what}, and never None: declare it as .. | None "
                             "where it may be")
        if self.type is not None:
            return from_stored(self.type, to_stored(self.type, value, what), what)
        if type(value) is not self.kind:
            raise WrongValue(f"{what} is {self._what}, and {shown(value)} is none")
        return value

    @property
    def _what(self) -> str:
        return self.type.what if self.type else f"of {getattr(self.kind, '__name__', '')}"


@dataclass_transform(
    kw_only_default=True, frozen_default=True,
    field_specifiers=(by_value, embedded, field, json_text, money, naive, typed),
)
class Embedded:
    """A value of several attributes, as an address: a class that extends it writes them as an
    entity does. Objects have it in them by `embedded()`, and it has no table and no key of its own.

    It is what its attributes are: two of the same ones are equal, and it takes no change in place,
    which no object that has it would hear of. `address.replace(city="Ghent")` is another one, to be
    assigned. What its constructor is given is checked as an object's attributes are.
    """

    # The parts of a class, once they were read.
    _karzhoul_parts: ClassVar[Optional[Mapping[str, Part]]] = None

    def __init_subclass__(cls, **more: Any) -> None:
        super().__init_subclass__(**more)
        cls._karzhoul_parts = None

    def __init__(self, /, **values: Any) -> None:
        kind = type(self)
        parts = parts_of(kind)
        for name in values:
            if name not in parts:
                raise unknown(kind.__name__, name, parts)
        given = {
            name: values[name] if name in values else part.field.fresh()
            for name, part in parts.items()
        }
        missing = [
            name for name, value in given.items()
            if value is MISSING and not parts[name].is_optional
        ]
        if missing:
            raise TypeError(f"{kind.__name__} takes {', '.join(missing)}, and none is given")
        for name, value in given.items():
            value = None if value is MISSING else value
            self.__dict__[name] = parts[name].taken(value, f"{kind.__name__}.{name}")

    @classmethod
    def _karzhoul_made(cls: Type[V], values: Mapping[str, Any]) -> V:
        """One of values that are of its attributes."""
        made = cls.__new__(cls)
        made.__dict__.update(values)
        return made

    def replace(self: V, **changes: Any) -> V:
        """Another one, with these attributes changed."""
        return type(self)(**{**self._values(), **changes})

    __replace__ = replace

    def _values(self) -> Dict[str, Any]:
        return {name: self.__dict__[name] for name in parts_of(type(self))}

    def __setattr__(self, name: str, value: object) -> NoReturn:
        kind = type(self).__name__
        raise AttributeError(
            f"an embedded {kind} takes no change in place, which no object would hear of: assign "
            f"another one, as member.address = member.address.replace({name}=..)"
        )

    def __delattr__(self, name: str) -> NoReturn:
        self.__setattr__(name, None)

    def __eq__(self, other: object) -> bool:
        if type(other) is not type(self):
            return NotImplemented
        assert isinstance(other, Embedded)
        return self._values() == other._values()

    def __hash__(self) -> int:
        return hash((type(self), *map(_hashed, self._values().values())))

    def __repr__(self) -> str:
        parts = ", ".join(f"{name}={value!r}" for name, value in self._values().items())
        return f"{type(self).__name__}({parts})"


def _hashed(value: Any) -> Any:
    return repr(value) if isinstance(value, (list, dict)) else value


def parts_of(kind: Type[Embedded]) -> Mapping[str, Part]:
    """The parts of a class of embedded values; a `DeclarationError` has each line that is wrong."""
    known = vars(kind).get("_karzhoul_parts")
    if known is None:
        faults, known = Faults(), {}
        for writer in kind.__mro__[::-1]:
            if writer is not Embedded and issubclass(writer, Embedded):
                known.update(_read(writer, faults))
        if not known:
            faults.add(kind, None, "has no attributes: write them as city: str")
        faults.tell()
        kind._karzhoul_parts = known
    found: Mapping[str, Part] = known
    return found


def _read(writer: type, faults: Faults) -> Iterable[Tuple[str, Part]]:
    scope, annotations = Scope(writer, {}), own_annotations(writer)
    for name, said in vars(writer).items():
        if isinstance(said, Field) and name not in annotations:
            faults.add(writer, name, f"has no annotation: write it as {name}: str = ..")
    for name, annotation in annotations.items():
        try:
            told = scope.read(annotation)
            if told.kind is not ClassVar and not name.startswith("_karzhoul"):
                said = vars(writer).get(name, MISSING)
                is_said = isinstance(said, Field)
                yield name, _part(name, told, said if is_said else Field(default=said))
        except (Unread, Unfit) as why:
            faults.add(writer, name, str(why))


def _part(name: str, told: Any, said: Field) -> Part:
    if name in ("replace",):
        raise Unread("has the name of a method of embedded values: give it another one")
    if not said.init:
        raise Unread("is init=False, and an embedded value has what its constructor is given")
    if said.sort not in ("value", "embedded"):
        raise Unread(f"is a {said.sort} of an embedded value, which has values alone: write it in "
                     "the entity")
    if is_embedded(told.kind):
        parts_of(told.kind)
        made = Part(name, said, told.is_optional, None, told.kind)
        check_optional(told.kind, told.is_optional)
    else:
        if said.sort == "embedded":
            raise Unread("is embedded, and its class extends no karzhoul.Embedded")
        made = Part(name, said, told.is_optional, stored_type(told, said))
    if said.default is not MISSING:
        try:
            made.taken(said.default, "it")
        except WrongValue as why:
            raise Unread(f"has the default {said.default!r}: {why}") from None
    return made


def is_embedded(kind: Any) -> bool:
    """Whether a class is one of embedded values."""
    return isinstance(kind, type) and issubclass(kind, Embedded) and kind is not Embedded


def has_required(kind: Type[Embedded]) -> bool:
    """Whether a value has something that is not None, whatever it is."""
    return any(
        not part.is_optional and (part.kind is None or has_required(part.kind))
        for part in parts_of(kind).values()
    )


def check_optional(kind: Type[Embedded], is_optional: bool) -> None:
    """Refuses that a value may be None that can't be told from one of None alone."""
    if is_optional and not has_required(kind):
        raise Unread(
            f"may be None, and each attribute of {kind.__name__} too, so that the two can't be "
            f"told apart: require one of these, or write {kind.__name__} without None here"
        )
