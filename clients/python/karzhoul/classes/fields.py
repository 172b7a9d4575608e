"""The words that entities are written with: what an attribute of a class is.

A word answers `Any` to a type checker, which takes the type of the attribute from its annotation
(PEP 681).
"""

from __future__ import annotations

from dataclasses import dataclass, field as member
from typing import TYPE_CHECKING, Any, Callable, Optional, Sequence, Tuple, TypeVar, Union

if TYPE_CHECKING:
    from typing_extensions import Literal
    from typing_extensions import dataclass_transform as dataclass_transform
else:

    def dataclass_transform(**_said):
        """Tells type checkers alone that subclasses are written as dataclasses are."""
        return lambda kind: kind


F = TypeVar("F", bound=Callable[..., Any])


class _Missing:
    def __repr__(self) -> str:
        return "(none)"


MISSING: Any = _Missing()
"""In the place of a default where there is none."""
Cascade = Union[str, Sequence[str]]


@dataclass(frozen=True)
class Field:
    """What a class says of an attribute, beside its annotation."""

    sort: str = "value"
    """`value`, `embedded`, `key`, `generated`, `version`, or a relation as `many_to_one`."""
    default: Any = MISSING
    was: Optional[str] = None
    form: str = ""
    """How the value is stored, where its type doesn't say it: `money`, `json`, `naive`, `value` of
    an enum, or `typed`."""
    scale: int = 0
    converters: Tuple[Callable[[Any], Any], ...] = ()
    stored: type = str
    mapped_by: Optional[str] = None
    cascade: Tuple[str, ...] = ()
    orphan_removal: bool = False
    index: bool = False
    """Whether the program is told that it will be looked up (`index` of docs/CALLS.md)."""
    unique: bool = False
    """Whether no two objects have one value of it (`unique`)."""
    default_factory: Optional[Callable[[], Any]] = None
    """What makes the default of each new object."""
    init: bool = True
    """Whether the constructor takes it."""
    name: str = member(default="", compare=False)

    def __set_name__(self, owner: type, name: str) -> None:
        object.__setattr__(self, "name", name)

    @property
    def has_default(self) -> bool:
        """Whether a new object has a value of it that its constructor isn't given."""
        return self.default is not MISSING or self.default_factory is not None

    def fresh(self) -> Any:
        """The default of a new object; `MISSING` where there is none."""
        return self.default if self.default_factory is None else self.default_factory()


# With `index` the program is told, as a store is opened, that equalities and ranges of the
# attribute will be asked for. No answer is another one for that. With `unique` no two objects have
# one value of it; None is no value, and any number of them may have none.


def field(
    *, default: Any = MISSING, default_factory: Optional[Callable[[], Any]] = None,
    init: bool = True, was: Optional[str] = None, index: bool = False, unique: bool = False,
) -> Any:
    """A value, with a default, or with the name that the attribute had before.

    `default_factory` makes the default of each new object, as `uuid4` does; with both it is a
    `ValueError`. With `init=False` the constructor doesn't take it: it has its default, or is to be
    set before the object is stored, as by `pre_persist`.
    """
    if default is not MISSING and default_factory is not None:
        raise ValueError("field() takes default or default_factory, and not both")
    return Field(
        "value", default, was, index=index, unique=unique, default_factory=default_factory,
        init=init,
    )


def key(*, default: Any = MISSING, was: Optional[str] = None, index: bool = False) -> Any:
    """The key, by which an object is found. It is set before the object is persisted."""
    return Field("key", default, was, index=index)


def generated(
    *, was: Optional[str] = None, index: bool = False, init: Literal[False] = False
) -> Any:
    """A key that is given when a new object becomes managed, from 1."""
    return Field("generated", was=was, index=index)


def version(*, was: Optional[str] = None, init: Literal[False] = False) -> Any:
    """The version, which rises with each update (Jakarta Persistence 3.1, 3.4)."""
    return Field("version", was=was)


def money(
    scale: int, *, default: Any = MISSING, was: Optional[str] = None, index: bool = False,
    unique: bool = False,
) -> Any:
    """A `Decimal` of so many digits behind the point, from 0 to 18: stored as a whole number of
    the least unit."""
    return Field("value", default, was, "money", scale, index=index, unique=unique)


def json_text(*, default: Any = MISSING, was: Optional[str] = None) -> Any:
    """A list or a dict that is stored as the text of its JSON."""
    return Field("value", default, was, "json")


def naive(
    *, default: Any = MISSING, was: Optional[str] = None, index: bool = False, unique: bool = False
) -> Any:
    """A `datetime` without a zone, which is stored as it stands."""
    return Field("value", default, was, "naive", index=index, unique=unique)


def by_value(
    *, default: Any = MISSING, was: Optional[str] = None, index: bool = False, unique: bool = False
) -> Any:
    """An enum that is stored by its values, all of them int or all of them str, and not by its
    names."""
    return Field("value", default, was, "value", index=index, unique=unique)


def typed(
    to: Callable[[Any], Any], back: Callable[[Any], Any], *, stored: type = str,
    default: Any = MISSING, was: Optional[str] = None, index: bool = False, unique: bool = False,
) -> Any:
    """A value of a type of your own: `to` makes of it what is stored, an int, a str or bytes as
    `stored` says, and `back` makes the value of that."""
    return Field(
        "value", default, was, "typed", converters=(to, back), stored=stored, index=index,
        unique=unique,
    )


def embedded(*, default: Any = MISSING, was: Optional[str] = None) -> Any:
    """A value of several attributes (2.5), whose class extends `Embedded`: each is stored with the
    object."""
    return Field("embedded", default, was)


def many_to_one(
    *, cascade: Cascade = (), default: Any = MISSING, was: Optional[str] = None
) -> Any:
    """A link to an object that others lead to as well (2.10.2): its annotation names the class."""
    return Field("many_to_one", default, was, cascade=_cascade(cascade))


def one_to_one(
    mapped_by: Optional[str] = None, *, cascade: Cascade = (), orphan_removal: bool = False,
    default: Any = MISSING, was: Optional[str] = None,
) -> Any:
    """A link to an object that no other one leads to (2.10.1): the side that is stored, or, by
    `mapped_by`, the other one."""
    return Field(
        "one_to_one", default, was, mapped_by=mapped_by, cascade=_cascade(cascade),
        orphan_removal=orphan_removal,
    )


def one_to_many(
    mapped_by: str, *, cascade: Cascade = (), orphan_removal: bool = False,
    was: Optional[str] = None, init: Literal[False] = False,
) -> Any:
    """The objects that lead here by their attribute `mapped_by` (2.10.2): its annotation is a list
    of their class."""
    return Field(
        "one_to_many", was=was, mapped_by=mapped_by, cascade=_cascade(cascade),
        orphan_removal=orphan_removal,
    )


def many_to_many(
    mapped_by: Optional[str] = None, *, cascade: Cascade = (), was: Optional[str] = None,
    init: Literal[False] = False,
) -> Any:
    """A list of objects (2.10.4): the side that is stored, or, by `mapped_by`, the other one."""
    return Field("many_to_many", was=was, mapped_by=mapped_by, cascade=_cascade(cascade))


def _cascade(given: Cascade) -> Tuple[str, ...]:
    return tuple(each.upper() for each in ([given] if isinstance(given, str) else given))


def validates(*names: str) -> Callable[[F], F]:
    """Has a method see each value of these attributes before it is set: what it answers is set, and
    what it raises is raised.

        @validates("email")
        def with_at(self, value: str) -> str: ...
    """

    def marked(method: F) -> F:
        method._karzhoul_validates = names  # type: ignore[attr-defined]
        return method

    return marked

