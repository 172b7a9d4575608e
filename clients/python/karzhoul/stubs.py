"""What a module of typed classes stands on, which `karzhoul stubs` writes (`mapping.typed`).

The classes are for type checkers and editors. They stand for their entities wherever a name does,
as in `app.new(Person, name="Ada")` or `manager.find(Person, 1)`; `app.entity(Person)` is the class
that makes objects, with the same types.
"""

from __future__ import annotations

from typing import TYPE_CHECKING, Generic, Set, TypeVar

from .objects.entities import EmbeddedId, Entity

Got = TypeVar("Got", covariant=True)
Given = TypeVar("Given", contravariant=True)


class _ByName(type):
    """Whose classes have the objects of the entity of their name, or of a subclass's."""

    def __instancecheck__(cls, instance: object) -> bool:
        kind = type(instance)
        return issubclass(kind, Entity) and kind.__name__ in cls._names()

    def _names(cls) -> Set[str]:
        return {cls.__name__}.union(*(subclass._names() for subclass in cls.__subclasses__()))


class TypedEntity(Entity, metaclass=_ByName):
    """An entity whose members are all known to a type checker."""

    __slots__ = ()
    _karzhoul_is_typed = True

    if TYPE_CHECKING:
        # So that a type checker takes no other name.
        __getattr__: None  # type: ignore
        __setattr__: None  # type: ignore
    else:

        def __new__(cls, /, *given, **values):
            """Refuses: of which factory would the object be?"""
            raise TypeError(
                f"{cls.__name__} alone makes no objects: app.entity({cls.__name__}) does, or "
                f"app.new({cls.__name__}, ..)"
            )


class TypedId(EmbeddedId):
    """An embedded id whose parts are all known to a type checker."""

    if TYPE_CHECKING:
        __getattr__: None  # type: ignore
        __setattr__: None  # type: ignore


class View(Generic[Got, Given]):
    """The type of a member that is looked at through a view, as a collection, and takes more when
    it is assigned, as any list."""

    if TYPE_CHECKING:

        def __get__(self, instance: object, owner: object = None) -> Got: ...

        def __set__(self, instance: object, value: Given) -> None: ...
