"""Objects of before, as the functions of a migration see them."""

from __future__ import annotations

from typing import Any, List, Mapping, NamedTuple

from ..mapping.meant import meant
from ..classes.types import StoredType
from ..session.factory import EntityManagerFactory
from ..session.managers import EntityManager
from ..records.records import Key, Record, Shape, named
from .names import shown, stored_name, whole
from .sides import Place, Side


class Reference(NamedTuple):
    """What a relation of an old object leads to. As a value of a new link it leads to what that
    object becomes."""

    entity: str
    parts: Key

    @property
    def key(self) -> Any:
        """The key: of several parts a tuple of them."""
        return self.parts if len(self.parts) > 1 else self.parts[0]


class OldStore:
    """The store of before, while it is read."""

    def __init__(self, side: Side, app: EntityManagerFactory) -> None:
        self.shapes: Mapping[str, Shape] = side.shapes
        self.types: Mapping[Place, StoredType] = side.types
        self.members = {name: side.class_members(name) for name in side.shapes}
        self._manager: EntityManager = app.create_entity_manager()

    def query(self, text: str, **params: Any) -> List[Any]:
        """The rows of a query, whose values are as they are stored."""
        return list(self._manager.query(text, params=params))


class Old:
    """An object of before. Its members are attributes, and by `old["name"]` too: values of their
    types where the classes of before, or the store, tell them; a link is a `Reference` or None, a
    list that it owns a list of them. An unknown member is an `AttributeError`."""

    __slots__ = ("_record", "_store")

    def __init__(self, record: Record, store: OldStore) -> None:
        self._record, self._store = record, store

    @property
    def entity(self) -> str:
        """The name of its class."""
        return self._record.entity

    @property
    def key(self) -> Any:
        """Its key: of several parts a tuple of them."""
        return Reference("", self._record.key or ()).key

    def query(self, text: str, **params: Any) -> List[Any]:
        """The rows of a query over the store of before, whose values are as they are stored."""
        return self._store.query(text, **params)

    def __getattr__(self, name: str) -> Any:
        return self[name]

    def __getitem__(self, name: str) -> Any:
        record, shape = self._record, self._store.shapes[self._record.entity]
        if name in shape.links:
            key = record.links[name]
            return None if key is None else Reference(shape.links[name].type, key)
        if name in shape.pairs:
            return [Reference(shape.pairs[name].type, key) for key in record.pairs[name]]
        if name == shape.version:
            return record.version
        stored = {**record.values, **dict(zip((it.name for it in shape.key), record.key or ()))}
        is_whole, found = whole(self._store.members[shape.name], name, stored)
        if is_whole:
            return found
        name = stored_name(name, stored)
        if name not in stored:
            known = [*map(shown, stored), *shape.links, *shape.pairs]
            raise AttributeError(f"{shape.name} of before has no {name!r}{meant(name, known)}")
        kind = self._store.types.get((shape.name, name))
        value = stored[name]
        return value if kind is None or value is None else kind.from_stored(value)

    def __repr__(self) -> str:
        return f"<{named(self._record.entity, self._record.key)} of before>"
