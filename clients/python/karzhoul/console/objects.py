"""Objects as the page has them: rows as tables, and an object with its members."""

from __future__ import annotations

from typing import Any, Dict, List, Mapping, Optional, Sequence

from ..showing.asked import titles_of
from ..objects.entities import Entity
from ..session.factory import EntityManagerFactory
from ..wire.lines import line_of, spelled
from ..session.managers import EntityManager
from ..mapping.unit import EntityDescription, Member, MemberKind
from .answers import Answer
from .cells import Plain, Reference, Unread, cell_of, kind_of, said_reference

MOST_MEMBERS = 100
"""So many members of a collection are told with an object."""
_OF_TABLES = (MemberKind.KEY, MemberKind.VERSION, MemberKind.ATTRIBUTE, MemberKind.TO_ONE)
_TYPES = {"int": "a whole number", "text": "a text", "bytes": "bytes"}


class Objects:
    """The objects of a factory, as they are stored, also where classes are bound."""

    def __init__(
        self, app: EntityManagerFactory, every: Mapping[str, EntityDescription],
        entities: Mapping[str, EntityDescription],
    ) -> None:
        """With every entity of the mapping, and with those that are shown."""
        self._app, self._every, self._entities = app, every, entities

    def entity(self, name: str) -> EntityDescription:
        """An entity that is shown; `Unread` where there is none of this name."""
        found = self._entities.get(name)
        if found is None:
            raise Unread(f"there is no entity {name!r}")
        return found

    def described(self, each: Entity) -> EntityDescription:
        """The entity of an object."""
        name = type(each).__name__
        return self._entities.get(name) or self._every[name]

    # ---- by key

    def find(self, manager: EntityManager, reference: Reference) -> Optional[Entity]:
        """The object of a key, or None. What is no key isn't asked for, since its refusal would
        leave a transaction able only to roll back."""
        parts = self.entity(reference.entity).key
        if len(parts) != len(reference.key):
            raise Unread(f"the key of {reference.entity} is {', '.join(it.name for it in parts)}")
        for part, value in zip(parts, reference.key):
            kind = kind_of(value)
            if kind is None or kind.what != part.type:
                raise Unread(f"{reference.entity}.{part.name} is {_TYPES[part.type]}")
        key = f"[{','.join(map(spelled, reference.key))}]"
        line = line_of("find", {
            "em": str(manager.number), "entity": f'"{reference.entity}"', "key": key,
        })
        [answer] = self._app.ask_lines(manager._run, [line], reference.entity)
        return answer if isinstance(answer, Entity) else None

    def found(self, manager: EntityManager, reference: Reference) -> Entity:
        """The object of a key; `Unread` where there is none."""
        found = self.find(manager, reference)
        if found is None:
            raise Unread(f"there is no {reference}")
        return found

    # ---- what they are called

    def names(self, rows: Sequence[Any]) -> Dict[int, Reference]:
        """What the objects of rows are called, by their identity as objects of Python."""
        items = [item for row in rows for item in (row if isinstance(row, list) else [row])]
        names: Dict[int, Reference] = {}
        for entity, objects in self._by_class(items).items():
            parts = [self._stored(objects, part.name) for part in self._every[entity].key]
            for each, key in zip(objects, zip(*parts)):
                names[id(each)] = Reference(entity, key)
        return names

    def reference(self, each: Entity) -> Reference:
        """What an object is called."""
        return self.names([each])[id(each)]

    def _by_class(self, items: Sequence[Any]) -> Dict[str, List[Entity]]:
        found: Dict[str, List[Entity]] = {}
        for each in dict.fromkeys(item for item in items if isinstance(item, Entity)):
            found.setdefault(type(each).__name__, []).append(each)
        return found

    def _stored(self, objects: Sequence[Entity], name: str) -> List[Plain]:
        """What is stored of a member that is no relation, of objects of one class."""
        place = type(objects[0])._karzhoul_places[name]
        run = objects[0]._karzhoul_run
        return [values[place] for values in self._app._values(run, objects)]

    # ---- tables

    def table(self, text: str, rows: Sequence[Any]) -> Answer:
        """Rows as a table: where each is an object, with its values and links."""
        objects = [row for row in rows if isinstance(row, Entity)]
        if objects and all(row is None or isinstance(row, Entity) for row in rows):
            return self._of_objects(rows, objects)
        listed = [row if isinstance(row, list) else [row] for row in rows]
        titles = titles_of(text, len(listed[0])) if listed else []
        names = self.names(rows)
        return {"titles": titles, "rows": [[_told(it, names) for it in row] for row in listed]}

    def _of_objects(
        self, rows: Sequence[Optional[Entity]], objects: Sequence[Entity]
    ) -> Answer:
        columns: Dict[str, None] = {}
        values: Dict[int, Dict[str, Any]] = {id(each): {} for each in objects}
        for name, alike in self._by_class(objects).items():
            members = [it for it in self._every[name].members if it.kind in _OF_TABLES]
            shown = self.described(alike[0]).members
            for member in [it for it in members if it in shown]:
                columns[member.name] = None
                for each, value in zip(alike, self._column(alike, member)):
                    values[id(each)][member.name] = value
        names = self.names([*rows, *(it for row in values.values() for it in row.values())])
        told = [
            [None] * (1 + len(columns)) if row is None
            else [_told(row, names), *(_told(values[id(row)].get(it), names) for it in columns)]
            for row in rows
        ]
        return {"titles": ["", *columns], "rows": told}

    def _column(self, objects: Sequence[Entity], member: Member) -> Sequence[Any]:
        if member.kind is MemberKind.TO_ONE:
            return self._app.get_many(objects, member.name)
        return self._stored(objects, member.name)

    # ---- one object

    def shown(self, each: Entity) -> Answer:
        """An object with its members, of a collection the first ones."""
        entity = self.described(each)
        members = [self._shown_member(each, entity, member) for member in entity.members]
        return {"object": said_reference(self.reference(each)), "members": members}

    def _shown_member(self, each: Entity, entity: EntityDescription, member: Member) -> Answer:
        told: Answer = {
            "name": member.name, "kind": member.kind.name, "type": member.type,
            "required": member.is_required, "owner": member.is_owner,
        }
        if member.kind not in (MemberKind.TO_ONE, MemberKind.COLLECTION):
            return {**told, "value": cell_of(self._stored([each], member.name)[0])}
        value = self._app.get(each, member.name)
        if member.kind is MemberKind.TO_ONE:
            return {**told, "value": _told(value, self.names([value]))}
        items = list(value)
        names = self.names(items[:MOST_MEMBERS])
        conditions = " AND ".join(
            f"o.{part.name} = :k{place}" for place, part in enumerate(entity.key, 1)
        )
        text = f"SELECT m FROM {entity.name} o JOIN o.{member.name} m WHERE {conditions}"
        return {
            **told, "items": [_told(it, names) for it in items[:MOST_MEMBERS]],
            "count": len(items), "text": text,
        }


def _told(item: Any, names: Mapping[int, Reference]) -> Any:
    """An item of a row as the page has it."""
    return said_reference(names[id(item)]) if isinstance(item, Entity) else cell_of(item)
