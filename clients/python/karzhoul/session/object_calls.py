"""The calls of a factory on its objects: they are made, their members are read and set."""

from __future__ import annotations

from typing import (
    TYPE_CHECKING, Any, Iterable, List, Mapping, Optional, Sequence, Type, Union, overload,
)

from ..objects.arguments import entity_named
from ..objects.entities import Attribute, E, Entity, check_names
from ..objects.misfits import stranger
from ..refusals import KarzhoulError
from .calls import Calls
from .runs import Run

if TYPE_CHECKING:
    from ..classes.binding import Binding


class ObjectCalls(Calls):
    """What a factory does with objects."""

    # The classes that a user wrote.
    binding: Optional[Binding]

    @overload
    def entity(self, name: str) -> Type[Entity]: ...

    @overload
    def entity(self, name: Type[E]) -> Type[E]: ...

    def entity(self, name: Union[str, Type[Entity]]) -> Type[Entity]:
        """The class of an entity, by its name or by a class of its name, as of `stubs`: calling it
        makes a new object, as `Person(name="Ada")`."""
        return entity_named(self._classes, name)

    @overload
    def new(self, entity: str, /, **values: Any) -> Entity: ...

    @overload
    def new(self, entity: Type[E], /, **values: Any) -> E: ...

    def new(self, entity: Union[str, Type[Entity]], /, **values: Any) -> Entity:
        """A new object with these values."""
        return entity_named(self._classes, entity)(**values)

    @overload
    def new_many(self, entity: str, rows: Iterable[Mapping[str, Any]]) -> List[Entity]: ...

    @overload
    def new_many(self, entity: Type[E], rows: Iterable[Mapping[str, Any]]) -> List[E]: ...

    def new_many(
        self, entity: Union[str, Type[Entity]], rows: Iterable[Mapping[str, Any]]
    ) -> List[Any]:
        """A new object for each row of values, as its constructor makes it, sent without waiting
        for each."""
        rows, kind = list(rows), entity_named(self._classes, entity)
        if kind.__init__ is not Entity.__init__:
            with self.pipeline():
                return [kind(**row) for row in rows]
        check_names(kind, dict.fromkeys(name for row in rows for name in row))
        with self.pipeline():
            made = self.ask_lines(None, [kind._karzhoul_line] * len(rows), kind.__name__)
            run = made[0]._karzhoul_run if made else None
            lines: List[bytes] = []
            for each, row in zip(made, rows):
                own, later = each._karzhoul_filling(row)
                lines += own
                if later:
                    self.tell_all(run, lines)
                    lines = []
                for name, value in later.items():
                    setattr(each, name, value)
            self.tell_all(run, lines)
        return made

    def get(self, entity: Entity, name: str) -> Any:
        """The value of a member; of a collection a list of the members that it has now. Changes go
        by the attribute, or by `add` and `take_out`."""
        return self.get_many([entity], name)[0]

    def get_many(self, objects: Sequence[Entity], name: str) -> List[Any]:
        """The values that objects of one class have of a member, asked without waiting for each;
        those of attributes are asked for where they may have changed since they were read."""
        if not objects:
            return self.ask_lines(None, [])
        run, kind = self._run_of(objects[0]), type(objects[0])
        attribute = kind._karzhoul_stored.get(name) or getattr(kind, name, None)
        place = kind._karzhoul_places.get(getattr(attribute, "name", name))
        is_of_kind = all(type(it) is kind for it in objects)
        of_row = getattr(attribute, "of_row", None)
        if of_row is not None and is_of_kind:
            return [of_row(values) for values in self._values(run, objects)]
        if place is not None and is_of_kind:
            found = [values[place] for values in self._values(run, objects)]
            value = getattr(attribute, "value", None)
            return found if value is None else list(map(value, found))
        target = getattr(attribute, "target", "")
        return self.ask_lines(run, [run.get_line(entity, name) for entity in objects], target)

    def get_members(self, entity: Entity, names: Iterable[str]) -> List[Any]:
        """The values that an object has of members that are no relations."""
        places = type(entity)._karzhoul_places
        [values] = self._values(self._run_of(entity), [entity])
        return [values[places[name]] for name in names]

    def _values(self, run: Run, objects: Sequence[Entity]) -> List[Sequence[Any]]:
        """The values of objects, of which those are read that may have changed."""
        for entity in objects:
            run.number(entity)
        unread = run.map.unread(objects)
        if unread:
            self.show(run, unread)
        return [entity._karzhoul_values for entity in objects]

    def key_at_hand(self, entity: Entity) -> Optional[List[Any]]:
        """The parts of an object's key; None where calls are kept in a pipeline, which asking would
        send, and once the program has ended."""
        if self.turn is None:
            return None
        try:
            return self.get_members(entity, entity._karzhoul_key[1])
        except KarzhoulError:
            return None

    def set(self, entity: Entity, name: str, value: Any) -> None:
        """Sets a member."""
        run = self._run_of(entity)
        if self.binding is not None and isinstance(attribute := getattr(type(entity), name, None),
                                                   Attribute) and not attribute.is_viewed:
            self.tell_all(run, attribute.lines(entity, value))
            return
        self.tell(run, run.set_line(entity, name, value))

    def add(self, entity: Entity, name: str, member: Entity) -> None:
        """Adds a member to a collection, at its end."""
        run = self._run_of(entity)
        self.tell(run, run.member_line("add", entity, name, member))

    def take_out(self, entity: Entity, name: str, member: Entity) -> bool:
        """Takes the first occurrence of a member out of a collection, and answers whether there was
        one."""
        run = self._run_of(entity)
        return bool(self.ask_lines(run, [run.member_line("takeOut", entity, name, member)])[0])

    def _run_of(self, entity: Entity) -> Run:
        """The run of an object of this factory."""
        if isinstance(entity, Entity) and entity._karzhoul_factory is self:
            return entity._karzhoul_run
        raise stranger(entity)
