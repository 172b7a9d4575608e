"""The tables of a mapping: one for each hierarchy of entities, and one for each list that is
stored."""

from __future__ import annotations

from dataclasses import dataclass, field, replace
from typing import Any, Dict, Iterator, List, Mapping, Optional, Sequence, Tuple

from ..classes.types import Plainly, StoredType
from ..classes.unique import Uniques
from ..migrating.forms import plain_type
from ..migrating.sides import Side
from ..records.records import Shape
from ..mapping.unit import Member
from .naming import Names, collisions

CLASS, KEY, VERSION, VALUE, LINK = "class", "key", "version", "value", "link"
OWNER, TARGET = "owner", "target"
_MARK = "DTYPE"


@dataclass(frozen=True)
class Column:
    """A column. `sort` says what of an object it has: its class, a part `at` of its key or of the
    key that a link leads to, its version, or a value; of a list's table the keys of both sides."""

    name: str
    sort: str
    place: str
    """What `--name` calls it."""
    declarer: str
    """The entity that declares what it has."""
    member: str = ""
    at: int = 0
    type: StoredType = Plainly(str)
    check: StoredType = Plainly(str)
    """The type that its values are held against, which is another one where a column of what is
    stored is asked for."""
    is_required: bool = False
    is_generated: bool = False


@dataclass(frozen=True)
class Foreign:
    """Columns that lead to the key of a table."""

    name: str
    index: Optional[str]
    """The name of its index; None where another one serves."""
    columns: Tuple[str, ...]
    table: str
    targets: Tuple[str, ...]


@dataclass(frozen=True)
class Unique:
    """Columns of which no two rows have the same values; `marks` are the classes of the rows that
    it is about, none where it is about all."""

    name: str
    columns: Tuple[str, ...]
    marks: Tuple[str, ...] = ()


@dataclass
class Table:
    """A table: of a hierarchy, whose top is `entity`, or of the list `pair` of an entity."""

    name: str
    entity: str
    pair: Optional[str] = None
    columns: List[Column] = field(default_factory=list)
    foreign: List[Foreign] = field(default_factory=list)
    uniques: List[Unique] = field(default_factory=list)
    has_key: bool = True

    @property
    def key(self) -> Tuple[str, ...]:
        """The names of the columns of its primary key; none where it has none."""
        kept = (KEY, OWNER, TARGET) if self.has_key else ()
        return tuple(it.name for it in self.columns if it.sort in kept)

    @property
    def mark(self) -> Optional[Column]:
        """The column that has the class of a row."""
        return next((it for it in self.columns if it.sort == CLASS), None)

    def of(self, sort: str, member: Member) -> List[Column]:
        """The columns of a member."""
        return [it for it in self.columns if it.sort == sort
                and (it.declarer, it.member) == (member.declarer, member.name)]


class Tables:
    """The tables of a side. `faults` are what stands in their way, a line each; `marks` are the
    values that say the class of a row, by entity."""

    def __init__(self, side: Side, names: Names, is_as_stored: bool) -> None:
        self.side, self.names, self._is_as_stored = side, names, is_as_stored
        declared: Mapping[str, Any] = {it["name"]: it for it in side.mapping["entities"]}
        self._declared = declared
        self.marks = {name: declared[name].get("discriminator", name) for name in side.shapes}
        self.all: List[Table] = []
        self._tops: Dict[str, Table] = {}
        for top in dict.fromkeys(shape.top for shape in side.shapes.values()):
            self._tops[top] = self._of_hierarchy(top)
        lists = [self._of_list(*pair) for pair in self._pairs()]
        self.all = [*self._tops.values(), *lists]
        for table in self._tops.values():
            self._relate(table)
        self._keep_unique()
        self.faults = self._collisions()

    def of_entity(self, name: str) -> Table:
        """The table that has the objects of an entity."""
        return self._tops[self.side.shapes[name].top]

    def lists_of(self, shape: Shape) -> Dict[str, Table]:
        """The tables of the lists of an entity's objects, by their names in the mapping."""
        return {
            table.pair: table for table in self.all
            if table.pair is not None and table.pair in shape.pairs
            and shape.pairs[table.pair].declarer == table.entity
        }

    def classes(self, top: str) -> List[Shape]:
        """The classes of a hierarchy, the top first."""
        found = [shape for shape in self.side.shapes.values() if shape.top == top]
        return sorted(found, key=lambda shape: len(shape.chain))

    # ---- hierarchies

    def _of_hierarchy(self, top: str) -> Table:
        shapes = self.classes(top)
        table = Table(self.names.of(top, top), top)
        table.columns += self._key_columns(shapes[0])
        if len(shapes) > 1:
            place = f"{top}.{_MARK}"
            table.columns.append(Column(
                self.names.of(place, _MARK), CLASS, place, top, is_required=True
            ))
        if shapes[0].version is not None:
            number = plain_type("int")
            place = f"{top}.{shapes[0].version}"
            table.columns.append(Column(
                self.names.of(place, shapes[0].version), VERSION, place, top,
                shapes[0].version, type=number, check=number, is_required=True,
            ))
        twice = _twice(shapes)
        for shape, member in _own_members(shapes):
            # A required value of a subclass is null in the rows of the others.
            is_required = member.is_required and member.declarer == top
            said = self.side.shown(shape.name, member.name)
            title = f"{member.declarer}_{said}" if member.name in twice else said
            place = f"{member.declarer}.{said}"
            if member.name in shape.values:
                table.columns.append(self._column(
                    VALUE, shape.name, member, place, title, is_required
                ))
            else:
                table.columns += self._led(LINK, member, member.type, place, title, is_required)
        return table

    def _key_columns(self, shape: Shape) -> Iterator[Column]:
        for at, member in enumerate(shape.key):
            said = self.side.shown(shape.name, member.name)
            made = self._column(KEY, shape.name, member, f"{shape.name}.{said}", said, True, at)
            yield replace(made, is_generated=shape.is_generated)

    def _column(
        self, sort: str, entity: str, member: Member, place: str, title: str, is_required: bool,
        at: int = 0,
    ) -> Column:
        check = self.side.types.get((entity, member.name)) or plain_type(member.type)
        kind = plain_type(check.stored) if self._is_as_stored else check
        return Column(
            self.names.of(place, title), sort, place, member.declarer, member.name, at, kind,
            check, is_required,
        )

    def _led(
        self, sort: str, member: Member, target: str, place: str, title: str, is_required: bool
    ) -> List[Column]:
        """The columns that have the key of what is led to, named by both."""
        found = []
        for at, part in enumerate(self.side.shapes[target].key):
            check = self.side.types.get((target, part.name)) or plain_type(part.type)
            kind = plain_type(check.stored) if self._is_as_stored else check
            last = self.side.shown(target, part.name)
            own = place if len(self.side.shapes[target].key) == 1 else f"{place}.{last}"
            found.append(Column(
                self.names.of(own, f"{title}.{last}"), sort, own, member.declarer, member.name,
                at, kind, check, is_required,
            ))
        return found

    def _relate(self, table: Table) -> None:
        one_to_ones = {
            (entity["name"], it["name"]) for entity in self._declared.values()
            for it in entity.get("relations", ()) if it["kind"] == "oneToOne"
        }
        for shape, member in _own_members(self.classes(table.entity)):
            if member.name not in shape.links:
                continue
            columns = [it.name for it in table.of(LINK, member)]
            is_single = (member.declarer, member.name) in one_to_ones
            self._lead(table, columns, member.type, not is_single)
            if is_single:
                table.uniques.append(Unique(
                    self.names.constraint("uq", table.name, *columns), tuple(columns)
                ))

    def _lead(
        self, table: Table, columns: Sequence[str], target: str, has_index: bool
    ) -> None:
        other = self.of_entity(target)
        table.foreign.append(Foreign(
            self.names.constraint("fk", table.name, *columns),
            self.names.constraint("ix", table.name, *columns) if has_index else None,
            tuple(columns), other.name, other.key,
        ))

    # ---- lists

    def _pairs(self) -> Iterator[Tuple[Shape, Member]]:
        for shape in self.side.shapes.values():
            for member in shape.pairs.values():
                if member.declarer == shape.name:
                    yield shape, member

    def _of_list(self, shape: Shape, member: Member) -> Table:
        name, said = shape.name, self.side.shown(shape.name, member.name)
        place = f"{name}.{said}"
        table = Table(self.names.of(place, f"{name}.{said}"), name, member.name)
        own, led = f"{place}.owner", f"{place}.member"
        title = f"{said}_{member.type}" if said.lower() == name.lower() else said
        table.columns += self._led(OWNER, member, name, own, name, True)
        table.columns += self._led(TARGET, member, member.type, led, title, True)
        for sort, target in ((OWNER, name), (TARGET, member.type)):
            columns = [it.name for it in table.columns if it.sort == sort]
            self._lead(table, columns, target, sort == TARGET)
        return table

    # ---- what is unique

    def _keep_unique(self) -> None:
        """Has constraints keep what the classes keep by keys of their own."""
        made = self.side.made
        for constraint in Uniques(made.model, made.lock).all if made is not None else ():
            table = self.of_entity(constraint.entity)
            chain = self.side.shapes[constraint.entity].chain
            columns = tuple(
                it.name for member in constraint.members for it in table.columns
                if it.sort in (KEY, VALUE, LINK) and it.member == member.name
                and it.declarer in chain
            )
            subclasses = [it.name for it in self.side.shapes.values()
                          if constraint.entity in it.chain]
            is_all = constraint.entity == table.entity
            table.uniques.append(Unique(
                self.names.constraint("uq", table.name, *columns), columns,
                () if is_all else tuple(self.marks[name] for name in subclasses),
            ))

    def _collisions(self) -> List[str]:
        found = collisions("table", [
            (it.entity if it.pair is None else f"{it.entity}.{it.pair}", it.name)
            for it in self.all
        ])
        for table in self.all:
            found += collisions(
                f"column of {table.name}", [(it.place, it.name) for it in table.columns]
            )
        return found


def _own_members(shapes: Sequence[Shape]) -> Iterator[Tuple[Shape, Member]]:
    """The values and links of a hierarchy, each once, with a class that has it."""
    for shape in shapes:
        for member in (*shape.values.values(), *shape.links.values()):
            if member.declarer == shape.name:
                yield shape, member


def _twice(shapes: Sequence[Shape]) -> List[str]:
    """The names that classes beside each other have for members of their own."""
    names = [member.name for _, member in _own_members(shapes)]
    return [name for name in names if names.count(name) > 1]

