"""The rows of the tables that annotated classes of Java say."""

from __future__ import annotations

from typing import Any, Callable, Dict, Iterator, List, Mapping, NoReturn, Optional, Tuple

from ..classes.types import Unfit
from ..records.dumping import Stored
from ..session.factory import EntityManagerFactory
from ..records.progress import Progress
from ..records.records import Key, Record, Value
from ..refusals import KarzhoulError
from .annotated import HELD, PLACE, Annotated, Generator, Place, Said
from .dialects import Dialect
from .rows import NoRow, Row
from .script import Script
from .tables import CLASS, KEY, OWNER, TARGET, VALUE, VERSION, Table
from .targets import Target, counts_of

DESCRIPTION, _TEXT = "karzhoul_description", "text"
# The sides of a pair, among the links of a record: no member of a mapping has such a name.
_OWNER, _MEMBER = "#owner", "#member"
Got = Callable[[Record], Any]


class _OtherClasses(KarzhoulError):
    """A store that other classes have written."""


def refuse_others(app: EntityManagerFactory, tables: Annotated, word: str) -> None:
    """Refuses a store that classes of other tables have written."""
    parts = [it.values[_TEXT] for it in Stored(app).walked(DESCRIPTION)]
    said = b"".join(it for it in parts if isinstance(it, bytes)).decode()
    if said != tables.description:
        there, wanted = set(said.splitlines()), set(tables.description.splitlines())
        other = sorted(there ^ wanted)[:1]
        why = f": only one of them has {other[0].partition(chr(9))[0]}" if other and said else ""
        raise _OtherClasses(f"the store was written by other classes than those of {word}{why}")


class AnnotatedRows:
    """Makes rows of the records of a store. A `NoRow` says which object has a value that the
    database doesn't take."""

    def __init__(self, tables: Annotated, dialect: Dialect, stored: Stored) -> None:
        self._tables, self._dialect, self._stored = tables, dialect, stored
        self._cells: Dict[Tuple[str, str], List[Got]] = {}
        self._of = {
            name: [it for it in tables.tables if it.rows is None and it.table.entity in shape.chain]
            for name, shape in tables.side.shapes.items()
        }
        self._owners: Dict[Place, Dict[Key, Key]] = {}
        self._orders: Dict[str, Dict[str, Dict[str, int]]] = {}

    # ---- of objects

    def of_object(self, record: Record) -> Iterator[Tuple[Table, Row]]:
        """The rows that an object is, one in each table of its classes, and those of its lists."""
        for said in self._of[record.entity]:
            if said.pairs is None:
                yield said.table, self._row(said, record)
            else:
                for member in _pairs(said.pairs, record):
                    yield said.table, self._row(said, member)

    def of_values(self, said: Said) -> Iterator[Row]:
        """The rows of the table of a collection of values."""
        assert said.rows is not None and said.pairs is not None
        owners = self._owners_of(said.table.entity, said.pairs)
        for record in self._stored.walked(said.rows):
            if record.key in owners:
                record.links = {_OWNER: owners[record.key]}
                yield self._row(said, record)

    def _row(self, said: Said, record: Record) -> Row:
        place = (said.table.name, record.entity)
        if place not in self._cells:
            self._cells[place] = [
                self._cell(said, at, record.entity) for at in range(len(said.table.columns))
            ]
        return [got(record) for got in self._cells[place]]

    def _cell(self, said: Said, at: int, entity: str) -> Got:
        column = said.table.columns[at]
        got, make = self._got(said, at, entity), self._dialect.maker(column.type)

        def cell(record: Record) -> Any:
            value = got(record)
            try:
                return value if value is None or make is None else make(value)
            except Unfit as why:
                _refuse(record, column.place, why)

        return cell

    def _got(self, said: Said, at: int, entity: str) -> Got:
        """What reads the value of a column, as it is stored."""
        column = said.table.columns[at]
        part = column.at
        if column.sort == CLASS:
            mark = said.written["classes"].get(entity)
            value = mark if column.type.stored == "text" else int(mark)
            return lambda record: value
        if column.sort == KEY:
            return lambda record: (record.key or ())[part]
        if column.sort == VERSION:
            return lambda record: record.version
        if column.sort in (OWNER, TARGET):
            return _link(_OWNER if column.sort == OWNER else _MEMBER, part)
        if column.sort == HELD:
            held = self._owners_of(column.declarer, column.member)
            return lambda record: held[record.key][part] if record.key in held else None
        if column.sort == PLACE:
            return self._place(said.written["columns"][at], column.declarer, column.member)
        chain = self._tables.side.shapes[entity].chain
        name = next((member for of, member in said.sources[at] if of in chain), None)
        if name is None:
            return lambda record: None
        return _value(name) if column.sort == VALUE else _link(name, part)

    # ---- of lists

    def _place(self, said: Dict[str, Any], owner: str, member: str) -> Got:
        """The place of an object in the ordered list that has it; of an unknown one behind the others."""
        orders, by = self._order(said["order"]), said.get("by")
        held = {} if by is not None else self._owners_of(owner, member)
        behind: Dict[str, int] = {}

        def place(record: Record) -> Optional[int]:
            key = record.links.get(_OWNER) or (
                record.links[by] if by is not None else held.get(record.key or ()))
            if key is None or record.key is None:
                return None
            text = _text_of(key)
            known = orders.get(text, {})
            member = _text_of(record.key).replace("\\", "\\\\").replace("\n", "\\n")
            if member in known:
                return known[member]
            behind[text] = behind.get(text, len(known) - 1) + 1
            return behind[text]

        return place

    def _owners_of(self, entity: str, member: str) -> Dict[Key, Key]:
        """The owners of the members of a list, by these."""
        if (entity, member) not in self._owners:
            found: Dict[Key, Key] = {}
            for name, shape in self._tables.side.shapes.items():
                for record in self._stored.walked(name) if entity in shape.chain else ():
                    found.update((key, record.key or ()) for key in record.pairs[member])
            self._owners[entity, member] = found
        return self._owners[entity, member]

    def _order(self, entity: str) -> Dict[str, Dict[str, int]]:
        """The places of members, by their owners, as texts."""
        if entity not in self._orders:
            found: Dict[str, Dict[str, int]] = {}
            for record in self._stored.walked(entity):
                assert record.key is not None
                places = found.setdefault(str(record.key[0]), {})
                for member in str(record.values["members"]).split("\n")[:-1]:
                    places.setdefault(member, len(places))
            self._orders[entity] = found
        return self._orders[entity]


def _pairs(member: str, record: Record) -> Iterator[Record]:
    """The pairs of a list, as records that lead to both sides."""
    for key in record.pairs[member]:
        yield Record(record.entity, key, links={_OWNER: record.key, _MEMBER: key})


def _value(name: str) -> Got:
    return lambda record: record.values[name]


def _link(name: str, part: int) -> Got:
    def led(record: Record) -> Value:
        key = record.links[name]
        return None if key is None else key[part]

    return led


def _text_of(key: Key) -> str:
    """A key in one text, as the door has it in its rows of orders."""
    if len(key) == 1:
        return _said(key[0], False)
    return f"[{', '.join(_said(part, True) for part in key)}]"


def _said(part: Value, is_quoted: bool) -> str:
    if isinstance(part, bytes):
        return part.hex()
    if is_quoted and isinstance(part, str):
        escaped = part.replace("\\", "\\\\").replace('"', '\\"')
        return f'"{escaped}"'
    return str(part)


def _refuse(record: Record, place: str, why: Unfit) -> NoReturn:
    raise NoRow(f"{record}: {place} {why}") from why


# ---- all of them


def write(
    app: EntityManagerFactory, tables: Annotated, dialect: Dialect, target: Target
) -> int:
    """Writes a store as tables; how many objects it has."""
    stored, counts = Stored(app), counts_of(app, _seen(tables))
    rows = AnnotatedRows(tables, dialect, stored)
    with Progress(sum(counts.values())) as told, target:
        done = 0
        for said in tables.tables:
            if said.rows is not None:
                target.begin(said.table)
                for row in rows.of_values(said):
                    target.add(said.table, row)
            elif said.pairs is None and _is_top(tables, said):
                target.begin(said.table)
                for name in counts:
                    is_here = tables.side.shapes[name].top == said.table.entity
                    for record in stored.walked(name) if is_here and counts[name] else ():
                        for table, row in rows.of_object(record):
                            target.add(table, row)
                        done += 1
                        if done % 1_000 == 0:
                            told(done)
        nexts = {it.entity: it.number for it in stored.nexts()}
        for generator in tables.generators:
            _go_on(target, generator, nexts)
        target.finish({
            it.table.name: nexts[it.table.entity] for it in tables.tables
            if it.table.entity in nexts and any(each.is_generated for each in it.table.columns)
        })
    return sum(counts.values())


def _seen(tables: Annotated) -> List[str]:
    """The entities that an application sees."""
    tops = {it.table.entity for it in tables.tables}
    shapes = tables.side.shapes
    return [name for name, shape in shapes.items() if shape.top in tops]


def _is_top(tables: Annotated, said: Said) -> bool:
    return tables.side.shapes[said.table.entity].top == said.table.entity


def _go_on(target: Target, generator: Generator, nexts: Mapping[str, int]) -> None:
    """Has keys go on with the numbers that come next."""
    said, number = generator.said, 1
    for each in said["of"]:
        blocks = each.get("blocks")
        if blocks is None:
            number = max(number, nexts.get(each["entity"], 1))
        else:
            begun = nexts.get(blocks["entity"], 1) - 1
            number = max(number, int(blocks["first"]) + begun * int(blocks["size"]))
    if generator.table is not None:
        target.add(generator.table, [said["row"], number - 1])
    elif generator.sequence is not None and isinstance(target, Script):
        # A number of such a sequence is the last one of a block.
        size = int(said["size"])
        target.count(generator.sequence, number - 1 + size, size)
