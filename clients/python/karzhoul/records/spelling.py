"""How records are spelled: lines of JSON, each with its entity, and rows of CSV, all of one."""

from __future__ import annotations

import json
import re
from typing import (
    Any, Dict, Iterable, Iterator, List, Mapping, NamedTuple, Optional, Sequence, Tuple, Union,
)

from ..mapping.meant import meant
from .records import Key, Next, Record, Shape, Unfit, Value, fitting, key_fitting

# What the first line of a dump says; no other number is served.
FORMAT = 1
_HEX = re.compile(r"(?:[0-9a-fA-F]{2})*")
_MEMBERS = ("entity", "key", "version", "values", "links", "pairs", "next")


class Begun(NamedTuple):
    """The first line of a dump."""

    format: int


class Ended(NamedTuple):
    """The last line of a dump: how many objects it has."""

    rows: int


Item = Union[Record, Next, Begun, Ended]
Shapes = Mapping[str, Shape]


# ---- JSON lines


def line_of_item(item: Item, shapes: Shapes) -> str:
    """The line of JSON that says an item, without its line feed."""
    if isinstance(item, Begun):
        said: Dict[str, Any] = {"dump": item.format}
    elif isinstance(item, Ended):
        said = {"rows": item.rows}
    elif isinstance(item, Next):
        said = {"entity": item.entity, "next": item.number}
    else:
        said = _said_record(item, shapes[item.entity])
    return json.dumps(said, ensure_ascii=False, separators=(",", ":"))


def _said_record(record: Record, shape: Shape) -> Dict[str, Any]:
    said: Dict[str, Any] = {"entity": record.entity}
    if record.key is not None:
        said["key"] = _said_key(record.key)
    if record.version is not None:
        said["version"] = record.version
    if shape.values:
        said["values"] = {name: said_value(value) for name, value in record.values.items()}
    if shape.links:
        said["links"] = {name: key and _said_key(key) for name, key in record.links.items()}
    if shape.pairs:
        said["pairs"] = {name: list(map(_said_key, keys)) for name, keys in record.pairs.items()}
    return said


def said_value(value: Value) -> Any:
    return {"hex": value.hex()} if isinstance(value, bytes) else value


def _said_key(key: Key) -> List[Any]:
    return [said_value(part) for part in key]


def item_of_line(line: str, shapes: Shapes) -> Item:
    """The item that a line of JSON says; `Unfit` where it says none."""
    try:
        said = json.loads(line)
    except (ValueError, RecursionError) as fault:
        raise Unfit(f"this is no JSON: {fault}") from None
    if not isinstance(said, dict):
        raise Unfit(f"a line is an object, as {{\"entity\":..}}, and not {said!r}")
    if set(said) == {"dump"}:
        if said["dump"] != FORMAT:
            raise Unfit(f"this is a dump of the format {said['dump']!r}, and {FORMAT} is served")
        return Begun(FORMAT)
    if set(said) == {"rows"} and isinstance(said["rows"], int):
        return Ended(said["rows"])
    shape = _shape_of(said, shapes)
    return _next_of(said, shape) if "next" in said else _record_of(said, shape, shapes)


def _shape_of(said: Mapping[str, Any], shapes: Shapes) -> Shape:
    for name in said:
        if name not in _MEMBERS:
            raise Unfit(f"a line has no member {name!r}{meant(name, _MEMBERS)}")
    entity = said.get("entity")
    if not isinstance(entity, str) or entity not in shapes:
        raise Unfit(f"there is no entity {entity!r}{meant(str(entity), shapes)}")
    return shapes[entity]


def _next_of(said: Mapping[str, Any], shape: Shape) -> Next:
    number = said["next"]
    is_number = isinstance(number, int) and not isinstance(number, bool) and 0 < number < 2**63
    if not is_number or not shape.is_generated or set(said) != {"entity", "next"}:
        raise Unfit("'next' is a number from 1, alone with an entity whose key is generated")
    return Next(shape.top, number)


def _record_of(said: Mapping[str, Any], shape: Shape, shapes: Shapes) -> Record:
    record = Record(shape.name, None)
    if said.get("key") is not None:
        record.key = key_fitting(_read(said["key"]), shape, "the key")
    if said.get("version") is not None:
        if shape.version is None:
            raise Unfit(f"{shape.name} has no version")
        record.version = _whole(said["version"], "the version")
    for name, value in _each(said, "values", shape.values):
        record.values[name] = fitting(_read(value), shape.values[name].type, name)
    for name, key in _each(said, "links", shape.links):
        target = shapes[shape.links[name].type]
        record.links[name] = None if key is None else key_fitting(_read(key), target, name)
    for name, keys in _each(said, "pairs", shape.pairs):
        if not isinstance(keys, list):
            raise Unfit(f"{name} is to be a list of keys, and is {keys!r}")
        target = shapes[shape.pairs[name].type]
        record.pairs[name] = [key_fitting(_read(key), target, name) for key in keys]
    return record


def _whole(said: Any, what: str) -> Optional[int]:
    value = fitting(said, "int", what)
    return value if isinstance(value, int) else None


def _each(said: Mapping[str, Any], sort: str, known: Iterable[str]) -> Iterator[Tuple[str, Any]]:
    """The members of one sort that a line tells."""
    given, names = said.get(sort, {}), list(known)
    if not isinstance(given, dict):
        raise Unfit(f"the {sort} are to be an object, and are {given!r}")
    for name, value in given.items():
        if name not in names:
            there = f"; there are {', '.join(names)}" if names else ""
            raise Unfit(f"{name!r} is none of the {sort}{meant(name, names) or there}")
        yield name, value


def _read(said: Any) -> Any:
    """A value of JSON, or a list of them, with bytes as they are in Python."""
    if isinstance(said, list):
        return [_read(each) for each in said]
    if isinstance(said, dict) and set(said) == {"hex"} and isinstance(said["hex"], str):
        return _bytes(said["hex"])
    return said


def _bytes(digits: str) -> bytes:
    if not _HEX.fullmatch(digits):
        raise Unfit(f"bytes are pairs of hexadecimal digits, and not {digits!r}")
    return bytes.fromhex(digits)


# ---- CSV

_CELL = re.compile(r'(?:"((?:[^"]|"")*)"|([^",\r\n]*))(,|\r\n|\n|\r|\Z)')
# A cell; None where nothing stands there, which is null. The empty text is written as `""`.
Cell = Optional[str]


class Column(NamedTuple):
    """A column of an entity's CSV: a part of the key, the version, a value, a part of a link's key,
    or a list of pairs."""

    name: str
    sort: str
    member: str
    type: str
    place: int = 0
    """Which part of the key it is."""


def columns_of(shape: Shape, shapes: Shapes) -> List[Column]:
    """The columns of an entity's CSV."""
    columns = [
        Column(part.name, "key", part.name, part.type, place)
        for place, part in enumerate(shape.key)
    ]
    if shape.version is not None:
        columns.append(Column(shape.version, "version", shape.version, "int"))
    columns += [Column(name, "value", name, it.type) for name, it in shape.values.items()]
    for name, link in shape.links.items():
        key = shapes[link.type].key
        for place, part in enumerate(key):
            title = name if len(key) == 1 else f"{name}.{part.name}"
            columns.append(Column(title, "link", name, part.type, place))
    return columns + [Column(name, "pairs", name, it.type) for name, it in shape.pairs.items()]


def row_of_cells(cells: Iterable[Cell]) -> str:
    """A row of CSV, without its line feed."""
    return ",".join("" if cell is None else _quoted(cell) for cell in cells)


def _quoted(cell: str) -> str:
    is_plain = cell and cell == cell.strip() and not re.search(r'[",\r\n]', cell)
    return cell if is_plain else '"{}"'.format(cell.replace('"', '""'))


def cells_of(record: Record, columns: Sequence[Column]) -> List[Cell]:
    """The cells of a record."""
    return [_cell_of(record, column) for column in columns]


def _cell_of(record: Record, column: Column) -> Cell:
    if column.sort == "pairs":
        keys = record.pairs.get(column.member, [])
        said = [_said_key(key) if len(key) > 1 else said_value(key[0]) for key in keys]
        return json.dumps(said, ensure_ascii=False) if said else None
    if column.sort == "version":
        return value_cell(record.version)
    if column.sort == "value":
        return value_cell(record.values.get(column.member))
    key = record.key if column.sort == "key" else record.links.get(column.member)
    return None if key is None else value_cell(key[column.place])


def value_cell(value: Value) -> Cell:
    if value is None:
        return None
    return value.hex() if isinstance(value, bytes) else str(value)


class UnfitRow(Unfit):
    """A row of CSV that can't be read, with its line."""

    def __init__(self, why: str, line: int) -> None:
        super().__init__(why)
        self.line = line


def rows_of_lines(lines: Iterable[str]) -> Iterator[Tuple[int, List[Cell]]]:
    """The rows of a text of CSV, each with the number of its first line; empty lines are none."""
    text, begun = "", 0
    for number, line in enumerate(lines, 1):
        text, begun = text + line, begun or number
        if text.count('"') % 2 == 0:
            cells = _cells(text, begun)
            if cells != [None]:
                yield begun, cells
            text, begun = "", 0
    if text:
        raise UnfitRow("a quoted cell isn't closed", begun)


def _cells(text: str, line: int) -> List[Cell]:
    cells: List[Cell] = []
    at = 0
    while True:
        found = _CELL.match(text, at)
        if found is None:
            raise UnfitRow("a quote stands in a cell that isn't quoted as a whole", line)
        quoted, plain, mark = found.groups()
        cells.append((plain or None) if quoted is None else quoted.replace('""', '"'))
        at = found.end()
        if mark != "," and at < len(text):
            raise UnfitRow("a carriage return stands alone", line)
        if mark != ",":
            return cells


def columns_named(titles: Sequence[Cell], shape: Shape, shapes: Shapes) -> List[Column]:
    """The columns that the first row of a CSV names, in its order; `Unfit` where one is none, or
    one that must be there is missing."""
    known = {column.name: column for column in columns_of(shape, shapes)}
    for title in titles:
        if title not in known:
            there = meant(str(title), known) or f"; there are {', '.join(known)}"
            raise Unfit(f"{shape.name} has no column {title!r}{there}")
    given = [known[str(title)] for title in titles]
    for column in known.values():
        if given.count(column) > 1:
            raise Unfit(f"the column {column.name} stands here twice")
        if column in given:
            continue
        if column.sort == "key" and not shape.is_generated:
            raise Unfit(f"the column {column.name} is missing, which is of the key")
        beside = [it.name for it in given if (it.sort, it.member) == ("link", column.member)]
        if column.sort == "link" and beside:
            raise Unfit(f"the column {column.name} is missing beside {beside[0]}")
    return given


def record_of_cells(
    cells: Sequence[Cell], columns: Sequence[Column], shape: Shape, shapes: Shapes
) -> Record:
    """The record of a row; `Unfit` where it is none."""
    if len(cells) != len(columns):
        raise Unfit(f"{len(columns)} cells are to stand here, and there are {len(cells)}")
    record = Record(shape.name, None)
    key: Dict[int, Value] = {}
    links: Dict[str, Dict[int, Value]] = {}
    for cell, column in zip(cells, columns):
        if column.sort == "pairs":
            record.pairs[column.member] = _pairs(cell, column, shapes)
            continue
        value = _value(cell, column)
        if column.sort == "key":
            key[column.place] = value
        elif column.sort == "version":
            record.version = _whole(value, column.name)
        elif column.sort == "value":
            record.values[column.member] = value
        else:
            links.setdefault(column.member, {})[column.place] = value
    if not shape.is_generated or key.get(0) is not None:
        record.key = key_fitting([key[place] for place in sorted(key)], shape, "the key")
    for name, parts in links.items():
        given, target = [parts[place] for place in sorted(parts)], shapes[shape.links[name].type]
        record.links[name] = None if set(given) == {None} else key_fitting(given, target, name)
    return record


def _value(cell: Cell, column: Column) -> Value:
    if cell is None:
        return None
    if column.type == "bytes":
        return fitting(_bytes(cell), "bytes", column.name)
    if column.type == "int":
        if not re.fullmatch("[+-]?[0-9]{1,30}", cell):
            raise Unfit(f"{column.name} is to be a whole number, and is {cell!r}")
        return fitting(int(cell), "int", column.name)
    return fitting(cell, column.type, column.name)


def _pairs(cell: Cell, column: Column, shapes: Shapes) -> List[Key]:
    try:
        said = json.loads(cell or "[]")
    except (ValueError, RecursionError):
        said = None
    if not isinstance(said, list):
        raise Unfit(f"{column.name} is to be a list of keys, as [1, 2], and is {cell!r}")
    keys = [each if isinstance(each, list) else [each] for each in said]
    return [key_fitting(_read(key), shapes[column.type], column.name) for key in keys]
