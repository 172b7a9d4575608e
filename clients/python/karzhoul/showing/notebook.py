"""How objects, rows and mappings are shown in a notebook: as HTML, which `_repr_html_` gives."""

from __future__ import annotations

import html
from typing import TYPE_CHECKING, Any, Dict, List, Mapping, Optional, Sequence

from ..explain.texts import value_text
from ..mapping.unit import EntityDescription, MemberKind, entities_of, shown_entities
from ..objects.entities import Entity
from ..refusals import KarzhoulError
from .diagram import diagram

if TYPE_CHECKING:
    from ..session.factory import EntityManagerFactory

# So many rows are shown, and so many characters of a value.
MOST_ROWS, MOST_LETTERS = 100, 200
_READ = (MemberKind.KEY, MemberKind.VERSION, MemberKind.ATTRIBUTE)
# Of this class alone, since a page has what others show too.
_STYLE = """
.karzhoul svg { max-width: 100%; height: auto; }
.karzhoul svg text { fill: currentColor; font: 13px system-ui, sans-serif; }
.karzhoul svg .name { font-weight: 600; } .karzhoul svg .type { opacity: .65; }
.karzhoul svg rect { fill: #8882; stroke: #8886; }
.karzhoul svg path { fill: none; stroke: #5b8def; }
.karzhoul svg marker path { fill: #5b8def; stroke: none; }
.karzhoul svg .kind { font-size: 11px; opacity: .8; }
"""


def object_html(entity: Entity) -> str:
    """An object with its key, version and attributes, which are asked for. Its relations aren't, so
    that nothing is loaded."""
    described = _described(entity)
    names = [it.name for it in described.members if it.kind in _READ]
    values = _values([entity], names)
    if values is None:
        return f"<code>{html.escape(repr(entity))}</code>"
    lines = [_line(name, _cell(column[0])) for name, column in zip(names, values)]
    for it in described.relations:
        many = " *" if it.kind is MemberKind.COLLECTION else ""
        lines.append(_line(it.name, f"<td><i>{html.escape(it.type + many)}</i></td>"))
    return _table(type(entity).__name__, "", lines)


def row_html(row: Sequence[Any], names: Sequence[str]) -> str:
    """A row of several items, by their names."""
    return _table("", _heads(_titles(names, len(row))), [_cells(_shown(row))])


def rows_html(rows: Sequence[Any], names: Sequence[str], note: str = "") -> str:
    """The rows of a query: where all are objects of one class, with what these have."""
    some = list(rows[:MOST_ROWS])
    told = [f"{len(rows):,} row{'' if len(rows) == 1 else 's'}"]
    told += [note] if note else []
    told += [f"the first {len(some)} are shown"] if len(some) < len(rows) else []
    caption = ", ".join(told)
    table = _table_of_objects(some, caption)
    if table is not None:
        return table
    listed = [row if isinstance(row, list) else [row] for row in some]
    width = max(map(len, listed), default=len(names))
    named = iter(_shown([item for row in listed for item in row]))
    lines = [_cells([next(named) for _ in row]) for row in listed]
    return _table(caption, _heads(_titles(names, width)), lines)


def mapping_html(mapping: Mapping[str, Any]) -> str:
    """The entities of a mapping and their relations, as a diagram."""
    drawn = diagram(list(shown_entities(mapping).values()))
    return f'<div class="karzhoul"><style>{_STYLE}</style>{drawn}</div>'


# ---- what is asked


def _described(entity: Entity) -> EntityDescription:
    mapping, name = entity._karzhoul_factory.mapping, type(entity).__name__
    return shown_entities(mapping).get(name) or entities_of(mapping)[name]


def _values(objects: Sequence[Entity], names: Sequence[str]) -> Optional[List[List[Any]]]:
    """The values that objects of one class have of each of these members; None where they can't be
    asked for, as in a pipeline, which asking would send."""
    factory: EntityManagerFactory = objects[0]._karzhoul_factory
    if factory.turn is None:
        return None
    try:
        return [factory.get_many(objects, name) for name in names]
    except KarzhoulError:
        return None


def _table_of_objects(rows: Sequence[Any], caption: str) -> Optional[str]:
    kinds = {type(row) for row in rows}
    if len(kinds) != 1 or not issubclass(kind := kinds.pop(), Entity):
        return None
    names = [it.name for it in _described(rows[0]).members if it.kind in _READ]
    values = _values(rows, names)
    if values is None:
        return None
    lines = [_cells(row) for row in zip(*values)]
    return _table(f"{kind.__name__}: {caption}", _heads(names), lines)


def _shown(items: Sequence[Any]) -> List[Any]:
    """Items, of which objects are given as they are named, asked for together."""
    objects: Dict[type, List[Entity]] = {}
    for item in items:
        if isinstance(item, Entity):
            objects.setdefault(type(item), []).append(item)
    names: Dict[Entity, _Name] = {}
    for kind, some in objects.items():
        keys = _values(some, [part.name for part in _described(some[0]).key])
        for place, each in enumerate(some):
            parts = None if keys is None else [value_text(column[place]) for column in keys]
            word = f"#{each._karzhoul_number}" if parts is None else ", ".join(parts)
            names[each] = _Name(f"{kind.__name__} {word}")
    return [names[item] if isinstance(item, Entity) else item for item in items]


class _Name(str):
    """What an object is called."""


# ---- HTML


def _titles(names: Sequence[str], width: int) -> Sequence[str]:
    return names if len(names) == width else [str(place + 1) for place in range(width)]


def _table(caption: str, heads: str, lines: Sequence[str]) -> str:
    above = f"<caption>{html.escape(caption)}</caption>" if caption else ""
    head = f"<thead>{heads}</thead>" if heads else ""
    return f"<table>{above}{head}<tbody>{''.join(lines)}</tbody></table>"


def _heads(names: Sequence[str]) -> str:
    return f"<tr>{''.join(f'<th>{html.escape(name)}</th>' for name in names)}</tr>"


def _line(name: str, cell: str) -> str:
    return f"<tr><th>{html.escape(name)}</th>{cell}</tr>"


def _cells(values: Sequence[Any]) -> str:
    return f"<tr>{''.join(map(_cell, values))}</tr>"


def _cell(value: Any) -> str:
    text = str(value) if isinstance(value, _Name) else value_text(value)
    if len(text) > MOST_LETTERS:
        text = f"{text[: MOST_LETTERS - 1]}…"
    said = html.escape(text)
    if value is None:
        return "<td><i>null</i></td>"
    return f"<td>{f'<i>{said}</i>' if isinstance(value, _Name) else said}</td>"
