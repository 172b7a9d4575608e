"""What a store holds, as tables and as one page: read through the program, object by object, and
never by the store's cells."""

from __future__ import annotations

import html
from dataclasses import dataclass
from typing import Any, Dict, List, Sequence, Tuple

from ..explain.texts import value_text
from ..mapping.unit import EntityDescription, shown_entities
from ..objects.entities import Entity
from ..session.factory import EntityManagerFactory
from .diagram import diagram

Identity = Tuple[str, Tuple[Any, ...]]

_WIDEST = 40
_SLICE = 1_000


@dataclass(frozen=True)
class Link:
    """A related object, by its entity and key."""

    identity: Identity

    def __str__(self) -> str:
        entity, key = self.identity
        return f"{entity} {', '.join(value_text(part) for part in key)}"


@dataclass
class Table:
    """The stored objects of an entity, those of its subclasses apart."""

    entity: EntityDescription
    columns: List[str]
    rows: List[List[Any]]

    def identity(self, row: Sequence[Any]) -> Identity:
        """The identity of the object in a row, whose key comes first."""
        return self.entity.name, tuple(row[: len(self.entity.key)])


def tables(app: EntityManagerFactory) -> List[Table]:
    """The stored objects of each entity, in the mapping's order."""
    reader = _Reader(app)
    return [reader.table(entity) for entity in reader.entities.values()]


class _Reader:
    def __init__(self, app: EntityManagerFactory) -> None:
        self._app = app
        self.entities = shown_entities(app.mapping)
        self._em = app.create_entity_manager()

    def table(self, entity: EntityDescription) -> Table:
        text = f"SELECT e FROM {entity.name} e WHERE TYPE(e) = {entity.name}"
        objects = self._em.query(text, self._app.entity(entity.name))
        columns = [member.name for member in entity.members]
        values = [self._column(objects, name) for name in columns]
        rows = sorted(map(list, zip(*values)), key=lambda row: _order(row[: len(entity.key)]))
        return Table(entity, columns, rows)

    def _column(self, objects: List[Entity], name: str) -> List[Any]:
        values: List[Any] = []
        for start in range(0, len(objects), _SLICE):
            values += self._app.get_many(objects[start : start + _SLICE], name)
        return [self._linked(value) for value in values]

    def _linked(self, value: Any) -> Any:
        if isinstance(value, list):
            return [self._linked(each) for each in value]
        if isinstance(value, Entity):
            known = self.entities.get(type(value).__name__)
            if known is None:
                return Link(("object", (value._karzhoul_number,)))
            return Link((known.name, tuple(self._app.get(value, part.name) for part in known.key)))
        return value


def _order(key: Sequence[Any]) -> List[Tuple[str, Any]]:
    return [(type(part).__name__, part) for part in key]


# ---- as text


def text_page(shown: Sequence[Table]) -> str:
    """The tables as text."""
    return "\n".join(map(_text_table, shown))


def _text_table(table: Table) -> str:
    lines = grid(table.columns, table.rows) if table.rows else []
    count = f"{len(table.rows)} object" + ("" if len(table.rows) == 1 else "s")
    return "\n".join([f"{table.entity.name}: {count} (all that are stored)", *lines, ""])


def grid(titles: Sequence[str], rows: Sequence[Sequence[Any]]) -> List[str]:
    """The lines of a table of values, of which long ones are cut."""
    cells = [list(titles)] + [[_cut(value_text(value)) for value in row] for row in rows]
    widths = [max(map(len, column)) for column in zip(*cells)]
    columns = list(zip(*rows))
    numbers = [
        all(value is None or isinstance(value, int) for value in column) for column in columns
    ]
    lines = []
    for row in cells:
        padded = [_padded(cell, *how) for cell, how in zip(row, zip(widths, numbers))]
        lines.append(" | ".join(padded).rstrip())
    return [lines[0], "-+-".join("-" * width for width in widths), *lines[1:]]


def _padded(cell: str, width: int, is_number: bool) -> str:
    return cell.rjust(width) if is_number else cell.ljust(width)


def _cut(text: str) -> str:
    return text if len(text) <= _WIDEST else text[: _WIDEST - 1] + "…"


# ---- as a page

_STYLE = """
:root { color-scheme: light dark; --line: #8886; --soft: #8882; --link: #2563eb; }
@media (prefers-color-scheme: dark) { :root { --link: #7aa2ff; } }
body { font: 15px/1.5 system-ui, sans-serif; margin: 2rem auto; max-width: 72rem; padding: 0 1rem; }
h1 { font-size: 1.4rem; } h2 { font-size: 1.1rem; margin-top: 2rem; }
a { color: var(--link); text-decoration: none; }
a:hover { text-decoration: underline; } .note { opacity: .7; } .scroll { overflow-x: auto; }
table { border-collapse: collapse; }
th, td { border: 1px solid var(--line); padding: .2rem .6rem; }
th, td { text-align: left; vertical-align: top; }
th { background: var(--soft); font-weight: 600; }
td.int { text-align: right; font-variant-numeric: tabular-nums; }
td.bytes { font-family: ui-monospace, monospace; font-size: .85em; overflow-wrap: anywhere; }
td.null { opacity: .45; }
tr:target { outline: 2px solid var(--link); } svg { max-width: 100%; height: auto; }
svg text { fill: currentColor; font: 13px system-ui, sans-serif; }
svg .name { font-weight: 600; } svg .type { opacity: .65; }
svg rect { fill: var(--soft); stroke: var(--line); } svg path { fill: none; stroke: var(--link); }
svg marker path { fill: var(--link); stroke: none; } svg .kind { font-size: 11px; opacity: .8; }
"""


def html_page(shown: Sequence[Table], title: str) -> str:
    """One page with the entities and their relations as a diagram, and the rows of each, with links
    to related rows."""
    anchors = {
        table.identity(row): f"{table.entity.name}-{place}"
        for table in shown
        for place, row in enumerate(table.rows, 1)
    }
    parts = [
        '<!DOCTYPE html>\n<html lang="en">\n<head>\n<meta charset="utf-8">\n'
        '<meta name="viewport" content="width=device-width, initial-scale=1">',
        f"<title>{html.escape(title)}</title>\n<style>{_STYLE}</style>\n</head>\n<body>\n"
        f"<h1>{html.escape(title)}</h1>",
        f'<div class="scroll">{diagram([table.entity for table in shown])}</div>',
        *(_html_table(table, anchors) for table in shown),
        "</body>\n</html>\n",
    ]
    return "\n".join(parts)


def _html_cells(row: Sequence[Any], anchors: Dict[Identity, str]) -> str:
    return "".join(_html_cell(value, anchors) for value in row)


def _html_table(table: Table, anchors: Dict[Identity, str]) -> str:
    heads = "".join(
        f'<th title="{html.escape(member.kind.value)}">{html.escape(member.name)}</th>'
        for member in table.entity.members
    )
    rows = "\n".join(
        f'<tr id="{anchors[table.identity(row)]}">{_html_cells(row, anchors)}</tr>'
        for row in table.rows
    )
    head = (
        f'<h2 id="{table.entity.name}">{table.entity.name} <span class="note">{len(table.rows)}: '
        'all that are stored</span></h2>'
    )
    return (
        f'{head}\n<div class="scroll"><table>\n<thead><tr>{heads}</tr></thead>\n<tbody>\n{rows}\n'
        f'</tbody>\n</table></div>'
    )


def _html_cell(value: Any, anchors: Dict[Identity, str]) -> str:
    kind = "null" if value is None else type(value).__name__.lower()
    items = value if isinstance(value, list) else [value]
    return f'<td class="{kind}">{", ".join(_html_item(item, anchors) for item in items)}</td>'


def _html_item(value: Any, anchors: Dict[Identity, str]) -> str:
    said = html.escape(value_text(value))
    anchor = anchors.get(value.identity) if isinstance(value, Link) else None
    return f'<a href="#{anchor}">{said}</a>' if anchor else said
