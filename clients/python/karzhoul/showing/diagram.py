"""A diagram of entities and their relations, as SVG."""

from __future__ import annotations

import html
from dataclasses import dataclass
from typing import Dict, List, Sequence

from ..mapping.unit import EntityDescription, Member, MemberKind

_WIDTH, _LINE, _HEAD, _GAP, _MARGIN, _LETTER = 230, 20, 28, 90, 12, 7
_ACROSS = 3


@dataclass(frozen=True)
class _Box:
    """An entity's box, by its upper left corner."""

    entity: EntityDescription
    left: int
    top: int

    @property
    def height(self) -> int:
        return _HEAD + _LINE * len(self.entity.members) + _MARGIN // 2

    def line(self, place: int) -> int:
        """The height of a member's line."""
        return self.top + _HEAD + _LINE * place + 14


def diagram(entities: Sequence[EntityDescription]) -> str:
    """The entities as boxes that link to their tables by name, owning relations and superclasses as
    arrows."""
    boxes = _placed(entities)
    right = max((box.left for box in boxes.values()), default=0) + _WIDTH + _GAP // 2
    bottom = max((box.top + box.height for box in boxes.values()), default=0) + _MARGIN
    marks = (
        '<defs><marker id="arrow" viewBox="0 0 10 10" refX="9" refY="5" markerWidth="8" '
        'markerHeight="8" orient="auto-start-reverse">'
        '<path d="M0 0L10 5L0 10z"/></marker></defs>'
    )
    parts = [
        marks,
        *map(_box, boxes.values()),
        *(arrow for box in boxes.values() for arrow in _arrows(box, boxes)),
    ]
    size = f'width="{right}" height="{bottom}" viewBox="0 0 {right} {bottom}"'
    return (
        f'<svg xmlns="http://www.w3.org/2000/svg" role="img" aria-label="The entities" {size}>\n'
        + "\n".join(parts)
        + "\n</svg>"
    )


def _placed(entities: Sequence[EntityDescription]) -> Dict[str, _Box]:
    boxes: Dict[str, _Box] = {}
    tops = [_MARGIN] * _ACROSS
    for place, entity in enumerate(entities):
        column = place % _ACROSS
        box = _Box(entity, _MARGIN + column * (_WIDTH + _GAP), tops[column])
        tops[column] += box.height + _GAP // 2
        boxes[entity.name] = box
    return boxes


def _box(box: _Box) -> str:
    name = html.escape(box.entity.name)
    parts = [
        f'<a href="#{name}"><rect x="{box.left}" y="{box.top}" width="{_WIDTH}" '
        f'height="{box.height}" rx="6"/>',
        f'<text class="name" x="{box.left + _MARGIN}" y="{box.top + 19}">{name}</text></a>',
    ]
    for place, member in enumerate(box.entity.members):
        parts.append(
            f'<text x="{box.left + _MARGIN}" '
            f'y="{box.line(place)}">{html.escape(_cut(member.name, 20))}</text>'
        )
        right = box.left + _WIDTH - _MARGIN
        parts.append(
            f'<text class="type" text-anchor="end" x="{right}" '
            f'y="{box.line(place)}">{html.escape(_type(member))}</text>'
        )
    return "".join(parts)


def _type(member: Member) -> str:
    mark = {
        MemberKind.KEY: " key", MemberKind.VERSION: " version", MemberKind.COLLECTION: " *",
    }.get(member.kind, "")
    return _cut(member.type, 14) + mark


def _cut(text: str, most: int) -> str:
    return text if len(text) <= most else text[: most - 1] + "…"


def _arrows(box: _Box, boxes: Dict[str, _Box]) -> List[str]:
    arrows = []
    for place, member in enumerate(box.entity.members):
        target = boxes.get(member.type)
        if target is not None and member.is_owner and member.declarer == box.entity.name:
            arrows.append(_arrow(box, box.line(place) - 4, target, member.name))
    if box.entity.superclass in boxes:
        arrows.append(_arrow(box, box.top + 14, boxes[str(box.entity.superclass)], "extends"))
    return arrows


def _arrow(box: _Box, height: int, target: _Box, name: str) -> str:
    """An arrow from a line of a box to the head of another one, by sides that face each other."""
    end = target.top + 14
    is_left = target.left < box.left
    start_at = box.left if is_left else box.left + _WIDTH
    end_at = target.left if target.left > box.left else target.left + _WIDTH
    bend = _GAP // 2
    first, second = (start_at - bend if is_left else start_at + bend), (
        end_at - bend if target.left > box.left else end_at + bend
    )
    path = f"M{start_at} {height}C{first} {height} {second} {end} {end_at} {end}"
    where = start_at + (4 if not is_left else -4 - _LETTER * len(name))
    label = (
        f'<text class="kind" x="{where}" y="{height - 5}">{html.escape(name)}</text>'
        if name == "extends"
        else ""
    )
    title = html.escape(f"{box.entity.name}.{name} to {target.entity.name}")
    return f'<path d="{path}" marker-end="url(#arrow)"><title>{title}</title></path>{label}'
