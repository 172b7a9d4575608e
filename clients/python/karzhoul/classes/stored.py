"""How values of an annotation are stored."""

from __future__ import annotations

from datetime import date, datetime, time, timedelta
from decimal import Decimal
from enum import Enum
from typing import Any, Callable, Dict
from uuid import UUID

from ..objects.entities import Entity
from . import types
from .annotations import Annotated, Unread
from .fields import Field

_SIMPLE: Dict[Any, Callable[[], types.StoredType]] = {
    int: lambda: types.Plainly(int), str: lambda: types.Plainly(str),
    bytes: lambda: types.Plainly(bytes), bool: types.Truth, date: lambda: types.Iso(date),
    time: lambda: types.Iso(time), datetime: lambda: types.Iso(datetime),
    timedelta: types.Span, UUID: types.Unique,
}


def stored_type(told: Annotated, field: Field) -> types.StoredType:
    """How values of an annotation are stored; `Unread` where they aren't, with what to write."""
    kind, form = told.kind, field.form
    name = getattr(kind, "__name__", str(kind))
    if form == "typed":
        if field.stored not in types.STORED:
            raise Unread("is stored as none of int, str and bytes: typed(.., stored=str)")
        return types.OwnType(name, field.converters[0], field.converters[1], field.stored)
    wanted = {"money": kind is Decimal, "naive": kind is datetime, "json": kind in (list, dict),
              "value": isinstance(kind, type) and issubclass(kind, Enum)}
    if not wanted.get(form, True):
        takes = {"money": "Decimal", "naive": "datetime", "json": "list or dict", "value": "Enum"}
        word = {"json": "json_text", "value": "by_value"}.get(form, form)
        raise Unread(f"is of {name}, and {word}() is for {takes[form]}")
    if form == "money":
        if not 0 <= field.scale <= 18:
            raise Unread(f"is money({field.scale}): the scale is from 0 to 18, as in money(2)")
        return types.Money(field.scale)
    if form == "naive":
        return types.Iso(datetime, is_naive=True)
    if form == "json":
        return types.Json(kind)
    if kind in _SIMPLE:
        return _SIMPLE[kind]()
    if isinstance(kind, type) and issubclass(kind, Enum):
        return types.Listed(kind, form == "value")
    raise Unread(_why_none(kind, name))


def _why_none(kind: Any, name: str) -> str:
    if kind is float:
        return (
            "is a float, which is near a number and not exact: write Decimal = money(2), or "
            "typed(..) with a form of your own"
        )
    if kind is Decimal:
        return "is a Decimal without a scale: write it as Decimal = money(2)"
    if kind in (list, dict):
        return f"is a {name}: write {name} = json_text(), or of objects one_to_many(..)"
    if isinstance(kind, type) and issubclass(kind, Entity):
        return f"leads to an object: write it as {name} = many_to_one()"
    return f"is of {name}, which has no stored form: write {name} = typed(to, back)"
