"""The forms of values, and how one becomes another where that can be told."""

from __future__ import annotations

import re
from datetime import date, datetime, time
from typing import Callable, Dict, Optional

from ..classes.changes import may_become, scale_of
from ..classes.types import Iso, Json, Money, Plainly, Span, StoredType, Truth, Unique, Unfit
from ..records.records import Value

Convert = Callable[[Value], Value]
_SIMPLE: Dict[str, Callable[[], StoredType]] = {
    "bool": Truth, "timedelta": Span, "uuid": Unique,
    "date": lambda: Iso(date), "time": lambda: Iso(time), "datetime": lambda: Iso(datetime),
    "datetime naive": lambda: Iso(datetime, is_naive=True),
    "json list": lambda: Json(list), "json dict": lambda: Json(dict),
}
_PLAIN = {"int": int, "text": str, "bytes": bytes}


class Formed(Plainly):
    """A value as it is stored, of a form that only its class knows, as an enum's."""

    def __init__(self, form: str, stored: str) -> None:
        super().__init__(_PLAIN[stored])
        self.form = form


def plain_type(stored: str) -> StoredType:
    """Values that are stored as they are."""
    return Plainly(_PLAIN[stored])


def type_of(form: str, stored: str) -> StoredType:
    """The type of a form, as a store says it."""
    money = re.fullmatch(r"money\(([0-9]+)\)", form)
    if money is not None:
        return Money(int(money[1]))
    return _SIMPLE[form]() if form in _SIMPLE else Formed(form, stored)


def _same(value: Value) -> Value:
    return value


def conversion(old: StoredType, new: StoredType) -> Optional[Convert]:
    """How stored values of one type become those of another one; None where that can't be told. An
    `Unfit` of it says which value doesn't go."""
    before, after = scale_of(old.form), scale_of(new.form)
    if old.form == new.form:
        return _same
    if before is not None and after is not None:
        return _rescaled(after - before)
    return _checked(new) if keeps(old, new) else None


def keeps(old: StoredType, new: StoredType) -> bool:
    """Whether what is stored stays as it is, where it is of the new type too."""
    if old.form == new.form:
        return True
    are_numbers = None not in (scale_of(old.form), scale_of(new.form))
    return old.stored == new.stored and not are_numbers and may_become(old.form, new.form)


def _checked(new: StoredType) -> Convert:
    def checked(value: Value) -> Value:
        new.from_stored(value)
        return value

    return checked


def _rescaled(by: int) -> Convert:
    def rescaled(value: Value) -> Value:
        assert isinstance(value, int)
        scale: int = 10 ** abs(by)
        whole, rest = (value * scale, 0) if by >= 0 else divmod(value, scale)
        if rest:
            raise Unfit("has more digits behind the point")
        if not -(2**63) <= whole < 2**63:
            raise Unfit("is too large for so many digits behind the point")
        return whole

    return rescaled
