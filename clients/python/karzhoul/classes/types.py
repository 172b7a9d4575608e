"""The types of values, and the one stored form of each, whose order is the type's own.

| Type | Stored form |
|---|---|
| int, str, bytes | as it is |
| bool | 0 or 1 |
| date | `2026-01-05` |
| time | `09:30:00.000000`, without a zone |
| datetime | of a zone: `2026-01-05T09:30:00.000000Z`, in UTC; `naive()`: the same without Z |
| timedelta | whole microseconds |
| Decimal, `money(n)` | whole units of 10**-n |
| Enum | its name, a text; `by_value()`: its value, an int or a text |
| UUID | its 36 characters |
| list, dict, `json_text()` | JSON without blanks |
| `typed(to, back)` | what `to` answers |
"""

from __future__ import annotations

import json
import re
from datetime import date, datetime, time, timedelta, timezone
from decimal import Decimal
from enum import Enum
from typing import Any, Callable, Dict, List, Mapping, Tuple, Type, Union
from uuid import UUID

from ..told import shown

Plain = Union[int, str, bytes]
LEAST, GREATEST, MOST_BYTES = -(2**63), 2**63 - 1, 65_535
_TAKEN: Mapping[type, Tuple[type, ...]] = {
    int: (int,), str: (str,), bytes: (bytes, bytearray, memoryview),
}
STORED: Mapping[type, str] = {int: "int", str: "text", bytes: "bytes"}


class Unfit(ValueError):
    """A value that a type doesn't take; the text says why, to stand behind the value."""


class StoredType:
    """A type of values. `form` names it in a lock and a store, and `stored` is `int`, `text` or
    `bytes`."""

    form = ""
    stored = "text"
    what = ""
    """The type in words."""

    def to_stored(self, value: Any) -> Plain:
        """What is stored of a value, not None; `Unfit` where it is of another type."""
        raise NotImplementedError

    def from_stored(self, stored: Any) -> Any:
        """The value of what is stored; `Unfit` where it is none."""
        raise NotImplementedError

    def from_literal(self, said: Plain) -> Any:
        """The value that a literal of a query says."""
        return self.from_stored(said)

    @property
    def is_plain(self) -> bool:
        """Whether values are stored as they are."""
        return False

    def reads(self, other: StoredType) -> bool:
        """Whether all that is stored of the other type is of this one too."""
        return self.form == other.form


class Plainly(StoredType):
    """int, str and bytes."""

    def __init__(self, kind: type) -> None:
        self.kind = kind
        self.form = self.stored = STORED[kind]
        self.what = {int: "a whole number", str: "a text", bytes: "bytes"}[kind]

    @property
    def is_plain(self) -> bool:
        return True

    def to_stored(self, value: Any) -> Plain:
        if not isinstance(value, _TAKEN[self.kind]) or isinstance(value, (bool, Enum)):
            raise Unfit(f"is no {self.kind.__name__}" + _of_float(value))
        return fitting(bytes(value) if self.kind is bytes else value)

    def from_stored(self, stored: Any) -> Any:
        return stored


class Truth(StoredType):
    """bool."""

    form, stored, what = "bool", "int", "True or False"

    def to_stored(self, value: Any) -> Plain:
        if not isinstance(value, bool):
            raise Unfit("is neither True nor False")
        return int(value)

    def from_stored(self, stored: Any) -> Any:
        if type(stored) is not int or stored not in (0, 1):
            raise Unfit("is neither 0 nor 1")
        return stored == 1


class Iso(StoredType):
    """date, time and datetime, as texts of one length."""

    def __init__(self, kind: type, is_naive: bool = False) -> None:
        self.kind, self.is_naive = kind, is_naive
        self.form = f"{kind.__name__}{' naive' if is_naive else ''}"
        zone = " without a zone" if is_naive else " with a zone" if kind is datetime else ""
        self.what = f"a {kind.__name__}{zone}"

    def to_stored(self, value: Any) -> Plain:
        if not isinstance(value, self.kind) or (
            self.kind is date and isinstance(value, datetime)
        ):
            raise Unfit(f"is no {self.kind.__name__}")
        if self.kind is date:
            return str(value.isoformat())  # type: ignore[attr-defined]
        if self.kind is time:
            if value.tzinfo is not None:  # type: ignore[attr-defined]
                raise Unfit("has a zone, and a time is stored without one")
            return str(value.isoformat("microseconds"))  # type: ignore[attr-defined]
        assert isinstance(value, datetime)
        return self._moment(value)

    def _moment(self, value: datetime) -> str:
        if self.is_naive:
            if value.tzinfo is not None:
                raise Unfit("has a zone, and naive() is without one")
            return value.isoformat("T", "microseconds")
        if value.tzinfo is None or value.utcoffset() is None:
            raise Unfit(
                "has no zone: give it one, as datetime.now(timezone.utc), or declare the "
                "attribute by naive()"
            )
        try:
            moment = value.astimezone(timezone.utc).replace(tzinfo=None)
        except OverflowError:
            raise Unfit("is outside of the years 1 to 9999 in UTC") from None
        return moment.isoformat("T", "microseconds") + "Z"

    def from_stored(self, stored: Any) -> Any:
        value = self._read(stored, stored)
        if self.to_stored(value) != stored:
            raise Unfit(f"is no {self.kind.__name__} as it is stored")
        return value

    def from_literal(self, said: Plain) -> Any:
        # A literal may leave out what is 0, and have another zone.
        return self._read(said, re.sub("Z$", "+00:00", said) if isinstance(said, str) else said)

    def _read(self, shown: Any, said: Any) -> Any:
        if not isinstance(said, str):
            raise Unfit(f"is no {self.kind.__name__}")
        try:
            if self.kind is datetime and shown.endswith("Z") and not self.is_naive:
                return datetime.fromisoformat(shown[:-1]).replace(tzinfo=timezone.utc)
            return self.kind.fromisoformat(said)  # type: ignore[attr-defined]
        except ValueError:
            raise Unfit(f"is no {self.kind.__name__}") from None


class Span(StoredType):
    """timedelta."""

    form, stored, what = "timedelta", "int", "a timedelta"
    _UNIT = timedelta(microseconds=1)

    def to_stored(self, value: Any) -> Plain:
        if not isinstance(value, timedelta):
            raise Unfit("is no timedelta" + _of_float(value))
        return fitting(value // self._UNIT)

    def from_stored(self, stored: Any) -> Any:
        if type(stored) is not int:
            raise Unfit("is no whole number of microseconds")
        return timedelta(microseconds=stored)


class Money(StoredType):
    """Decimal of a fixed scale."""

    stored = "int"

    def __init__(self, scale: int) -> None:
        self.scale = scale
        self.form = f"money({scale})"
        self.what = f"a Decimal of {scale} digits behind the point"

    def to_stored(self, value: Any) -> Plain:
        if not isinstance(value, (Decimal, int)) or isinstance(value, (bool, Enum)):
            raise Unfit("is no Decimal" + _of_float(value))
        number = Decimal(value)
        if not number.is_finite():
            raise Unfit("is no finite number")
        sign, digits, exponent = number.as_tuple()
        assert isinstance(exponent, int)
        shift = exponent + self.scale
        if len(digits) + shift > 20 and any(digits):
            raise Unfit(f"is too large for money({self.scale}): it has a whole number of 64 bits")
        whole = int("".join(map(str, digits)) or "0") if any(digits) else 0
        if whole and shift < 0:
            whole, rest = divmod(whole, 10**-shift) if -shift <= len(digits) else (0, 1)
            if rest:
                raise Unfit(f"has more digits behind the point than the {self.scale} of its money")
        elif whole:
            whole *= 10**shift
        return fitting(-whole if sign else whole)

    def from_stored(self, stored: Any) -> Any:
        if type(stored) is not int:
            raise Unfit("is no whole number")
        return Decimal((int(stored < 0), tuple(map(int, str(abs(stored)))), -self.scale))

    def from_literal(self, said: Plain) -> Any:
        try:
            return Decimal(said)  # type: ignore[arg-type]
        except (ArithmeticError, TypeError, ValueError):
            raise Unfit("is no decimal number") from None


class Listed(StoredType):
    """Enum, by name or by value."""

    def __init__(self, kind: Type[Enum], by_value: bool = False) -> None:
        self.kind, self.by_value = kind, by_value
        self.what = f"one of {', '.join(map(str, kind))}"
        self._values: Dict[Any, Enum] = {
            each.value if by_value else each.name: each for each in kind
        }
        sorts = {type(value) for value in self._values}
        if len(sorts) != 1 or not sorts <= {int, str}:
            raise Unfit(f"has values that are not all of int, nor all of str: {kind.__name__}")
        self.stored = STORED[sorts.pop()]
        self.form = _listed(list(self._values))

    def reads_others(self, form: str) -> bool:
        """Whether a form may be that of the same enum by the other of name and value, of which a
        text that is stored would be read as another member."""
        others = [(each.name if self.by_value else each.value, each) for each in self.kind]
        if not all(isinstance(text, str) for text, _ in others):
            return False
        return form == _listed([text for text, _ in others]) and any(
            self._values.get(text, each) is not each for text, each in others
        )

    def to_stored(self, value: Any) -> Plain:
        if not isinstance(value, self.kind):
            raise Unfit(f"is no {self.kind.__name__}")
        found: Plain = value.value if self.by_value else value.name
        if found not in self._values:
            raise Unfit(f"is no single one of {self.kind.__name__}")
        return fitting(found)

    def from_stored(self, stored: Any) -> Any:
        if isinstance(stored, bool) or stored not in self._values:
            known = ", ".join(map(repr, self._values))
            raise Unfit(f"is none of {self.kind.__name__}: {known}")
        return self._values[stored]


def _listed(values: List[Any]) -> str:
    """The form of an enum, by which a store tells that a member is gone."""
    return f"enum {json.dumps(values, ensure_ascii=False)}"


class Unique(StoredType):
    """UUID."""

    form, what = "uuid", "a UUID"

    def to_stored(self, value: Any) -> Plain:
        if not isinstance(value, UUID):
            raise Unfit("is no UUID")
        return str(value)

    def from_stored(self, stored: Any) -> Any:
        try:
            value = UUID(stored)
        except (ValueError, AttributeError, TypeError):
            raise Unfit("is no UUID") from None
        if str(value) != stored:
            raise Unfit("is no UUID as it is stored")
        return value

    def from_literal(self, said: Plain) -> Any:
        return self.from_stored(said.lower() if isinstance(said, str) else said)


class Json(StoredType):
    """list and dict, as the text of their JSON. What is read refuses changes in place, which would
    not be stored."""

    def __init__(self, kind: type) -> None:
        self.kind = kind
        self.form = f"json {kind.__name__}"
        self.what = f"a {kind.__name__} of what JSON has"

    def to_stored(self, value: Any) -> Plain:
        if not isinstance(value, self.kind):
            raise Unfit(f"is no {self.kind.__name__}")
        try:
            said = json.dumps(value, ensure_ascii=False, allow_nan=False, separators=(",", ":"))
        except (TypeError, ValueError, RecursionError) as fault:
            raise Unfit(f"is no JSON: {fault}") from None
        if not _is_same(json.loads(said), value):
            raise Unfit("is no JSON: it has a tuple, or a key that is no text")
        return fitting(said)

    def from_stored(self, stored: Any) -> Any:
        try:
            value = json.loads(stored)
        except (ValueError, TypeError, RecursionError):
            raise Unfit("is no JSON") from None
        if not isinstance(value, self.kind):
            raise Unfit(f"is no JSON of a {self.kind.__name__}")
        return frozen(value)


def _is_same(read: Any, value: Any) -> bool:
    if isinstance(value, Mapping):
        return isinstance(read, dict) and list(read) == list(value) and all(
            type(name) is str and _is_same(read[name], each) for name, each in value.items()
        )
    if isinstance(value, list):
        return len(read) == len(value) and all(map(_is_same, read, value))
    return type(read) is type(value) and bool(read == value)


class OwnType(StoredType):
    """A type of the user's own."""

    def __init__(
        self, name: str, to: Callable[[Any], Any], back: Callable[[Any], Any], stored: type
    ) -> None:
        self._to, self._back = to, back
        self.form, self.stored = f"typed {STORED[stored]}", STORED[stored]
        self._plain, self.what = Plainly(stored), name

    def to_stored(self, value: Any) -> Plain:
        try:
            stored = self._to(value)
        except (TypeError, ValueError, AttributeError, ArithmeticError) as fault:
            raise Unfit(f"is not taken by {self.what}: {fault}") from fault
        try:
            return self._plain.to_stored(stored)
        except Unfit as fault:
            raise Unfit(f"is stored as {shown(stored)}, which {fault}") from None

    def reads(self, other: StoredType) -> bool:
        return isinstance(other, OwnType) and (
            (self.form, self._to, self._back) == (other.form, other._to, other._back)
        )

    def from_stored(self, stored: Any) -> Any:
        try:
            return self._back(stored)
        except (TypeError, ValueError, LookupError, ArithmeticError) as fault:
            raise Unfit(f"is not taken by {self.what}: {fault}") from fault


def fitting(stored: Plain) -> Plain:
    """What is stored, which has room there; else `Unfit`."""
    if isinstance(stored, int):
        if not LEAST <= stored <= GREATEST:
            raise Unfit("is no number of 64 bits as it is stored")
        return stored
    size = len(stored.encode("utf-8", "surrogatepass") if isinstance(stored, str) else stored)
    if size > MOST_BYTES:
        raise Unfit(f"has {size:,} bytes as it is stored, and {MOST_BYTES:,} are the most")
    return stored


def _of_float(value: Any) -> str:
    isnt = "a float is near a number, and not exact: write Decimal('1.10')"
    return f": {isnt}" if isinstance(value, float) else ""


# ---- what JSON says, as it was read


def _refused(self: Any, *_: Any, **__: Any) -> Any:
    raise TypeError(
        "this was read of a store, and a change of it in place would not be stored: assign a new "
        f"{type(self).__mro__[1].__name__} to the attribute"
    )


class FrozenList(List[Any]):
    """A list that was read, which takes no change in place."""

    append = extend = insert = remove = pop = clear = sort = reverse = _refused
    __setitem__ = __delitem__ = __iadd__ = __imul__ = _refused

    def __reduce__(self) -> Tuple[Any, ...]:
        return list, (list(self),)


class FrozenDict(Dict[str, Any]):
    """A dict that was read, which takes no change in place."""

    update = pop = popitem = clear = setdefault = _refused
    __setitem__ = __delitem__ = __ior__ = _refused

    def __reduce__(self) -> Tuple[Any, ...]:
        return dict, (dict(self),)


def frozen(value: Any) -> Any:
    """What JSON says, which takes no change in place, at any depth."""
    if isinstance(value, list):
        return FrozenList(map(frozen, value))
    if isinstance(value, dict):
        return FrozenDict({name: frozen(each) for name, each in value.items()})
    return value
