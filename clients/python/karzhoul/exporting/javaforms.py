"""The forms in which the Java door stores values, and what a database has of them."""

from __future__ import annotations

import re
import struct
from dataclasses import dataclass
from datetime import date, datetime, timedelta, timezone, tzinfo
from decimal import Decimal
from typing import Any, Callable, Optional, Tuple

from ..classes.types import StoredType, Unfit

_DAY, _SECOND, _MILLI = 86_400 * 10**9, 10**9, 10**6
_TIME = re.compile(r"(\d{4})-(\d\d)-(\d\d)T(\d\d):(\d\d):(\d\d)\.(\d{9})(Z\d*)?")
_EPOCH = datetime(1970, 1, 1)
SQLITE, POSTGRESQL = "sqlite", "postgresql"
Make = Callable[["Times", Any], Any]


@dataclass(frozen=True)
class Times:
    """How points of time are written: those of a zone in texts that name none as it has them, and
    what is finer than the database's own rounded down, or refused."""

    database: str
    zone: tzinfo
    is_rounded: bool

    def text(self, moment: datetime, nanos: int) -> str:
        """A time without a zone: with microseconds in PostgreSQL, and with milliseconds in SQLite,
        whose drivers read them so."""
        unit, width = (1_000, 6) if self.database == POSTGRESQL else (_MILLI, 3)
        if nanos % unit and not self.is_rounded:
            raise Unfit(f"has {nanos:09} billionths of a second, and {width} of these digits have "
                        "room: --round leaves the others out")
        return f"{moment.isoformat(' ', 'seconds')}.{nanos // unit:0{width}}"

    def point(self, moment: datetime, nanos: int) -> str:
        """A point of time, which is given in UTC."""
        if self.database == POSTGRESQL:
            return f"{self.text(moment, nanos)}+00"
        aware = moment.replace(tzinfo=timezone.utc)
        try:
            local = aware.astimezone(self.zone)
        except OverflowError:
            raise Unfit("is outside of the years 1 to 9999 in the zone") from None
        if local.fold:
            raise Unfit("is in the hour that the zone has twice, which a text without it can't tell")
        return self.text(local.replace(tzinfo=None), nanos)


@dataclass(frozen=True)
class _Form:
    """What a column has: its type in each database, how it is stored here, and what makes of that
    the value for a database, where that isn't the same."""

    sqlite: str
    postgresql: str
    stored: str
    make: Optional[Make] = None


class JavaForm(StoredType):
    """The type of a column that the Java door stores, for one database."""

    def __init__(self, form: str, of: _Form, times: Times) -> None:
        self.form, self.stored = form, of.stored
        self._of, self._times = of, times

    @property
    def sql(self) -> str:
        """The type of the column in the database."""
        return self._of.sqlite if self._times.database == SQLITE else self._of.postgresql

    def made(self, value: Any) -> Any:
        """The value for the database of one that is stored; an `Unfit` says why there is none."""
        return value if self._of.make is None else self._of.make(self._times, value)


def _decimal(scale: int) -> _Form:
    def make(_: Times, value: Any) -> str:
        return format(Decimal((int(value < 0), tuple(map(int, str(abs(value)))), -scale)), "f")

    kind = f"numeric({max(19, scale)},{scale})"
    return _Form(kind, kind, "int", make)


def _truth(times: Times, value: Any) -> Any:
    if value not in (0, 1):
        raise Unfit("is neither 0 nor 1")
    return value if times.database == SQLITE else "ft"[value]


def _date_of(day: int) -> date:
    try:
        return date(1970, 1, 1) + timedelta(days=day)
    except OverflowError:
        raise Unfit("is a day outside of the years 1 to 9999") from None


def _day(times: Times, value: Any) -> str:
    said = _date_of(value).isoformat()
    return f"{said} 00:00:00.000" if times.database == SQLITE else said


def _time_of_day(times: Times, value: Any) -> str:
    seconds, nanos = divmod(value, _SECOND)
    said = times.text(_EPOCH + timedelta(seconds=seconds), nanos)
    return said if times.database == SQLITE else said.partition(" ")[2]


def _read(value: Any) -> Tuple[datetime, int]:
    found = _TIME.fullmatch(value)
    if found is None or found[1] == "0000":
        raise Unfit("is a time outside of the years 1 to 9999")
    year, month, day, hour, minute, second, nanos = map(int, found.groups()[:7])
    return datetime(year, month, day, hour, minute, second), nanos


def _local_time(times: Times, value: Any) -> str:
    return times.text(*_read(value))


def _instant(times: Times, value: Any) -> str:
    return times.point(*_read(value))


def _millisecond(times: Times, value: Any) -> str:
    seconds, millis = divmod(value, 1_000)
    try:
        return times.point(_EPOCH + timedelta(seconds=seconds), millis * _MILLI)
    except OverflowError:
        raise Unfit("is a time outside of the years 1 to 9999") from None


def _floating(width: str, whole: str, most: int) -> Make:
    def make(times: Times, value: Any) -> Any:
        # Java's order of numbers was made that of whole ones: negative ones have their bits turned.
        bits = value ^ most if value < 0 else value
        number: float = struct.unpack(width, struct.pack(whole, bits))[0]
        if times.database == POSTGRESQL:
            return repr(number).replace("inf", "Infinity").replace("nan", "NaN")
        if number != number:
            raise Unfit("is not a number, which SQLite takes for null")
        return number

    return make


def _bytes(times: Times, value: Any) -> Any:
    return value if times.database == SQLITE else f"\\x{value.hex()}"


_FORMS = {
    "integer 16": _Form("INTEGER", "smallint", "int"),
    "integer 32": _Form("INTEGER", "integer", "int"),
    "integer 64": _Form("INTEGER", "bigint", "int"),
    "truth": _Form("BOOLEAN", "boolean", "int", _truth),
    "day": _Form("DATE", "date", "int", _day),
    "nanosecond of day": _Form("TIME", "time", "int", _time_of_day),
    "local time": _Form("TIMESTAMP", "timestamp", "text", _local_time),
    "instant": _Form("TIMESTAMP", "timestamptz", "text", _instant),
    "offset time": _Form("TIMESTAMP", "timestamptz", "text", _instant),
    "millisecond": _Form("TIMESTAMP", "timestamptz", "int", _millisecond),
    "double": _Form("REAL", "double precision", "int", _floating(">d", ">q", 2**63 - 1)),
    "float": _Form("REAL", "real", "int", _floating(">f", ">i", 2**31 - 1)),
    "text": _Form("TEXT", 'text COLLATE "C"', "text"),
    "uuid": _Form("CHAR(36)", "uuid", "text"),
    "bytes": _Form("BLOB", "bytea", "bytes", _bytes),
    "serialized": _Form("BLOB", "bytea", "bytes", _bytes),
}


def form_of(said: str, times: Times) -> Optional[JavaForm]:
    """The form of these words; None where no column can have it."""
    scale = re.fullmatch(r"decimal of (\d{1,3})", said)
    found = _decimal(int(scale[1])) if scale is not None else _FORMS.get(said)
    return None if found is None else JavaForm(said, found, times)
