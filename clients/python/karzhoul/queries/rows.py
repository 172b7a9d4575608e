"""What queries find: rows whose items have names, and pages of them."""

from __future__ import annotations

from functools import cached_property
from typing import TYPE_CHECKING, Any, Callable, Dict, List, Optional, Sequence, Tuple

from ..jpql import statements as jpql
from ..mapping.meant import meant
from ..refusals import NonUniqueResult, NoResult

if TYPE_CHECKING:
    from ..jpql.statements import Item


class Names:
    """The names of a query's items, which are read off its text where one is asked for.

    An item has its AS name; else a path has the name of its last step, or the whole path where
    another item has that name too. Anything else has its own text.
    """

    def __init__(self, text: str) -> None:
        self.text = text

    def __reduce__(self) -> Tuple[Any, ...]:
        return Names, (self.text,)

    @cached_property
    def _items(self) -> List[Item]:
        statement = jpql.read(self.text)  # None where the program knows more than this client.
        return statement.items if isinstance(statement, jpql.Block) else []

    @cached_property
    def fields(self) -> Tuple[str, ...]:
        """The name of each item."""
        short = [item.name.said if item.name else _short(item, self.text) for item in self._items]
        return tuple(
            name if item.name or short.count(name) == 1 else _whole(item, self.text)
            for name, item in zip(short, self._items)
        )

    @cached_property
    def places(self) -> Dict[str, Optional[int]]:
        """The place of each item by its names: its own one, its path or text, and the last step of
        its path; None where several items have a name."""
        whole = [_whole(item, self.text) for item in self._items]
        short = [_short(item, self.text) for item in self._items]
        found: Dict[str, Optional[int]] = {}
        for names in (self.fields, whole, short):
            named: Dict[str, Optional[int]] = {}
            for place, name in enumerate(names):
                first = named.setdefault(name, place)
                if first is None or whole[first] != whole[place]:
                    named[name] = None
            found = {**named, **found}
        return found

    def place(self, name: str, fault: Callable[[str], Exception]) -> int:
        """The place of the item of a name; else this fault with what is wrong."""
        found = self.places.get(name)
        if found is not None:
            return found
        if name in self.places:
            raise fault(f"several items have the name {name!r}: there are {', '.join(self.fields)}")
        near = meant(name, self.places) or f"; there are {', '.join(self.fields)}"
        raise fault(f"no item of the row has the name {name!r}{near}")


def _short(item: Item, text: str) -> str:
    return item.value.words[-1].said if item.value.sort == "path" else _whole(item, text)


def _whole(item: Item, text: str) -> str:
    if item.value.sort == "path":
        return ".".join(word.said for word in item.value.words)
    return " ".join(text[item.value.at : item.value.end].split())


class Row(List[Any]):
    """A row of several items: a list, whose items have names too, as `row.name` or `row["p.name"]`.

    `_fields` are the names, and `_asdict()` is a dict of the items by these. An item whose name a
    list has too, as `count`, is that item.
    """

    __slots__ = ("_names",)
    _names: Names

    def __init__(self, items: Sequence[Any], names: Names) -> None:
        super().__init__(items)
        self._names = names

    def __reduce__(self) -> Tuple[Any, ...]:
        return Row, (list(self), self._names)

    @property
    def _fields(self) -> Tuple[str, ...]:
        return self._names.fields

    def _repr_html_(self) -> str:
        from ..showing.notebook import row_html

        return row_html(self, self._fields)

    def _asdict(self) -> Dict[str, Any]:
        return dict(zip(self._fields, self))

    @property
    def _mapping(self) -> Dict[str, Any]:
        return self._asdict()

    def __getitem__(self, at: Any) -> Any:
        if isinstance(at, str):
            return super().__getitem__(self._names.place(at, KeyError))
        return super().__getitem__(at)

    def __getattr__(self, name: str) -> Any:
        if name.startswith("__") or name == "_names":
            raise AttributeError(name)
        return super().__getitem__(self._names.place(name, AttributeError))

    def __dir__(self) -> List[str]:
        return [*super().__dir__(), *self._fields]


class _Either:
    """An attribute that lists have: the item of that name, where there is one."""

    def __init__(self, name: str) -> None:
        self._name = name

    def __get__(self, row: Optional[Row], owner: object = None) -> Any:
        if row is not None and row._names.places.get(self._name) is not None:
            return row[self._name]
        return getattr(list, self._name) if row is None else getattr(super(Row, row), self._name)


for _name in ("append", "clear", "copy", "count", "extend", "index", "insert", "pop", "remove"):
    setattr(Row, _name, _Either(_name))
for _name in ("reverse", "sort"):
    setattr(Row, _name, _Either(_name))


class Rows(List[Any]):
    """The rows of a query, a list: a row of one item is that item, any other one a `Row`."""

    __slots__ = ("_names",)

    def __init__(self, rows: Sequence[Any], names: Names) -> None:
        super().__init__(rows)
        self._names = names

    def __reduce__(self) -> Tuple[Any, ...]:
        return type(self), (list(self), self._names)

    @property
    def _fields(self) -> Tuple[str, ...]:
        """The names of the items of each row."""
        return self._names.fields

    def _repr_html_(self) -> str:
        from ..showing.notebook import rows_html

        return rows_html(self, self._fields, self._note())

    def _note(self) -> str:
        """What is told of the rows beside their number."""
        return ""

    def all(self) -> List[Any]:
        """The rows."""
        return self

    def scalars(self) -> List[Any]:
        """The first item of each row."""
        return [row[0] if isinstance(row, Row) else row for row in self]

    def first(self) -> Any:
        """The first row, or None."""
        return self[0] if self else None

    def one(self) -> Any:
        """The one row; else `NoResult` or `NonUniqueResult`."""
        if len(self) != 1:
            raise NonUniqueResult() if self else NoResult()
        return self[0]

    def one_or_none(self) -> Any:
        """The one row, or None where there is none; else `NonUniqueResult`."""
        return self.one() if self else None


class Page(Rows):
    """A page of a query's rows: the one of this `number`, from 1, with at most `size` rows. `total`
    is how many rows there are in all, where that was asked for."""

    __slots__ = ("number", "size", "total", "has_next")

    def __init__(
        self, rows: Sequence[Any], names: Names, number: int, size: int, total: Optional[int]
    ) -> None:
        super().__init__(rows[:size], names)
        self.number, self.size, self.total = number, size, total
        # One row more than its own was asked for.
        self.has_next = len(rows) > size

    def __reduce__(self) -> Tuple[Any, ...]:
        told = (self.number, self.size, self.total, self.has_next)
        return _page_of, (list(self), self._names, *told)

    def _note(self) -> str:
        return f"page {self.number}" + (f" of {self.pages}" if self.pages is not None else "")

    @property
    def has_previous(self) -> bool:
        """Whether there are pages before."""
        return self.number > 1

    @property
    def pages(self) -> Optional[int]:
        """How many pages there are in all, where the total is known."""
        return None if self.total is None else -(-self.total // self.size)


def _page_of(
    rows: List[Any], names: Names, number: int, size: int, total: Optional[int], has_next: bool
) -> Page:
    page = Page((), names, number, size, total)
    page += rows
    page.has_next = has_next
    return page


def as_row(row: Any, names: Names) -> Any:
    """A row of a reply: with names, where it has several items."""
    return Row(row, names) if isinstance(row, list) else row


def as_rows(rows: Sequence[Any], names: Names) -> List[Any]:
    """The rows of a reply."""
    if rows and isinstance(rows[0], list):  # As all others are then.
        return [Row(row, names) for row in rows]
    return rows if isinstance(rows, list) else list(rows)
