"""Products and customers from CSV files: all rows are checked first, and then stored, many to a
transaction."""

from __future__ import annotations

import csv
import re
import sys
import time
from contextlib import AbstractContextManager
from decimal import Decimal
from pathlib import Path
from typing import (
    Any, Callable, Dict, Iterator, List, NamedTuple, Sequence, Set, TextIO, Tuple, TypeVar,
)

import karzhoul
from entities import Category, Company, Customer, Product
from karzhoul import EntityManager, EntityManagerFactory
from orders import DeskError

LARGEST = 1_000_000_000_000


class CustomerRow(NamedTuple):
    """A customer; one with a `vat` is a company."""

    number: int
    name: str
    city: str
    vat: str


class ProductRow(NamedTuple):
    """A product."""

    sku: str
    name: str
    price: Decimal
    stock: int
    categories: Tuple[str, ...]


Row = TypeVar("Row", CustomerRow, ProductRow)
Store = Callable[[EntityManager, Sequence[Row]], None]
Told = Callable[[int], None]


# ---- reading


def read_customers(path: Path) -> List[CustomerRow]:
    """The customers of a file; a `DeskError` names the first line that is none."""
    return _read(path, CustomerRow._fields, _customer)


def read_products(path: Path) -> List[ProductRow]:
    """The products of a file; a `DeskError` names the first line that is none."""
    return _read(path, ProductRow._fields, _product)


def _read(path: Path, columns: Sequence[str], row_of: Callable[[Dict[str, str]], Row]) -> List[Row]:
    rows: List[Row] = []
    lines: Dict[Any, int] = {}
    for line, cells in _cells(path, columns):
        try:
            row = row_of(cells)
        except ValueError as fault:
            raise DeskError(f"{path}:{line}: {fault}") from None
        first = lines.setdefault(row[0], line)
        if first != line:
            raise DeskError(f"{path}:{line}: {columns[0]} {row[0]} stands in line {first} already")
        rows.append(row)
    return rows


def _cells(path: Path, columns: Sequence[str]) -> Iterator[Tuple[int, Dict[str, str]]]:
    """The cells of each row by their columns, with its line."""
    try:
        with path.open(encoding="utf-8", newline="") as file:
            reader = csv.DictReader(file, strict=True)
            if list(reader.fieldnames or ()) != list(columns):
                raise DeskError(f"{path}:1: the columns are to be {','.join(columns)}")
            for cells in reader:
                if None in cells or None in cells.values():
                    raise DeskError(
                        f"{path}:{reader.line_num}: {len(columns)} cells are to stand here"
                    )
                yield reader.line_num, cells
    except OSError as fault:
        raise DeskError(f"{path}: {fault.strerror}") from fault
    except (UnicodeDecodeError, csv.Error) as fault:
        raise DeskError(f"{path}: this is no CSV file in UTF-8: {fault}") from fault


def _customer(cells: Dict[str, str]) -> CustomerRow:
    number = _whole("number", cells["number"])
    return CustomerRow(number, _text("name", cells["name"]), cells["city"], cells["vat"])


def _product(cells: Dict[str, str]) -> ProductRow:
    price, stock = _money("price", cells["price"]), _whole("stock", cells["stock"])
    categories = tuple(dict.fromkeys(filter(None, cells["categories"].split(";"))))
    return ProductRow(
        _text("sku", cells["sku"]), _text("name", cells["name"]), price, stock, categories
    )


def _text(column: str, cell: str) -> str:
    if not cell.strip():
        raise ValueError(f"{column} is missing")
    return cell


def _whole(column: str, cell: str) -> int:
    if not re.fullmatch("[0-9]{1,13}", cell) or int(cell) > LARGEST:
        raise ValueError(f"{column} is to be a whole number up to {LARGEST}, and is {cell!r}")
    return int(cell)


def _money(column: str, cell: str) -> Decimal:
    if not re.fullmatch(r"[0-9]{1,10}\.[0-9]{2}", cell):
        raise ValueError(f"{column} is to be a sum such as 12.50, and is {cell!r}")
    return Decimal(cell)


# ---- storing


def import_customers(
    app: EntityManagerFactory, rows: Sequence[CustomerRow], told: Told, size: int = 500
) -> None:
    """Stores customers: those that there are get the values of their rows, the others are made."""
    with app.create_entity_manager() as manager:
        companies = set(manager.query("SELECT c.number FROM Company c"))
        customers = set(manager.query("SELECT c.number FROM Customer c"))
    for row in rows:
        if row.number in customers and (row.number in companies) != bool(row.vat):
            raise DeskError(f"customer {row.number} stays what it is, a company or none")
    import_rows(app, rows, _store_customers, told, size)


def import_products(
    app: EntityManagerFactory, rows: Sequence[ProductRow], told: Told, size: int = 500
) -> None:
    """Stores products, and the categories that they name, in the same way."""
    import_rows(app, rows, _store_products, told, size)


def import_rows(
    app: EntityManagerFactory, rows: Sequence[Row], store: Store[Row], told: Told, size: int
) -> None:
    """Stores rows, so many to a transaction, and tells after each how many there are.

    The context is cleared after each, so that it never holds more than a transaction's objects."""
    manager = app.create_entity_manager()
    for start in range(0, len(rows), size):
        batch = rows[start : start + size]
        try:
            _store_batch(manager, batch, store)
        except karzhoul.Limit:
            # A run makes a limited number of objects; the next one goes on after the last commit.
            app.restart()
            manager = app.create_entity_manager()
            _store_batch(manager, batch, store)
        told(start + len(batch))
    manager.close()


def _store_batch(manager: EntityManager, batch: Sequence[Row], store: Store[Row]) -> None:
    with manager.transaction(), manager.factory.pipeline():
        store(manager, batch)
    manager.clear()


def _store_customers(manager: EntityManager, rows: Sequence[CustomerRow]) -> None:
    for row, customer in zip(rows, manager.find_many(Customer, [row.number for row in rows])):
        if customer is None:
            manager.persist(_new_customer(row))
            continue
        customer.name, customer.city = row.name, row.city
        if isinstance(customer, Company):
            customer.vat = row.vat


def _new_customer(row: CustomerRow) -> Customer:
    if row.vat:
        return Company(number=row.number, name=row.name, city=row.city, vat=row.vat)
    return Customer(number=row.number, name=row.name, city=row.city)


def _store_products(manager: EntityManager, rows: Sequence[ProductRow]) -> None:
    app = manager.factory
    categories = _categories(manager, {code for row in rows for code in row.categories})
    found = list(zip(rows, manager.find_many(Product, [row.sku for row in rows])))
    new = [row for row, product in found if product is None]
    made = app.new_many(Product, [_values(row) for row in new])
    for row, product in zip(new, made):
        product.categories.extend(categories[code] for code in row.categories)
    manager.persist_all(made)
    known = [(row, product) for row, product in found if product is not None]
    members = app.get_many([product for _, product in known], "categories")
    for (row, product), held in zip(known, members):
        product.name, product.price, product.stock = row.name, row.price, row.stock
        wanted = [categories[code] for code in row.categories]
        if set(wanted) != set(held):
            product.categories = wanted


def _values(row: ProductRow) -> Dict[str, Any]:
    return {"sku": row.sku, "name": row.name, "price": row.price, "stock": row.stock}


def _categories(manager: EntityManager, codes: Set[str]) -> Dict[str, Category]:
    """The category of each code. New ones are persisted along with the products that have them."""
    ordered = sorted(codes)
    return {
        code: it if it is not None else Category(code=code, title=code.capitalize())
        for code, it in zip(ordered, manager.find_many(Category, ordered))
    }


# ---- telling


class Progress(AbstractContextManager["Progress"]):
    """How far an import is, in one line of a terminal: rows, rows a second, and the time left.
    Elsewhere nothing is told."""

    def __init__(
        self, total: int, stream: TextIO = sys.stderr, clock: Callable[[], float] = time.monotonic
    ) -> None:
        self._total, self._stream, self._clock = total, stream, clock
        self._start = clock()

    def __exit__(self, *_: object) -> None:
        self._write("\n")

    def __call__(self, done: int) -> None:
        """Tells that so many rows are stored."""
        seconds = max(self._clock() - self._start, 0.001)
        left = round((self._total - done) * seconds / done)
        rate = f"{done / seconds:,.0f} a second, {left // 60}:{left % 60:02} left"
        line = f"{done:,} of {self._total:,} rows, {rate}"
        self._write(f"\r{line:<70}")

    def _write(self, text: str) -> None:
        if self._stream.isatty():
            self._stream.write(text)
            self._stream.flush()
