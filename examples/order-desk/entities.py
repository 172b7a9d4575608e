"""What the desk keeps: seven entities, whose numbers are in karzhoul.lock.json beside it."""

from __future__ import annotations

import enum
from datetime import date
from decimal import Decimal
from typing import List, Optional

from karzhoul import (
    Embedded, Entity, generated, key, many_to_many, many_to_one, money, one_to_many, one_to_one,
    validates, version,
)


class OrderStatus(enum.Enum):
    """How far an order is."""

    PLACED = "placed"
    SHIPPED = "shipped"
    CANCELLED = "cancelled"


class Named:
    """Has a name, which isn't empty."""

    name: str

    @validates("name")
    def with_letters(self, value: str) -> str:
        name = " ".join(value.split())
        if not name:
            raise ValueError(f"a {type(self).__name__.lower()} needs a name")
        return name


class Customer(Named, Entity):
    number: int = key()
    version: int = version()
    city: str = ""
    orders: List["Order"] = one_to_many("customer")


class Company(Customer):
    """A customer with a number for its value-added tax."""

    vat: str


class Category(Entity):
    code: str = key()
    title: str
    products: List["Product"] = many_to_many("categories")


class Product(Named, Entity):
    sku: str = key()
    version: int = version()
    price: Decimal = money(2)
    stock: int
    categories: List[Category] = many_to_many(cascade="persist")


class Order(Entity):
    id: int = generated()
    version: int = version()
    customer: Customer = many_to_one()
    day: date
    status: OrderStatus = OrderStatus.PLACED
    changes: int = 0
    """How many commits have changed it."""
    lines: List["OrderLine"] = one_to_many("order", cascade="all", orphan_removal=True)
    invoice: Optional["Invoice"] = one_to_one("order", cascade="all")

    def pre_update(self) -> None:
        self.changes += 1

    @property
    def total(self) -> Decimal:
        return sum((line.quantity * line.price for line in self.lines), Decimal(0))

    def line_of(self, product: Product) -> Optional["OrderLine"]:
        """Its line that takes a product, or None."""
        return next((line for line in self.lines if line.product is product), None)


class Place(Embedded):
    """Where a line stands: its order, and its number in that."""

    order: int
    line: int


class OrderLine(Entity):
    at: Place = key()
    order: Order = many_to_one()
    product: Product = many_to_one()
    quantity: int
    price: Decimal = money(2)
    """What one of the product cost on the day of the order."""


class Invoice(Entity):
    number: int = generated()
    order: Order = one_to_one()
    day: date
    total: Decimal = money(2)
