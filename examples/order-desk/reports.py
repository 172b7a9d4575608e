"""What the desk prints: reports by queries, and orders, customers and products as they stand."""

from __future__ import annotations

from decimal import Decimal
from typing import Any, Callable, Dict, Iterable, List, NamedTuple, Sequence, Tuple

from entities import Company, Customer, Order, OrderStatus, Product
from karzhoul import EntityManager
from orders import DeskError, found


class Report(NamedTuple):
    """A query with the headings of its columns."""

    headings: Sequence[str]
    text: str


REPORTS: Dict[str, Report] = {
    "customers": Report(
        ("number", "name", "orders", "turnover"),
        "SELECT c.number, c.name, COUNT(DISTINCT o), SUM(l.quantity * l.price) AS turnover"
        " FROM OrderLine l JOIN l.order o JOIN o.customer c WHERE o.status <> 'CANCELLED'"
        " GROUP BY c.number, c.name ORDER BY turnover DESC, c.number",
    ),
    "products": Report(
        ("sku", "name", "sold", "turnover"),
        "SELECT p.sku, p.name, SUM(l.quantity) AS sold, SUM(l.quantity * l.price)"
        " FROM OrderLine l JOIN l.order o JOIN l.product p WHERE o.status <> 'CANCELLED'"
        " GROUP BY p.sku, p.name HAVING SUM(l.quantity) > 0 ORDER BY sold DESC, p.sku",
    ),
    "categories": Report(
        ("category", "products", "stock"),
        "SELECT c.title, COUNT(p), COALESCE(SUM(p.stock), 0) FROM Category c LEFT JOIN c.products p"
        " GROUP BY c.code, c.title ORDER BY c.code",
    ),
    "statuses": Report(
        ("status", "orders"),
        "SELECT o.status, COUNT(o) AS orders FROM Order o GROUP BY o.status ORDER BY orders DESC, "
        "o.status",
    ),
    "companies": Report(
        ("number", "name", "vat"),
        "SELECT c.number, c.name, c.vat FROM Company c WHERE EXISTS (SELECT o FROM c.orders o) "
        "ORDER BY c.number",
    ),
}


def report(manager: EntityManager, name: str) -> List[List[str]]:
    """The rows of a report, its headings first."""
    asked = REPORTS[name]
    return [list(asked.headings), *(list(map(_cell, row)) for row in manager.query(asked.text))]


def _cell(value: Any) -> str:
    """A value as it is shown: a sum of money with its cents, as `12.50`."""
    if isinstance(value, OrderStatus):
        return str(value.value)
    return f"{value:.2f}" if isinstance(value, Decimal) else str(value)


def table(rows: Sequence[Sequence[str]]) -> str:
    """Rows in columns."""
    widths = [max(map(len, column)) for column in zip(*rows)]
    return "\n".join("  ".join(map(str.ljust, row, widths)).rstrip() for row in rows)


def show(manager: EntityManager, kind: str, key: str) -> str:
    """An order, a customer or a product."""
    entity, words = SHOWN[kind]
    number = key if kind == "product" else _number(kind, key)
    return "\n".join(words(found(manager, entity, number)))


def _number(kind: str, key: str) -> int:
    if not key.isdecimal():
        raise DeskError(f"there is no {kind} {key}")
    return int(key)


def _order(order: Order) -> Iterable[str]:
    yield f"order {order.id} of {order.day}, {order.status.value}, for {order.customer.name}"
    for line in order.lines:
        yield f"  {line.at.line}: {line.quantity} of {line.product.name} at {_cell(line.price)}"
    yield f"  total {_cell(order.total)}, changed {order.changes} times"
    if order.invoice is not None:
        yield f"  invoice {order.invoice.number} of {order.invoice.day}"


def _customer(customer: Customer) -> Iterable[str]:
    is_company = isinstance(customer, Company)
    kind, vat = ("company", f", VAT {customer.vat}") if is_company else ("customer", "")
    yield f"{kind} {customer.number}: {customer.name}, {customer.city}{vat}"
    for order in customer.orders:
        yield f"  order {order.id} of {order.day}, {order.status.value}: {_cell(order.total)}"


def _product(product: Product) -> Iterable[str]:
    price = _cell(product.price)
    yield f"product {product.sku}: {product.name} at {price}, {product.stock} in stock"
    yield f"  in {', '.join(category.title for category in product.categories) or 'no category'}"


SHOWN: Dict[str, Tuple[Any, Callable[[Any], Iterable[str]]]] = {
    "order": (Order, _order),
    "customer": (Customer, _customer),
    "product": (Product, _product),
}
