"""What the desk does with orders. Each function is one transaction of the manager that it is
handed."""

from __future__ import annotations

from datetime import date
from typing import Any, Iterable, Tuple, Type, TypeVar

from entities import Customer, Invoice, Order, OrderLine, OrderStatus, Place, Product
from karzhoul import Entity, EntityManager, LockModeType

Wanted = Iterable[Tuple[str, int]]
"""Products by their SKU, each with a quantity."""
E = TypeVar("E", bound=Entity)


class DeskError(Exception):
    """What the desk doesn't do, in words for its clerk."""


def found(manager: EntityManager, kind: Type[E], key: Any) -> E:
    """The object of this key; a `DeskError` where there is none."""
    it = manager.find(kind, key)
    if it is None:
        raise DeskError(f"there is no {kind.__name__.lower()} {key}")
    return it


def place_order(manager: EntityManager, customer: int, wanted: Wanted, day: date) -> Order:
    """Places an order of a customer's for products, and takes them out of the stock."""
    with manager.transaction():
        order = Order(customer=found(manager, Customer, customer), day=day)
        # Its id is generated now. The lines, whose keys have it, are persisted along with the
        # order.
        manager.persist(order)
        for sku, quantity in wanted:
            _set_quantity(manager, order, sku, quantity)
        if not order.lines:
            raise DeskError("an order takes one product at least")
    return order


def change_order(manager: EntityManager, number: int, wanted: Wanted) -> Order:
    """Sets how much an order takes of products; with a quantity of 0 a line goes."""
    with manager.transaction():
        order = _open_order(manager, number)
        # The list of lines isn't stored with the order, so a change of it alone raises no version.
        manager.lock(order, LockModeType.OPTIMISTIC_FORCE_INCREMENT)
        for sku, quantity in wanted:
            _set_quantity(manager, order, sku, quantity)
        if not order.lines:
            raise DeskError(f"nothing is left of order {number}: cancel it")
    return order


def ship_order(manager: EntityManager, number: int, day: date) -> Invoice:
    """Ships an order, and answers its invoice."""
    with manager.transaction():
        order = _open_order(manager, number)
        order.status = OrderStatus.SHIPPED
        invoice = order.invoice = Invoice(order=order, day=day, total=order.total)
    return invoice


def cancel_order(manager: EntityManager, number: int) -> Order:
    """Cancels an order, and puts its products back into the stock."""
    with manager.transaction():
        order = _open_order(manager, number)
        order.status = OrderStatus.CANCELLED
        for line in order.lines:
            line.product.stock += line.quantity
    return order


def delete_order(manager: EntityManager, number: int) -> None:
    """Deletes a cancelled order; its lines go with it."""
    with manager.transaction():
        order = found(manager, Order, number)
        if order.status is not OrderStatus.CANCELLED:
            is_now = order.status.value
            raise DeskError(f"order {number} is {is_now}: cancel it before it is deleted")
        manager.remove(order)


def _open_order(manager: EntityManager, number: int) -> Order:
    order = found(manager, Order, number)
    if order.status is not OrderStatus.PLACED:
        raise DeskError(f"order {number} is {order.status.value}, and stays as it is")
    return order


def _set_quantity(manager: EntityManager, order: Order, sku: str, quantity: int) -> None:
    """Has an order take so much of a product, and no more out of the stock than there is."""
    if quantity < 0:
        raise DeskError(f"{quantity} of {sku} can't be ordered")
    product = found(manager, Product, sku)
    line = order.line_of(product)
    more = quantity - (line.quantity if line is not None else 0)
    if more > product.stock:
        raise DeskError(f"{sku}: {product.stock} in stock, and {more} more wanted")
    product.stock -= more
    if line is not None and quantity == 0:
        order.lines.remove(line)  # An orphan by that, which the commit removes.
    elif line is not None:
        line.quantity = quantity
    elif quantity > 0:
        number = max((line.at.line for line in order.lines), default=0) + 1
        order.lines.append(OrderLine(
            at=Place(order=order.id, line=number), order=order, product=product, quantity=quantity,
            price=product.price,
        ))
