#!/usr/bin/env python3
"""An order desk over a database file. `desk.py --help` tells its commands."""

from __future__ import annotations

import argparse
import sys
from datetime import date
from pathlib import Path
from typing import Any, Callable, Dict, List, Optional, Tuple

# In a clone of the repository karzhoul needn't be installed.
sys.path.insert(1, str(Path(__file__).resolve().parents[2] / "clients" / "python"))

import entities  # noqa: E402
import imports  # noqa: E402
import karzhoul  # noqa: E402
import orders  # noqa: E402
import reports  # noqa: E402
import samples  # noqa: E402

Command = Callable[[karzhoul.EntityManager, argparse.Namespace], str]


def main(words: Optional[List[str]] = None) -> int:
    """Does one command, and answers the exit status: 1 where it is refused."""
    given = _parser().parse_args(words)
    try:
        if given.command == "samples":
            samples.write_samples(given.folder, given.products, given.customers)
        else:
            print(_run(given))
    except (orders.DeskError, karzhoul.KarzhoulError, karzhoul.WrongValue) as refused:
        print(f"desk: {refused}", file=sys.stderr)
        return 1
    return 0


def _run(given: argparse.Namespace) -> str:
    with karzhoul.open(entities, given.db) as app:
        if given.events:
            app.listen(_tell)
        return COMMANDS[given.command](app.create_entity_manager(), given)


def _tell(event: karzhoul.Event) -> None:
    print(f"{event.kind.value} of {type(event.object).__name__}", file=sys.stderr)


# ---- the commands


def _import(manager: karzhoul.EntityManager, given: argparse.Namespace) -> str:
    read, store = IMPORTS[given.kind]
    rows = read(given.file)
    with imports.Progress(len(rows)) as progress:
        store(manager.factory, rows, progress, given.size)
    return f"{len(rows)} {given.kind} are stored"


def _place(manager: karzhoul.EntityManager, given: argparse.Namespace) -> str:
    order = orders.place_order(manager, given.customer, given.wanted, given.day)
    return f"order {order.id} is placed: {order.total:.2f}"


def _change(manager: karzhoul.EntityManager, given: argparse.Namespace) -> str:
    order = orders.change_order(manager, given.order, given.wanted)
    return f"order {order.id} is changed: {order.total:.2f}"


def _ship(manager: karzhoul.EntityManager, given: argparse.Namespace) -> str:
    invoice = orders.ship_order(manager, given.order, given.day)
    return f"order {given.order} is shipped, with invoice {invoice.number}: {invoice.total:.2f}"


def _cancel(manager: karzhoul.EntityManager, given: argparse.Namespace) -> str:
    orders.cancel_order(manager, given.order)
    return f"order {given.order} is cancelled"


def _delete(manager: karzhoul.EntityManager, given: argparse.Namespace) -> str:
    orders.delete_order(manager, given.order)
    return f"order {given.order} is deleted"


def _report(manager: karzhoul.EntityManager, given: argparse.Namespace) -> str:
    return reports.table(reports.report(manager, given.name))


def _show(manager: karzhoul.EntityManager, given: argparse.Namespace) -> str:
    return reports.show(manager, given.kind, given.key)


IMPORTS: Dict[str, Tuple[Callable[[Path], Any], Callable[..., None]]] = {
    "products": (imports.read_products, imports.import_products),
    "customers": (imports.read_customers, imports.import_customers),
}

COMMANDS: Dict[str, Command] = {
    "import": _import,
    "place": _place,
    "change": _change,
    "ship": _ship,
    "cancel": _cancel,
    "delete": _delete,
    "report": _report,
    "show": _show,
}


# ---- the command line


def _parser() -> argparse.ArgumentParser:
    parser = argparse.ArgumentParser(
        prog="desk.py", description="An order desk over a database file."
    )
    parser.add_argument("--db", default="desk.db", help="the database file (desk.db)")
    parser.add_argument(
        "--events", action="store_true", help="tell the events of objects on standard error"
    )
    commands = parser.add_subparsers(dest="command", required=True, metavar="COMMAND")
    _add_data_commands(commands)
    _add_order_commands(commands)
    return parser


def _add_data_commands(commands: "argparse._SubParsersAction[argparse.ArgumentParser]") -> None:
    made = commands.add_parser("samples", help="write sample files products.csv and customers.csv")
    made.add_argument("folder", type=Path)
    made.add_argument("--products", type=_positive, default=20_000)
    made.add_argument("--customers", type=_positive, default=200)
    made = commands.add_parser("import", help="import a CSV file")
    made.add_argument("kind", choices=sorted(IMPORTS))
    made.add_argument("file", type=Path)
    made.add_argument(
        "--size", type=_positive, default=500, help="how many rows a transaction takes (500)"
    )
    made = commands.add_parser("report", help="print a report")
    made.add_argument("name", choices=sorted(reports.REPORTS))
    made = commands.add_parser("show", help="print an order, a customer or a product")
    made.add_argument("kind", choices=sorted(reports.SHOWN))
    made.add_argument("key")


def _add_order_commands(commands: "argparse._SubParsersAction[argparse.ArgumentParser]") -> None:
    made = commands.add_parser("place", help="place an order")
    made.add_argument("customer", type=int)
    made.add_argument("wanted", type=_wanted, nargs="+", metavar="SKU=QUANTITY")
    _add_day(made)
    made = commands.add_parser(
        "change", help="set how much an order takes of products; 0 takes a line out"
    )
    made.add_argument("order", type=int)
    made.add_argument("wanted", type=_wanted, nargs="+", metavar="SKU=QUANTITY")
    for name, words in (
        ("ship", "ship an order, with an invoice"),
        ("cancel", "cancel an order"),
        ("delete", "delete a cancelled order"),
    ):
        made = commands.add_parser(name, help=words)
        made.add_argument("order", type=int)
        if name == "ship":
            _add_day(made)


def _add_day(parser: argparse.ArgumentParser) -> None:
    parser.add_argument("--day", type=_day, default=date.today(), help="YYYY-MM-DD (today)")


def _day(word: str) -> date:
    try:
        return date.fromisoformat(word)
    except ValueError:
        raise argparse.ArgumentTypeError(f"{word!r} is no day: write it as 2026-11-29") from None


def _positive(word: str) -> int:
    number = int(word)
    if number < 1:
        raise argparse.ArgumentTypeError(f"{number} is less than 1")
    return number


def _wanted(word: str) -> Tuple[str, int]:
    sku, mark, quantity = word.rpartition("=")
    if not mark or not quantity.isdecimal():
        raise argparse.ArgumentTypeError(f"{word} is no SKU=QUANTITY, as P00001=2")
    return sku, int(quantity)


if __name__ == "__main__":
    sys.exit(main())
