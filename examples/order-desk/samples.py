"""CSV files to try the desk with: the same ones for the same numbers of rows."""

from __future__ import annotations

import csv
from pathlib import Path
from typing import Iterable, Sequence

from imports import CustomerRow, ProductRow
from orders import DeskError

THINGS = ("Lamp", "Chair", "Kettle", "Brush", "Ladder", "Clock", "Basket", "Mirror")
KINDS = ("oak", "brass", "blue", "small", "folding", "plain", "grand")
CATEGORIES = ("kitchen", "garden", "office", "bath", "light")
NAMES = ("Ada", "Bob", "Cleo", "Dan", "Eve", "Finn", "Gwen", "Hal")
CITIES = ("Bergen", "Ghent", "Porto", "Tartu", "Graz")


def write_samples(folder: Path, products: int, customers: int) -> None:
    """Writes products.csv and customers.csv into a folder, which is made where there is none."""
    try:
        folder.mkdir(parents=True, exist_ok=True)
        _write(folder / "products.csv", ProductRow._fields, map(_product, range(1, products + 1)))
        _write(
            folder / "customers.csv", CustomerRow._fields, map(_customer, range(1, customers + 1))
        )
    except OSError as fault:
        raise DeskError(f"{fault.filename}: {fault.strerror}") from fault


def _write(path: Path, columns: Sequence[str], rows: Iterable[Sequence[object]]) -> None:
    with path.open("w", encoding="utf-8", newline="") as file:
        writer = csv.writer(file)
        writer.writerow(columns)
        writer.writerows(rows)


def _product(n: int) -> Sequence[object]:
    cents = 100 + n * 37 % 20_000
    categories = dict.fromkeys(CATEGORIES[place % len(CATEGORIES)] for place in (n, n * n))
    name = f"{THINGS[n % len(THINGS)]}, {KINDS[n % len(KINDS)]}"
    return f"P{n:05}", name, f"{cents // 100}.{cents % 100:02}", n * 7 % 500, ";".join(categories)


def _customer(n: int) -> Sequence[object]:
    """A customer; every fourth one is a company."""
    name, city = NAMES[n % len(NAMES)], CITIES[n % len(CITIES)]
    return (n, f"{name} & Co", city, f"EU{n:08}") if n % 4 == 0 else (n, name, city, "")
