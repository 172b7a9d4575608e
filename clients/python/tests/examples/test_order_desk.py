"""The order desk of examples/order-desk, over a file in a folder of the test's own.

KARZHOUL_DESK_ROWS says how many products the large import takes: 20000 is the whole one.
"""

from __future__ import annotations

import contextlib
import functools
import io
import os
import re
import shutil
import subprocess
import sys
import tempfile
import unittest
from datetime import date
from decimal import Decimal
from pathlib import Path
from typing import Any, Dict, List, Tuple
from unittest import mock

import karzhoul
from karzhoul import LifecycleEvent

from ..support import PROGRAM, TOP, needs_program, package_elsewhere, present

DESK = TOP / "examples" / "order-desk"
sys.path.insert(1, str(DESK))

import desk  # noqa: E402
import entities  # noqa: E402
import imports  # noqa: E402
import orders  # noqa: E402
import reports  # noqa: E402
import samples  # noqa: E402
from entities import (  # noqa: E402
    Company, Customer, Invoice, Order, OrderLine, OrderStatus, Place, Product,
)

ROWS = int(os.environ.get("KARZHOUL_DESK_ROWS", "120"))

PRODUCTS = """sku,name,price,stock,categories
P1,Lamp,12.50,10,light;office
P2,Chair,40.00,5,office
P3,Kettle,25.00,3,kitchen
"""
DAY = date(2026, 1, 5)
NEXT_DAY = date(2026, 1, 6)
CUSTOMERS = """number,name,city,vat
1,Ada,Ghent,
2,Bob & Co,Porto,EU2
"""


class FolderTest(unittest.TestCase):
    """A test with a folder of its own, in which files are written."""

    def setUp(self) -> None:
        place = tempfile.TemporaryDirectory()
        self.addCleanup(place.cleanup)
        self.folder = Path(place.name)
        self.db = self.folder / "desk.db"

    def written(self, name: str, text: str) -> Path:
        path = self.folder / name
        path.write_text(text, encoding="utf-8")
        return path


def untold(done: int) -> None:
    """Takes how far an import is, and tells nobody."""


@functools.lru_cache(maxsize=None)
def stored_desk() -> Dict[str, bytes]:
    """The files of a desk that has three products and two customers."""
    with tempfile.TemporaryDirectory() as place:
        folder = Path(place)
        (folder / "products.csv").write_text(PRODUCTS, encoding="utf-8")
        (folder / "customers.csv").write_text(CUSTOMERS, encoding="utf-8")
        with karzhoul.open(entities, folder / "desk.db", program=PROGRAM) as app:
            imports.import_products(app, imports.read_products(folder / "products.csv"), untold)
            imports.import_customers(app, imports.read_customers(folder / "customers.csv"), untold)
        return {file.name: file.read_bytes() for file in folder.glob("desk.db*")}


@needs_program
class DeskTest(FolderTest):
    """A test over a program of its own, with a copy of that desk."""

    def setUp(self) -> None:
        super().setUp()
        for name, data in stored_desk().items():
            (self.folder / name).write_bytes(data)
        self.open()

    def open(self) -> None:
        self.app = karzhoul.open(entities, self.db, program=PROGRAM)
        self.addCleanup(self.app.close)
        self.manager = self.app.create_entity_manager()

    def reopen(self) -> None:
        self.app.close()
        self.open()

    def stock(self, sku: str) -> int:
        return int(
            self.manager.query_single(
                "SELECT p.stock FROM Product p WHERE p.sku = :sku", params={"sku": sku}
            )
        )

    def lines(self, number: int) -> List[Tuple[int, str, int]]:
        """The lines of an order, each as its place, its product and its quantity."""
        order = present(self.manager, Order, number)
        return [(line.at.line, line.product.sku, line.quantity) for line in order.lines]


class Commands(FolderTest):
    """The flow from end to end, by the commands of a clerk."""

    def run_desk(self, *words: Any) -> Tuple[int, str, str]:
        out, err = io.StringIO(), io.StringIO()
        # As where the package lies in no clone, whose program would be started else.
        with mock.patch("karzhoul.store.finding._PACKAGE", self.folder), mock.patch.dict(
            os.environ, {"KARZHOUL_PROGRAM": str(PROGRAM)}
        ):
            with contextlib.redirect_stdout(out), contextlib.redirect_stderr(err):
                status = desk.main(["--db", str(self.db), *map(str, words)])
        return status, out.getvalue(), err.getvalue()

    def does(self, words: str, *told: str) -> None:
        self.assertEqual(
            self.run_desk(*words.split()), (0, "".join(f"{line}\n" for line in told), ""), words
        )

    def refuses(self, words: str, told: str) -> None:
        self.assertEqual(self.run_desk(*words.split()), (1, "", f"desk: {told}\n"), words)

    @needs_program
    def test_a_day_at_the_desk(self) -> None:
        self.does(
            f"import products {self.written('products.csv', PRODUCTS)}", "3 products are stored"
        )
        self.does(
            f"import customers {self.written('customers.csv', CUSTOMERS)}", "2 customers are stored"
        )
        self.does("place 2 P1=2 P2=1 --day 2026-01-05", "order 1 is placed: 65.00")
        self.does("place 1 P3=3 --day 2026-01-06", "order 2 is placed: 75.00")
        self.refuses("place 1 P1=1 P3=1", "P3: 0 in stock, and 1 more wanted")
        self.does("change 1 P1=4 P2=0", "order 1 is changed: 50.00")
        self.does("ship 1 --day 2026-01-07", "order 1 is shipped, with invoice 1: 50.00")
        self.refuses("change 1 P1=1", "order 1 is shipped, and stays as it is")
        self.does("cancel 2", "order 2 is cancelled")
        self.refuses("show order 99999999999999999999", "the key of Order is a whole number, and "
                     "99999999999999999999 is no number of 64 bits as it is stored")
        self.does("show product P3", "product P3: Kettle at 25.00, 3 in stock", "  in Kitchen")
        self.shows_and_reports()
        self.refuses("delete 1", "order 1 is shipped: cancel it before it is deleted")
        self.does("delete 2", "order 2 is deleted")
        self.refuses("show order 2", "there is no order 2")

    def shows_and_reports(self) -> None:
        order = ("order 1 of 2026-01-05, shipped, for Bob & Co", "  1: 4 of Lamp at 12.50")
        # It was written by two commits after its first one, the change and the shipping.
        self.does(
            "show order 1", *order, "  total 50.00, changed 2 times", "  invoice 1 of 2026-01-07"
        )
        company = "company 2: Bob & Co, Porto, VAT EU2"
        self.does("show customer 2", company, "  order 1 of 2026-01-05, shipped: 50.00")
        customers = ("number  name      orders  turnover", "2       Bob & Co  1       50.00")
        self.does("report customers", *customers)
        self.does("report products", "sku  name  sold  turnover", "P1   Lamp  4     50.00")
        self.does("report statuses", "status     orders", "cancelled  1", "shipped    1")
        self.does("report companies", "number  name      vat", "2       Bob & Co  EU2")
        categories = (
            "category  products  stock", "Kitchen   1         3", "Light     1         6",
            "Office    2         11",
        )
        self.does("report categories", *categories)

    @needs_program
    def test_events_are_told_with_their_classes(self) -> None:
        path = self.written("customers.csv", CUSTOMERS)
        status, _, told = self.run_desk("--events", "import", "customers", path)
        wanted = [
            "PrePersist of Customer",
            "PrePersist of Company",
            "PostPersist of Customer",
            "PostPersist of Company",
        ]
        self.assertEqual((status, told.splitlines()), (0, wanted))

    def test_words_that_are_no_command(self) -> None:
        wrong = (
            "place 1 P1", "place 1 P1=x", "place 1 P1=1 --day 2026-13-01",
            "import products a.csv --size 0", "report all",
        )
        for words in wrong:
            with self.subTest(words), self.assertRaises(SystemExit) as ended:
                self.run_desk(*words.split())
            self.assertEqual(ended.exception.code, 2)

    @needs_program
    @unittest.skipUnless(os.name == "posix", "its blocks are for a POSIX shell")
    def test_the_page_prints_what_it_says(self) -> None:
        page = (DESK / "README.md").read_text(encoding="utf-8")
        found = re.findall(
            r"^```sh\n(.*?)^```\n(?:\n```text\n(.*?)^```$)?", page, re.MULTILINE | re.DOTALL
        )
        (beginning, _), *blocks = found
        own = {
            "KARZHOUL_PROGRAM": str(PROGRAM), "TMPDIR": str(self.folder),
            "PYTHONDONTWRITEBYTECODE": "1",
        }
        # In no clone, whose program would be started else.
        top = self.folder / "top"
        package_elsewhere(str(top))
        shutil.copytree(
            DESK, top / "examples" / "order-desk", ignore=shutil.ignore_patterns("__pycache__")
        )
        self.assertEqual(page.count("```sh\n"), 1 + len(blocks))
        for block, printed in blocks:
            with self.subTest(block):
                words = ["bash", "-euc", f"{beginning}\n{block}"]
                ran = subprocess.run(
                    words, cwd=top, env={**os.environ, **own}, capture_output=True, text=True,
                    timeout=100,
                )
                self.assertEqual((ran.stdout, ran.stderr, ran.returncode), (printed, "", 0))


class Orders(DeskTest):
    def test_lists_of_queried_orders_take_changes_that_stay(self) -> None:
        orders.place_order(self.manager, 1, [("P1", 1), ("P2", 2)], DAY)
        self.reopen()
        [order] = self.manager.query("SELECT o FROM Order o")
        [lamps, chairs] = order.lines
        with self.manager.transaction():
            kettles = OrderLine(
                at=Place(order=order.id, line=3), order=order, quantity=1, price=Decimal("25.00"),
                product=present(self.manager, Product, "P3"),
            )
            order.lines.append(kettles)
            order.lines.remove(lamps)
        self.assertEqual(list(order.lines), [chairs, kettles])
        self.reopen()
        self.assertEqual(self.lines(1), [(2, "P2", 2), (3, "P3", 1)])
        self.assertIsNone(self.manager.find(OrderLine, (1, 1)))
        [order] = self.manager.query("SELECT o FROM Order o")
        with self.manager.transaction():
            order.lines.clear()
        self.reopen()
        self.assertEqual(self.manager.query_single("SELECT COUNT(l) FROM OrderLine l"), 0)

    def test_a_company_found_as_a_customer_is_a_company(self) -> None:
        company, person = (present(self.manager, Customer, number) for number in (2, 1))
        self.assertTrue(isinstance(company, Company))
        self.assertTrue(isinstance(person, Customer) and not isinstance(person, Company))
        with self.assertRaises(AttributeError):
            person.vat = "EU1"
        with self.manager.transaction():
            company.vat = "EU22"
        self.reopen()
        [found] = self.manager.query("SELECT c FROM Customer c WHERE c.number = 2")
        self.assertEqual((isinstance(found, Company), found.vat), (True, "EU22"))

    def test_the_customer_of_an_order_is_of_its_own_class(self) -> None:
        orders.place_order(self.manager, 2, [("P1", 1)], DAY)
        self.reopen()
        customer = present(self.manager, Order, 1).customer
        self.assertEqual((isinstance(customer, Company), customer.vat), (True, "EU2"))

    def test_events_name_their_classes(self) -> None:
        orders.place_order(self.manager, 2, [("P1", 1)], DAY)
        self.manager.clear()
        told: List[Tuple[str, str]] = []
        self.app.listen(lambda event: told.append((event.kind.value, type(event.object).__name__)))
        orders.ship_order(self.manager, 1, NEXT_DAY)
        self.assertEqual(
            told,
            [
                ("PostLoad", "Order"), ("PostLoad", "OrderLine"), ("PrePersist", "Invoice"),
                ("PreUpdate", "Order"), ("PostUpdate", "Order"), ("PostPersist", "Invoice"),
            ],
        )

    def test_with_lets_an_exception_through(self) -> None:
        with self.assertRaisesRegex(RuntimeError, "the telephone rang"):
            with self.app.create_entity_manager() as manager:
                manager.transaction().begin()
                manager.persist(Customer(number=3, name="Cy"))
                raise RuntimeError("the telephone rang")
        with self.manager.transaction():  # Which is no longer Busy.
            self.assertIsNone(self.manager.find(Customer, 3))

    def test_a_refused_order_takes_nothing_out_of_the_stock(self) -> None:
        for wanted, told in (
            ([("P1", 2), ("P3", 4)], "P3: 3 in stock, and 4 more wanted"),
            ([("P1", 1), ("P9", 1)], "there is no product P9"),
            ([("P1", 0)], "an order takes one product at least"),
            ([("P1", -1)], "-1 of P1 can't be ordered"),
        ):
            with self.subTest(told), self.assertRaisesRegex(orders.DeskError, f"^{told}$"):
                orders.place_order(self.manager, 1, wanted, DAY)
        with self.assertRaisesRegex(orders.DeskError, "^there is no customer 3$"):
            orders.place_order(self.manager, 3, [("P1", 1)], DAY)
        self.assertEqual([self.stock(sku) for sku in ("P1", "P3")], [10, 3])
        self.assertEqual(self.manager.query("SELECT o FROM Order o"), [])

    def test_a_line_is_found_by_its_order_and_number(self) -> None:
        order = orders.place_order(self.manager, 1, [("P1", 1), ("P2", 2)], DAY)
        self.assertEqual([line.at for line in order.lines],
                         [Place(order=1, line=1), Place(order=1, line=2)])
        self.reopen()
        line = present(self.manager, OrderLine, Place(order=1, line=2))
        self.assertEqual((line.product.sku, line.price), ("P2", Decimal("40.00")))
        for key in ((1,), (1, 2, 3), (1, "2")):
            with self.subTest(key), self.assertRaises(karzhoul.WrongValue):
                self.manager.find(OrderLine, key)

    def test_an_order_that_another_clerk_changed_meanwhile(self) -> None:
        orders.place_order(self.manager, 1, [("P1", 1)], DAY)
        other = self.app.create_entity_manager()
        held = present(other, Order, 1)  # As it is now, for as long as the other one holds it.
        orders.change_order(self.manager, 1, [("P2", 1)])
        with self.assertRaises(karzhoul.Rollback) as refused:
            orders.change_order(other, 1, [("P3", 1)])
        self.assertIsInstance(refused.exception.cause, karzhoul.OptimisticLock)
        self.assertEqual((self.lines(1), self.stock("P3")), ([(1, "P1", 1), (2, "P2", 1)], 3))

    def test_a_status_is_one_of_three(self) -> None:
        order: Any = orders.place_order(self.manager, 1, [("P1", 1)], DAY)
        with self.assertRaises(karzhoul.WrongValue):
            order.status = "lost"
        found = self.manager.query("SELECT o.status FROM Order o")
        self.assertEqual(found, [OrderStatus.PLACED])

    def test_a_name_is_no_blank(self) -> None:
        told = "^a customer needs a name$"
        with self.assertRaisesRegex(ValueError, told):
            Customer(number=3, name=" ")
        customer = present(self.manager, Customer, 1)
        with self.assertRaisesRegex(ValueError, told), self.manager.transaction():
            customer.name = ""
        self.reopen()
        self.assertEqual(present(self.manager, Customer, 1).name, "Ada")

    def test_an_order_and_its_invoice_and_lines_go_together(self) -> None:
        orders.place_order(self.manager, 1, [("P1", 1), ("P2", 1)], DAY)
        orders.ship_order(self.manager, 1, NEXT_DAY)
        self.reopen()
        order = present(self.manager, Order, 1)
        assert order.invoice is not None
        self.assertIs(order.invoice.order, order)
        with self.manager.transaction():
            self.manager.remove(order)
        for kind in (Order, OrderLine, Invoice):
            count = self.manager.one(f"SELECT COUNT(x) FROM {kind.__name__} x")
            self.assertEqual(count, 0)


class Imports(DeskTest):
    def test_rows_that_there_are_get_new_values(self) -> None:
        text = (
            "sku,name,price,stock,categories\nP1,Lamp,13.00,20,bath\n"
            "P4,Mirror,99.90,1,bath;office\n"
        )
        imports.import_products(
            self.app, imports.read_products(self.written("more.csv", text)), untold, size=1
        )
        rows = self.manager.query("SELECT p.sku, p.price, p.stock FROM Product p")
        self.assertEqual(
            rows,
            [["P1", Decimal("13.00"), 20], ["P2", Decimal("40.00"), 5],
             ["P3", Decimal("25.00"), 3], ["P4", Decimal("99.90"), 1]],
        )
        _, *categories = reports.report(self.manager, "categories")
        self.assertEqual(
            categories,
            [["Bath", "2", "21"], ["Kitchen", "1", "3"], ["Light", "0", "0"], ["Office", "2", "6"]],
        )

    def test_a_customer_stays_of_its_class(self) -> None:
        text = "number,name,city,vat\n3,Cy,Graz,\n1,Ada,Ghent,EU1\n"
        rows = imports.read_customers(self.written("more.csv", text))
        with self.assertRaisesRegex(
            orders.DeskError, "^customer 1 stays what it is, a company or none$"
        ):
            imports.import_customers(self.app, rows, untold, size=1)
        self.assertEqual(self.manager.query("SELECT c.number FROM Customer c"), [1, 2])

    def test_an_import_goes_on_in_a_run_of_its_own_where_no_more_objects_are_made(self) -> None:
        refusals = [karzhoul.Limit()]

        def store(manager: karzhoul.EntityManager, rows: Any) -> None:
            if refusals and rows[0].sku == "P5":
                raise refusals.pop()
            for row in rows:
                manager.persist(
                    Product(sku=row.sku, name=row.name, price=row.price, stock=row.stock)
                )

        told: List[int] = []
        rows = [imports.ProductRow(f"P{n}", "Clock", Decimal(1), n, ()) for n in (4, 5, 6)]
        imports.import_rows(self.app, rows, store, told.append, size=1)
        self.assertEqual((told, refusals), ([1, 2, 3], []))
        manager = self.app.create_entity_manager()
        self.assertEqual(
            manager.query("SELECT p.sku FROM Product p"), ["P1", "P2", "P3", "P4", "P5", "P6"]
        )

    def test_a_large_import(self) -> None:
        samples.write_samples(self.folder, ROWS, 8)
        rows = imports.read_products(self.folder / "products.csv")
        imports.import_products(self.app, rows, untold, size=min(max(ROWS // 4, 1), 500))
        self.reopen()
        large = "FROM Product p {} WHERE p.sku LIKE 'P_____'"
        stored = self.manager.query_single(
            f"SELECT COUNT(p), SUM(p.price), SUM(p.stock) {large.format('')}"
        )
        # By the rules of the samples: product n costs 100 + 37n modulo 20,000 cents, and 7n modulo
        # 500 are in stock.
        prices = sum(100 + n * 37 % 20_000 for n in range(1, ROWS + 1))
        stocks = sum(n * 7 % 500 for n in range(1, ROWS + 1))
        self.assertEqual(stored, [ROWS, Decimal(prices) / 100, stocks])
        links = self.manager.query_single(f"SELECT COUNT(p) {large.format('JOIN p.categories c')}")
        # n and n * n are the same modulo 5 where n is 0 or 1 modulo 5; else there are two
        # categories.
        self.assertEqual(links, sum(1 if n % 5 < 2 else 2 for n in range(1, ROWS + 1)))


class Files(FolderTest):
    """What is read of a file, and refused before anything is stored."""

    def test_rows(self) -> None:
        products = imports.read_products(self.written("products.csv", PRODUCTS))
        self.assertEqual(products[0], ("P1", "Lamp", Decimal("12.50"), 10, ("light", "office")))
        customers = imports.read_customers(self.written("customers.csv", CUSTOMERS))
        self.assertEqual(customers, [(1, "Ada", "Ghent", ""), (2, "Bob & Co", "Porto", "EU2")])

    def test_a_row_that_is_none_is_named_by_its_line(self) -> None:
        for row, told in (
            ("P2,Chair,40,5,office", "price is to be a sum such as 12.50, and is '40'"),
            (
                "P2,Chair,40.00,-5,office",
                "stock is to be a whole number up to 1000000000000, and is '-5'",
            ),
            (
                "P2,Chair,40.00,1000000000001,",
                "stock is to be a whole number up to 1000000000000, and is '1000000000001'",
            ),
            ("P2,,40.00,5,office", "name is missing"),
            ("P2, ,40.00,5,office", "name is missing"),
            (",Chair,40.00,5,office", "sku is missing"),
            ("P2,Chair,40.00", "5 cells are to stand here"),
            ("P2,Chair,40.00,5,office,1", "5 cells are to stand here"),
            ("P1,Chair,40.00,5,office", "sku P1 stands in line 2 already"),
        ):
            path = self.written(
                "rows.csv", f"sku,name,price,stock,categories\nP1,Lamp,12.50,10,\n{row}\n"
            )
            with self.subTest(row), self.assertRaises(orders.DeskError) as refused:
                imports.read_products(path)
            self.assertEqual(str(refused.exception), f"{path}:3: {told}")

    def test_a_file_that_is_none(self) -> None:
        path = self.written("rows.csv", "name,sku\n")
        with self.assertRaisesRegex(
            orders.DeskError, ":1: the columns are to be number,name,city,vat$"
        ):
            imports.read_customers(path)
        path.write_bytes(b"number,name,city,vat\n1,\xff,,\n")
        with self.assertRaisesRegex(orders.DeskError, "this is no CSV file in UTF-8"):
            imports.read_customers(path)
        with self.assertRaisesRegex(orders.DeskError, "No such file or directory$"):
            imports.read_customers(self.folder / "none.csv")

    def test_samples_can_be_read(self) -> None:
        samples.write_samples(self.folder / "new", 5, 4)
        products = imports.read_products(self.folder / "new" / "products.csv")
        row = "P00002", "Kettle, blue", Decimal("1.74"), 14, ("office", "light")
        self.assertEqual(products[1], row)
        self.assertEqual(len(products), 5)
        customers = imports.read_customers(self.folder / "new" / "customers.csv")
        self.assertEqual(
            customers[2:], [(3, "Dan", "Tartu", ""), (4, "Eve & Co", "Graz", "EU00000004")]
        )


class Terminal(io.StringIO):
    def isatty(self) -> bool:
        return True


class Progresses(unittest.TestCase):
    def test_a_terminal_is_told_how_far_it_is(self) -> None:
        times, terminal = iter([0.0, 10.0, 40.0]), Terminal()
        with imports.Progress(20_000, terminal, lambda: next(times)) as progress:
            progress(2_500)
            progress(20_000)
        shown = [line.rstrip(" ") for line in terminal.getvalue().replace("\n", "|").split("\r")]
        self.assertEqual(shown[:2], ["", "2,500 of 20,000 rows, 250 a second, 1:10 left"])
        self.assertRegex(shown[2], r"^20,000 of 20,000 rows, 500 a second, 0:00 left +\|$")

    def test_a_pipe_is_told_nothing(self) -> None:
        pipe = io.StringIO()
        with imports.Progress(10, pipe) as progress:
            progress(5)
        self.assertEqual(pipe.getvalue(), "")


if __name__ == "__main__":
    unittest.main()
