"""What a type checker says: of the package, of programs that use it, and of typed classes."""

from __future__ import annotations

import builtins
import os
import shutil
import subprocess
import tempfile
import typing
import unittest
from pathlib import Path
from typing import Dict, List

import karzhoul
from karzhoul.mapping.typed import module_of

from .support import HERE

MYPY = shutil.which("mypy") or ""
needs_mypy = unittest.skipUnless(MYPY, "there is no mypy on the PATH: Debian's package mypy has it")

SHOP = {
    "revision": 1,
    "entities": [
        {
            "name": "Customer", "table": 1, "key": [{"name": "id", "type": "int"}],
            "generated": True,
            "attributes": [
                {"name": "name", "type": "text", "column": 1},
                {"name": "email", "type": "text", "column": 2, "required": True},
            ],
            "relations": [
                {"name": "orders", "kind": "oneToMany", "target": "Order", "mappedBy": "customer"}
            ],
        },
        {
            "name": "Firm",
            "extends": "Customer",
            "attributes": [{"name": "seal", "type": "bytes", "column": 3}],
        },
        {
            "name": "Order",
            "table": 2,
            "key": [{"name": "number", "type": "int"}],
            "relations": [
                {
                    "name": "customer", "kind": "manyToOne", "target": "Customer", "column": 1,
                    "required": True,
                }
            ],
        },
        {
            "name": "Place",
            "table": 3,
            "key": [{"name": "row", "type": "int"}, {"name": "shelf", "type": "text"}],
            "embedded": "at",
        },
    ],
}
START = """from __future__ import annotations
import karzhoul
app = karzhoul.open("mapping.json")
m = app.create_entity_manager()
"""
TYPED = f"{START}from shop import Customer, Firm, Order, Place, Place_at\n"


def complaints(files: Dict[str, str], name: str = "program.py") -> List[str]:
    """What mypy finds in one of these files, which stand in one folder."""
    with tempfile.TemporaryDirectory() as place:
        for each, text in files.items():
            Path(place, each).write_text(text, encoding="utf-8")
        words = [
            MYPY, "--strict", "--follow-imports=silent", "--no-error-summary", "--cache-dir",
            CACHE.name, name,
        ]
        env = {**os.environ, "MYPYPATH": str(HERE.parent)}
        checked = subprocess.run(
            words, cwd=place, env=env, capture_output=True, text=True, timeout=900
        )
    if checked.returncode not in (0, 1):
        raise AssertionError(checked.stderr)
    return [
        line
        for line in checked.stdout.splitlines()
        if ": note: Revealed" in line or ": error: " in line
    ]


CACHE = tempfile.TemporaryDirectory()
unittest.addModuleCleanup(CACHE.cleanup)


@needs_mypy
class Package(unittest.TestCase):
    def test_it_and_its_tests_are_clean(self) -> None:
        """As pyproject.toml says it: strict."""
        words = [MYPY, "--cache-dir", CACHE.name]
        checked = subprocess.run(
            words, cwd=HERE.parent, capture_output=True, text=True, timeout=900
        )
        self.assertEqual((checked.returncode, checked.stderr), (0, ""), checked.stdout)


@needs_mypy
class Programs(unittest.TestCase):
    def passes(self, *lines: str) -> None:
        self.assertEqual(complaints({"program.py": START + "\n".join(lines) + "\n"}), [])

    def test_classes_and_objects(self) -> None:
        self.passes(
            'Customer = app.entity("Customer")',
            'c = Customer(name="Ada")',
            'c.name = "Eve"',
            'o = app.new("Order", number=1)',
            "c.orders.append(o)",
            'print(app.new("X", a=1).name)',
            'for each in app.new_many("X", [{"a": 1}]):',
            "    each.a = each.b",
            "def shown(it: karzhoul.Entity) -> object:",
            "    return it.name",
        )

    def test_managers(self) -> None:
        self.passes(
            'print(m.get_reference("X", 1).name)', 'found = m.find("X", 1)',
            "if found is not None:", '    found.name = "Eve"',
            'print([each.name for each in m.find_many("X", [1, 2]) if each])',
            'for row in m.query("SELECT x FROM X x WHERE x.id = ?1", params={1: 2}):',
            "    print(row.name)",
            'for row in m.query("SELECT x FROM X x WHERE x.id = :id", app.entity("X"), '
            'params={"id": 2}):',
            "    print(row.name)",
            'm.merge(m.get_reference("X", 1)).name = "Eve"',
        )

    def test_indexes(self) -> None:
        self.passes(
            'named = {"X": ["name"]}', 'karzhoul.open("mapping.json", indexes=named)',
            "class Y(karzhoul.Entity):", "    id: int = karzhoul.key()",
            'karzhoul.open([Y], indexes={Y: ["id"]})', 'karzhoul.open([Y], indexes={"Y": ("id",)})',
        )
        wrong = f'{START}karzhoul.open("mapping.json", indexes={{"X": 1}})\n'
        self.assertEqual(len(complaints({"program.py": wrong})), 1)

    def test_every_name_is_known(self) -> None:
        names = [*karzhoul.__all__, "Collection", "Mapping", "open"]
        self.passes(*(f"karzhoul.{name}" for name in names))


@needs_mypy
class TypedClasses(unittest.TestCase):
    def says(self, *lines: str) -> List[str]:
        """What mypy reveals and refuses, in short."""
        found = complaints(
            {
                "shop.py": module_of(SHOP, "mapping.json"),
                "program.py": TYPED + "\n".join(lines) + "\n",
            }
        )
        return [
            line.split(": note: Revealed type is ")[-1]
            .split(": error: ")[-1]
            .replace("builtins.", "")
            for line in found
        ]

    def test_the_module_is_clean(self) -> None:
        self.assertEqual(complaints({"shop.py": module_of(SHOP, "mapping.json")}, "shop.py"), [])

    def test_what_is_meant_passes(self) -> None:
        told = self.says(
            "def f(x: Customer) -> None:",
            '    x.name = "Eve"',
            "    x.orders.append(app.new(Order, number=1, customer=x))",
            "    x.orders = [order for order in x.orders if order.number]",
            "    m.persist(x)",
            'f(app.entity(Customer)(name="Ada", orders=[]))',
            'f(app.new(Firm, seal=b""))',
            "place = app.entity(Place)(at=(1, 'a'))",
            "place.at.shelf = 'b'",
            "place.at = (2, 'c')",
            "any_entity: karzhoul.Entity = place",
        )
        self.assertEqual(told, [])

    def test_types_of_members_and_answers(self) -> None:
        told = self.says(
            "c = m.get_reference(Customer, 1)",
            *(
                f"reveal_type({said})"
                for said in (
                    "c", "c.id", "c.name", "c.email", "c.orders", "c.orders[0].customer",
                    "app.new(Firm).seal",
                )
            ),
            *(
                f"reveal_type({said})"
                for said in (
                    "m.find(Order, 1)", "app.new_many(Order, [])", "m.merge(c)",
                    "app.new(Place).at.row",
                )
            ),
        )
        wanted = [
            "shop.Customer", "int", "Union[str, None]", "str",
            "karzhoul.objects.entities.Collection[shop.Order]",
            "shop.Customer",
        ]
        wanted += [
            "Union[bytes, None]", "Union[shop.Order, None]", "list[shop.Order]", "shop.Customer",
            "int",
        ]
        self.assertEqual([line.strip('"') for line in told], wanted)

    def test_what_is_wrong_is_told(self) -> None:
        for line in (
            'app.new(Customer).nmae = "Eve"',
            "print(app.new(Customer).nmae)",
            "app.new(Customer).name = 7",
            "app.new(Customer).orders.append(app.new(Place))",
            "app.new(Customer).orders = [app.new(Place)]",
            'app.entity(Customer)(nmae="Eve")',
            "app.new(Place).at.shelf = 1",
            "app.new(Place).at.shlef",
        ):
            with self.subTest(line):
                self.assertEqual(len(self.says(line)), 1)


class Exported(unittest.TestCase):
    def test_a_star_shadows_no_name_of_python(self) -> None:
        self.assertEqual(set(karzhoul.__all__) & {*dir(builtins), *typing.__all__}, set())

    def test_every_refusal_is_exported(self) -> None:
        for name in karzhoul.refusals.__all__:
            self.assertTrue(hasattr(karzhoul, name), name)
        self.assertEqual({*karzhoul.refusals.__all__} - {*karzhoul.__all__}, {"Mapping"})


if __name__ == "__main__":
    unittest.main()
