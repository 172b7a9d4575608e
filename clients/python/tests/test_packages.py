"""The packages of the client: which of them know which others, and what none of them looks at."""

from __future__ import annotations

import ast
import unittest
from pathlib import Path
from typing import Dict, Iterator, List, Set, Tuple

import karzhoul

PACKAGE = Path(karzhoul.__file__).parent
LAYERS: Tuple[Tuple[str, ...], ...] = (
    ("told",), ("refusals",), ("wire",), ("mapping",), ("jpql",), ("store",), ("objects", "classes", "queries"),
    ("stubs", "explain"), ("session",), ("showing",), ("records",), ("server",), ("migrating",),
    ("exporting",), ("console",), ("cli",),
)
"""From below: as it is loaded, a package needs none of a later layer."""
TESTS = Path(__file__).parent
OF_ALL = {
    "test_building", "test_packages", "test_refusals", "test_stubs", "test_types",
}
"""Tests of modules beside the packages, and of the client as a whole."""
PAGES = {"papers", "examples"}
"""Folders of tests of what the repository says of the client: its pages and its applications."""
LOOKS = {"_getframe", "__traceback__", "tb_frame", "tb_next", "tb_lineno", "f_locals"}


def _loaded(body: List[ast.stmt]) -> Iterator[ast.ImportFrom]:
    """The imports that are done as a module is loaded."""
    for part in body:
        if isinstance(part, ast.ImportFrom):
            yield part
        elif isinstance(part, ast.If) and "TYPE_CHECKING" not in ast.dump(part.test):
            yield from _loaded(part.body)


def _named(path: Path, found: ast.ImportFrom) -> List[Tuple[str, ...]]:
    """The places, from the package's folder on, that an import names."""
    above = path.relative_to(PACKAGE).parts[: -found.level] if found.level else ()
    module = tuple((found.module or "").split(".")) if found.module else ()
    if not found.level:
        return [module[1:]] if module[:1] == ("karzhoul",) else []
    return [above + module] if module else [(*above, each.name) for each in found.names]


class Packages(unittest.TestCase):
    def sources(self) -> Iterator[Tuple[Path, ast.Module]]:
        for path in sorted(PACKAGE.rglob("*.py")):
            yield path, ast.parse(path.read_text(encoding="utf-8"))

    def test_a_package_needs_none_of_a_later_layer(self) -> None:
        height: Dict[str, int] = {
            name: at for at, layer in enumerate(LAYERS) for name in layer
        }
        wrong: Set[str] = set()
        for path, tree in self.sources():
            own = path.relative_to(PACKAGE).with_suffix("").parts[0]
            if own.startswith("__"):
                continue
            for found in _loaded(tree.body):
                for place in _named(path, found):
                    if place and height[place[0]] > height[own]:
                        wrong.add(f"{path.relative_to(PACKAGE)} needs {'.'.join(place)}")
        self.assertEqual(sorted(wrong), [])

    def test_each_package_says_what_it_is_for(self) -> None:
        for layer in LAYERS:
            for name in layer:
                folder = PACKAGE / name
                if folder.is_dir():
                    said = ast.get_docstring(ast.parse((folder / "__init__.py").read_text()))
                    self.assertTrue(said, name)

    def test_each_module_of_tests_is_in_a_folder_of_its_package(self) -> None:
        packages = {name for layer in LAYERS for name in layer if (PACKAGE / name).is_dir()}
        folders: Dict[str, Set[str]] = {}
        for path in TESTS.rglob("test_*.py"):
            folders.setdefault(str(path.parent.relative_to(TESTS)), set()).add(path.stem)
        self.assertEqual(folders.pop("."), OF_ALL)
        self.assertEqual(set(folders), packages | PAGES)
        for folder in folders:  # As the tests in it import their neighbours.
            self.assertTrue((TESTS / folder / "__init__.py").is_file(), folder)

    def test_no_frame_is_walked_and_no_traceback_read(self) -> None:
        """The handler of Ctrl-C alone looks at where it came: at the frame that it is handed."""
        found = {
            str(path.relative_to(PACKAGE))
            for path, tree in self.sources()
            for part in ast.walk(tree)
            if isinstance(part, ast.Attribute) and part.attr in LOOKS | {"f_code", "f_back"}
        }
        self.assertEqual(found, {"session/interrupts.py"})


if __name__ == "__main__":
    unittest.main()
