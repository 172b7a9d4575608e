"""Modules of classes for the tests, each written to a file of its own and imported."""

from __future__ import annotations

import importlib.util
import itertools
import shutil
import sys
import tempfile
import unittest
from pathlib import Path
from types import ModuleType
from typing import Any

import karzhoul

from .support import HERE, PROGRAM

_NUMBERS = itertools.count(1)
HEAD = """from __future__ import annotations
from datetime import date, datetime, time, timedelta, timezone
from decimal import Decimal
from enum import Enum
from typing import ClassVar, List, Optional, Union
from uuid import UUID
from karzhoul import *
"""


class ClassesTest(unittest.TestCase):
    """A folder with modules of classes, their lock, and a store."""

    def setUp(self) -> None:
        self.folder = Path(tempfile.mkdtemp(prefix="karzhoul-classes-"))
        self.addCleanup(shutil.rmtree, self.folder)
        self.lock, self.db = self.folder / "karzhoul.lock.json", self.folder / "app.db"

    def module(self, text: str) -> ModuleType:
        """The module of a text, behind what all of them import: its first line is the 8th."""
        file = self.folder / f"karzhoul_models_{next(_NUMBERS)}.py"
        file.write_text(HEAD + text)
        return self._imported(file)

    def example(self, name: str) -> ModuleType:
        """A module of the tests' data."""
        file = self.folder / name
        file.write_text((HERE / "data" / name).read_text())
        return self._imported(file)

    def _imported(self, file: Path) -> ModuleType:
        name = file.stem
        spec = importlib.util.spec_from_file_location(name, file)
        assert spec is not None and spec.loader is not None
        module = importlib.util.module_from_spec(spec)
        sys.modules[name] = module
        self.addCleanup(sys.modules.pop, name)
        spec.loader.exec_module(module)
        return module

    def open(self, given: Any, *, in_memory: bool = False) -> karzhoul.EntityManagerFactory:
        """A factory of a module, or of the text of one."""
        module = self.module(given) if isinstance(given, str) else given
        db = None if in_memory else str(self.db)
        app = karzhoul.open(module, db, program=PROGRAM, lock=self.lock)
        self.addCleanup(app.close)
        return app

    def raw(self, module: ModuleType) -> karzhoul.EntityManagerFactory:
        """A factory of the mapping of a module, with values as they are stored."""
        from karzhoul.classes.changes import make

        app = karzhoul.open(make(module, self.lock).mapping, str(self.db), program=PROGRAM)
        self.addCleanup(app.close)
        return app
