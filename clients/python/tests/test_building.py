"""The wheels: the plain one, and the one that brings the program, with a stand-in for it."""

from __future__ import annotations

import configparser
import email
import importlib.util
import os
import platform
import subprocess
import sys
import tempfile
import unittest
import zipfile
from pathlib import Path
from typing import Any

import karzhoul

from .support import HERE, STUB, FolderTest


def builder() -> Any:
    """The module that builds them."""
    spec = importlib.util.spec_from_file_location(
        "wheel_builder", HERE.parent / "building" / "wheel_builder.py"
    )
    assert spec is not None and spec.loader is not None
    module = importlib.util.module_from_spec(spec)
    spec.loader.exec_module(module)
    return module


def takes_the_program() -> bool:
    """Whether pip installs the wheel on this machine."""
    name, version = platform.libc_ver()
    numbers = tuple(int(part) for part in version.split(".")[:2]) if name == "glibc" else (0,)
    return os.uname()[0::4] == ("Linux", "x86_64") and numbers >= (2, 34)


class Wheels(FolderTest):
    def test_the_plain_one_is_for_any_system_and_brings_no_program(self) -> None:
        name = builder().build_wheel(self.place)
        self.assertTrue(name.endswith("-py3-none-any.whl"), name)
        with zipfile.ZipFile(Path(self.place, name)) as wheel:
            self.assertEqual([it for it in wheel.namelist() if "jpa" in it or "NOTICES" in it], [])
            self.assertIn("karzhoul/mapping/linter/rules.py", wheel.namelist())

    @unittest.skipIf(sys.version_info < (3, 11), "Python reads TOML from version 3.11 on")
    def test_it_has_the_metadata_of_pyproject(self) -> None:
        import tomllib

        text = (HERE.parent / "pyproject.toml").read_text(encoding="utf-8")
        project = tomllib.loads(text)["project"]
        with zipfile.ZipFile(Path(self.place, builder().build_wheel(self.place))) as wheel:
            info = f"karzhoul-{karzhoul.__version__}.dist-info"
            told = email.message_from_bytes(wheel.read(f"{info}/METADATA"))
            commands = configparser.ConfigParser()
            commands.read_string(wheel.read(f"{info}/entry_points.txt").decode())
        self.assertEqual(told["Name"], project["name"])
        self.assertEqual(told["Version"], karzhoul.__version__)
        self.assertEqual(told["Summary"], project["description"])
        self.assertEqual(told["Requires-Python"], project["requires-python"])
        readme = (HERE.parent / project["readme"]).read_bytes().decode()
        self.assertEqual(told.get_payload(), readme)
        self.assertEqual(dict(commands["console_scripts"]), project["scripts"])

    def test_the_same_files_are_the_same_wheel(self) -> None:
        first, second = (tempfile.mkdtemp(dir=self.place) for _ in range(2))
        names = [
            builder().build_program_wheel(it, b"a program", b"notices") for it in (first, second)
        ]
        self.assertTrue(names[0].endswith("-py3-none-manylinux_2_34_x86_64.whl"), names)
        self.assertEqual(Path(first, names[0]).read_bytes(), Path(second, names[1]).read_bytes())

    @unittest.skipUnless(importlib.util.find_spec("pip"), "there is no pip")
    @unittest.skipUnless(
        takes_the_program(), "it is for Linux on x86-64, with the GNU C library 2.34 or later"
    )
    def test_the_program_is_installed_and_found(self) -> None:
        program = STUB.read_bytes()
        wheel = Path(self.place, builder().build_program_wheel(self.place, program, b"notices"))
        there = Path(self.place, "there")
        words = [
            "install", "--quiet", "--no-index", "--no-deps", "--target", str(there), str(wheel),
        ]
        made = subprocess.run(
            [sys.executable, "-m", "pip", *words], capture_output=True, text=True, timeout=100
        )
        self.assertEqual(made.returncode, 0, made.stderr)
        self.assertEqual((there / "bin" / "jpa").read_bytes(), program)
        self.assertTrue(os.access(there / "bin" / "jpa", os.X_OK))
        env = {
            **os.environ,
            "PYTHONPATH": str(there),
            "KARZHOUL_PROGRAM": str(there / "bin" / "jpa"),
        }
        code = "from karzhoul.store.finding import find_program; print(find_program())"
        found = subprocess.run(
            [sys.executable, "-c", code], cwd=self.place, env=env, capture_output=True, text=True
        )
        self.assertEqual((found.stdout, found.stderr), (f"{there / 'bin' / 'jpa'}\n", ""))


if __name__ == "__main__":
    unittest.main()
