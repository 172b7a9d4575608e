"""Which program is started: in an environment, in a clone, and elsewhere."""

from __future__ import annotations

import contextlib
import hashlib
import io
import os
import shutil
import unittest
from pathlib import Path
from typing import Any, Optional, Tuple
from unittest import mock

import karzhoul
from karzhoul.store.finding import find_program

from ..support import PERSONS, STUB, TOP, FolderTest


def sums(top: Path, *names: str) -> str:
    """Lines as sha256sum prints them."""
    return "".join(
        f"{hashlib.sha256((top / name).read_bytes()).hexdigest()}  {name}\n" for name in names
    )


class Finding(FolderTest):
    """Each test looks from a package that is elsewhere than this one."""

    def setUp(self) -> None:
        super().setUp()
        self.place = self.place.resolve()
        said: Any = mock.patch("karzhoul.store.finding._said", set())
        env: Any = mock.patch.dict(os.environ)
        for patch in (said, env):
            patch.start()
            self.addCleanup(patch.stop)
        os.environ.pop("KARZHOUL_PROGRAM", None)

    def found(self, package: Path, given: Optional[Path] = None) -> Tuple[str, str]:
        """The program that is found twice, and what is said then."""
        said = io.StringIO()
        with mock.patch("karzhoul.store.finding._PACKAGE", package), contextlib.redirect_stderr(said):
            first = find_program(given)
            self.assertEqual(find_program(given), first)
        return first, said.getvalue()

    def started(self, name: str, text: str = "#!/bin/sh\n") -> str:
        """A program of this name."""
        path = self.place / name
        path.parent.mkdir(parents=True, exist_ok=True)
        path.write_text(text, encoding="utf-8")
        path.chmod(0o755)
        return str(path)

    def test_elsewhere_it_is_the_one_that_is_named(self) -> None:
        package = Path("/karzhoul")
        with mock.patch.dict(os.environ, PATH=str(self.place)), self.assertRaises(
            karzhoul.ProgramNotFound
        ):
            self.found(package)
        on_path, named = self.started("jpa"), self.started("named")
        with mock.patch.dict(os.environ, PATH=str(self.place)):
            self.assertEqual(self.found(package), (on_path, ""))
            os.environ["KARZHOUL_PROGRAM"] = "named"
            self.assertEqual(self.found(package), (named, ""))
            self.assertEqual(self.found(package, STUB), (str(STUB), ""))
            os.environ["KARZHOUL_PROGRAM"] = "/nowhere/jpa"
            self.assertEqual(self.found(package, STUB), (str(STUB), ""))
            with self.assertRaises(karzhoul.ProgramNotFound):
                self.found(package)

    def test_one_that_is_given_must_be_there(self) -> None:
        with self.assertRaises(karzhoul.ProgramNotFound) as raised:
            karzhoul.open(PERSONS, program="/nowhere/jpa")
        self.assertIn("'/nowhere/jpa' is no program that can be started", str(raised.exception))

    def test_the_environment_s_own_comes_first(self) -> None:
        folder = self.place / "lib" / "python3" / "site-packages"
        record = folder / "karzhoul-0.1.0.dist-info" / "RECORD"
        record.parent.mkdir(parents=True)
        record.write_text("karzhoul/__init__.py,x,1\n../../../bin/jpa,x,1\n", encoding="utf-8")
        named = os.environ["KARZHOUL_PROGRAM"] = self.started("named")
        # It was taken out by hand.
        self.assertEqual(self.found(folder / "karzhoul"), (named, ""))
        own = self.started("bin/jpa")
        words = (
            f"karzhoul: {own} is started, and not {named}, which KARZHOUL_PROGRAM names: give it "
            f"as program=..\n"
        )
        self.assertEqual(self.found(folder / "karzhoul"), (own, words))
        os.environ["KARZHOUL_PROGRAM"] = own
        self.assertEqual(self.found(folder / "karzhoul"), (own, ""))
        shutil.move(
            str(self.place / "bin"), str(folder / "bin")
        )  # As `pip install --target` has it.
        del os.environ["KARZHOUL_PROGRAM"]
        self.assertEqual(self.found(folder / "karzhoul"), (str(folder / "bin" / "jpa"), ""))

    def clone(self) -> Path:
        """The package of a clone in which nothing is built."""
        for part in ("src", "specs", "proofs"):
            (self.place / "crates" / "jpa" / part).mkdir(parents=True)
            (self.place / "crates" / "jpa" / part / "lib").write_text(part, encoding="utf-8")
        (self.place / "crates.txt").write_text("jpa:\n", encoding="utf-8")
        (self.place / "HANDLES").write_text("none\n", encoding="utf-8")
        shutil.copytree(TOP / "tools", self.place / "tools")
        return self.place / "clients" / "python" / "karzhoul"

    def test_a_clone_in_which_nothing_is_built(self) -> None:
        package = self.clone()
        with self.assertRaises(karzhoul.ProgramNotFound) as raised:
            self.found(package)
        self.assertIn("no program is built here", str(raised.exception))
        self.assertIn(f"'{self.place}/jpa --proved' proves and builds it", str(raised.exception))
        named = os.environ["KARZHOUL_PROGRAM"] = self.started("named")
        self.assertEqual(self.found(package), (named, ""))

    def test_a_clone_s_program_is_started_also_where_a_source_is_newer(self) -> None:
        package = self.clone()
        built = self.started("crates/jpa/out/jpa")
        self.assertEqual(self.found(package), (built, ""))
        os.utime(built, (10**9, 10**9))
        found, said = self.found(package)
        self.assertEqual((found, said.count("\n")), (built, 1))
        self.assertIn("is newer than the program that was built here", said)
        named = os.environ["KARZHOUL_PROGRAM"] = self.started("named")
        found, said = self.found(package)
        self.assertEqual(
            (found, f"and not {named}, which KARZHOUL_PROGRAM names" in said), (built, True)
        )

    @unittest.skipUnless(
        os.uname()[0::4] == ("Linux", "x86_64"), "dist/jpa is for Linux on x86-64 processors"
    )
    def test_a_clone_s_dist(self) -> None:
        package = self.clone()
        program = self.started("dist/jpa")
        sources = (f"crates/jpa/{part}/lib" for part in ("proofs", "specs", "src"))
        names = ("dist/jpa", "HANDLES", "crates.txt", *sources)
        (self.place / "dist" / "SOURCES").write_text(sums(self.place, *names), encoding="utf-8")
        named = os.environ["KARZHOUL_PROGRAM"] = self.started("named")
        words = f"karzhoul: {program} is started, and not {named}, which KARZHOUL_PROGRAM names: give it as program=..\n"
        self.assertEqual(self.found(package), (program, words))
        shutil.rmtree(self.place / "dist" / "out")  # As before anything was said.
        os.environ["KARZHOUL_PROGRAM"] = program
        self.assertEqual(self.found(package), (program, ""))
        shutil.rmtree(self.place / "dist" / "out")
        del os.environ["KARZHOUL_PROGRAM"]
        self.assertIn("runs dist/jpa, which these sources generate", self.found(package)[1])
        self.assertEqual(self.found(package), (program, ""))
        (self.place / "crates" / "jpa" / "src" / "lib").write_text("changed", encoding="utf-8")
        with self.assertRaises(karzhoul.ProgramNotFound) as raised:
            self.found(package)
        self.assertIn(
            "of other sources than these: crates/jpa/src/lib differs", str(raised.exception)
        )


if __name__ == "__main__":
    unittest.main()
