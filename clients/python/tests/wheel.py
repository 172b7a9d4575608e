"""The wheel that brings the program, installed into an empty environment without a network.

tests/wheel.sh runs this.
"""

from __future__ import annotations

import os
import subprocess
import sys
import tempfile
import unittest
from pathlib import Path

from .papers import test_tutorial
from .support import TOP


def ran(*words: str) -> str:
    """What a command prints, which must end well."""
    done = subprocess.run(words, capture_output=True, text=True, timeout=100)
    if done.returncode:
        raise AssertionError(f"{words}: {done.stderr}")
    return done.stdout


class Wheel(unittest.TestCase):
    def test_the_tutorial_with_nothing_but_the_wheel(self) -> None:
        with tempfile.TemporaryDirectory() as place:
            wheel = ran(str(TOP / "tools" / "wheel"), place).rstrip("\n")
            ran(sys.executable, "-m", "venv", f"{place}/env")
            ran(f"{place}/env/bin/python", "-m", "pip", "install", "--quiet", "--no-index", wheel)
            self.assertEqual(
                Path(place, "env/bin/jpa").read_bytes(), (TOP / "dist/jpa").read_bytes()
            )
            self.assertIn("check", ran(f"{place}/env/bin/karzhoul", "--help"))
            os.environ.pop("KARZHOUL_PROGRAM", None)
            test_tutorial.follow(self, place, f"{place}/env/bin/python")


if __name__ == "__main__":
    unittest.main()
