"""A server under random lines and requests, and under kills: the trials of tests/, for a short time."""

from __future__ import annotations

import subprocess
import sys
import unittest

from ..support import PROGRAM, TOP, needs_program

SECONDS = 900


@needs_program
class Trials(unittest.TestCase):
    def check(self, *words: str) -> None:
        """Whether a trial finds nothing wrong."""
        ended = subprocess.run(
            [sys.executable, *words, "--program", str(PROGRAM)], cwd=TOP, capture_output=True,
            text=True, timeout=SECONDS,
        )
        self.assertEqual(ended.returncode, 0, ended.stdout + ended.stderr)

    def test_lines_and_requests_at_random(self) -> None:
        self.check("tests/fuzz/hostile-connections", "--lines", "600", "--requests", "100",
                   "--crowd", "100")

    def test_kills(self) -> None:
        self.check("tests/serving/killed.py", "--minutes", "0.2", "--kills", "4", "--processes",
                   "2", "--threads", "2")


if __name__ == "__main__":
    unittest.main()
