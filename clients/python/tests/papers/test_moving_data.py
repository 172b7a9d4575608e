"""The example of docs/OPERATING.md, a mapping of revision 2: each block, in their order."""

from __future__ import annotations

import json
import sys
import tempfile
import unittest

from karzhoul.mapping.linter import lint

from ..support import PROGRAM, TOP, needs_program, needs_revision_2, package_elsewhere
from .test_tutorial import blocks, follow

PAGE = TOP / "docs" / "OPERATING.md"


class Page(unittest.TestCase):
    def test_every_fence_is_a_block(self) -> None:
        self.assertEqual(PAGE.read_text(encoding="utf-8").count("\n```"), 2 * len(blocks(PAGE)))

    def test_its_mappings_are_good(self) -> None:
        mappings = [block.text for block in blocks(PAGE) if block.kind == "json"]
        self.assertEqual([json.loads(text)["revision"] for text in mappings], [1, 2])
        for text in mappings:
            self.assertEqual(lint(text.encode()).findings, [])

    @needs_program
    @needs_revision_2
    def test_every_block_does_what_it_says(self) -> None:
        with tempfile.TemporaryDirectory() as place:
            own = {"PYTHONPATH": str(package_elsewhere(place)), "KARZHOUL_PROGRAM": str(PROGRAM)}
            follow(self, place, sys.executable, PAGE, **own)


if __name__ == "__main__":
    unittest.main()
