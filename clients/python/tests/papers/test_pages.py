"""Pages with Python in them, each of whose blocks is run after the page's beginning and prints what
follows it. So is each statement of a table, which finds what stands beside it."""

from __future__ import annotations

import os
import re
import subprocess
import sys
import tempfile
import unittest
from pathlib import Path
from typing import List, Tuple

from ..support import PROGRAM, TOP, needs_program, package_elsewhere

PAGES = [TOP / "docs" / "OTHER-PROVIDERS.md", TOP / "docs" / "QUERIES.md"]


def blocks(page: Path) -> List[Tuple[str, str]]:
    """The blocks of a page: each is Python, but the first with what follows it as a text."""
    text = page.read_text(encoding="utf-8")
    found = re.findall(
        r"^```python\n(.*?)^```\n(?:\n```text\n(.*?)^```$)?", text, re.MULTILINE | re.DOTALL
    )
    assert len(found) == text.count("\n```python"), page
    return found


ASKING = """
for text in {!r}:
    try:
        print(manager.query(text))
    except karzhoul.Refused as refused:
        print(refused.word)
"""


def statements(page: Path) -> List[Tuple[str, str]]:
    """Python that asks the statements of a page's tables, with what it prints."""
    text = page.read_text(encoding="utf-8")
    found = re.findall(r"^\| `(SELECT .+)` \| `(.+)` \|$", text, re.MULTILINE)
    assert bool(found) == ("| Statement |" in text), page
    return [(ASKING.format([asked for asked, _ in found]), "".join(f"{it}\n" for _, it in found))]


class Pages(unittest.TestCase):
    def test_what_a_block_prints_follows_it(self) -> None:
        for page in PAGES:
            beginning, *rest = blocks(page)
            self.assertEqual(beginning[1], "")
            self.assertTrue(all(printed for _, printed in rest), page)

    @needs_program
    def test_every_block_prints_what_follows_it(self) -> None:
        place = tempfile.TemporaryDirectory()
        self.addCleanup(place.cleanup)
        own = {
            "KARZHOUL_PROGRAM": str(PROGRAM),
            "PYTHONPATH": str(package_elsewhere(place.name)),
            "PYTHONDONTWRITEBYTECODE": "1",
        }
        env = {**os.environ, **own}
        for page in PAGES:
            (beginning, _), *rest = blocks(page)
            for block, printed in rest + statements(page):
                with self.subTest(block):
                    ran = subprocess.run(
                        [sys.executable, "-c", f"{beginning}\n{block}"],
                        cwd=TOP, env=env, capture_output=True, text=True, timeout=100,
                    )
                    self.assertEqual((ran.stdout, ran.stderr), (printed, ""))


if __name__ == "__main__":
    unittest.main()
