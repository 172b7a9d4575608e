"""The tutorial: each of its blocks, in one shell and in their order."""

from __future__ import annotations

import os
import re
import shlex
import subprocess
import sys
import tempfile
import unittest
from pathlib import Path
from typing import Iterator, List, NamedTuple

from ..support import PROGRAM, TOP, needs_program, package_elsewhere

TUTORIAL = TOP / "docs" / "START.md"


class Block(NamedTuple):
    """A fenced block: `sh` is run, `text` is what the run before it prints, and any other one is a
    file of the name beside its kind. One of Python that a `text` follows is run too."""

    kind: str
    name: str
    text: str


def blocks(page: Path = TUTORIAL) -> List[Block]:
    text = page.read_text(encoding="utf-8")
    return [
        Block(*found)
        for found in re.findall(r"^```(\w+) ?(\S*)\n(.*?)^```$", text, re.MULTILINE | re.DOTALL)
    ]


def script(page: Path) -> Iterator[str]:
    yield "set -eu\n"
    told = blocks(page)
    for place, block in enumerate(told):
        if block.kind == "sh":
            yield f"{block.text}\n"
        elif block.kind == "text":
            continue
        else:
            yield f"cat >{block.name} <<'END OF FILE'\n{block.text}END OF FILE\n"
            prints = place + 1 < len(told) and told[place + 1].kind == "text"
            if block.kind == "python" and prints:
                yield f"python3 {block.name}\n"
        yield f"echo 'end of block {place}'\n"


class Tutorial(unittest.TestCase):
    def test_every_fence_is_a_block(self) -> None:
        self.assertEqual(TUTORIAL.read_text(encoding="utf-8").count("\n```"), 2 * len(blocks()))
        for block in blocks():
            self.assertEqual(bool(block.name), block.kind not in ("sh", "text"), block.kind)

    @needs_program
    def test_every_block_does_what_it_says(self) -> None:
        with tempfile.TemporaryDirectory() as place:
            package_elsewhere(place)
            follow(self, place, sys.executable, KARZHOUL_PROGRAM=str(PROGRAM))
            self.assertIn(
                "<svg", Path(place, "library", "library.html").read_text(encoding="utf-8")
            )


def follow(
    test: unittest.TestCase, top: str, python: str, page: Path = TUTORIAL, **env: str
) -> None:
    """Runs each block of a page with this Python, at the top of a folder that may have the package
    as a clone has it."""
    python3 = Path(top, "bin", "python3")
    python3.parent.mkdir()
    python3.write_text(f'#!/bin/sh\nexec {shlex.quote(python)} "$@"\n', encoding="utf-8")
    python3.chmod(0o755)
    own = {
        "TMPDIR": top,
        "PATH": f"{python3.parent}:{os.environ['PATH']}",
        "PYTHONDONTWRITEBYTECODE": "1",
    }
    ran = subprocess.run(
        ["bash", "-c", "".join(script(page))], cwd=top, env={**os.environ, **own, **env},
        capture_output=True, text=True, timeout=1000,
    )
    test.assertEqual((ran.returncode, ran.stderr), (0, ""))
    parts = re.split(r"^end of block (\d+)\n", ran.stdout, flags=re.MULTILINE)
    told = blocks(page)
    for output, place in zip(parts[::2], map(int, parts[1::2])):
        following = told[place + 1] if place + 1 < len(told) else None
        wanted = following.text if following is not None and following.kind == "text" else ""
        test.assertEqual(output, wanted, told[place].text)


if __name__ == "__main__":
    unittest.main()
