#!/usr/bin/env python3
"""tests/paper_examples.py PROGRAM: runs the examples of README.md, docs/MAPPINGS.md, docs/CALLS.md.

- A block `jsonl` is calls; the block `text` behind it is the end of what the program answers.
- A block `json` is a mapping. The calls behind it are a run over it and an empty store; a `text`
  behind it is its refusal.
- The block `jsonl beginning` of a page makes a store of the persons that are served without a
  mapping. The page's other calls are runs over it, and so are those of the pages behind it; those
  of the pages before it are over no store.
- A block `python` is run with the client, and prints the `text` behind it.

It is started from the top of the repository. Exit status 0 where all of them do.
"""
from __future__ import annotations

import os
import pathlib
import re
import shutil
import subprocess
import sys
import tempfile
from typing import TYPE_CHECKING, Any

if TYPE_CHECKING:
    from pathlib import Path

PAGES = ["README.md", "docs/MAPPINGS.md", "docs/CALLS.md"]
BLOCK = re.compile(r"^```(\w+)(?: (\w+))?\n(.*?)^```$", re.MULTILINE | re.DOTALL)
SECONDS = 60


def examples(page: str) -> Any:
    """The examples of a page as their blocks by kind, what it begins with, and what is left."""
    found, beginning, example = [], None, {}
    for kind, word, body in BLOCK.findall(pathlib.Path(page).read_text(encoding="utf-8")):
        if word == "beginning":
            beginning = body
            continue
        example[kind] = body
        if kind == "text":
            found.append(example)
            example = {}
    return found, beginning, example


def run(
    words: list[str], lines: str, env: dict[str, str] | None = None
) -> subprocess.CompletedProcess[Any]:
    return subprocess.run(words, input=lines, capture_output=True, text=True, timeout=SECONDS,
                          check=False, env=env)


def run_python(program: str, text: str, folder: Path) -> subprocess.CompletedProcess[Any]:
    # (a client inside the clone would start the clone's own program)
    shutil.copytree("clients/python/karzhoul", folder / "karzhoul")
    own = {"KARZHOUL_PROGRAM": program, "PYTHONPATH": str(folder)}
    return run([sys.executable, "-c", text], "", {**os.environ, **own})


def run_lines(
    program: str, example: dict[str, str], store: Path | None, folder: Path
) -> subprocess.CompletedProcess[Any]:
    words = [program]
    if "json" in example:
        mapping = folder / "mapping.json"
        mapping.write_text(example["json"], encoding="utf-8")
        words += ["--mapping", str(mapping)]
    elif store:
        words += ["--db", str(shutil.copy(store, folder / "run.db"))]
    return run(words, example.get("jsonl", ""))


def printed(program: str, example: dict[str, str], store: Path | None, folder: Path) -> list[str]:
    """What an example prints: of its answers as many as the page has."""
    if "python" in example:
        ran = run_python(program, example["python"], folder)
        return ran.stdout.splitlines() + ran.stderr.splitlines()
    ran = run_lines(program, example, store, folder)
    wanted = len(example["text"].splitlines())
    return ran.stdout.splitlines()[-wanted:] + ran.stderr.splitlines()


def differing(program: str, page: str, before: str | None) -> tuple[int, list[Any], str | None]:
    """How many examples a page has, what differs in them, and what the next page begins with."""
    found, own, rest = examples(page)
    beginning = own or before
    faults = [f"{page}: an example has no answers: {rest}"] if rest else []
    with tempfile.TemporaryDirectory() as name:
        folder = pathlib.Path(name)
        store = folder / "beginning.db" if beginning else None
        if store and '"error"' in run([program, "--db", str(store)], beginning).stdout:
            faults.append(f"{page}: its beginning is refused")
        for number, example in enumerate(found):
            place = folder / str(number)
            place.mkdir()
            answers = printed(program, example, store, place)
            if answers != example["text"].splitlines():
                faults.append("\n".join([f"{page}: {example}", "is answered", *answers]))
    return len(found), faults, beginning


def main(program: str) -> int:
    count, faults, beginning = 0, [], None
    for page in PAGES:
        found, differ, beginning = differing(program, page, beginning)
        count += found
        faults += differ
    for fault in faults:
        print(fault)
    print(f"{count} examples of papers, {len(faults)} differ")
    return 1 if faults or not count else 0


if __name__ == "__main__":
    sys.exit(main(os.path.abspath(sys.argv[1])) if len(sys.argv) == 2 else __doc__)
