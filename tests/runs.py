#!/usr/bin/env python3
"""tests/runs.py [--any] PROGRAM FOLDER..: runs the program over each run in these folders, with a
file as its store.

A run is a folder with calls.jsonl (the lines in), replies.jsonl (the lines out) and cells.txt (the
cells afterwards, one a line: table, row, column, value; row and value in hex), and, where it has
them,
- mapping.json; where there is none, the program gets none, and serves persons and orders
  (tests/mappings/persons.json),
- cells-before.txt, the cells that the store has before,
- calls-2.jsonl and replies-2.jsonl, a second process over the file that the first left,
- status and stderr, where the program ends with another status than 0,
- words, a word a line, which the program gets in the place of a mapping and a store,
- language, the word of the language in which the program reads lines and queries,
- stage: what it needs, where the program did not serve that from its first version on.

All is compared byte for byte. A run of a stage that the program does not serve yet (STAGES of
tests/model/reading.py) is skipped, and said so; with --any, one with a call that it does not serve
yet too. Exit status 0 where all that ran agree.
"""
from __future__ import annotations

import json, os, sqlite3, subprocess, sys, tempfile
from contextlib import closing
from typing import Any

sys.dont_write_bytecode = True
from model.reading import STAGES, UNSERVED

HERE = os.path.dirname(os.path.abspath(__file__))
FLAT = os.path.join(HERE, "mappings", "flat.json")
TABLE = ("CREATE TABLE cell (t INTEGER NOT NULL, r BLOB NOT NULL, c INTEGER NOT NULL,\n"
         "  v BLOB NOT NULL, PRIMARY KEY (t, r, c)) STRICT")
SECONDS = 60


def read(folder: str, name: str) -> bytes | None:
    path = os.path.join(folder, name)
    if not os.path.exists(path):
        return None
    with open(path, "rb") as file:
        return file.read()


def unserved_stage(folder: str) -> str | None:
    """The stage that a run needs and the program does not serve, or None."""
    stage = (read(folder, "stage") or b"").decode().strip()
    return stage if stage in STAGES else None


def unserved(folder: str) -> str | None:
    """Why a run can't be made today, or None."""
    stage = unserved_stage(folder)
    if stage:
        return stage
    for line in read(folder, "calls.jsonl").splitlines():
        try:
            call = json.loads(line)
        except ValueError:
            continue
        word = call.get("call") if isinstance(call, dict) else None
        if isinstance(word, str) and word in UNSERVED:
            return "call " + word
    return None


def cells(path: str) -> str:
    """The cells of a store's file; none where there is no file, or no table in it."""
    if not os.path.exists(path):
        return ""
    with closing(sqlite3.connect(path)) as store:
        if not store.execute("SELECT 1 FROM sqlite_schema WHERE name = 'cell'").fetchone():
            return ""
        rows = store.execute("SELECT t, hex(r), c, hex(v) FROM cell ORDER BY t, r, c")
        return "".join(f"{t}, {r.lower()}, {c}, {v.lower()}\n" for t, r, c, v in rows)


def fill(path: str, text: bytes) -> None:
    with sqlite3.connect(path) as store:
        store.execute(TABLE)
        for line in text.decode().splitlines():
            table, row, column, value = [part.strip() for part in line.split(",")]
            store.execute(
                "INSERT INTO cell VALUES (?, ?, ?, ?)",
                (int(table), bytes.fromhex(row), int(column), bytes.fromhex(value)),
            )


def run(program: str, words: list[str], calls: bytes) -> subprocess.CompletedProcess[Any]:
    """What the program answers, ended and said."""
    return subprocess.run([program, *words], input=calls, capture_output=True, timeout=SECONDS)


def language_of(folder: str) -> str:
    """The word of a run's language, or none."""
    return (read(folder, "language") or b"").decode().strip()


def words_of(folder: str, store: str) -> list[str]:
    words = read(folder, "words")
    if words is not None:
        return words.decode().splitlines()
    mapping, language = os.path.join(folder, "mapping.json"), language_of(folder)
    return [
        *(["--mapping", mapping] if os.path.exists(mapping) else []), "--db", store,
        *(["--language", language] if language else []),
    ]


def other_replies(found: bytes, wanted: bytes) -> str | None:
    """Where the replies are others than are wanted, or None."""
    if found == wanted:
        return None
    for at, (one, other) in enumerate(zip(found.splitlines(), wanted.splitlines())):
        if one != other:
            seen, meant = (text.decode(errors="replace")[:200] for text in (one, other))
            return f"reply {at + 1}: {seen}, and not {meant}"
    return f"{len(found.splitlines())} lines, and not {len(wanted.splitlines())}"


def difference(program: str, folder: str) -> str | None:
    """What differs from the run in a folder, or None."""
    with tempfile.TemporaryDirectory() as place:
        store = os.path.join(place, "store.db")
        before = read(folder, "cells-before.txt")
        if before is not None:
            fill(store, before)
        words, stderr = words_of(folder, store), read(folder, "stderr") or b""
        status = int(read(folder, "status") or b"0")
        for ending in ("", "-2"):
            calls = read(folder, f"calls{ending}.jsonl")
            if calls is None:
                continue
            ran = run(program, words, calls)
            if ran.returncode != status:
                said = ran.stderr.decode(errors="replace").strip()
                return f"status {ran.returncode}, not {status}: {said}"
            if ran.stderr.strip() != stderr.strip():
                return f"standard error {ran.stderr!r}, not {stderr!r}"
            found = other_replies(ran.stdout, read(folder, f"replies{ending}.jsonl") or b"")
            if found:
                return found
        after = read(folder, "cells.txt")
        if after is None and not status:
            return "no cells.txt, which says what it leaves"
        if after is not None and cells(store) != after.decode():
            return "cells:\n" + cells(store)
        return None


def main(words: list[str]) -> int:
    is_any = words[:1] == ["--any"]
    words = words[1:] if is_any else words
    if len(words) < 2:
        sys.exit(__doc__)
    agree = differ = skipped = 0
    for top in words[1:]:
        for name in sorted(os.listdir(top)):
            folder = os.path.join(top, name)
            if read(folder, "calls.jsonl") is None:
                continue
            why = unserved(folder) if is_any else unserved_stage(folder)
            found = None if why else difference(words[0], folder)
            agree, differ, skipped = (
                agree + (not why and not found), differ + bool(found), skipped + bool(why),
            )
            if why or found:
                print(f"skipped: {name}: {why}" if why else f"differs {name}: {found}")
    print(
        f"{agree} runs agree, {differ} differ"
        + (f", {skipped} are skipped" if is_any or skipped else "")
    )
    return 1 if differ or not agree else 0


if __name__ == "__main__":
    sys.exit(main(sys.argv[1:]))
