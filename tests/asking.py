"""What tests of --query stand on: the calls that fill a store, and a program that is asked of it by its words."""
from __future__ import annotations

import json, os, subprocess
from typing import Any

from runs import SECONDS, cells, read
from trials import see

HINT = "\n\nFor more information, try '--help'.\n"
EM = {"call": "createEntityManager"}


def made(entity: str, at: int, /, **values: Any) -> list[dict[str, Any]]:
    """The calls that make the object of this number, with values under these names."""
    calls: list[dict[str, Any]] = [{"call": "new", "entity": entity}]
    for name, value in values.items():
        given = {"object": at, "name": name.replace("__", "."), "value": value}
        calls.append({"call": "set", **given})
    return calls


def stored(objects: list[list[dict[str, Any]]]) -> bytes:
    """The lines that make these objects, and store them in one transaction."""
    calls = [EM, *(call for each in objects for call in each), {"call": "begin", "em": 1}]
    calls += [
        {"call": "persist", "em": 1, "object": number} for number in range(1, len(objects) + 1)
    ]
    return "".join(json.dumps(call) + "\n" for call in [*calls, {"call": "commit", "em": 1}]).encode()


def files_in(place: str) -> dict[str, bytes]:
    """The files of a folder, but for logs."""
    names = [name for name in sorted(os.listdir(place)) if not name.endswith("-wal")]
    return {name: read(place, name) or b"" for name in names}


class Asking:
    """A program, and a folder with a store."""

    def __init__(self, program: str, place: str) -> None:
        self.program, self.place = program, place
        self.store = os.path.join(place, "store.db")

    def ran(self, *words: str, calls: bytes = b"") -> tuple[int, str, str]:
        ended = subprocess.run(
            [self.program, *words], input=calls, capture_output=True, timeout=SECONDS
        )
        return ended.returncode, ended.stdout.decode(), ended.stderr.decode()

    def filled(self, calls: bytes, *words: str) -> None:
        status, out, err = self.ran(*words, "--db", self.store, calls=calls)
        see((status, err, '"error"' in out), (0, "", False), f"the calls: {out}")

    def asks(self, question: list[str], wanted: tuple[int, str, str], *words: str) -> None:
        """A question is answered so, and leaves each file as it was."""
        is_store = wanted[2] != "jpa: StoreFault\n"
        stored = cells(self.store) if is_store else ""
        before = files_in(self.place)
        found = self.ran(*words, "--db", self.store, "--query", *question)
        see(found, wanted, question)
        see(files_in(self.place), before, f"the files after {question}")
        see(cells(self.store) if is_store else "", stored, f"the cells after {question}")

    def answers(self, question: list[str], lines: list[str], *words: str) -> None:
        self.asks(question, (0, "".join(f"{line}\n" for line in lines), ""), *words)

    def refuses(self, question: list[str], name: str, *words: str) -> None:
        self.asks(question, (3, "", f"jpa: {name}\n"), *words)

    def mapping(self, said: Any) -> str:
        path = os.path.join(self.place, "mapping.json")
        with open(path, "w", encoding="utf-8") as file:
            json.dump(said, file)
        return path
