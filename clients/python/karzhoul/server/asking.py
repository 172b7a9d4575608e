"""What a command asks a server: how it is, and a copy of its store."""

from __future__ import annotations

import json
import os
from contextlib import contextmanager, suppress
from pathlib import Path
from typing import Any, BinaryIO, Dict, Iterator, List

from ..store.starting import started
from ..store.program import Words
from ..refusals import KarzhoulError
from .way import Way

_CHUNK = 1 << 18


def asked(way: Way, call: str) -> Any:
    """The answer to a call of the server's own; a `KarzhoulError` where it is refused."""
    with _asked(way, way.hello(), call) as replies:
        _said(replies, way)
        return _said(replies, way)


@contextmanager
def _asked(way: Way, hello: bytes, call: str) -> Iterator[BinaryIO]:
    """The replies of a server to who one is, and to a call of its own."""
    with way.connected() as made, made.makefile("rb") as replies:
        try:
            made.sendall(hello + json.dumps({"serve": call}).encode() + b"\n")
            yield replies
        except ConnectionError as fault:
            raise KarzhoulError(f"{way} has ended the connection: {fault}") from fault


def _said(replies: BinaryIO, way: Way) -> Any:
    line = replies.readline()
    if not line.endswith(b"\n"):
        raise KarzhoulError(f"{way} has ended the connection")
    said = json.loads(line)
    if "ok" not in said:
        raise KarzhoulError(f"{way}: {said['error']['name']}: {said['error'].get('why', '')}")
    return said["ok"]


def backup(way: Way, file: Path, program: Words) -> int:
    """Writes a copy of the store of a server to a file, which is made, and opens it; how many bytes
    it has. Where that fails, none is left."""
    files = [file, file.with_name(f"{file.name}-wal")]
    for each in files:
        if os.path.lexists(each):
            raise FileExistsError(f"there is a file {each} already")
    try:
        served = copied(way, file)
        mapping = json.dumps(served["mapping"]).encode()
        started(program, mapping, str(file), None, served["language"]).close()
        with suppress(FileNotFoundError):
            files[1].unlink()  # All of it is in the file since.
        return file.stat().st_size
    except BaseException:
        for each in files:
            with suppress(FileNotFoundError):
                each.unlink()
        raise


def copied(way: Way, file: Path) -> Dict[str, Any]:
    """Writes a copy of the store of a server, and of its log, to files that are made; what the
    server tells of what it serves."""
    with _asked(way, way.hello(mapping=True), "backup") as replies:
        served: Dict[str, Any] = _said(replies, way)
        files = [file, file.with_name(f"{file.name}-wal")]
        for path, size in zip(files, _said(replies, way)["files"]):
            _take(replies, path, size, way)
    return served


def _take(replies: BinaryIO, path: Path, size: int, way: Way) -> None:
    with open(path, "xb") as file:
        while size:
            chunk = replies.read(min(size, _CHUNK))
            if not chunk:
                raise KarzhoulError(f"{way} has ended the connection within the copy")
            file.write(chunk)
            size -= len(chunk)
        file.flush()
        os.fsync(file.fileno())


def status_page(told: Dict[str, Any]) -> str:
    """The status of a server in words."""
    memory = {of: f"{size / 1e6:.0f} MB" for of, size in told["memory"].items() if size}
    lines: List[str] = [
        f"managers: {told['managers']} of 16 are open, {told['waiting']} wait for one",
        f"transactions: {told['transactions']} are open",
        f"objects: {told['objects']:,} of 1,000,000 made in this run; "
        f"{told['objects_made']:,} in all, {told['restarts']} new runs",
        f"lines: {told['lines']:,}; commits: {told['commits']:,}",
        f"refused: {_listed(told['refusals'])}",
        f"memory: {_listed(memory)}",
        f"programs started: {told['programs']}; the last is process {told['process']}",
        f"connections: {len(told['connections'])} are open, of {told['connections_made']}",
    ]
    for each in told["connections"]:
        ages = ", ".join(f"{age:g} s" for age in each["transactions"])
        lines.append(
            f"  {each['connection']} ({each['peer']}), for {each['seconds']:g} s: "
            f"{each['managers']} managers" + (f", transactions of {ages}" if ages else "")
        )
    return "\n".join(lines) + "\n"


def _listed(counts: Dict[str, Any]) -> str:
    return ", ".join(f"{name} {count}" for name, count in counts.items()) or "none"
