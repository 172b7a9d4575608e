"""A copy of the store while it is served: of both of its files as they stand between two commits."""

from __future__ import annotations

import asyncio
import os
import shutil
import tempfile
from pathlib import Path
from typing import TYPE_CHECKING, List, Tuple

from .logs import log
from .refusals import answer, refusal

if TYPE_CHECKING:
    from .connection import Connection
    from .service import Service

_CHUNK = 1 << 18


class Copy:
    """A copy that a connection asked for. Lines wait while the files are copied, to a folder beside
    the store; then they go on, and the copy is sent."""

    def __init__(self, service: Service, connection: Connection) -> None:
        self._service, self._connection = service, connection

    async def send(self) -> None:
        """Makes it and sends it: a reply that tells the length of each file, and then their bytes.
        What can't be done is a refusal."""
        service, connection = self._service, self._connection
        db = Path(os.fspath(service.engine.program.words[-1]))
        try:
            with tempfile.TemporaryDirectory(prefix=f".{db.name}-", dir=db.parent) as place:
                async with service.still():
                    loop = asyncio.get_running_loop()
                    files = await loop.run_in_executor(None, _copied, db, Path(place))
                log("backup", bytes=[size for _, size in files], connection=connection.number)
                connection.say(answer({"files": [size for _, size in files]}))
                for file, _ in files:
                    await self._send(file)
        except OSError as fault:
            connection.say(refusal("StoreFault", f"no copy can be made: {fault}"))
        finally:
            connection.is_blocked = False
            connection.wake()
            service.dispatch()

    async def _send(self, path: Path) -> None:
        with open(path, "rb") as file:
            while chunk := file.read(_CHUNK):
                self._connection.send(chunk)
                await self._connection.drained()


def _copied(db: Path, place: Path) -> List[Tuple[Path, int]]:
    """Copies of a store and its log, with their lengths; of a log that isn't there an empty one."""
    copies = []
    for source in (db, db.with_name(f"{db.name}-wal")):
        copy = place / source.name
        if source.exists():
            shutil.copyfile(source, copy)
        else:
            copy.touch()
        copies.append((copy, copy.stat().st_size))
    return copies
