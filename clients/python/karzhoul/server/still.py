"""Moments at which nothing is under way: lines wait, and all that were sent are answered."""

from __future__ import annotations

import asyncio
from contextlib import asynccontextmanager
from typing import TYPE_CHECKING, AsyncIterator, List

if TYPE_CHECKING:
    from .service import Service


class Stillness:
    """Keeps the lines of a service from being handed on, for as long as somebody needs that."""

    def __init__(self, service: Service) -> None:
        self._service = service
        # How many keep lines from being handed on; and those who wait for the answers to what was
        # sent.
        self.count = 0
        self.awaiting: List[asyncio.Future[None]] = []
        self._lock = asyncio.Lock()

    def hold(self) -> None:
        """Has lines wait, until `let_go`."""
        self.count += 1

    def let_go(self) -> None:
        """They go on, unless another one has them wait."""
        self.count -= 1

    def note_idle(self) -> None:
        """All that was sent is answered, or never will be."""
        for future in self.awaiting:
            if not future.done():
                future.set_result(None)
        self.awaiting.clear()

    @asynccontextmanager
    async def __call__(self) -> AsyncIterator[None]:
        """Nothing is under way in the block."""
        self.hold()
        try:
            async with self._lock:
                while not self._service.engine.is_idle:
                    future = asyncio.get_running_loop().create_future()
                    self.awaiting.append(future)
                    await future
                yield
        finally:
            self.let_go()
            self._service.dispatch()
