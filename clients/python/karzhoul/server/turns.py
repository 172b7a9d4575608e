"""A connection that waits for its turn at a manager."""

from __future__ import annotations

import math
import time
from typing import TYPE_CHECKING

if TYPE_CHECKING:
    from .connection import Connection
    from .service import Service


class Turn:
    """A connection that waits within a `createEntityManager`."""

    def __init__(self, service: Service, connection: Connection) -> None:
        self._service, self.connection = service, connection
        self.until = time.monotonic() + connection.wait
        connection.is_blocked = True

    def let_in(self) -> None:
        """It creates its manager, in its next turn."""
        connection = self.connection
        connection.reserved += 1
        connection.reserved_until = math.inf
        self._go_on()

    def refuse(self) -> None:
        """None became free in time."""
        why = f"none became free within {self.connection.wait:g} seconds"
        self._service.refuse(self.connection, self._service.no_manager(why))
        self.connection.take_line()
        self._go_on()

    def _go_on(self) -> None:
        self.connection.is_blocked = False
        self.connection.wake()
