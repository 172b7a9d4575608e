"""A manager that is created with its transaction open, which is one line of a connection and two of
the program. The two go together: the number that the program gives next is known before it is told.
"""

from __future__ import annotations

from typing import TYPE_CHECKING, Callable, Optional, Tuple

from .refusals import refusal
from .translation import BEGUN, Call

if TYPE_CHECKING:
    from .connection import Connection
    from .service import Service

Line = Tuple[bytes, Callable[[Optional[bytes]], None]]


class Creation:
    """One of them, for a connection."""

    def __init__(self, service: Service, connection: Connection, foretold: int) -> None:
        """With the number that the manager gets, unless one is refused that is on its way before
        it: then it gets a lower one, and nobody has this one yet."""
        self._service, self._connection, self._foretold = service, connection, foretold
        # What the connection is told once the transaction is open, and the connection's number of
        # the manager; 0 where there is none.
        self._told, self._em = b"", 0
        connection.is_sent(BEGUN.word)

    def lines(self) -> Tuple[Line, Line]:
        """The lines, with what takes the reply to each."""
        return (BEGUN.line, self._created), (_begin(self._foretold), self._begun)

    def _created(self, reply: Optional[bytes]) -> None:
        if reply is None:
            return  # The next one is none either.
        service, connection = self._service, self._connection
        refused, self._told = service.heard(connection, BEGUN, reply)
        if refused:
            connection.is_answered(BEGUN.word)
            service.answer(connection, self._told)
            return
        self._em = max(connection.managers)

    def _begun(self, reply: Optional[bytes]) -> None:
        service, connection = self._service, self._connection
        if reply is not None and not self._em:
            return  # No manager was created.
        if reply is None:
            connection.is_answered(BEGUN.word)
            connection.say(refusal("ProgramEnded", "the program ended before it answered"))
            return
        real = connection.translation.managers.real_of[self._em]
        if real != self._foretold:
            self._foretold = real
            service.engine.send(_begin(real), self._begun)
            return
        connection.is_answered(BEGUN.word)
        refused, told = service.heard(connection, Call("begin", self._em, b""), reply)
        if refused:
            del connection.translation.managers.real_of[self._em]
            service.close_manager(real, connection.managers.pop(self._em))
        service.answer(connection, told if refused else self._told)


def _begin(number: int) -> bytes:
    return b'{"call":"begin","em":%d}' % number
