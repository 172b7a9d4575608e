"""How a server is reached: its address, what is shown there, and what is ciphered."""

from __future__ import annotations

import json
import os
import select
import socket
import threading
from contextlib import suppress
from typing import TYPE_CHECKING, Any, Optional, Union

from ..refusals import Disconnected
from .address import Address, address_of

if TYPE_CHECKING:
    import ssl

_CHUNK = 1 << 16
Tls = Union[None, bool, str, "os.PathLike[str]", "ssl.SSLContext"]


class Way:
    """How a server is reached."""

    def __init__(self, word: str, token: Union[None, str, bytes], tls: Tls) -> None:
        self.address: Address = address_of(word)
        said = token.decode() if isinstance(token, bytes) else token
        # What a file has ends with its line.
        self._token = None if said is None else said.strip()
        self._tls = _context(tls)

    def __str__(self) -> str:
        return str(self.address)

    def connected(self) -> socket.socket:
        """A socket that leads to the server; a `Disconnected` where none listens."""
        try:
            made = self.address.connected()
            try:
                return made if self._tls is None else self._ciphered(made)
            except BaseException:
                made.close()
                raise
        except OSError as fault:
            raise self._unmade(fault) from fault

    def _unmade(self, fault: OSError) -> Disconnected:
        """Why there is no connection."""
        why = f"{self} can't be reached: {fault.strerror or fault}"
        if isinstance(fault, (FileNotFoundError, ConnectionRefusedError)):
            way = f"start one by 'karzhoul serve .. --listen {self}', or connect once it serves"
            why = f"nobody serves at {self} now ({fault.strerror or fault}): {way}"
        told = Disconnected(0, why)
        told._was_made = False
        return told

    def _ciphered(self, made: socket.socket) -> socket.socket:
        assert self._tls is not None
        return _relayed(self._tls.wrap_socket(made, server_hostname=self.address.host))

    def hello(self, **said: Any) -> bytes:
        """The first line of a connection."""
        token = {} if self._token is None else {"token": self._token}
        return json.dumps({"serve": "hello", **token, **said}).encode() + b"\n"


def _context(tls: Tls) -> Optional[ssl.SSLContext]:
    if tls is None or tls is False:
        return None
    import ssl

    if isinstance(tls, ssl.SSLContext):
        return tls
    return ssl.create_default_context(cafile=None if tls is True else os.fspath(tls))


def _relayed(outer: ssl.SSLSocket) -> socket.socket:
    """A socket of which all goes through another one, which is ciphered: so it is read and written
    as any other one is."""
    mine, its = socket.socketpair()

    outer.setblocking(False)

    def pass_on() -> None:
        with outer, its, suppress(OSError):
            while True:
                came = [] if outer.pending() else select.select((outer, its), (), ())[0]
                if its in came:
                    sent = its.recv(_CHUNK)
                    if not sent:
                        return
                    _send_all(outer, sent)
                received = _received(outer)
                if received == b"":
                    return
                its.sendall(received or b"")

    threading.Thread(target=pass_on, name="karzhoul", daemon=True).start()
    return mine


def _received(outer: ssl.SSLSocket) -> Optional[bytes]:
    """What has come; None where that is no more than a word of the cipher's own."""
    import ssl

    try:
        return outer.recv(_CHUNK)
    except (ssl.SSLWantReadError, ssl.SSLWantWriteError):
        return None


def _send_all(outer: ssl.SSLSocket, data: bytes) -> None:
    import ssl

    while data:
        try:
            data = data[outer.send(data) :]
        except ssl.SSLWantWriteError:
            select.select((), (outer,), ())
        except ssl.SSLWantReadError:
            select.select((outer,), (), ())
