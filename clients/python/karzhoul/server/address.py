"""Where a server listens, and is found: `unix:/run/app.sock` or `tcp:127.0.0.1:7117`."""

from __future__ import annotations

import ipaddress
import socket
from dataclasses import dataclass

from ..refusals import Misused


@dataclass(frozen=True)
class Address:
    """A socket of this machine's file system, or a host and a port."""

    path: str = ""
    host: str = ""
    port: int = 0

    def __str__(self) -> str:
        return f"unix:{self.path}" if self.path else f"tcp:{self.host}:{self.port}"

    @property
    def is_loopback(self) -> bool:
        """Whether it can be reached from this machine alone."""
        if self.path or self.host == "localhost":
            return True
        try:
            return ipaddress.ip_address(self.host).is_loopback
        except ValueError:
            return False

    def connected(self) -> socket.socket:
        """A socket that is connected to it; an `OSError` where nobody listens."""
        if not self.path:
            made = socket.create_connection((self.host, self.port), timeout=30)
            made.setsockopt(socket.IPPROTO_TCP, socket.TCP_NODELAY, 1)
            made.settimeout(None)
            return made
        made = socket.socket(socket.AF_UNIX, socket.SOCK_STREAM)
        try:
            made.connect(self.path)
        except BaseException:
            made.close()
            raise
        return made


def address_of(word: str) -> Address:
    """The address that a word names; a `Misused` where it names none."""
    kind, _, rest = word.partition(":")
    if kind == "unix" and rest:
        return Address(path=rest)
    host, _, port = rest.rpartition(":")
    if kind == "tcp" and host and port.isdecimal() and int(port) < 1 << 16:
        return Address(host=host.strip("[]"), port=int(port))
    raise Misused(f"{word!r} is no address: unix:/run/app.sock and tcp:127.0.0.1:7117 are two")
