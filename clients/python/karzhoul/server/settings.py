"""What a server is told when it is started."""

from __future__ import annotations

from dataclasses import dataclass
from typing import TYPE_CHECKING, Optional, Sequence

from .address import Address

if TYPE_CHECKING:
    import ssl

LEAST_TOKEN = 32


@dataclass(frozen=True)
class Served:
    """What is served: the mapping, as JSON without a line feed, the language of queries, and the
    lines that each program is told of what will be looked up."""

    mapping: bytes
    language: str
    index_lines: Sequence[bytes] = ()


@dataclass(frozen=True)
class Settings:
    """The bounds of a server; times are in seconds."""

    idle: float = 600.0
    """How long a connection may be silent that has a manager open."""
    wait: float = 30.0
    """How long one waits for a manager, where 16 are open."""
    grace: float = 30.0
    """How long transactions may still take once the server is told to end."""
    most_connections: int = 1000
    """How many connections there may be at a time."""
    most_call: Optional[float] = None
    """How long a call may take before the program is ended; None: for ever."""
    token: Optional[bytes] = None
    """What a connection must show that didn't come by a socket of this machine's file system."""
    half_line: float = 60.0
    """How long a line may take to come whole, and how long one who doesn't read may take to."""
    coming_room: int = 64 << 20
    """How many bytes of long lines that haven't come whole are held in all."""
    unread_room: int = 256 << 20
    """How many bytes are held in all for those who don't read."""


@dataclass(frozen=True)
class Listening:
    """Where a server listens."""

    address: Address
    mode: int = 0o600
    """Who of this machine may connect, by the permissions of the socket's file."""
    tls: Optional[ssl.SSLContext] = None
    metrics: Optional[Address] = None
