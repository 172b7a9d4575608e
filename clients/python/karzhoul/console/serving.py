"""The HTTP server of a console: on loopback alone, for the one browser that has its token. Whoever
else asks gets a status and nothing more, so that a page of another site, another user of the
machine or a name that leads here learns nothing."""

from __future__ import annotations

import base64
import hashlib
import hmac
import json
import re
import secrets
import socket
import sys
import threading
from http import HTTPStatus
from http.server import BaseHTTPRequestHandler, ThreadingHTTPServer
from pathlib import Path
from typing import Any, Dict, List, Optional, Tuple

from .actions import Actions

HOST = "127.0.0.1"
MOST_BYTES = 1 << 20
"""A question has at most so many bytes, as a line of the program has."""
MOST_CONNECTIONS = 64
SECONDS = 30
"""For so long a connection may be silent."""
_PAGE = Path(__file__).with_name("page.html")
_ALWAYS = {
    "Cache-Control": "no-store", "Cross-Origin-Opener-Policy": "same-origin",
    "Cross-Origin-Resource-Policy": "same-origin", "Referrer-Policy": "no-referrer",
    "X-Content-Type-Options": "nosniff", "X-Frame-Options": "DENY",
}


class Console(ThreadingHTTPServer):
    """The server of one console, with a token at random, without which nobody is answered."""

    daemon_threads = True
    request_queue_size = MOST_CONNECTIONS

    def __init__(self, actions: Actions, port: int = 0) -> None:
        """At a port, or at a free one."""
        self.actions, self.token = actions, secrets.token_urlsafe(32)
        self.page = _PAGE.read_bytes()
        self.policy = _policy(self.page.decode())
        self._places = threading.BoundedSemaphore(MOST_CONNECTIONS)
        super().__init__((HOST, port), Handler)
        port = self.server_address[1]
        self.hosts = (f"{HOST}:{port}", f"localhost:{port}")

    @property
    def url(self) -> str:
        """Where the page is."""
        return f"http://{self.hosts[0]}/{self.token}/"

    def process_request(self, request: Any, client_address: Any) -> None:
        """In a thread of its own, of which there are so many at a time."""
        if not self._places.acquire(blocking=False):
            self.shutdown_request(request)
            return
        try:
            super().process_request(request, client_address)
        except BaseException:
            self._places.release()
            raise

    def process_request_thread(self, request: Any, client_address: Any) -> None:
        try:
            super().process_request_thread(request, client_address)
        finally:
            self._places.release()

    def handle_error(self, request: Any, client_address: Any) -> None:
        """A connection that breaks is no news; a fault of the console's own is."""
        fault = sys.exc_info()[1]
        if not isinstance(fault, (OSError, socket.timeout)):
            print(f"karzhoul console: {type(fault).__name__}: {fault}", file=sys.stderr)


class Handler(BaseHTTPRequestHandler):
    """One connection."""

    protocol_version = "HTTP/1.1"
    timeout = SECONDS
    # An answer goes in one piece: else its end would wait until its beginning is acknowledged.
    wbufsize, disable_nagle_algorithm = -1, True
    server: Console

    def do_GET(self) -> None:
        """The page."""
        if not self._is_let_in():
            self._refuse(HTTPStatus.FORBIDDEN)
        elif self._path() != "":
            self._refuse(HTTPStatus.NOT_FOUND)
        else:
            policy = {"Content-Security-Policy": self.server.policy}
            self._send(self.server.page, "text/html; charset=utf-8", policy)

    def do_POST(self) -> None:
        """A question of the page."""
        if not self._is_let_in() or self.headers.get("Sec-Fetch-Site") == "cross-site":
            self._refuse(HTTPStatus.FORBIDDEN)
            return
        if self.headers.get_content_type() != "application/json":
            self._refuse(HTTPStatus.UNSUPPORTED_MEDIA_TYPE)
            return
        size, refused = self._size()
        if refused is not None:
            self._refuse(refused)
            return
        body = self.rfile.read(size)
        if len(body) < size:
            self.close_connection = True
            return
        try:
            said = json.loads(body)
        except (ValueError, RecursionError):
            self._refuse(HTTPStatus.BAD_REQUEST)
            return
        told = self.server.actions.answer(self._path(), said)
        self._send(json.dumps(told).encode(), "application/json", {})

    def _size(self) -> Tuple[int, Optional[HTTPStatus]]:
        """How many bytes the question has, or why it isn't read."""
        told = self._told("Content-Length")
        if "Transfer-Encoding" in self.headers or len(told) != 1:
            return 0, HTTPStatus.LENGTH_REQUIRED
        if not re.fullmatch("[0-9]{1,18}", told[0]):
            return 0, HTTPStatus.BAD_REQUEST
        size = int(told[0])
        return size, HTTPStatus.REQUEST_ENTITY_TOO_LARGE if size > MOST_BYTES else None

    def _is_let_in(self) -> bool:
        """Whether who asks has the token, came by this address, and is no other site's page."""
        hosts, origins = self._told("Host"), self._told("Origin")
        token = self.path[1:].partition("/")[0].encode("latin-1", "replace")
        return (
            hmac.compare_digest(token, self.server.token.encode())
            and len(hosts) == 1 and hosts[0] in self.server.hosts
            and all(origin == f"http://{hosts[0]}" for origin in origins)
        )

    def _told(self, name: str) -> List[str]:
        """What headers of a name say."""
        return [str(value) for value in self.headers.get_all(name, [])]

    def _path(self) -> str:
        """What is asked behind the token."""
        return self.path[1:].partition("/")[2]

    def _send(self, body: bytes, kind: str, more: Dict[str, str]) -> None:
        self.send_response_only(HTTPStatus.OK)
        for name, value in {**_ALWAYS, **more, "Content-Type": kind}.items():
            self.send_header(name, value)
        self.send_header("Content-Length", str(len(body)))
        self.end_headers()
        self.wfile.write(body)

    def _refuse(self, status: int) -> None:
        """A status alone, which ends the connection, as its question may not have been read."""
        self.close_connection = True
        self.send_response_only(status, "")
        self.send_header("Content-Length", "0")
        self.send_header("Connection", "close")
        self.end_headers()

    def send_error(
        self, code: int, message: Optional[str] = None, explain: Optional[str] = None
    ) -> None:
        """What is no request of HTTP, or of another method."""
        self.request_version = self.request_version or self.protocol_version
        self._refuse(HTTPStatus.FORBIDDEN)

    def log_message(self, format: str, *args: Any) -> None:
        """Nothing is told, since a path has the token."""


def _policy(page: str) -> str:
    """The policy of the page's content: its own style and script alone, by their digests."""
    digests = {}
    for name in ("style", "script"):
        found = re.search(f"<{name}>(.*?)</{name}>", page, re.DOTALL)
        assert found is not None
        digest = base64.b64encode(hashlib.sha256(found[1].encode()).digest()).decode()
        digests[name] = f"{name}-src 'sha256-{digest}'"
    return "; ".join([
        "default-src 'none'", digests["style"], digests["script"], "connect-src 'self'",
        "img-src data:", "base-uri 'none'", "form-action 'none'", "frame-ancestors 'none'",
    ])
