"""Consoles for tests: one over a store of persons and orders, and what asks it over HTTP."""

from __future__ import annotations

import http.client
import json
import threading
from pathlib import Path
from typing import Any, Dict, Mapping, Optional, Tuple

import karzhoul
from karzhoul.console.actions import Actions
from karzhoul.console.serving import Console
from karzhoul.console.store import Store

from ..support import ORDERS, PROGRAM, FolderTest

SECONDS = 120
NASTY = "<script>document.title='taken'</script>"


def opened(db: Path, mapping: Any = ORDERS) -> karzhoul.EntityManagerFactory:
    """A store as the command opens it."""
    return karzhoul.open(mapping, db, program=PROGRAM, threads=True)


def fill(app: karzhoul.EntityManagerFactory) -> None:
    """Ada with the orders 1 to 7, of ten times as much each, and one with a name of HTML."""
    with app.begin() as manager:
        ada = app.new("Person", name="Ada")
        for number in range(1, 8):
            order = app.new("Order", number=number, amount=10 * number, person=ada)
            manager.persist(order)
        manager.persist(ada)
        manager.persist(app.new("Person", name=NASTY))


class ConsoleTest(FolderTest):
    """A test of a console that may change its store."""

    can_write = True
    seconds: Optional[float] = None

    def setUp(self) -> None:
        super().setUp()
        self.app = opened(self.place / "app.db")
        self.addCleanup(self.app.close)
        fill(self.app)
        self.store = Store(self.app, "app.db", self.can_write, self.seconds)
        self.console = Console(Actions(self.store))
        self.addCleanup(self.console.server_close)
        threading.Thread(target=self.console.serve_forever, daemon=True).start()
        self.addCleanup(self.console.shutdown)

    def http(
        self, method: str, path: str, body: Optional[bytes] = None,
        headers: Optional[Mapping[str, str]] = None,
    ) -> Tuple[int, bytes, Dict[str, str]]:
        """The status, the body and the headers of an answer."""
        host, port = self.console.hosts[0].split(":")
        connection = http.client.HTTPConnection(host, int(port), timeout=SECONDS)
        try:
            connection.request(method, path, body, dict(headers or {}))
            answer = connection.getresponse()
            return answer.status, answer.read(), dict(answer.getheaders())
        finally:
            connection.close()

    def ask(self, name: str, /, **said: Any) -> Any:
        """The answer to a question of the page."""
        headers = {"Content-Type": "application/json"}
        path = f"/{self.console.token}/{name}"
        status, body, _ = self.http("POST", path, json.dumps(said).encode(), headers)
        self.assertEqual(status, 200)
        return json.loads(body)

    def refused(self, name: str, /, **said: Any) -> Any:
        """Its refusal."""
        return self.ask(name, **said)["refused"]

    def amounts(self) -> Any:
        """What is stored of the orders, as another manager sees it."""
        with self.app.begin() as manager:
            return manager.query("SELECT o.amount FROM Order o ORDER BY o.number")


def named(entity: str, *key: int) -> Any:
    """An object by its key, as the page names it."""
    return {"entity": entity, "key": [["int", str(part)] for part in key]}
